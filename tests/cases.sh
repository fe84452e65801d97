#!/usr/bin/env bash
# The text program on every case of tests/cases/ and tests/cases-numbers/, on every row of tests/cases-numbers/rows.txt, and on a text of short lines
# that is longer than a piece: whole, cut into pieces, and line by line. The program is built first, where it is not as its sources are.
set -u
cd "$(dirname "$0")/.." || exit 2

command -v python3 >/dev/null 2>&1 || {
    printf 'cases.sh: python3, which feeds the program in pieces, is not on the PATH\n' >&2
    exit 2
}
tools/build program || {
    printf 'cases.sh: the program cannot be built\n' >&2
    exit 1
}
work=$(mktemp -d) || exit 2
trap 'rm -rf "$work"' EXIT

# One rule, the empty line and 5,000 line feeds: as many replies as bytes, for more bytes than the program reads at once.
{
    printf '000000000000000000000000\n\n'
    yes '' | head -n 5000
} >"$work/line-feeds.in"
{
    printf '00000000\n'
    yes EE0800 | head -n 5000
} >"$work/line-feeds.out"

# Each row as the last of its table, with a list of all rows and without one; the sum of a rule line is that of its eleven bytes.
while read -r kind x y a b listed alone; do
    row="$work/row-$kind-$x-$y-$a-$b" sum=0
    line=$(printf '%02X%02X%02X%08X%08X' "$kind" "$x" "$y" "$a" "$b")
    for ((at = 0; at < 22; at += 2)); do sum=$((sum + 16#${line:at:2})); done
    table=$(printf '000000000000000000000000\n011E0000000000000000001F\n%s%02X' "$line" $((sum % 256)))
    printf '%s\nAA000102AD\n\n' "$table" >"$row-listed.in"
    printf '%s\n' "$listed" >"$row-listed.out"
    printf '%s\n\n' "$table" >"$row-alone.in"
    printf '%s\n' "$alone" >"$row-alone.out"
done < <(grep '^[0-9]' tests/cases-numbers/rows.txt)

failures=0
for folder in tests/cases tests/cases-numbers "$work"; do
    python3 tests/helpers/cases.py "$folder" target/native/muktrashi || failures=1
done
exit "$failures"
