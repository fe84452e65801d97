#!/usr/bin/env bash
# The scripts of tools/: a line made from the numbers of a line is that line; a table in words has the need, or the refusal, that the program
# answers; errors are said in words, on standard error.
set -u
cd "$(dirname "$0")/.." || exit 2
work=$(mktemp -d) || exit 2
trap 'rm -rf "$work"' EXIT
failures=0

fail() {
    printf 'tools.sh: %s\n' "$*" >&2
    failures=$((failures + 1))
}

# expect STATUS TEXT COMMAND..: the command ends so and writes TEXT, with status 0 on standard output and nothing else on standard error, otherwise on
# standard error.
expect() {
    wanted=$1 text=$2
    shift 2
    writes=$("$@" 2>"$work/said")
    status=$?
    said=$(cat "$work/said")
    [ "$status" -eq "$wanted" ] || fail "$* ended with status $status, not $wanted"
    if [ "$wanted" -eq 0 ]; then
        [ -z "$said" ] || fail "$* says '$said'"
        grep -qF -- "$text" <<<"$writes" || fail "$* writes '$writes', not '$text'"
    else
        grep -qF -- "$text" <<<"$said" || fail "$* says '$said', not '$text'"
    fi
}

# The need or the refusal, as the program answers it.
captures=(examples/*.in tests/cases-rules/*.in) good=()
for capture in "${captures[@]}"; do
    read -r answer <"${capture%.in}.out"
    case $answer in
    EE04*) expect 0 "(it writes $answer)" tools/table "$capture" ;;
    EE*) expect 1 "(the program writes $answer)" tools/table "$capture" ;;
    *)
        expect 0 "need: $((16#$answer)) words of store" tools/table "$capture"
        good+=("$capture")
        ;;
    esac
done

# Lines read back: the digits of each rule line and list line of the good captures, and of each frame of one, as numbers, give the same line. Of the longest
# table, whose lanes are alike, the last lane and the list will do. `uses` says where in a line the numbers stand that a kind uses: first digit and count.
uses=('' '2:2' '2:2' '2:2 4:2' '2:2 4:2' '2:2 6:8 14:8' '2:2 4:2 6:8 14:8' '2:2 6:8 14:8' '2:2 6:8 14:8')
lines=$(
    awk 'FNR == 1 { rules = 1 } /^$/ { rules = 0 } rules && (FILENAME !~ /both-ends/ || FNR > 135)' "${good[@]}" | sort -u
    sed '1,/^$/d' examples/false-start.in
)
for line in $lines; do
    if [ "${line:0:2}" = AA ]; then
        mapfile -t numbers < <(fold -w 2 <<<"${line:2:-2}" | sed 's/^/0x/')
        again=$(tools/line list "${numbers[@]}")
    elif [ ${#line} -eq 24 ]; then
        kind=$((16#${line:0:2})) numbers=()
        for place in ${uses[kind]}; do numbers+=("0x${line:${place%:*}:${place#*:}}"); done
        again=$(tools/line rule "$kind" "${numbers[@]}")
    else
        again=$(tools/line frame $((16#${line:0:4})) "0x${line:4:8}")
    fi
    [ "$again" = "$line" ] || fail "$line is written again as $again"
done

# A rule by the name of its kind, with the numbers that the kind uses.
expect 0 000000000000000000000000 tools/line rule true
expect 0 011E0000000000000000001F tools/line rule bit 30
expect 0 02FE00000000000000000000 tools/line rule not 254
expect 0 030102000000000000000006 tools/line rule and 1 2
expect 0 040201000000000000000007 tools/line rule or 2 1
expect 0 05030000000064000000C834 tools/line rule previous 3 100 200
expect 0 060100000003E8FFFFFFFFEE tools/line rule since 1 0 1000 no-end
expect 0 07000000000001000000141C tools/line rule once 0 1 20
expect 0 08000005265C0005265C0016 tools/line rule always 0 86400000 86400000
expect 0 08000000000000FFFFFFFF04 tools/line rule always 0 0 no-end
expect 0 03E8800000006B tools/line frame 0x3E8 0x80000000

# A list of rows; the sum goes round.
expect 0 AA00AA tools/line list 0
expect 0 AA04090EC5 tools/line list 4 9 0xE
expect 0 AAF0F1F2F3F4F5F6F7F8F9FAFBFCFDFEFF22 tools/line list {240..255}

# line_refuses TEXT WORDS..: tools/line says TEXT of the words, and writes no line.
line_refuses() {
    text=$1
    shift
    expect 2 "$text" tools/line "$@"
    [ -z "$writes" ] || fail "tools/line $* writes '$writes'"
}

# rule_refuses USAGE ERROR WORDS..: tools/line says these of the words of a rule, and nothing else, and writes no line.
rule_refuses() {
    usage=$1 error=$2
    shift 2
    line_refuses "" rule "$@"
    [ "$said" = "usage: line rule $usage"$'\n'"line rule: error: $error" ] || fail "tools/line rule $* says '$said'"
}

rule_refuses 'bit X' 'missing: x' bit
rule_refuses 'and X Y' 'missing: y' and 0
rule_refuses 'previous X A B' 'missing: x, a, b' previous
rule_refuses 'since X Y A B' 'missing: b' since 1 0 0
rule_refuses 'once X A B' 'missing: b' once 0 20
rule_refuses 'always X A B' 'missing: a, b' 8 0
rule_refuses 'true' 'surplus: 0' true 0
rule_refuses 'not X' 'surplus: 0, 7' not 0 0 7
rule_refuses 'or X Y' 'surplus: 2' 4 0 1 2
rule_refuses 'once X A B' 'surplus: 20' once 0 0 1 20
rule_refuses 'bit X' "x is bit 31, the heartbeat's; bits are 0 to 30" bit 31
rule_refuses 'bit X' 'x is bit 32; bits are 0 to 30' bit 32
rule_refuses 'bit X' 'x is bit -1; bits are 0 to 30' bit -1
rule_refuses 'bit X' 'x is bit 256; bits are 0 to 30' bit 256
rule_refuses 'not X' 'x names row 255; it may be a lower row, 0 to 254' not 255
rule_refuses 'and X Y' 'y names row 255; it may be a lower row, 0 to 254' and 254 255
rule_refuses 'since X Y A B' 'y names row -1; it may be a lower row, 0 to 254' since 0 -1 0 0
rule_refuses 'always X A B' 'x names row 256; it may be a lower row, 0 to 254' always 256 0 0
rule_refuses 'once X A B' 'a is 86400001; it may be 0 to 86400000' once 0 86400001 no-end
rule_refuses 'once X A B' 'a is -1; it may be 0 to 86400000' once 0 -1 0
rule_refuses 'once X A B' 'b is 4; it may be a, which is 5, to 86400000, or no end' once 0 5 4
rule_refuses 'always X A B' 'b is 86400001; it may be a, which is 0, to 86400000, or no end' always 0 0 86400001
rule_refuses 'always X A B' 'b is -1; it may be a, which is 0, to 86400000, or no end' always 0 0 -1
rule_refuses 'previous X A B' "a: 'no-end' is no number; write it in decimal, or in hexadecimal after 0x" previous 0 no-end 5
line_refuses "line list: error: row 4 is listed after row 9; a list rises" list 1 9 4
line_refuses "line list: error: row 9 is listed after row 9; a list rises" list 9 9
line_refuses "line list: error: row 256 is listed; rows are 0 to 255" list 0 256
line_refuses "line list: error: row -1 is listed; rows are 0 to 255" list -1 0
line_refuses "line list: error: a list has 1 to 16 rows, and here are 17" list {0..16}
line_refuses "line list: error: the following arguments are required: ROW" list
line_refuses "'ten' is no number" list ten
line_refuses "there is no kind 9; kinds are 0 to 8" rule 9 0 0 0
line_refuses "there is no kind -1; kinds are 0 to 8" rule -1
line_refuses "there is no kind 'until'; kinds are true, bit, not, and, or, previous, since, once, always, or their numbers" rule until 0 0 0
line_refuses "required: KIND" rule
line_refuses "counter: 70000 is outside 0 to 65535; modulo 65536 it is 4464" frame 70000 0
line_refuses "counter: -1 is outside 0 to 65535" frame -1 0
line_refuses "mask: -1 is outside 0 to 4294967295" frame 0 -1
line_refuses "'ten' is no number" frame ten 0
for form in '' rule; do
    expect 0 "usage: line" tools/line $form --help
    for kind in '0  true' '1  bit X' '2  not X' '3  and X Y' '4  or X Y' '5  previous X A B' '6  since X Y A B' '7  once X A B' '8  always X A B'; do
        grep -q "^  $kind  " <<<"$writes" || fail "tools/line $form --help does not tell of '$kind'"
    done
done
expect 0 "usage: line list" tools/line list --help
expect 0 "usage: table" tools/table --help
expect 0 "usage: tools/footprint" tools/footprint --help
expect 2 "there is no target 'cortex-m9'" tools/footprint cortex-m9
expect 0 "usage: tools/event" tools/event --help
for event in few most first drop none update; do
    grep -q " $event: " <<<"$writes" || fail "tools/event --help does not tell of '$event'"
done
expect 2 "there is no option '-x'" tools/event -x
expect 2 "there is no archive 'no-such.a'" tools/event no-such.a
expect 2 "no-such cannot be read: No such file or directory" tools/table no-such

# table_says STATUS TEXT LINE..: what tools/table says of these rule lines.
table_says() {
    wanted=$1 text=$2
    shift 2
    expect "$wanted" "$text" tools/table <(printf '%s\n' "$@")
}

# rows: the line of each five numbers on standard input; it makes lines that tools/line refuses, too.
rows() {
    python3 -B -c 'import sys; sys.path.append("tools"); import board_lines as b; [print(b.rule_line(map(int, row.split()))) for row in sys.stdin]'
}

# row KIND X Y A B: its line.
row() { rows <<<"$*"; }

# Rows with the listed rows from which they are reached, their spans, words and meanings; rows 4 to 18 are listed, in this order the bits of the verdict.
no_end=4294967295 printed=()
while read -r kind x y a b from spans words meaning; do
    bit=- row=${#printed[@]}
    [ "$row" -lt 4 ] || bit="bit $((row - 4))"
    printed+=("$(printf '%3d  %5s  %5s  %7s  %-5s  %s' "$row" "$spans" "$words" "$bit" "${from//,/ }" "$meaning")")
    printf '%s\n' "$kind $x $y $a $b"
done <<END >"$work/numbers"
0 0 0 0 0           4,7,8   -   - true at every event
1 30 0 0 0          all     -   - bit 30 of the mask is set
2 1 0 0 0           4       -   - row 1 is false
3 2 1 0 0           4       -   - rows 2 and 1 are both true
4 3 0 0 0           4       -   - row 3 or row 0 is true
5 1 0 0 20          5       -   - row 1 was true at the event before, at most 20 ms ago
5 1 0 0 $no_end     6       -   - row 1 was true at the event before, at any time
6 1 0 100 200       7       2   4 row 0 was true 100 to 200 ms ago, and row 1 at every event since
6 1 0 0 $no_end     8       1   2 row 0 was true at some time, and row 1 at every event since
7 1 0 600 600       9     301 602 row 1 was true exactly 600 ms ago
7 1 0 100 200       10      2   4 row 1 was true 100 to 200 ms ago
7 1 0 0 20          11      1   2 row 1 was true at most 20 ms ago
7 1 0 1000 $no_end  12      1   2 row 1 was true 1000 ms ago or longer
7 1 0 0 $no_end     13      1   2 row 1 was true at some time
8 1 0 600 600       14    301 602 row 1 was true at every event exactly 600 ms ago
8 1 0 100 200       15      2   4 row 1 was true at every event 100 to 200 ms ago
8 1 0 0 20          16      1   2 row 1 was true at every event at most 20 ms ago
8 1 0 1000 $no_end  17      1   2 row 1 was true at every event 1000 ms ago or longer
8 1 0 0 $no_end     18      1   2 row 1 was true at every event so far
END
rows <"$work/numbers" >"$work/table"
tools/line list {4..18} >>"$work/table"
expect 0 "need: 1230 words of store" tools/table "$work/table"
difference=$(diff <(sed -n '2,/^need:/p' <<<"$writes" | sed '$d') <(printf '%s\n' "${printed[@]}")) || fail "tools/table writes (<), not (>):
$difference"

true=$(row 0 0 0 0 0) bit=$(row 1 0 0 0 0)

# table_writes TEXT LINE..: tools/table says TEXT of these rule lines, at the end or before it, and nothing else.
table_writes() {
    text=$1
    shift
    writes=$(tools/table <(printf '%s\n' "$@") 2>&1)
    [ "$writes" = "$text" ] || fail "tools/table writes '$writes', not '$text'"
}

# Dead rows, each with the rows that name it, and the lowest refused; the other rows with the listed rows that reach them.
not_0=$(row 2 0 0 0 0)
table_writes 'row  spans  words  verdict  from  meaning
  0      -      -        -  2     bit 0 of the mask is set
  1      -      -        -  none  bit 0 of the mask is set
  2      -      -    bit 0  2     row 0 is false
note: row 1 is dead: no row names it, and it is not the last
table: row 1: refused 11: the last row does not reach it, and there is no list (the program writes EE0B01)' "$bit" "$bit" "$not_0" ''
table_writes 'row  spans  words  verdict  from  meaning
  0      -      -    bit 0  all   bit 0 of the mask is set
  1      -      -        -  none  true at every event
  2      -      -        -  none  row 1 is false
  3      1      2        -  none  row 1 was true exactly 0 ms ago, and row 2 at every event since
  4      1      2        -  none  row 1 was true at most 20 ms ago
  5      -      -    bit 1  5     row 0 is false
note: row 1 is dead: only rows 2, 3 and 4 name it, which are dead too
note: row 2 is dead: only row 3 names it, which is dead too
note: row 3 is dead: no row names it, and it is not listed
note: row 4 is dead: no row names it, and it is not listed
table: row 1: refused 11: no listed row reaches it (the program writes EE0B01)' \
    "$bit" "$true" "$(row 2 1 0 0 0)" "$(row 6 2 1 0 0)" "$(row 7 1 0 0 20)" "$not_0" "$(tools/line list 0 5)" ''
table_says 1 "(the program writes EE0800, and EE0B00 once an empty line ends the rules)" "$bit" "$true"
# y of kinds that do not use it is 0, and names none; nor does the x of a bit.
for kind in 2 5 7 8; do
    table_says 1 "row 0: refused 11" "$bit" "$bit" "$(row $kind 1 0 0 0)" ''
    [ "$(grep -c 'is dead' <<<"$writes")" -eq 1 ] || fail "of kind $kind over row 1 tools/table writes '$writes'"
done
table_says 1 "row 0: refused 11" "$bit" "$bit" ''
# 2, 3 and 10 come before, 4 after; before the first three nothing is said of dead rows.
table_says 1 "row 0: refused 11" "$bit" "$true" "$(row 6 1 1 8192 8192)" ''
for bad in "$(row 2 2 0 0 0)" "$(row 7 1 0 3 2)"; do
    table_says 1 "(the program writes EE0" "$bit" "$true" "$bad" ''
    grep -qE '11|dead|from' <<<"$said$writes" && fail "of a row that is refused tools/table writes '$writes' and says '$said'"
done
table_says 1 "the list: refused 10" "$bit" "$true" AA0100AB ''
grep -qE 'dead|from' <<<"$writes" && fail "of a list that is refused tools/table writes '$writes'"

# Listed rows, each with its bit; what a list refuses, after the rows.
two=("$bit" "$(row 1 1 0 0 0)" "$(row 4 0 1 0 0)" "$(row 3 0 1 0 0)")
table_says 0 "  2      -      -    bit 0  2     row 0 or row 1 is true" "${two[@]}" AA0203AF ''
grep -qF "  3      -      -    bit 1  3     rows 0 and 1 are both true" <<<"$writes" || fail "of two listed rows tools/table writes '$writes'"
table_says 0 "  2      -      -    bit 0  row 0 or row 1 is true" "${two[@]::3}" ''
grep -q 'from' <<<"$writes" && fail "of a single verdict, and no dead row, tools/table writes '$writes'"
table_says 1 "row 2: refused 11: the last row does not reach it, and there is no list (the program writes EE0B02)" "${two[@]}" ''
table_says 1 "row 3: refused 11: no listed row reaches it (the program writes EE0B03)" "${two[@]}" AA02AC ''
table_says 0 "note: no empty line ends the rules; the program refuses that by 8 (it writes EE0800)" "${two[@]}" AA0203AF
table_says 1 "the list: refused 10: row 2 is listed after row 3; a list rises (the program writes EE0A00)" "${two[@]}" AA0302AF ''
grep -qF 'bit 0  row' <<<"$writes" && fail "of a list that is refused tools/table writes '$writes'"
table_says 1 "the list: refused 10: row 2 is listed after row 2; a list rises (the program writes EE0A00)" "${two[@]}" AA0202AE ''
table_says 1 "the list: refused 10: row 4 is listed; rows are 0 to 3 (the program writes EE0A00)" "${two[@]}" AA0204B0 ''
table_says 1 "(the program writes EE0800, and EE0A00 once an empty line ends the rules)" "${two[@]}" AA0204B0
table_says 1 "row 1: refused 2: x names row 1; it may be a lower row, 0 to 0 (the program writes EE0201)" "$bit" "$(row 2 1 0 0 0)" AA09B3 ''
table_says 1 "the list: refused 10" "$bit" "$(row 7 0 0 8192 8192)" AA0100AB ''
table_says 1 "line 5: refused 10: the sum is AF, and the line says B0 (the program writes EE0A00)" "${two[@]}" AA0203B0 ''
form="a list is AA, 1 to 16 row numbers and the sum, two digits 0-9 A-F each, and a line feed"
for bad in AAAA AA AA0203A AA0203aF "AA$(printf '%02X' {0..16})32"; do
    table_says 1 "line 5: refused 10: $form (the program writes EE0A00)" "${two[@]}" "$bad" ''
done
table_says 1 "$form; it ends in CR LF, not in a line feed alone (the program writes EE0A00)" "${two[@]}" AA0203AF$'\r' ''
for more in AA0203AF "$bit" 0; do
    table_says 1 "line 6: refused 10: only the empty line may follow the list (the program writes EE0A00)" "${two[@]}" AA0203AF "$more" ''
done
table_says 1 "the table: refused 1: it has no row (the program writes EE0100)" AA00AA ''
table_says 1 "the table: refused 8: the text ends before an empty line (the program writes EE0800)" AA00AA
expect 1 "line 2: refused 10: $form" tools/table <(printf '%s\nAA00AA' "$bit")
expect 1 "line 2: refused 8: not 24 digits" tools/table <(printf '%s\nA' "$bit")

table_says 0 "note: no empty line ends the rules; the program refuses that by 8 (it writes EE0800)" "$true"
table_says 0 "(it writes EE0400 once an empty line ends the rules)" "$true" "$(row 6 0 0 8192 8192)"
table_says 1 "(the program writes EE0800, and EE0200 once an empty line ends the rules)" "$(row 9 0 0 0 0)"
table_says 1 "(the program writes EE0200)" "$(row 9 0 0 0 0)" ''
table_says 1 "there is no kind 9; kinds are 0 to 8" "$(row 9 0 0 0 0)"
table_says 1 "row 0: refused 2: x is bit 31, the heartbeat's; bits are 0 to 30 (the program writes EE0200)" "$(row 1 31 0 0 0)" ''
table_says 1 "x is bit 32; bits are 0 to 30" "$(row 1 32 0 0 0)"
table_says 1 "row 1: refused 2: x names row 1; it may be a lower row, 0 to 0" "$bit" "$(row 7 1 0 0 0)"
table_says 1 "row 0: refused 2: x names row 0; there is no lower row" "$(row 8 0 0 0 0)"
table_says 1 "'bit' does not use y, so it must be 0, and it is 1" "$(row 1 0 1 0 0)"
table_says 1 "'once' does not use y, so it must be 0, and it is 1" "$bit" "$(row 7 0 1 0 0)"
table_says 1 "'always' does not use y, so it must be 0, and it is 1" "$bit" "$(row 8 0 1 0 0)"
table_says 1 "'true' does not use a and b, so they must be 0" "$(row 0 0 0 0 1)"
table_says 1 "row 1: refused 3: a is 86400001; it may be 0 to 86400000" "$true" "$(row 5 0 0 86400001 $no_end)"
table_says 1 "row 1: refused 3: b is 86400001; it may be a, which is 0, to 86400000, or no end" "$true" "$(row 7 0 0 0 86400001)"
table_says 1 "row 1: refused 3: b is 2; it may be a, which is 3, to 86400000, or no end" "$true" "$(row 8 0 0 3 2)"
mapfile -t full < <(for _ in {1..257}; do printf '%s\n' "$true"; done)
table_says 1 "line 257: refused 1" "${full[@]}"
table_says 1 "row 1: refused 11: no listed row reaches it (the program writes EE0B01)" "${full[@]:1}" AA00AA ''
table_says 1 "row 0: refused 11: the last row does not reach it, and there is no list (the program writes EE0B00)" "${full[@]:1}" ''
[ "$(grep -c 'is dead: no row names it, and it is not the last' <<<"$writes")" -eq 255 ] || fail "of 255 dead rows tools/table writes '$writes'"
mapfile -t chained < <(for x in {0..254}; do printf '2 %s 0 0 0\n' "$x"; done | rows)
table_says 0 "255      -      -    bit 0  row 254 is false" "$true" "${chained[@]}" ''
table_says 1 "line 1: refused 8: not 24 digits 0-9 A-F and a line feed (the program writes EE0800)" 00000000000000000000000a
table_says 1 "it ends in CR LF, not in a line feed alone (the program writes EE0801)" "$true" "$true"$'\r'

# What cannot be read or written, and a reader that has gone. python is the interpreter itself, which needs nothing on the PATH.
python=$(python3 -c 'import sys; print(sys.executable)')
closed() { "$@" <&-; }
expect 2 "standard input cannot be read: it is closed" closed tools/table
expect 1 "the command 'rt' of the Rattle kit is not on the PATH" env PATH=/no-such "$python" tools/cost --check
(sleep 0.5 && exec tools/table examples/false-start.in) 2>"$work/said" | true
[ ! -s "$work/said" ] || fail "tools/table, its reader gone, says '$(cat "$work/said")'"
full() { "$@" >/dev/full; }
if [ -c /dev/full ]; then
    expect 2 "the answer cannot be written: No space left on device" full tools/table examples/false-start.in
else
    printf 'tools.sh: warning: NOT RUN: an answer that cannot be written; there is no /dev/full\n' >&2
fi

[ "$failures" -eq 0 ] && printf 'tools.sh: %s lines and %s tables as they should be\n' "$(wc -w <<<"$lines")" "${#captures[@]}"
exit "$((failures > 0))"
