#!/usr/bin/env bash
# The library as firmware links it, on each processor that tools/build knows. On this machine's own: include/muktrashi.h as C++ and C11; the comparison
# with the two references of tests/board/reference/; and three C programs with the address and undefined-behaviour sanitizers: tests/board/header.c,
# examples/board.c, and tests/board/processors/replay.c, which makes some of the comparison's calls again. The three also run on emulators of the
# other processors. A part that cannot run is named, and not counted.
set -u
cd "$(dirname "$0")/.." || exit 2
work=$(mktemp -d) || exit 2
trap 'rm -rf "$work"' EXIT
failures=0 parts=0 ran=0

say() {
    printf 'board.sh: %s\n' "$*" >&2
}

fail() {
    say "$*"
    failures=$((failures + 1))
}

. tests/board/processors/processors.sh

command -v rt >/dev/null 2>&1 || {
    say "the command 'rt' of the Rattle kit is not on the PATH; install the kit that .ci/kit names, then run this again"
    exit 1
}

there_is_cpp() {
    command -v g++ >/dev/null 2>&1
}

# header_as STANDARD WORD..: whether the header passes, every warning an error.
header_as() {
    local standard=$1
    shift
    g++ -x "${standard%11}" -std="$standard" -pedantic -Wall -Wextra -Werror "$@" -fsyntax-only include/muktrashi.h
}

# A rustc that has its standard library; its path is in `rust`.
there_is_rust() {
    while IFS= read -r rust; do
        printf 'fn main() {}\n' | "$rust" - -o "$work/nothing" >/dev/null 2>&1 && return 0
    done < <(type -ap rustc)
    return 1
}

# Whether the address sanitizer works here: a good program ends well, one that reads past a row does not and is told of.
sanitizer_tells() {
    printf 'int main(int n, char **words) { volatile char row[4] = {0}; (void)words; return row[n - 1]; }\n' >"$work/row.c"
    builds "$work/row.c" "$work/row" -fsanitize=address >/dev/null 2>&1 && runs "$work/row" >/dev/null 2>&1 || return 1
    runs "$work/row" 1 2 3 4 2>&1 | grep -q 'stack-buffer-overflow'
}

# writes PROCESSOR SOURCE OUTPUT WORD..: a C program over the library writes what the file OUTPUT has.
writes() {
    local processor=$1 source=$2 output=$3 difference
    shift 3
    ran=$((ran + 1))
    builds "$source" "$work/program" "${library[@]}" "$@" || {
        fail "$source is not compiled for $processor"
        return
    }
    runs "$work/program" >"$work/writes" || fail "$source ended with status $? on $processor"
    difference=$(diff "$work/writes" "$output") || fail "$source on $processor: what it writes (<) and $output (>) differ:
$difference"
}

# programs PROCESSOR WORD..: the three of them.
programs() {
    local processor=$1
    shift
    writes "$processor" tests/board/header.c /dev/null "$@"
    writes "$processor" examples/board.c examples/board.out "$@"
    if [ -s "$work/replayed" ]; then
        writes "$processor" tests/board/processors/replay.c "$work/replayed" "$@"
    else
        say "warning: NOT RUN: tests/board/processors/replay.c on $processor; there are no calls of the comparison"
    fi
}

tools/build "$machine" || {
    fail "the library cannot be built ('tools/build $machine')"
    exit 1
}

parts=$((parts + 1))
if needs there_is_cpp "include/muktrashi.h as C++ and C11" g++; then
    ran=$((ran + 1))
    for language in c++11 c11; do
        header_as "$language" || fail "include/muktrashi.h is not $language"
        header_as "$language" -fpack-struct 2>/dev/null && fail "include/muktrashi.h as $language takes a record of another layout"
    done
fi

parts=$((parts + 1))
if needs there_is_rust "the comparison with the references" rustc; then
    ran=$((ran + 1))
    if "$rust" --edition 2021 -O -D warnings -L "target/board/$machine" -l static=muktrashi tests/board/reference/main.rs -o "$work/compare"; then
        "$work/compare" "$work/calls" >"$work/compared" || fail "the library and the references differ"
        sed -n 's/ written$/ as the references have them/p' "$work/compared" >"$work/replayed"
        cat "$work/compared"
    else
        fail "tests/board/reference is not compiled"
    fi
fi

for processor in "$machine" "$other" "${boards[@]}" wasm32; do
    parts=$((parts + 3))
    for_processor "$processor"
    needs there_is_c "tests/board/header.c, examples/board.c and tests/board/processors/replay.c on $processor" "${packages[@]}" || continue
    tools/build "$processor" || {
        fail "the library cannot be built for $processor ('tools/build $processor')"
        continue
    }
    checked=()
    if [ "$processor" = "$machine" ]; then
        sanitizers=address,undefined
        sanitizer_tells || {
            sanitizers=undefined
            say "warning: no program runs with the address sanitizer here, so the C programs run without it"
        }
        checked=(-g "-fsanitize=$sanitizers" -fno-sanitize-recover=all)
    fi
    programs "$processor" "${checked[@]}"
done

[ "$failures" -eq 0 ] && printf 'board.sh: %s of %s parts ran, none failed\n' "$ran" "$parts"
exit "$((failures > 0))"
