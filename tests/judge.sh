#!/usr/bin/env bash
# ./judge says in words what is wrong: no kit, a build that fails, a file that cannot be read, an answer that cannot be written. It builds once, also where
# two ask at once, in silence unless that takes long, and answers a live input line by line. The kit here is a stand-in. The program that it
# builds writes what it reads and, as the real one, ends in silence where it cannot write.
set -u
cd "$(dirname "$0")/.." || exit 2
work=$(mktemp -d) || exit 2
trap 'rm -rf "$work"' EXIT
failures=0

fail() {
    printf 'judge.sh: %s\n' "$*" >&2
    failures=$((failures + 1))
}

# script FILE LINE..
script() {
    printf '%s\n' '#!/bin/sh' "${@:2}" >"$1"
    chmod +x "$1"
}

# fresh COMMANDS: a repository with nothing built, and a kit whose `rt` runs COMMANDS.
fresh() {
    rm -rf "$work/repo" "$work/kit"
    mkdir -p "$work/repo/crates/muktrashi/src" "$work/repo/tools" "$work/repo/.ci" "$work/kit/bin" "$work/kit/toolchain/bin"
    cp judge "$work/repo/"
    cp tools/build "$work/repo/tools/"
    printf 'the kit\n' >"$work/repo/.ci/kit"
    printf 'muktrashi:\n' >"$work/repo/crates.txt"
    : >"$work/kit/KIT-ID"
    script "$work/kit/bin/rt" "$1"
    for tool in clang llvm-ar; do script "$work/kit/toolchain/bin/$tool" 'exit 0'; done
}

# expect STATUS OUTPUT MESSAGE COMMAND..: what the command writes, and what it says on standard error (nothing where MESSAGE is empty).
expect() {
    wanted=$1 output=$2 message=$3
    shift 3
    writes=$(PATH="$work/kit/bin:$PATH" "$@" 2>"$work/said" <"$work/capture")
    status=$?
    said=$(cat "$work/said")
    [ "$status" -eq "$wanted" ] || fail "$* ended with status $status, not $wanted"
    [ "$writes" = "$output" ] || fail "$* writes '$writes', not '$output'"
    if [ -z "$message" ]; then
        [ -z "$said" ] || fail "$* says '$said'"
    else
        printf '%s' "$said" | grep -qF -- "$message" || fail "$* says '$said', not '$message'"
    fi
}

script "$work/program" 'cat 2>/dev/null' 'exit 0'
good="cat; mkdir -p out && cp '$work/program' out/muktrashi && echo built >>../../builds"
printf 'a capture\n' >"$work/capture"

fresh "$good"
expect 0 'a capture' '' "$work/repo/judge" "$work/capture"
expect 0 'a capture' '' "$work/repo/judge"
expect 0 'a capture' '' "$work/repo/judge" -
expect 0 'a capture' '' "$work/repo/judge" -- "$work/capture"
expect 0 'a capture' '' env -C "$work" repo/judge capture
[ "$(wc -l <"$work/repo/builds")" -eq 1 ] || fail "built more than once"
touch "$work/repo/crates/muktrashi/src/main.rt"
expect 0 'a capture' '' "$work/repo/judge"
[ "$(wc -l <"$work/repo/builds")" -eq 2 ] || fail "not built again after a change"
expect 2 '' "judge: no-such cannot be read: there is no such file" "$work/repo/judge" no-such
expect 2 '' "cannot be read: it is a folder" "$work/repo/judge" "$work"
expect 2 '' "one file at most" "$work/repo/judge" "$work/capture" "$work/capture"
expect 2 '' "one file at most" "$work/repo/judge" - "$work/capture"
expect 2 '' "judge: there is no option '--no-such'; usage: ./judge [FILE]" "$work/repo/judge" --no-such
expect 2 '' "judge: there is no option '-x'" "$work/repo/judge" -x "$work/capture"
expect 0 'muktrashi, proved with the kit' '' "$work/repo/judge" --version
ln -s "$work/repo/judge" "$work/link"
expect 0 'a capture' '' "$work/link" "$work/capture"
help=$("$work/repo/judge" --help) || fail "--help ended with status $?"
[ "${help%%$'\n'*}" = 'usage: ./judge [FILE]' ] || fail "--help writes '$help'"

# A line of a live input is answered before the next one comes.
coproc live { PATH="$work/kit/bin:$PATH" "$work/repo/judge" 2>&1; }
printf 'a line\n' >&"${live[1]}"
read -r -t 20 reply <&"${live[0]}" || reply='nothing'
[ "$reply" = 'a line' ] || fail "a live line is answered by '$reply'"
input=${live[1]}
exec {input}>&-
wait

# What cannot be read or written, and a reader that has gone, of which nothing is said.
unread() { "$@" <&-; }
unwritten() { "$@" >&-; }
full() { "$@" >/dev/full; }
gone() { (sleep 0.2 && exec "$@") | true; }
expect 2 '' "judge: standard input cannot be read: it is closed" unread "$work/repo/judge"
expect 1 '' "judge: the answer cannot be written: standard output is closed" unwritten "$work/repo/judge"
if [ -c /dev/full ]; then
    expect 1 '' "judge: the answer cannot be written: No space left on device" full "$work/repo/judge" "$work/capture"
    [ "$(wc -l <"$work/said")" -eq 1 ] || fail "an answer that cannot be written: says '$(cat "$work/said")'"
else
    printf 'judge.sh: warning: NOT RUN: an answer that cannot be written; there is no /dev/full\n' >&2
fi
expect 0 '' '' gone "$work/repo/judge"

script "$work/repo/target/native/muktrashi" 'exit 3'
expect 1 '' "judge: the program ended with status 3" "$work/repo/judge"

fresh "sleep 1.5; $good"
expect 0 'a capture' 'building, and checking the proofs' "$work/repo/judge"

# Two at once: one builds, the other waits for it.
fresh "mkdir ../../busy || exit 1; sleep 1; $good; rmdir ../../busy"
PATH="$work/kit/bin:$PATH" "$work/repo/judge" "$work/capture" >"$work/first" 2>/dev/null &
sleep 0.3
expect 0 'a capture' 'build: another build runs; waiting for it' "$work/repo/judge"
wait "$!" || fail "the first of two at once ended with status $?"
[ "$(cat "$work/first")" = 'a capture' ] || fail "the first of two at once writes '$(cat "$work/first")'"
[ "$(wc -l <"$work/repo/builds")" -eq 1 ] || fail "two at once built twice"

fresh 'echo no proof of that; exit 1'
expect 1 '' "build: the crate muktrashi is not proved ('rt run' in crates/muktrashi ended with status 1); target/build.log has what it said" "$work/repo/judge"
expect 1 '' "judge: the program cannot be built" "$work/repo/judge"
[ "$(cat "$work/repo/target/build.log")" = 'no proof of that' ] || fail "target/build.log has '$(cat "$work/repo/target/build.log")'"

fresh "$good"
mkdir "$work/bare"
for tool in bash dirname readlink find cat rm mkdir flock uname; do ln -s "$(command -v "$tool")" "$work/bare/$tool"; done
rm "$work/kit/bin/rt"
expect 1 '' "build: the command 'rt' of the Rattle kit is not on the PATH" env PATH="$work/bare" "$work/repo/judge"

[ "$failures" -eq 0 ] && printf 'judge.sh: ./judge says what it should\n'
exit "$((failures > 0))"
