#!/usr/bin/env bash
# The gate refuses, with a message that says why: a machine without the kit, a crate that crates.txt does not list, a file out of layout, a crate that is
# not proved, an edit that must fail and cannot be tried, a test that fails. It warns about another kit. Where all is well its last line is that of
# `rt ci`, after the tests.
set -u
cd "$(dirname "$0")/.." || exit 2
work=$(mktemp -d) || exit 2
trap 'rm -rf "$work"' EXIT
failures=0

# A copy of the repository's gate with one small crate.
fresh() {
    rm -rf "$work/repo"
    mkdir -p "$work/repo/crates/small/src" "$work/repo/.ci"
    cp .ci/run .ci/kit "$work/repo/.ci/"
    printf 'small:\n' >"$work/repo/crates.txt"
    printf '// Nothing yet.\n' >"$work/repo/crates/small/src/lib.rt"
}

# expect TEXT COMMAND..: the command fails and says TEXT.
expect() {
    text=$1
    shift
    said=$("$@" 2>&1)
    status=$?
    if [ "$status" -eq 0 ]; then
        printf 'gate.sh: passed, but should say: %s\n' "$text" >&2
        failures=$((failures + 1))
    elif ! printf '%s' "$said" | grep -qF -- "$text"; then
        printf 'gate.sh: should say: %s\nbut says:\n%s\n' "$text" "$said" >&2
        failures=$((failures + 1))
    fi
}

fresh
mkdir "$work/bare"
for tool in bash dirname; do ln -s "$(command -v "$tool")" "$work/bare/$tool"; done
expect "the command 'rt' of the Rattle kit is not on the PATH" env PATH="$work/bare" bash "$work/repo/.ci/run"

fresh
mkdir -p "$work/repo/crates/forgotten/src"
expect "crates/forgotten is not listed in crates.txt" bash "$work/repo/.ci/run"

fresh
printf 'fn  crooked( ) {}\n' >"$work/repo/crates/small/src/lib.rt"
expect "run rt fmt in the crate's folder" bash "$work/repo/.ci/run"

fresh
printf 'another kit\n' >"$work/repo/.ci/kit"
mkdir "$work/repo/tests"
printf 'exit 1\n' >"$work/repo/tests/fails.sh"
expect "warning: this is not the kit that the repository was proved with" bash "$work/repo/.ci/run"
expect "tests/fails.sh failed" bash "$work/repo/.ci/run"

# No test is run on what is not proved.
fresh
{
    printf '#![tactic(auto)]\n\nghost use Rattle.std.specs.Prelude.{◌≡◌, true};\n\n'
    printf 'pub fn unproved() -> bool\n    ensures { result ≡ true }\n{\n    false\n}\n'
} >"$work/repo/crates/small/src/lib.rt"
mkdir "$work/repo/tests"
printf 'touch ran\n' >"$work/repo/tests/runs.sh"
expect "0 passed, 1 failed" bash "$work/repo/.ci/run"
[ ! -e "$work/repo/ran" ] || {
    printf 'gate.sh: a test ran on a crate that is not proved\n' >&2
    failures=$((failures + 1))
}

# An edit whose text does not stand in its file: `rt ci` passes.
fresh
mkdir "$work/repo/crates/small/must-fail" "$work/repo/tests"
printf 'file: src/lib.rt\nold: no such text\nnew: nothing\n' >"$work/repo/crates/small/must-fail/stray.edit"
printf 'touch ran\n' >"$work/repo/tests/runs.sh"
expect "must-fail edits that cannot be tried: 1" bash "$work/repo/.ci/run"
[ ! -e "$work/repo/ran" ] || {
    printf 'gate.sh: a test ran though an edit that must fail cannot be tried\n' >&2
    failures=$((failures + 1))
}

# passes LINE..: what the gate makes of an `rt ci` that passes and says these lines.
passes() {
    mkdir -p "$work/kit"
    printf '%s\n' '#!/bin/sh' '[ "$1" != version ] || exec echo a kit' "cat <<'END'" "$@" END >"$work/kit/rt"
    chmod +x "$work/kit/rt"
    env PATH="$work/kit:$PATH" bash "$work/repo/.ci/run"
}
fresh
edits='rt: ok; handles allowed: none; must-fail edits'
expect "must-fail edits that cannot be tried: 12" passes "$edits: 113 refused, 4 of them only by a limit, 12 bad; done in this run" '114 passed, 0 failed'
expect "must-fail edits that cannot be tried: 10" passes "$edits: 0 refused, 10 bad; every proof was done in this run" '1 passed, 0 failed'
expect "'rt ci' passed, but has no line 'rt: ok'" passes '1 passed, 0 failed'
last=$(passes "$edits: 113 refused, 4 of them only by a limit; 3 bad words" '114 passed, 0 failed' 2>/dev/null | tail -n 1)
[ "$last" = '114 passed, 0 failed' ] || {
    printf 'gate.sh: a gate with no bad edit should pass, but ends with: %s\n' "$last" >&2
    failures=$((failures + 1))
}

fresh
mkdir "$work/repo/tests"
printf 'touch ran\n' >"$work/repo/tests/runs.sh"
last=$(bash "$work/repo/.ci/run" 2>/dev/null | tail -n 1)
[ "$last" = '1 passed, 0 failed' ] && [ -e "$work/repo/ran" ] || {
    printf 'gate.sh: a good gate should run its tests and end with "1 passed, 0 failed", but ends with: %s\n' "$last" >&2
    failures=$((failures + 1))
}

[ "$failures" -eq 0 ] && printf 'gate.sh: 10 refusals as they should be, and a gate that passes\n'
exit "$failures"
