#!/usr/bin/env bash
# Every example and every case of docs/RULES.md, judged: what ./judge writes for NAME.in is NAME.out. Each is told of in its page, and each command
# of docs/RULES.md writes what the page says. Two rules of that page that mean the same have the same answer to the same frames, and a mistyped one differs
# from the one that was meant in one line. Where a rule asks for touches that were taken, the capture says of each touch that is taken, and of no other, that
# it was.
set -u
cd "$(dirname "$0")/.." || exit 2
failures=0

fail() {
    printf 'examples.sh: %s\n' "$*" >&2
    failures=$((failures + 1))
}

# judged PAGE CAPTURE..
judged() {
    page=$1
    shift
    for capture in "$@"; do
        name=$(basename "$capture" .in)
        grep -qF -- "\`$name\`" "$page" || fail "$page does not tell of $name"
        difference=$(diff <(./judge "$capture") "${capture%.in}.out") || fail "$capture: judged (<) and told (>) differ:
$difference"
    done
}

# same NAME NAME: two cases with the same frames and the same answer.
same() {
    one=tests/cases-rules/$1 other=tests/cases-rules/$2
    cmp -s <(sed '1,/^$/d' "$one.in") <(sed '1,/^$/d' "$other.in") || fail "$1 and $2 differ in their frames"
    cmp -s "$one.out" "$other.out" || fail "$1 and $2 differ in their answers"
}

# mistyped NAME NAME: two cases that differ in one line.
mistyped() {
    changed=$(diff "tests/cases-rules/$1.in" "tests/cases-rules/$2.in" | grep -c '^[<>]')
    [ "$changed" -eq 2 ] || fail "$1 and $2 do not differ in one line alone"
}

frames() {
    sed '1,/^$/d' "$1"
}

# The frames but for the second events, by which a touch is told to be taken: a mask with bits from 16 to 27 alone.
touches() {
    frames "$1" | grep -v '^....0...0000'
}

# tells_taken CAPTURE: behind each frame with a verdict other than 0 comes one at the same counter whose mask is the verdict, 16 bits up, and no other frame
# has such a bit.
tells_taken() {
    wrong=$(paste -d ' ' <(frames "$1") <(sed 1d "${1%.in}.out") | awk '
        owed != "" { if (substr($1, 1, 12) != owed) print; owed = ""; next }
        substr($1, 5, 4) !~ /^[08]000$/ { print }
        length($2) == 16 && substr($2, 13) !~ /^(0000|----)$/ { owed = substr($1, 1, 4) substr($2, 13) "0000" }
        END { if (owed != "") print "nothing, for " owed }')
    [ -z "$wrong" ] || fail "$1: second events are not what was taken: $wrong"
}

./judge examples/whole-case.in >/dev/null || exit 1
judged examples/README.md examples/*.in
judged docs/RULES.md tests/cases-rules/*.in
same once-window once-as-since
same always-held always-as-not-once-not
mistyped refused-dead-row bounce
mistyped refused-list-lacks-a-row bounce-and-early
tells_taken examples/ten-lanes.in
tells_taken tests/cases-rules/chatter-taken.in
cmp -s <(touches tests/cases-rules/chatter-every-touch.in) <(touches tests/cases-rules/chatter-taken.in) || fail "the two pads that chatter differ"
difference=$(diff <(sed -n 's/.*"\([[:alnum:]]\{14\}\)\\n".*/\1/p' examples/board.c) <(touches examples/ten-lanes.in)) ||
    fail "the frames of examples/board.c (<) and the touches of examples/ten-lanes.in (>) differ:
$difference"
tests/helpers/documented.py docs/RULES.md || fail "docs/RULES.md has a command that writes something else"

[ "$failures" -eq 0 ] && printf 'examples.sh: %s captures as told\n' "$(ls examples/*.in tests/cases-rules/*.in | wc -l)"
exit "$((failures > 0))"
