"""The board's rule table and text lines (documents 01 and 02), as the scripts of this folder share them.

A rule is five numbers: kind, x, y, a, b. A rule line is these in 24 hexadecimal digits with their sum, a frame line is a counter and a mask in 14. A list
line is AA, the row numbers that are judged and the sum, two digits each.
"""

import argparse
import os
import re
import signal
import sys
from collections import namedtuple

ROW_LIMIT = 256
LIST_LIMIT = 16  # the most rows that a list names
LIST_MARK = 0xAA  # a list line begins with it, and no rule line does
HEARTBEAT_BIT = 31  # a frame with it is a heartbeat; a rule asks for the bits below
LONGEST = 86_400_000
NO_END = 4_294_967_295
PROGRAM_STORE = 8_192
TURN = 65_536

RULE_WIDTHS = (1, 1, 1, 4, 4)
FRAME_WIDTHS = (2, 4)

Rule = namedtuple("Rule", "kind x y a b")

# What a number of a rule is used as.
UNUSED, BIT, LOWER = "unused", "bit", "lower row"

# A kind's name, what x and y are used as, whether a and b are used, whether a row of the kind owns spans, and what it means; {ago} is the interval
# in words, and `ever` is how the kind says [0, no end].
Kind = namedtuple("Kind", "name x y limits spans meaning ever", defaults=("at some time",))
KINDS = (
    Kind("true", UNUSED, UNUSED, False, False, "true at every event"),
    Kind("bit", BIT, UNUSED, False, False, "bit {x} of the mask is set"),
    Kind("not", LOWER, UNUSED, False, False, "row {x} is false"),
    Kind("and", LOWER, LOWER, False, False, "rows {x} and {y} are both true"),
    Kind("or", LOWER, LOWER, False, False, "row {x} or row {y} is true"),
    Kind("previous", LOWER, UNUSED, True, False, "row {x} was true at the event before, {ago}", "at any time"),
    Kind("since", LOWER, LOWER, True, True, "row {y} was true {ago}, and row {x} at every event since"),
    Kind("once", LOWER, UNUSED, True, True, "row {x} was true {ago}"),
    Kind("always", LOWER, UNUSED, True, True, "row {x} was true at every event {ago}", "so far"),
)


class Refused(Exception):
    """What the program refuses, with the line that it writes. A row is refused at the empty line; without one the program writes EE0800."""

    def __init__(self, place, number, row, reason, ended=True):
        writes = f"EE{number:02X}{row:02X}"
        if not ended:
            writes = f"EE0800, and {writes} once an empty line ends the rules"
        super().__init__(f"{place}: refused {number}: {reason} (the program writes {writes})")


class OutOfRange(Exception):
    """A number that a line has no room for."""


def number(word):
    """The number that a word says, in decimal or after 0x."""
    if re.fullmatch(r"-?[0-9]+", word):
        return int(word)
    if re.fullmatch(r"0x[0-9A-Fa-f]+", word):
        return int(word, 16)
    raise argparse.ArgumentTypeError(f"'{word}' is no number; write it in decimal, or in hexadecimal after 0x")


def line(names, numbers, widths):
    """The line of these numbers, each in so many bytes, with its sum."""
    data = b""
    for name, value, width in zip(names, numbers, widths):
        if not 0 <= value < 256**width:
            raise OutOfRange(f"{name}: {value} is outside 0 to {256**width - 1}")
        data += value.to_bytes(width, "big")
    return (data + bytes([sum(data) % 256])).hex().upper()


def rule_line(rule):
    return line(Rule._fields, rule, RULE_WIDTHS)


def list_line(rows):
    names = ["the mark"] + [f"row {row}" for row in rows]
    return line(names, [LIST_MARK, *rows], [1] * len(names))


def frame_line(counter, mask):
    if counter >= TURN:
        raise OutOfRange(f"counter: {counter} is outside 0 to {TURN - 1}; modulo {TURN} it is {counter % TURN}")
    return line(("counter", "mask"), (counter, mask), FRAME_WIDTHS)


def ending_fault(text):
    """What is wrong with a line's end that the eye does not see; nothing, or words to put behind others."""
    return "; it ends in CR LF, not in a line feed alone" if text.endswith(b"\r\n") else ""


def sum_fault(data):
    """Why the last byte is not the sum of those before it, or None."""
    found = sum(data[:-1]) % 256
    return None if found == data[-1] else f"the sum is {found:02X}, and the line says {data[-1]:02X}"


def read_rule(text, index):
    """The rule in a line that is given with its line feed; lines are counted from 0."""
    place = f"line {index + 1}"
    size = 2 * (sum(RULE_WIDTHS) + 1)
    if not re.fullmatch(rb"[0-9A-F]{%d}\n" % size, text):
        raise Refused(place, 8, index, f"not {size} digits 0-9 A-F and a line feed{ending_fault(text)}")
    data = bytes.fromhex(text.decode())
    fault = sum_fault(data)
    if fault is not None:
        raise Refused(place, 9, index, fault)
    numbers, start = [], 0
    for width in RULE_WIDTHS:
        numbers.append(int.from_bytes(data[start : start + width], "big"))
        start += width
    return Rule(*numbers)


def read_list(text, index):
    """The row numbers in a list line."""
    place = f"line {index + 1}"
    if not re.fullmatch(rb"(?:[0-9A-F]{2}){3,%d}\n" % (LIST_LIMIT + 2), text):
        form = f"a list is AA, 1 to {LIST_LIMIT} row numbers and the sum, two digits 0-9 A-F each, and a line feed"
        raise Refused(place, 10, 0, form + ending_fault(text))
    data = bytes.fromhex(text.decode())
    fault = sum_fault(data)
    if fault is not None:
        raise Refused(place, 10, 0, fault)
    return list(data[1:-1])


def read_table(text):
    """The rules up to the empty line or to the text's end, the list or None, and whether there is an empty line."""
    rules, listed = [], None
    for index, content in enumerate(re.findall(rb"[^\n]*\n|[^\n]+", text)):
        if content == b"\n":
            return rules, listed, True
        if listed is not None:
            raise Refused(f"line {index + 1}", 10, 0, "only the empty line may follow the list")
        if content.startswith(b"%02X" % LIST_MARK):
            listed = read_list(content, index)
        elif index == ROW_LIMIT:
            raise Refused(f"line {index + 1}", 1, 0, f"a table has at most {ROW_LIMIT} rows")
        else:
            rules.append(read_rule(content, index))
    return rules, listed, False


def used(kind):
    """The names of the numbers that a kind uses, in the order of a rule."""
    return [name for name, use in (("x", kind.x), ("y", kind.y)) if use != UNUSED] + (["a", "b"] if kind.limits else [])


def kind_fault(kind):
    """Why a number is no kind, or None."""
    if not 0 <= kind < len(KINDS):
        return f"there is no kind {kind}; kinds are 0 to {len(KINDS) - 1}"
    return None


def form_fault(rule, row):
    """Why refusal 2 holds of a row, or None. A number below 0, which no line holds, is a fault too."""
    fault = kind_fault(rule.kind)
    if fault is not None:
        return fault
    kind = KINDS[rule.kind]
    for name, use in (("x", kind.x), ("y", kind.y)):
        value = getattr(rule, name)
        if use == UNUSED and value != 0:
            return f"'{kind.name}' does not use {name}, so it must be 0, and it is {value}"
        if use == BIT and not 0 <= value < HEARTBEAT_BIT:
            whose = ", the heartbeat's" if value == HEARTBEAT_BIT else ""
            return f"{name} is bit {value}{whose}; bits are 0 to {HEARTBEAT_BIT - 1}"
        if use == LOWER and not 0 <= value < row:
            return f"{name} names row {value}; " + (f"it may be a lower row, 0 to {row - 1}" if row else "there is no lower row")
    if not kind.limits and (rule.a, rule.b) != (0, 0):
        return f"'{kind.name}' does not use a and b, so they must be 0"
    return None


def limits_fault(rule, _):
    """Why refusal 3 holds of a row that passes 2, or None. A number below 0 is a fault here too."""
    if not 0 <= rule.a <= LONGEST:
        return f"a is {rule.a}; it may be 0 to {LONGEST}"
    if rule.b != NO_END and not rule.a <= rule.b <= LONGEST:
        return f"b is {rule.b}; it may be a, which is {rule.a}, to {LONGEST}, or no end"
    return None


def row_fault(rule, row):
    """By which number the table check refuses a row, and why; or None."""
    for refusal, fault in ((2, form_fault), (3, limits_fault)):
        reason = fault(rule, row)
        if reason is not None:
            return refusal, reason
    return None


def check_row(rule, row, ended):
    """Refuses what the table check refuses of a row; `ended` says whether an empty line ends the rules."""
    fault = row_fault(rule, row)
    if fault is not None:
        refusal, reason = fault
        raise Refused(f"row {row}", refusal, row, reason, ended)


def list_fault(listed, rows):
    """Why refusal 10 holds of a list for a table of so many rows, or None."""
    if not 1 <= len(listed) <= LIST_LIMIT:
        return f"a list has 1 to {LIST_LIMIT} rows, and here are {len(listed)}"
    for row in listed:
        if not 0 <= row < rows:
            return f"row {row} is listed; rows are 0 to {rows - 1}"
    for former, row in zip(listed, listed[1:]):
        if row <= former:
            return f"row {row} is listed after row {former}; a list rises"
    return None


def spans(rule):
    """How many spans a row that passes the check may need."""
    if not KINDS[rule.kind].spans:
        return 0
    if rule.b == NO_END:
        return 1
    return rule.b // (rule.b - rule.a + 2) + 1


def ago(a, b, ever):
    """The interval [a,b] in words."""
    if a == b:
        return f"exactly {a} ms ago"
    if b == NO_END:
        return f"{a} ms ago or longer" if a else ever
    return f"{a} to {b} ms ago" if a else f"at most {b} ms ago"


def meaning(rule):
    """What a row that passes the check means, in words."""
    kind = KINDS[rule.kind]
    return kind.meaning.format(x=rule.x, y=rule.y, ago=ago(rule.a, rule.b, kind.ever))


def lower_rows(rule):
    """The rows that a row names."""
    kind = KINDS[rule.kind]
    return [value for value, use in ((rule.x, kind.x), (rule.y, kind.y)) if use == LOWER]


def reached_from(rules, listed):
    """Of each row of a table that passes the check, the listed rows that reach it; a row with none is dead. A listed row reaches itself."""
    sources = [[] for _ in rules]
    for source in listed:
        reached = {source}
        for row in range(source, -1, -1):
            if row in reached:
                reached.update(lower_rows(rules[row]))
                sources[row].append(source)
    return sources


def naming(rules, row):
    """The rows that name a row."""
    return [other for other, rule in enumerate(rules) if row in lower_rows(rule)]


def stop(script, status, message):
    """Ends a script with a message in words."""
    print(f"{script}: {message}", file=sys.stderr)
    sys.exit(status)


def run(script, main):
    """Runs a script. A reader that has gone ends it in silence, as it ends other commands; an answer that cannot be written is said in words."""
    signal.signal(signal.SIGPIPE, signal.SIG_DFL)
    if sys.stdout is None:
        stop(script, 2, "the answer cannot be written: standard output is closed")
    try:
        try:
            main()
        finally:
            sys.stdout.flush()
    except OSError as fault:
        if fault.filename is not None:
            raise
        os.dup2(os.open(os.devnull, os.O_WRONLY), sys.stdout.fileno())  # what is left would fail again at the end
        stop(script, 2, f"the answer cannot be written: {fault.strerror}")
