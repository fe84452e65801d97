#!/usr/bin/env python3
"""Runs the text program on every NAME.in of a folder and compares what it writes with NAME.out. Each run is to end with status 0.

usage: cases.py FOLDER COMMAND..

Each text is fed whole through a pipe; cut into pieces at the places that seeded cutters pick, each piece one read of the program; and, where the
table passes, line by line, the next line only after the reply to the last.
"""

import os
import pathlib
import random
import select
import socket
import subprocess
import sys
import threading

LONGEST_PIECES = [3, 40, 700]  # one cutter for each: its pieces have 1 to so many bytes
PATIENCE = 60  # seconds for a reply; a run that waits longer has lost it


def whole(command, text):
    """What the program writes for a text that is there at once, and its status."""
    ran = subprocess.run(command, input=text, stdout=subprocess.PIPE, check=False)
    return ran.stdout, ran.returncode


def cut(text, longest, seed):
    """The text in pieces of 1 to so many bytes."""
    cutter = random.Random(seed)
    pieces, place = [], 0
    while place < len(text):
        size = cutter.randint(1, longest)
        pieces.append(text[place : place + size])
        place += size
    return pieces


def fed(command, pieces):
    """What the program writes for a text in pieces, and its status. A socket of packets gives each read one piece."""
    ours, theirs = socket.socketpair(socket.AF_UNIX, socket.SOCK_SEQPACKET)
    with subprocess.Popen(command, stdin=theirs, stdout=subprocess.PIPE) as program:
        theirs.close()
        written = []
        reader = threading.Thread(target=lambda: written.append(program.stdout.read()))
        reader.start()
        try:
            for piece in pieces:
                ours.sendall(piece)
        except BrokenPipeError:
            pass  # the program has ended; what it wrote says the rest
        ours.close()
        reader.join()
    return written[0], program.returncode


def replies(program, lines):
    """So many lines of output, or as many as come in time."""
    got = b""
    while got.count(b"\n") < lines:
        ready, _, _ = select.select([program.stdout], [], [], PATIENCE)
        more = os.read(program.stdout.fileno(), 65536) if ready else b""
        if not more:
            break
        got += more
    return got


def live(command, text):
    """What the program writes when every line waits for the reply to the last, one at the empty line and one for each frame, and its status."""
    rules, frames = text.split(b"\n\n", 1)
    with subprocess.Popen(command, stdin=subprocess.PIPE, stdout=subprocess.PIPE) as program:
        program.stdin.write(rules + b"\n\n")
        program.stdin.flush()
        got = replies(program, 1)
        for frame in frames.splitlines(keepends=True):
            program.stdin.write(frame)
            program.stdin.flush()
            if frame.endswith(b"\n"):
                got += replies(program, 1)
        program.stdin.close()
        got += program.stdout.read()
    return got, program.returncode


def differs(name, how, got, status, wanted):
    """Says where two outputs part, if they do, or with which status a run ended, if not with 0."""
    if got == wanted and status == 0:
        return False
    if got == wanted:
        print(f"cases: {name}, {how}: ended with status {status}", file=sys.stderr)
        return True
    got, wanted = got.split(b"\n"), wanted.split(b"\n")
    line = next((i for i, (g, w) in enumerate(zip(got, wanted)) if g != w), min(len(got), len(wanted)))
    here = lambda lines: lines[line].decode("latin-1") if line < len(lines) else "(nothing more)"
    print(f"cases: {name}, {how}: line {line + 1} is '{here(got)}', should be '{here(wanted)}'", file=sys.stderr)
    return True


def main():
    if len(sys.argv) < 3:
        sys.exit("usage: cases.py FOLDER COMMAND..")
    command, texts = sys.argv[2:], sorted(pathlib.Path(sys.argv[1]).glob("*.in"))
    if not texts:
        sys.exit(f"cases: {sys.argv[1]} has no case")
    runs = failures = 0
    for path in texts:
        text, wanted = path.read_bytes(), path.with_suffix(".out").read_bytes()
        outputs = [("whole", *whole(command, text))]
        for longest in LONGEST_PIECES:
            seed = f"{path.stem} {longest}"
            outputs.append((f"cut with seed '{seed}'", *fed(command, cut(text, longest, seed))))
        if not wanted.startswith(b"EE") and b"\n\n" in text:
            outputs.append(("line by line", *live(command, text)))
        runs += len(outputs)
        failures += sum(differs(path.stem, *output, wanted) for output in outputs)
    print(f"cases: {len(texts)} texts, {runs} runs, {failures} differ")
    sys.exit(1 if failures else 0)


main()
