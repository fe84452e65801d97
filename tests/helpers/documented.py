#!/usr/bin/env python3
"""Runs every command of a page and compares what it writes with what the page says.

usage: documented.py PAGE

A command is a line that starts with '$ ' in a block fenced as console; what follows it, up to the next command or the block's end, is
what it writes to standard output and standard error. Commands run in the current folder.
"""

import re
import subprocess
import sys


def commands(page):
    """Each command of a page, with what it is to write."""
    for block in re.findall(r"^```console\n(.*?)^```$", page, re.MULTILINE | re.DOTALL):
        for said in re.split(r"^\$ ", block, flags=re.MULTILINE)[1:]:
            yield said.split("\n", 1)


def main():
    if len(sys.argv) != 2:
        sys.exit("usage: documented.py PAGE")
    with open(sys.argv[1], encoding="utf-8") as page:
        documented = list(commands(page.read()))
    if not documented:
        sys.exit(f"documented.py: {sys.argv[1]} has no command")
    failures = 0
    for command, said in documented:
        writes = subprocess.run(["bash", "-c", command], stdout=subprocess.PIPE, stderr=subprocess.STDOUT, text=True).stdout
        if writes != said:
            failures += 1
            print(f"{sys.argv[1]}: '{command}' writes\n{writes}and the page says\n{said}", file=sys.stderr)
    if failures:
        sys.exit(f"documented.py: {failures} of {len(documented)} commands of {sys.argv[1]} write something else")
    print(f"documented.py: {len(documented)} commands of {sys.argv[1]} write what it says")


main()
