#!/usr/bin/env python3
"""Shows a script and the replies that a run of it gave side by side: each statement with its number, and to the right what was answered.
Usage: tools/beside.py SCRIPT REPLIES     (two files)"""
import itertools, re, sys, textwrap

WIDTH = 52  # of the script's side; a longer statement goes on in the next line
WHOLE = 74  # of a comment, which has no reply


def is_statement(line):
    return bool(line.strip()) and not line.strip().startswith("--")


def shown(script, replies):
    """The lines to print. What no statement answered, as the line of a status, comes last."""
    answers = {}
    for line in replies:
        found = re.match(r"1\.(\d+) ", line)
        answers.setdefault(int(found.group(1)) if found else 0, []).append(line)
    number = 0
    for line in script:
        is_one = is_statement(line)
        number += is_one
        left = textwrap.wrap(line, WIDTH if is_one else WHOLE, subsequent_indent="    ", break_on_hyphens=False) or [""]
        right = answers.get(number, []) if is_one else []
        for n, (one, other) in enumerate(itertools.zip_longest(left, right, fillvalue="")):
            yield f"{number if is_one and n == 0 else '':>3}  {one:<{WIDTH}}  {other}".rstrip()
    yield from answers.get(0, [])


if __name__ == "__main__":
    if len(sys.argv) != 3:
        sys.exit(__doc__)
    with open(sys.argv[1], encoding="ascii", errors="replace") as script, open(sys.argv[2], encoding="ascii", errors="replace") as replies:
        print("\n".join(shown(script.read().splitlines(), replies.read().splitlines())))
