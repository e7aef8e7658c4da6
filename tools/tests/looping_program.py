#!/usr/bin/env python3
"""A substitute for the program: it answers sessions of one job in slot 0 that jumps to itself at 100, and licenses every transcript."""

import sys

WORDS = " 254000000100" + " 000000000000" * 7         # what EXAM shows from 100 on


def answer(words):
    """The lines that answer a line of a session."""
    if words[0] == "LOAD":
        return "J 0\n"
    if words[0] == "TICK":
        return "T 0 %s*\n" % words[2]
    if words[0] == "RUN":
        return "T 0 %s*\n" % words[2] * int(words[1], 8)
    if words[0] == "EXAM":
        return "E 0 000100%s\n" % WORDS[:13 * int(words[3], 8)]
    return "P 0 USER - 0 - - -\n" if words[0] == "PEEK" else ""


def main():
    """Answers what comes on standard input."""
    if sys.argv[1:] == ["verify"]:
        sys.stdout.write("YES %o\n" % sum(1 for _ in sys.stdin))
        return
    for line in sys.stdin:
        sys.stdout.write(answer(line.split() or [""]))


if __name__ == "__main__":
    main()
