"""The lines of the crates: heads of files, widths, and what a comment may not begin with."""

import glob
import os
import re
from typing import Iterator

from .command import read

COMMENT = 100          # characters, the indentation included
PROOF = 160            # without the indentation: rt fmt indents deep
USING = 200            # of one list of laws
MARKED = re.compile(r"\s*(?://[/!]?|--)(?!-)(.*)")
LISTED = re.compile(r"\s*(?:use |pub ruleset )")


def files_of(top: str, kind: str) -> Iterator[str]:
    """The files of the crates with this ending, without what is built."""
    for folder in ("src", "specs", "proofs"):
        yield from sorted(glob.glob(os.path.join(top, "crates", "*", folder, "**", "*" + kind), recursive=True))


def longest_list(line: str) -> int:
    """How long the longest list of laws of a line is, in characters."""
    longest = 0
    for at in re.finditer(r"\busing\(", line):
        depth, end = 1, at.end()
        while depth and end < len(line):
            depth += {"(": 1, ")": -1}.get(line[end], 0)
            end += 1
        longest = max(longest, end - at.end() - 1)
    return longest


def wrong_line(line: str, proof: bool) -> str:
    """What is wrong with a line, if anything. `proof` says whether it is one of a file of proofs."""
    comment = MARKED.match(line)
    if comment and comment.group(1).strip().startswith("The same"):
        return "a comment begins with 'The same': it is to say what is done"
    if comment and len(line) > COMMENT:
        return "a comment has %d characters, %d are meant" % (len(line), COMMENT)
    if proof and not comment and len(line.strip()) > PROOF and not LISTED.match(line):
        return "a line of proof has %d characters, %d are meant" % (len(line.strip()), PROOF)
    if longest_list(line) > USING:
        return "a list of laws has %d characters, %d are meant: name it in proofs/Groups.antt" % (longest_list(line), USING)
    return ""


def wrong_lines(top: str) -> Iterator[str]:
    """What is wrong with the lines of the crates."""
    for kind in (".rt", ".antt"):
        for path in files_of(top, kind):
            name, lines = os.path.relpath(path, top), read(path).decode().split("\n")
            if kind == ".rt" and not lines[0].startswith("//! "):
                yield "%s: no head line (//!) says what is in it" % name
            for number, line in enumerate(lines, 1):
                what = wrong_line(line, "proofs" in name.split(os.sep) and kind == ".antt")
                if what:
                    yield "%s:%d: %s" % (name, number, what)
