"""The lines of a session with the lines of its transcript that answer each, for the checks. tools/lib/transcript.js finds which do."""

import json
import os
import subprocess
import tempfile
from dataclasses import dataclass
from typing import List

HERE = os.path.dirname(os.path.abspath(__file__))


class Wrong(Exception):
    """What was given is wrong, with one line that says why."""


@dataclass
class Exchange:
    """A line of a session with the lines of the transcript that answer it."""
    number: int             # from 1
    text: str               # without its LF
    words: List[str]        # its runs of bytes other than space
    kind: str               # its first word; "a/" or "/" for words of a block; "" for an empty line or a comment
    answer: List[str]       # the lines of the transcript
    reason: str             # why it is refused; then `answer` is the `?` line
    letters: List[str]      # of its ticks, for each turn

    @property
    def answered(self) -> List[str]:
        """The words of the first line that answers."""
        return self.answer[0].split(" ") if self.answer else []


def at_line(line: int) -> str:
    """The number of a line as each tool writes it: decimal as an editor counts, and octal as the program does."""
    return "line %d (octal %o)" % (line, line)


def split(text: str) -> List[str]:
    """The lines of a text, without their LF. A last line without LF counts if it is not empty."""
    lines = text.split("\n")
    if lines[-1] == "":
        lines.pop()
    return lines


def exchanges(session: str, transcript: str) -> List[Exchange]:
    """Each line of a session with its answer. The texts have one character for each byte."""
    with tempfile.TemporaryDirectory() as folder:
        paths = [os.path.join(folder, name) for name in ("session", "transcript")]
        for path, text in zip(paths, (session, transcript)):
            with open(path, "w", encoding="latin-1", newline="") as file:
                file.write(text)
        done = subprocess.run(["node", os.path.join(HERE, "..", "lib", "node", "exchanges.js"), *paths], stdout=subprocess.PIPE,
                              stderr=subprocess.PIPE, universal_newlines=True)
    if done.returncode:
        raise Wrong(done.stderr.strip().replace(folder + "/", ""))
    return [Exchange(**one) for one in json.loads(done.stdout)]


def number(word: str) -> int:
    """The value of an octal number."""
    if not word or set(word) - set("01234567"):
        raise ValueError("'%s' is no octal number" % word)
    return int(word, 8)
