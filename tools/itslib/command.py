"""What each tool does at its ends: its words, its files, its output, and one line for whatever is wrong."""

import argparse
import os
import sys
from typing import IO, Callable, NoReturn, Optional

from .session import Wrong


class Parser(argparse.ArgumentParser):
    """A parser of words that says what is wrong in one line. The tool's docstring, which says what it does, is its help."""

    def __init__(self, name: str, about: str):
        super().__init__(prog=name, description=about, allow_abbrev=False,
                         formatter_class=argparse.RawDescriptionHelpFormatter)

    def error(self, message: str) -> NoReturn:
        """Words that are wrong."""
        raise Wrong("%s (%s --help says more)" % (message, self.prog))

    def print_help(self, file: Optional[IO[str]] = None) -> None:
        """The help, on standard output."""
        write(self.format_help())


def read(path: str) -> bytes:
    """The bytes of a file; of standard input if the path is `-`."""
    try:
        if path == "-":
            if sys.stdin is None:
                raise Wrong("standard input is closed")
            return sys.stdin.buffer.read()
        with open(path, "rb") as file:
            return file.read()
    except OSError as problem:
        raise Wrong("%s: %s" % (path, problem.strerror))


def text_of(path: str) -> str:
    """The text of a file. Sessions and transcripts are ASCII; any other byte is kept, so that it can be complained of."""
    return read(path).decode("latin-1")


def write(text: str) -> None:
    """Writes to standard output, at once."""
    if sys.stdout is None:
        raise Wrong("standard output is closed")
    try:
        sys.stdout.buffer.write(text.encode())
        sys.stdout.buffer.flush()
    except OSError as problem:
        silence()
        raise Wrong("standard output: %s" % problem.strerror)


def silence() -> None:
    """Nothing more is written: what still waits for a standard output that fails is dropped."""
    nowhere = os.open(os.devnull, os.O_WRONLY)
    os.dup2(nowhere, sys.stdout.fileno())


def call(name: str, main: Callable[[], int]) -> int:
    """Calls a tool. The exit status: what is wrong gives one line on standard error and status 1."""
    try:
        return main()
    except Wrong as problem:
        said = " ".join(str(problem).split("\n"))
        if sys.stderr is not None:
            print("%s: %s" % (name, said), file=sys.stderr)
        return 1
    except KeyboardInterrupt:
        return 130
