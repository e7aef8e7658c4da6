"""What the tests share: files of the repository, and the tools as modules."""

import glob
import importlib.machinery
import importlib.util
import io
import os
import sys
from types import ModuleType
from typing import Dict, NamedTuple, Tuple
from unittest import mock

HERE = os.path.dirname(os.path.abspath(__file__))
TOOLS = os.path.dirname(HERE)
sys.path.insert(0, TOOLS)

from itslib.command import call      # noqa: E402
from itslib.program import TOP       # noqa: E402


class Called(NamedTuple):
    """How a tool ended."""
    status: int
    written: str
    said: str


def path_of(name: str) -> str:
    """The path of a file of the repository."""
    return os.path.join(TOP, name)


def text_of(name: str) -> str:
    """The text of a file of the repository."""
    with open(path_of(name), encoding="latin-1") as file:
        return file.read()


def examples() -> Dict[str, Tuple[str, str]]:
    """The sessions of sessions/, of its exercises and of those for wrong monitors, with their transcripts, by their paths without ending."""
    paths = sorted(path for folder in ("", "exercises", "wrong") for path in glob.glob(os.path.join(TOP, "sessions", folder, "*.its")))
    names = [os.path.relpath(path, TOP)[:-len(".its")] for path in paths]
    return {name: (text_of(name + ".its"), text_of(name + ".out")) for name in names}


def loaded(name: str) -> ModuleType:
    """A tool as a module."""
    loader = importlib.machinery.SourceFileLoader(name, os.path.join(TOOLS, name))
    module = ModuleType(name)
    module.__file__ = loader.path
    loader.exec_module(module)
    return module


def called(module: ModuleType, *words: str, given: bytes = b"") -> Called:
    """Calls a tool with these words and this standard input."""
    written, said = io.BytesIO(), io.StringIO()
    with mock.patch.multiple(sys, argv=[module.__name__, *words], stdin=io.TextIOWrapper(io.BytesIO(given)),
                             stdout=io.TextIOWrapper(written, encoding="utf-8"), stderr=said):
        try:
            status = call(module.__name__, module.main)
        except SystemExit as end:
            status = end.code if isinstance(end.code, int) else int(bool(end.code))
        if sys.stdout:
            sys.stdout.flush()
        return Called(status, written.getvalue().decode(), said.getvalue())
