"""Monitors that are wrong: the sources with a few changed lines, which a must-fail edit has and the prover refuses. They are built unproved."""

import functools
import glob
import json
import os
import re
import shutil
import subprocess
import sys
import tempfile
from typing import Dict, List, NamedTuple

from .command import text_of
from .program import TOP
from .session import Wrong

FOLDER = os.path.join(TOP, "sessions", "wrong")
LIST = os.path.join(FOLDER, "list.json")
NEEDED = ["crates.txt", "HANDLES", "tools/sources", "tools/unproved"]       # by a build, beside the crates


class Change(NamedTuple):
    """A changed line: its file, what is there, and what comes in its place."""
    path: str
    old: str
    new: str


class Monitor(NamedTuple):
    """A wrong monitor: its name, the path of its edit below the top, its crate, the function and the clause that refuse it, and its changes."""
    name: str
    edit: str
    crate: str
    clause: str
    changes: List[Change]


class Recorded(NamedTuple):
    """A recorded transcript: its monitor, the session below sessions/, the path, and its first line that is not licensed."""
    monitor: str
    session: str
    transcript: str
    line: int


def names() -> List[str]:
    """The names of the wrong monitors."""
    return sorted(record())


def changes_in(text: str, where: str) -> List[Change]:
    """The changes of an edit, as `rt must-fail` reads them."""
    found, path, old = [], "", ""
    for line in text.split("\n"):
        key, _, rest = line.partition(": ")
        if key == "file":
            path = rest
        elif key == "old":
            old = rest
        elif key == "new":
            if not path or not old:
                raise Wrong("%s: a line 'new:' without 'file:' and 'old:' before it" % where)
            found.append(Change(path, old, rest))
    return found


def monitor(name: str) -> Monitor:
    """A wrong monitor by its name. Its edit is one of a crate, so that the gate tries it."""
    if name not in names():
        raise Wrong("there is no monitor %s: %s" % (name, ", ".join(names())))
    edit = record()[name]["edit"]
    path, folders = os.path.join(TOP, edit), edit.split("/")
    if len(folders) != 4 or folders[0] != "crates" or folders[2] != "must-fail" or not os.path.exists(path):
        raise Wrong("sessions/wrong/list.json: %s is no edit of a crate, which the gate would try" % edit)
    text = text_of(path).encode("latin-1").decode()
    clauses = re.findall(r"(?m)^# clause: (.*)$", text)
    if len(clauses) != 1:
        raise Wrong("%s names no clause, or more than one" % edit)
    return Monitor(name, edit, folders[1], clauses[0], changes_in(text, edit))


def changed(text: str, change: Change, where: str) -> str:
    """A text with a change, whose old words have to be there once."""
    if text.count(change.old) != 1:
        raise Wrong("%s: the words '%s' are there %d times and not once" % (where, change.old, text.count(change.old)))
    return text.replace(change.old, change.new)


def copied(wrong: Monitor, folder: str) -> str:
    """Copies the sources into a folder, changes them, and gives the sum of what the program is built from."""
    shutil.copytree(os.path.join(TOP, "crates"), os.path.join(folder, "crates"), ignore=shutil.ignore_patterns("out", "must-fail"))
    os.mkdir(os.path.join(folder, "tools"))
    for name in NEEDED:
        shutil.copy(os.path.join(TOP, name), os.path.join(folder, name))
    for change in wrong.changes:
        path = os.path.join(folder, "crates", wrong.crate, change.path)
        with open(path, encoding="utf-8") as file:
            text = changed(file.read(), change, wrong.edit)
        with open(path, "w", encoding="utf-8") as file:
            file.write(text)
    return subprocess.run([os.path.join(folder, "tools", "sources")], stdout=subprocess.PIPE, check=True).stdout.decode().strip()


def built(wrong: Monitor, say: str = "") -> str:
    """The path of a wrong monitor, which is built if none of these sources is kept."""
    cache = os.path.join(os.environ.get("XDG_CACHE_HOME") or os.path.expanduser("~/.cache"), "its")
    with tempfile.TemporaryDirectory() as folder:
        kept = os.path.join(cache, "wrong-%s-%s" % (wrong.name, copied(wrong, folder)[:32]))
        if os.access(kept, os.X_OK):
            return kept
        if not shutil.which("rt"):
            raise Wrong("rt, the kit, which builds %s, is not found" % wrong.name)
        if say:
            print("%s: building %s, unproved: about two minutes, once" % (say, wrong.name), file=sys.stderr, flush=True)
        done = subprocess.run([os.path.join(folder, "tools", "unproved")], stdin=subprocess.DEVNULL, stdout=subprocess.PIPE, stderr=subprocess.PIPE)
        if done.returncode:
            raise Wrong("%s cannot be built: %s" % (wrong.name, done.stderr.decode(errors="replace").strip()[-800:]))
        os.makedirs(cache, exist_ok=True)
        for old in glob.glob(os.path.join(cache, "wrong-%s-*" % wrong.name)):
            os.remove(old)
        shutil.move(done.stdout.decode().strip(), kept)
    return kept


def answer(program: List[str], word: str, text: str) -> str:
    """What a program writes for an input."""
    done = subprocess.run(program + [word], input=text.encode("latin-1"), stdout=subprocess.PIPE)
    if done.returncode not in (0, 2):
        raise Wrong("%s %s ended with status %d" % (program[0], word, done.returncode))
    return done.stdout.decode("latin-1")


@functools.lru_cache(maxsize=None)
def program() -> str:
    """The path of the program that ./its runs."""
    done = subprocess.run([os.path.join(TOP, "tools", "program")], stdout=subprocess.PIPE)
    if done.returncode:
        raise Wrong("there is no program (./its says what is missing)")
    return os.fsdecode(done.stdout).strip()


def ours(word: str, text: str) -> str:
    """What the program that ./its runs writes for an input."""
    return answer([program()], word, text)


def judged(session: str, transcript: str) -> int:
    """The first line of a transcript that `verify` does not license, or 0. The session has an END line."""
    said = ours("verify", session + transcript).split()
    if said[:1] not in (["YES"], ["NO"]):
        raise Wrong("verify says '%s'" % " ".join(said))
    return int(said[1], 8) if said[0] == "NO" else 0


def record() -> Dict[str, Dict]:
    """The list of what is recorded: what each wrong monitor does, and its sessions with the first line of each that `verify` refuses."""
    return json.loads(text_of(LIST).encode("latin-1").decode())


def recorded() -> List[Recorded]:
    """The recorded transcripts."""
    return [Recorded(name, session, os.path.join(FOLDER, name, os.path.basename(session)[:-len(".its")] + ".out"), line)
            for name, one in record().items() for session, line in one["lines"].items()]


def examples() -> List[Dict[str, str]]:
    """The recorded transcripts for the page: a name, the session, the transcript, and what is wrong with the monitor and refused by the prover."""
    found = []
    for one in recorded():
        function, clause = monitor(one.monitor).clause.split(" ", 1)
        about = "%s The prover refuses it: %s of %s." % (record()[one.monitor]["about"], clause, function)
        name = "%s: %s" % (one.monitor.replace("-", " "), os.path.basename(one.session)[:-len(".its")])
        found.append({"name": name, "session": one.session, "transcript": text_of(one.transcript), "about": about})
    return found
