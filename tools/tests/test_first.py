"""The first command: what ./its runs in a clone that has no build, with the programs of a system and node alone; and when it says so."""

import os
import shutil
import subprocess
import tempfile
import time
import unittest

from shared import TOP
from itslib.page import item, stored

SYSTEM = ["awk", "base64", "bash", "cat", "cmp", "cut", "date", "dirname", "env", "find", "grep", "gunzip", "head", "kill", "mkdir", "mkfifo", "mktemp", "mv",
          "readlink", "rm", "sed", "sh", "sha256sum", "sort", "tail", "tee", "tr", "xargs"]      # what ./its may use, without rt
IS_CURRENT = subprocess.run([os.path.join(TOP, "tools", "sources")], stdout=subprocess.PIPE,
                            universal_newlines=True).stdout.strip() == item(stored(), "module").get("sources")


def copied(top):
    """Copies the files of the repository that ./its may use, without what was built."""
    for name in ("its", "crates.txt", "sessions", "tools", "docs", "crates"):
        path, to = os.path.join(TOP, name), os.path.join(top, name)
        if os.path.isdir(path):
            shutil.copytree(path, to, ignore=shutil.ignore_patterns("out", "__pycache__", "proofs", "must-fail", "recorded"))
        else:
            shutil.copy(path, to)


@unittest.skipUnless(shutil.which("node"), "there is no node (Debian's package nodejs)")
@unittest.skipUnless(IS_CURRENT, "the module of docs/its.html has other sources (tools/web)")
class First(unittest.TestCase):
    """A clone of its own."""
    top = programs = ""

    @classmethod
    def setUpClass(cls):
        cls.top = tempfile.mkdtemp()
        copied(cls.top)
        cls.programs = os.path.join(cls.top, "bin")
        os.mkdir(cls.programs)
        for name in SYSTEM:
            os.symlink(shutil.which(name) or "", os.path.join(cls.programs, name))

    @classmethod
    def tearDownClass(cls):
        shutil.rmtree(cls.top)

    def setUp(self):
        shutil.rmtree(os.path.join(self.top, "crates", "its", "out"), ignore_errors=True)
        self.node(os.path.realpath(shutil.which("node") or ""))

    def node(self, path):
        """Has the machine this node, or none."""
        place = os.path.join(self.programs, "node")
        if os.path.lexists(place):
            os.remove(place)
        if path:
            os.symlink(path, place)

    def ask(self, *words, session=b"", **changed):
        """Runs ./its with these programs alone: its status, what it writes, and what it says."""
        environment = {"PATH": self.programs, "HOME": self.top, "TMPDIR": self.top, **changed}
        done = subprocess.run([os.path.join(self.top, "its"), *words], env=environment, input=session, stdout=subprocess.PIPE, stderr=subprocess.PIPE)
        return done.returncode, done.stdout.decode("latin-1"), done.stderr.decode("latin-1")

    def test_at_once(self):
        with open(os.path.join(TOP, "sessions", "first.its"), "rb") as file:
            session = file.read()
        with open(os.path.join(TOP, "sessions", "first.out"), encoding="ascii") as file:
            transcript = file.read()
        begun = time.monotonic()
        status, wrote, said = self.ask("run", session=session)
        took = time.monotonic() - begun
        self.assertEqual((status, wrote), (0, transcript))
        self.assertRegex(said, r"\Aits: the (un)?proved program of commit \w+ runs, its module in node \(docs/WEB.md says what is trusted\)\n\Z")
        self.assertLess(took, 20)          # on a machine with much else to do; tools/bench measures it
        self.assertEqual(self.ask("run", session=session), (0, transcript, ""))

    def test_quiet(self):
        self.assertEqual(self.ask("-q", "check", session=b"END\n"), (0, "OK 1\n", ""))
        self.assertEqual(self.ask("check", session=b"END\n", ITS_QUIET="1"), (0, "OK 1\n", ""))
        self.assertIn("runs, its module in node", self.ask("check", session=b"END\n")[2])

    def test_statuses(self):
        self.ask("check")
        for words, session, status, wrote in (((), b"", 1, "usage: its run | its check | its gen N | its verify | its asm | its save\n"),
                                              (("run",), b"STATE 0\n", 2, "? 1 NOJOB\n"), (("run", b"\xff"), b"", 7, "")):
            self.assertEqual(self.ask(*words, session=session)[:2], (status, wrote))

    def test_no_node(self):
        self.node(None)
        status, wrote, said = self.ask("run", session=b"END\n")
        self.assertEqual((status, wrote, said.count("\n")), (125, "", 1))
        self.assertIn("Debian: apt install nodejs", said)
        self.assertEqual(self.ask("what")[:2], (1, "usage: its run | its check | its gen N | its verify | its asm | its save\n"))

    def test_old_node(self):
        old = os.path.join(self.programs, "node")
        self.node(None)
        with open(old, "w", encoding="ascii") as file:
            file.write("#!/bin/sh\necho v16.20.2\n")
        os.chmod(old, 0o755)
        self.assertIn("node, version 18 or later, which is not found", self.ask("run")[2])

    def test_other_sources(self):
        source = os.path.join(self.top, "crates", "its", "src", "main.rt")
        with open(source, encoding="utf-8") as file:
            text = file.read()
        try:
            for more, status in (("// A comment\n\n", 0), ("const MORE: u8 = 0;\n", 125)):
                with open(source, "w", encoding="utf-8") as file:
                    file.write(text + more)
                self.assertEqual(self.ask("check", session=b"END\n")[0], status)
            self.assertIn("the sources have changed since the module of docs/its.html was built", self.ask("check", session=b"END\n")[2])
        finally:
            with open(source, "w", encoding="utf-8") as file:
                file.write(text)

    def test_built(self):
        program = os.path.join(self.top, "crates", "its", "out", "its")
        os.makedirs(os.path.dirname(program))
        with open(program, "w", encoding="ascii") as file:
            file.write("#!/bin/sh\necho built\n")
        os.chmod(program, 0o755)
        status, wrote, said = self.ask("check")
        self.assertEqual((status, wrote), (0, "built\n"))
        self.assertIn("its: the proved build runs, of ", said)
        self.assertEqual(self.ask("check", ITS_FORM="module", session=b"END\n")[:2], (0, "OK 1\n"))
        self.assertEqual(self.ask("check", ITS_FORM="native")[0], 125)
        os.utime(program, (1, 1))
        self.assertEqual(self.ask("check", session=b"END\n")[:2], (0, "OK 1\n"))


if __name__ == "__main__":
    unittest.main()
