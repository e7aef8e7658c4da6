"""The gate, .ci/run, in a repository of its own with substitutes for rt and for the checks; and tools/needs on a machine that has nothing."""

import os
import shutil
import subprocess
import tempfile
import unittest

from shared import TOOLS, path_of

CALLS = """#!/bin/sh
echo "$(basename $0) $*" >> "$TOP/called"
%s
"""
STUBS = {
    "bin/rt": 'echo "== low"; echo "rt: low proved" >&2; echo "$RT"; exit ${RT##*, }',
    "tools/needs": "exit $NEEDS",
    "tools/edits": 'cat "$1" >> "$TOP/log"; exit $EDITS',
    "tools/check-builds": "exit 0",
    "tools/check": '[ -z "$SKIPS" ] || echo "$SKIPS" >> "$SKIPPED"; exit $CHECK',
    "crates/its/out/its": "cat",
}
GOOD = {"RT": "3 passed, 0", "NEEDS": "0", "EDITS": "0", "CHECK": "0", "SKIPS": ""}
PROGRAMS = "chromium node cc mypy pyflakes3 tsc parallel wasm-opt wasm2c valgrind".split()


def written(path, text, mode=0o755):
    """Writes a file."""
    os.makedirs(os.path.dirname(path), exist_ok=True)
    with open(path, "w", encoding="ascii") as file:
        file.write(text)
    os.chmod(path, mode)


class Folder(unittest.TestCase):
    """Tests with a folder of their own."""

    def setUp(self):
        self.top = tempfile.mkdtemp()
        self.addCleanup(shutil.rmtree, self.top)

    def run_in(self, environment, *words):
        """Runs a command: its status and the lines that it writes."""
        done = subprocess.run(words, env=environment, stdout=subprocess.PIPE, stderr=subprocess.STDOUT, universal_newlines=True)
        return done.returncode, done.stdout.splitlines()


class Gate(Folder):
    """What fails the gate, and how it ends."""

    def gate(self, *words, **changed):
        """Runs the gate: its status, what it writes, and what it has called."""
        for name, text in STUBS.items():
            written(os.path.join(self.top, name), CALLS % text)
        for folder in ("", "exercises/", "links/", "secret/", "long/", "wrong/"):
            for ending in (".its", ".out"):
                written(os.path.join(self.top, "sessions", folder + "a" + ending), "END\n")
        os.makedirs(os.path.join(self.top, ".ci"), exist_ok=True)
        shutil.copy(path_of(".ci/run"), os.path.join(self.top, ".ci"))
        called = os.path.join(self.top, "called")
        written(called, "")
        environment = dict(os.environ, TOP=self.top, PATH=os.path.join(self.top, "bin") + ":" + os.environ["PATH"], **{**GOOD, **changed})
        status, lines = self.run_in(environment, os.path.join(self.top, ".ci", "run"), *words)
        with open(called, encoding="ascii") as file:
            return status, lines, [line.split()[0] for line in file]

    def test_passes(self):
        status, lines, called = self.gate()
        self.assertEqual((status, lines[-1], called.count("its")), (0, "nothing was skipped", 6))
        self.assertIn("3 passed, 0", lines)
        self.assertEqual([name for name in called if name != "its"], ["needs", "rt", "edits", "check-builds", "check"])
        with open(os.path.join(self.top, "log"), encoding="ascii") as file:
            self.assertEqual(sorted(file), ["3 passed, 0\n", "== low\n", "rt: low proved\n"])

    def test_not_proved(self):
        status, lines, called = self.gate(RT="2 passed, 1")
        self.assertEqual((status, lines[-1], called), (1, "2 passed, 1", ["needs", "rt"]))

    def test_fails(self):
        for name in ("NEEDS", "EDITS", "CHECK"):
            status, lines, called = self.gate(**{name: "1"})
            self.assertEqual((status, lines[-1], called[-1]), (1, "nothing was skipped", "check"), name)

    def test_example(self):
        STUBS["crates/its/out/its"], kept = "cat; echo J 0", STUBS["crates/its/out/its"]
        try:
            status, lines, _ = self.gate()
        finally:
            STUBS["crates/its/out/its"] = kept
        self.assertEqual(status, 1)
        self.assertIn("sessions/a.its: its transcript is not sessions/a.out", lines)

    def test_skipped(self):
        for needs, wanted in (("0", 1), ("2", 0)):
            status, lines, _ = self.gate(SKIPS="a, because there is no b", NEEDS=needs)
            self.assertEqual((status, lines[-2:]), (wanted, ["skipped:", "  a, because there is no b"]))

    def test_after(self):
        log = os.path.join(self.top, "given")
        written(log, "given\n")
        status, lines, called = self.gate("--after", log)
        self.assertEqual((status, lines[-1], called[:2]), (0, "nothing was skipped", ["needs", "edits"]))
        self.assertEqual(self.gate("--after", log, EDITS="1")[0], 1)
        status, lines, called = self.gate("--after")
        self.assertEqual((status, lines[-1]), (0, "  tools/edits, because there is no log of rt ci"))
        self.assertFalse({"rt", "edits"} & set(called))


class Needs(Folder):
    """What a machine lacks."""

    def setUp(self):
        super().setUp()
        for name in ("bash", "cat", "cut", "tail"):
            os.symlink(shutil.which(name) or "", os.path.join(self.top, name))
        written(os.path.join(self.top, "id"), "#!/bin/bash\necho $USER_ID\n")

    def needs(self, *words, user="0"):
        """Runs tools/needs with the programs of the folder alone."""
        return self.run_in({"PATH": self.top, "USER_ID": user, "TOP": self.top}, os.path.join(self.top, "bash"), os.path.join(TOOLS, "needs"), *words)

    def test_lists(self):
        status, lines = self.needs()
        self.assertEqual((status, [line.split()[4] for line in lines]), (1, PROGRAMS))
        self.assertIn("needs: there is no cc (Debian: apt-get install gcc libc6-dev) for tools/weblib/check-library", lines)
        for name in PROGRAMS:
            written(os.path.join(self.top, name), "")
        self.assertEqual((self.needs(), self.needs("--install")), ((0, []), (0, [])))

    def test_installs(self):
        programs = " ".join(os.path.join(self.top, name) for name in PROGRAMS)
        chmod = shutil.which("chmod") or ""
        written(os.path.join(self.top, "apt-get"), "#!/bin/bash\necho $* >> $TOP/asked\n[ $1 = update ] || for one in %s; do : > $one; %s 755 $one; done\n" % (
            programs, chmod))
        self.assertEqual(self.needs("--install", user="1000")[0], 2)
        self.assertEqual(self.needs("--install"), (0, []))
        with open(os.path.join(self.top, "asked"), encoding="ascii") as file:
            self.assertEqual([line.split()[0] for line in file], ["update", "install"])

    def test_cannot(self):
        status, lines = self.needs("--install")
        self.assertEqual((status, len(lines)), (2, len(PROGRAMS) + 1))
        written(os.path.join(self.top, "apt-get"), "#!/bin/bash\necho 'E: no network'; exit 100\n")
        written(os.path.join(self.top, "sleep"), "#!/bin/bash\n")
        status, lines = self.needs("--install")
        self.assertEqual((status, lines[:3], len(lines)), (1, ["E: no network"] * 3, len(PROGRAMS) + 3))


if __name__ == "__main__":
    unittest.main()
