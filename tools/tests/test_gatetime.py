"""tools/gatetime: logs of the gate, their table, and what is seen of processes."""

import os
import stat
import tempfile
import unittest
from unittest import mock

from shared import called, loaded
from itslib.session import Wrong

REAL = loaded("gatetime")

LOG = """\
0.4 said == low
31.5 ran low proofs 1.1 12.1
31.6 said rt: low proved
57.2 ran low tests 1.1 24.3
77.4 ran low edits 57.2 8.4
77.5 ran app programs 77.4 0.2
77.6 said rt: top is kept: an earlier run on this machine proved the same files over the same libraries
77.6 said 3 passed, 0 failed
"""
TABLE = """\
`rt ci`: 3 passed, 0 failed, in 78 seconds; 45 seconds of processor time; crates that earlier runs proved: 1.

| Crate | Proofs | Tests | Edits | Programs | All | Ends at |
|---|---|---|---|---|---|---|
| low | 12 | 24 | 8 |  | 45 | 77 |
| app |  |  |  |  | 0 | 78 |
| all | 12 | 24 | 8 |  | 45 | 78 |
"""

# A substitute for rt: it begins a process of the tests of a crate, which takes some time.
RT = """#!/bin/sh
echo "== low: its tests"
sh -c 'i=0; while [ $i -lt 200000 ]; do i=$((i + 1)); done; sleep 1; exit 0' rattle --crate-name low --test
echo "1 passed, 2 failed"
exit 1
"""


def process(words="", folder="/", ticks=0, parent=1, began=5):
    """A process."""
    return REAL.Process(parent, began, ticks, words.split(), folder)


class Logs(unittest.TestCase):
    """What a log says."""

    def table(self, text):
        """The table of a log in a file."""
        with tempfile.NamedTemporaryFile("w", suffix=".log") as file:
            file.write(text)
            file.flush()
            return called(REAL, file.name)

    def test_table(self):
        self.assertEqual(self.table(LOG), (0, TABLE, ""))

    def test_cut(self):
        self.assertIn("`rt ci`: it did not end, in 32 seconds; 12 seconds", self.table(LOG[:LOG.index("57.2 ran")]).written)
        self.assertTrue(self.table("").written.endswith("|---|\n"))

    def test_order(self):
        ran = [REAL.Ran("a", "proofs", 0.0, 1.0, 9.0), REAL.Ran("b", "edits", 0.0, 2.0, 5.0), REAL.Ran("a", "proofs", 0.0, 2.0, 3.0)]
        rows = REAL.table(REAL.Log([], ran, 9.0))[2:]
        self.assertEqual(rows, ["| a | 3 |  |  |  | 3 | 9 |", "| b |  |  | 2 |  | 2 | 5 |", "| all | 3 |  | 2 |  | 5 | 9 |"])

    def test_refused(self):
        for text in ("rt: low proved\n", "1.0 ran low nothing 1.0 1.0\n", "1.0 ran low proofs 1.0\n", "0.1 said a\n\n"):
            with self.subTest(text=text), self.assertRaisesRegex(Wrong, "this is no log of tools/gatetime --run"):
                REAL.log_of("LOG", text)
        self.assertEqual(called(REAL, "/none"), (1, "", "gatetime: /none: No such file or directory\n"))


class Processes(unittest.TestCase):
    """What is seen of processes."""

    def test_duty(self):
        for words, folder, duty in (
                ("rattle build --crate-name low src/lib.rt --jobs 2", "/r/crates/low", ("low", "proofs")),
                ("rattle build --crate-name low src/lib.rt --test", "/r/crates/low", ("low", "tests")),
                ("rattle check --crate-name low src/lib.rt", "/tmp/rt-edit-7-x", ("low", "edits")),
                ("/tmp/rt-run-7-x/bin/app", "/", ("app", "programs")),
                ("rattle-test --seconds 60 /tmp/rt-run-7-x/bin/app_tests", "/", ("app", "programs")),
                ("python3 rt ci", "/r", None), ("rattle --crate-name", "/r", None), ("", "", None)):
            with self.subTest(words=words):
                self.assertEqual(REAL.duty_of(process(words, folder)), duty)

    def test_looks(self):
        watch, low = REAL.Watch(10), "rattle --crate-name low"
        seen = {20: process("sh", parent=10), 21: process(low, ticks=300, parent=20), 22: process(low, ticks=100, parent=21),
                30: process(low, ticks=900, parent=1)}
        self.assertEqual(watch.look(seen, 1.0), [])
        seen[21] = process(low, ticks=500, parent=20)           # with those of 22, which has ended
        del seen[22]
        self.assertEqual(watch.look(seen, 2.0), [])
        seen[21] = process("rattle --crate-name up", parent=20, began=6)      # another process of the same number
        self.assertEqual(watch.look(seen, 3.0), [("low", "proofs", 1.0, 500 / REAL.TICKS, 3.0)])
        self.assertEqual([one[:2] for one in watch.ended(4.0, set())], [("up", "proofs")])
        self.assertEqual(watch.ended(5.0, set()), [])

    def test_the_system(self):
        own = REAL.processes()[os.getpid()]
        self.assertEqual((own.parent, own.folder), (os.getppid(), os.getcwd()))
        self.assertGreater(own.ticks, 0)
        self.assertIsNone(REAL.process_of(1 << 30))


class Run(unittest.TestCase):
    """--run, with a substitute for rt."""

    def test_run(self):
        with tempfile.TemporaryDirectory() as folder:
            rt, log = os.path.join(folder, "rt"), os.path.join(folder, "log")
            with open(rt, "w", encoding="ascii") as file:
                file.write(RT)
            os.chmod(rt, stat.S_IRWXU)
            with mock.patch.dict(os.environ, PATH=folder + ":" + os.environ["PATH"]):
                ended = called(REAL, "--run", log)
            self.assertEqual(ended, (1, "== low: its tests\n1 passed, 2 failed\n", ""))
            with open(log, encoding="utf-8") as file:
                kept = REAL.log_of("log", file.read())
        self.assertEqual(kept.said, ["== low: its tests", "1 passed, 2 failed"])
        self.assertEqual([(one.crate, one.step) for one in kept.ran], [("low", "tests")])
        self.assertGreater(kept.ran[0].processor, 0)

    def test_no_rt(self):
        with tempfile.TemporaryDirectory() as folder, mock.patch.dict(os.environ, PATH=folder):
            ended = called(REAL, "--run", os.path.join(folder, "log"))
        self.assertEqual(ended[:2], (1, ""))
        self.assertTrue(ended.said.startswith("gatetime: rt: No such file or directory"), ended.said)
        self.assertEqual(called(REAL, "--run", "/none/log"), (1, "", "gatetime: /none/log: No such file or directory\n"))


if __name__ == "__main__":
    unittest.main()
