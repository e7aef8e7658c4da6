"""tools/bench, tools/measure and tools/refused-memory: what they count, and the limits in docs/COST.md."""

import os
import stat
import tempfile
import unittest
from types import SimpleNamespace
from typing import Any, Dict
from unittest import mock

from shared import called, loaded, text_of
from itslib.session import Wrong, split

BENCH, MEASURE, REFUSED = loaded("bench"), loaded("measure"), loaded("refused-memory")

TABLE = BENCH.HEAD + """
|---|---|---|
| `gen 100`: all that it takes, by its ticks (and more) | 584 | 400 |
| a tick of `SIOT` to a console (of 64 bytes) | 250 | 12 |
| a line | 4599 | |

| another | table | 7 |
"""


def script(folder, text):
    """A program in a folder."""
    path = os.path.join(folder, "program")
    with open(path, "w", encoding="ascii") as file:
        file.write("#!/bin/sh\n" + text)
    os.chmod(path, stat.S_IRWXU)
    return path


class Limits(unittest.TestCase):
    """The limits of tools/bench."""

    def rows(self):
        """What is counted, without a program."""
        with mock.patch.object(BENCH, "assembled", lambda program, text: "LOAD U B -\nGO 0\n"):
            return BENCH.rows("none")

    def test_table(self):
        self.assertEqual(BENCH.limits_of("# Cost\n\n" + TABLE), {"gen 100": 400, "a tick of SIOT to a console": 12})

    def test_no_table(self):
        with self.assertRaisesRegex(Wrong, "docs/COST.md has no table"):
            BENCH.limits_of(TABLE.replace("At most", "Limit"))

    def test_the_page(self):
        page = text_of("docs/COST.md")
        limits = BENCH.limits_of(page)
        for name in [BENCH.GEN] + [row.name for row in self.rows()]:
            self.assertIn("| %s" % name, page.replace("`", ""))
            wanted = 110 if "SOJG" in name else 120 if "mixed" in name else 250 if "64 jobs" in name else 400 if name.startswith(("gen", "a tick")) else None
            self.assertEqual(limits.get(name), wanted, name)
        self.assertEqual(len(limits), 11)

    def test_sessions(self):
        for row in self.rows():
            few, more = (row.session(n) for n in (row.rounds, row.rounds + 1))
            self.assertNotEqual(more, few, row.name)
            self.assertTrue(all(line.split(";")[0].strip() for line in split(row.session(1))))

    def test_line(self):
        self.assertEqual(BENCH.line_of("a", 401.4, {"a": 400}, True), "PAST    401  a (at most 400)\n")
        self.assertEqual(BENCH.line_of("b", 7.0, {"a": 400}, False), "          7  b\n")


class Judged(unittest.TestCase):
    """What verify takes by what run takes."""

    def rows(self):
        """What is judged, without a program."""
        with mock.patch.object(BENCH, "assembled", lambda program, text: "LOAD U B -\nGO 0\n"):
            return BENCH.judged_rows("none")

    def test_table(self):
        table = "\n" + BENCH.AGAINST + "\n|---|---|---|\n| `TICK` of a | 1.05 | 1.2 |\n| b | 4.00 | |\n\n| another | table | 7 |\n"
        self.assertEqual(BENCH.most_of(table, BENCH.AGAINST), {"TICK of a": 1.2})
        with self.assertRaisesRegex(Wrong, "docs/COST.md has no table"):
            BENCH.most_of(table.replace("At most", "Limit"), BENCH.AGAINST)

    def test_the_page(self):
        page = text_of("docs/COST.md")
        names = [row.name for row in self.rows()]
        for name in names:
            self.assertIn("| %s |" % name, page.replace("`", ""))
        limits = BENCH.most_of(page, BENCH.AGAINST)
        self.assertEqual(set(limits), set(names))
        for name, limit in limits.items():
            wanted = {"SIOT from a file": 1.4, "RUN of 64 jobs of which 60 wait": 2.8}.get(name, 1.2 if name.startswith(("TICK in", "SIOT", "OPEN")) else 1.6)
            self.assertLessEqual(limit, wanted, name)

    def test_sessions(self):
        for row in self.rows():
            self.assertTrue(all(line.split(";")[0].strip() for line in split(row.session(1))))

    def test_against(self):
        row = BENCH.Row("a", lambda n: "x" * n, 10, 4)

        def spent(program, words, text):
            """What a run takes: the transcript of n lines is as long as the session."""
            return 1000.0 + (8 if words == ["run"] else 6) * text.count("x")

        with tempfile.TemporaryDirectory() as folder, mock.patch.object(BENCH, "spent", spent):
            self.assertEqual(BENCH.against(script(folder, "cat"), row), 1.5)

    def test_past(self):
        for number, past in ((1.2, False), (1.21, True)):
            with mock.patch.multiple(BENCH, judged_rows=lambda program: [BENCH.Row("a", str, 1, 1), BENCH.Row("b", str, 1, 1)],
                                     against=lambda program, row: number if row.name == "a" else 9.0, most_of=lambda page, head: {"a": 1.2},
                                     write=mock.DEFAULT) as put:
                self.assertEqual(BENCH.judged("its", ""), past)
            self.assertIn("  b\n", put["write"].call_args[0][0])


class Forms(unittest.TestCase):
    """The module in node and the native program, by the proved build."""

    def test_the_page(self):
        limits = BENCH.most_of(text_of("docs/COST.md"), BENCH.FORMS)
        self.assertEqual(limits, {"ten million ticks, module in node by proved build": 4, "ten million ticks, native program by proved build": 1.5,
                                  "first answer of sessions/first.its, module in node, seconds": 0.4})

    def test_ten_million(self):
        seconds = {"a": 1.0, "b": 3.0}
        with mock.patch.multiple(BENCH, assembled=lambda program, text: "", elapsed=lambda program, session: 9 + seconds[program] * session.count("TICK")):
            self.assertEqual(BENCH.ten_million(["a", "b"], 10), [10.0, 30.0])

    def test_first_answer(self):
        with tempfile.TemporaryDirectory() as folder:
            self.assertLess(BENCH.first_answer(script(folder, "echo J 0; exec sleep 3")), 3)

    def past(self, took, first, there=("module", "native")):
        """Whether a number is past its limit, and what is written."""
        with mock.patch.multiple(BENCH, found_form=lambda form: form * (form in there), ten_million=lambda programs: [2.0] + [took] * (len(programs) - 1),
                                 first_answer=lambda program: first, write=mock.DEFAULT) as put:
            past = BENCH.other_forms("its", text_of("docs/COST.md"))
            return past, "".join(call[0][0] for call in put["write"].call_args_list)

    def test_limits(self):
        self.assertFalse(self.past(3.0, 0.4)[0])
        for took, first, name in ((3.02, 0.4, "native program by"), (3.0, 0.41, "first answer")):
            past, written = self.past(took, first)
            self.assertTrue(past)
            self.assertEqual([name in line for line in written.splitlines() if line.startswith("PAST")], [True])
        past, written = self.past(7.9, 0.1, ["module"])
        self.assertFalse(past)
        self.assertIn("skipped: the native program", written)


class Counting(unittest.TestCase):
    """What tools/bench counts, and how it ends."""

    def test_unit(self):
        row = BENCH.Row("a", lambda n: "x" * n, 10, 4)
        with mock.patch.multiple(BENCH, spent=lambda program, words, text: 1000.0 + 8 * text.count("x"), looked_at=lambda *words: None):
            self.assertEqual(BENCH.counted("its", row), 2.0)

    def test_stopped_job(self):
        row = BENCH.Row("a", str, 1, 1)
        with tempfile.TemporaryDirectory() as folder:
            for written in ("T 0 1. 2*", "T 0 4. 1* 5. 6w", "D 0 0\\nE 0 000002 7-"):
                BENCH.looked_at(script(folder, "cat >/dev/null; printf 'J 0\\n%s\\n'" % written), row, "")
            for written in ("T 0 1*\\nT 0 4. 7-", "T 0 7- 1."):
                program = script(folder, "cat >/dev/null; printf 'J 0\\n%s\\nT 0 1.\\n'" % written)
                with self.assertRaisesRegex(Wrong, "a: its job stops before the last tick that is counted"):
                    BENCH.looked_at(program, row, "")
                BENCH.looked_at(program, row._replace(runs=False), "")
            with self.assertRaisesRegex(Wrong, r"a: its session ends with status 2: \? 3 SYNTAX"):
                BENCH.looked_at(script(folder, "cat >/dev/null; echo '? 3 SYNTAX'; exit 2"), row, "")

    def test_status(self):
        row = BENCH.Row("a tick", str, 1, 1)
        for counter, number, status in (("valgrind", 400.0, 0), ("valgrind", 401.0, 1), (None, 401.0, 0)):
            with mock.patch.multiple(BENCH, rows=lambda program: [row], counted=lambda program, row: number, spent=lambda *words: 0.0,
                                     limits_of=lambda page: {"a tick": 400}, judged=lambda program, page: False, other_forms=lambda program, page: False), mock.patch("shutil.which", lambda name: counter):
                ended = called(BENCH, "/bin/sh")
            self.assertEqual((ended.status, "PAST" in ended.written), (status, status == 1))
            self.assertIn("%6.0f  a tick (at most 400)\n" % number, ended.written)

    def test_assembled(self):
        with tempfile.TemporaryDirectory() as folder:
            program = script(folder, "cat >/dev/null; printf 'VERSION 2\\nLOAD U B -\\nGO 100\\nEND\\n'")
            self.assertEqual(BENCH.assembled(program, ""), "LOAD U B -\nGO 100\n")
            for text in ("cat >/dev/null; echo '? 1 SYNTAX'", "cat >/dev/null; exit 5"):
                self.assertRaises(Wrong, BENCH.assembled, script(folder, text), "")

    def test_no_program(self):
        for module in (BENCH, MEASURE):
            for path in ("/none", "/"):
                ended = called(module, path)
                self.assertEqual(ended, (1, "", "%s: %s is no program\n" % (module.__name__, path)))


class Refused(unittest.TestCase):
    """tools/refused-memory, with runs that end as they would with so much memory."""

    def counted(self, status_of):
        """How the runs of a session are counted, if a run with so much memory ends with this status and output."""
        def run(program, words, session, limit=None):
            """One run."""
            status, written = status_of(limit or 1 << 40)
            return SimpleNamespace(returncode=status, stdout=written)

        with mock.patch.object(REFUSED, "run", run), mock.patch("builtins.print"):
            return REFUSED.tried("its", ["run"], b"")

    def test_session(self):
        step, whole = REFUSED.STEP, (0, b"J 0\n")
        self.assertEqual(self.counted(lambda limit: (5, b"") if limit < 11 * step else whole), (8, 10, 0))
        self.assertEqual(self.counted(lambda limit: (127, b"") if limit < 3 * step else (5, b"") if limit < 11 * step else whole), (8, 8, 0))
        self.assertEqual(self.counted(lambda limit: (5, b"J") if limit < 11 * step else whole), (8, 0, 10))
        self.assertEqual(self.counted(lambda limit: whole), (8, 0, 0))

    def test_words(self):
        def run(program, words, session, limit):
            """One run with many words."""
            rooms = limit // REFUSED.WORDS_STEP
            good, wrong = REFUSED.NO_ROOM if rooms < 4 else REFUSED.NO_LIST if rooms < 6 else REFUSED.ROOM
            return SimpleNamespace(returncode=wrong if words[-1] else good)

        with mock.patch.object(REFUSED, "run", run):
            self.assertEqual(REFUSED.tried_words("its"), (3, 2, 8, 0))

    def test_limit(self):
        with tempfile.TemporaryDirectory() as folder:
            program = script(folder, "cat; echo $(ulimit -v) $*; exit 3")
            for limit, said in ((64 << 20, b"65536"), (None, b"unlimited")):
                ended = REFUSED.run(program, [b"gen", b"1"], b"J\n", limit)
                self.assertEqual((ended.returncode, ended.stdout), (3, b"J\n" + said + b" gen 1\n"))

    def test_nothing_is_refused(self):
        counts: Dict[str, Any] = {"tried": lambda program, words, session: (8, 0, 0), "tried_words": lambda program: (3, 2, 8, 0)}
        for name, found, status in ((None, None, 1), ("tried", (8, 4, 0), 0), ("tried", (0, 4, 0), 1), ("tried", (8, 4, 1), 1),
                                    ("tried_words", (0, 2, 8, 0), 1), ("tried_words", (3, 0, 8, 0), 1), ("tried_words", (3, 2, 0, 0), 1)):
            made = dict(counts, tried=lambda program, words, session: (8, 4, 0)) if name else counts
            if name:
                made[name] = lambda *words: found
            with mock.patch.multiple(REFUSED, **made):
                self.assertEqual(called(REFUSED, "its").status, status, (name, found))

    def test_usage(self):
        for words, status in (((), 1), (("--help",), 0), (("a", "b"), 1)):
            ended = called(REFUSED, *words)
            self.assertEqual((ended.status, ended.written.split("\n")[0]), (status, "refused-memory PROGRAM"))


class Measures(unittest.TestCase):
    """tools/measure, with a substitute for the program."""

    def test_sessions(self):
        self.assertEqual(len(split(MEASURE.looking(5).decode())), 3 + 5 + 1)
        session, transcript = MEASURE.crowd()
        self.assertEqual((session.count(b"LOAD "), transcript.split()[-1], transcript.count(b"\n")), (64, b"77", 64))
        self.assertEqual(MEASURE.reading(3).count(b"TICK 0 1000\n"), 3)
        self.assertEqual(MEASURE.reading(0).count(b" 1" * 16), MEASURE.WORDS // 16)

    def test_words_read(self):
        with tempfile.TemporaryDirectory() as folder:
            program = script(folder, "cat >/dev/null; printf 'T 0 1*\\nE 0 000002 000000000123\\n'")
            self.assertEqual(MEASURE.words_read(program, 0), 0o123)
            with self.assertRaisesRegex(Wrong, "the session that reads a long file ends with status 5"):
                MEASURE.words_read(script(folder, "cat >/dev/null; echo E 1; exit 5"), 0)

    def test_resident(self):
        with tempfile.TemporaryDirectory() as folder:
            self.assertGreater(MEASURE.resident(script(folder, "echo J 0; cat >/dev/null"), b"CLOCK 1\nEND\n", b"J 0\n"), 100)
            with self.assertRaisesRegex(Wrong, "does not have its transcript"), mock.patch.object(MEASURE, "PATIENCE", 0.3):
                MEASURE.resident(script(folder, "exec cat >/dev/null"), b"END\n", b"J 0\n")

    def test_halves(self):
        words = MEASURE.WORDS
        with mock.patch.multiple(MEASURE, words_read=lambda program, lines: lines * 512, seconds=lambda program, lines: 5 + lines / 100):
            first, second = MEASURE.halves("its")
        self.assertAlmostEqual(first, words // 512 * 98 // 100 / 200, 1)
        self.assertAlmostEqual(first, second, 1)
        with mock.patch.object(MEASURE, "words_read", lambda program, lines: 64), self.assertRaisesRegex(Wrong, "lines of ticks do not read the long file"):
            MEASURE.halves("its")

    def test_runs(self):
        with tempfile.TemporaryDirectory() as folder:
            ended = MEASURE.run(script(folder, "cat; exit 5"), b"CLOCK 1\n")
            self.assertEqual((ended.status, ended.output), (5, b"CLOCK 1\n"))
            self.assertGreaterEqual(ended.whole, ended.seconds)
            self.assertEqual(MEASURE.run(script(folder, "echo $1"), b"", command="verify").output, b"verify\n")
            self.assertEqual(MEASURE.run(script(folder, "kill -9 $$"), b"").status, -9)
            refused = MEASURE.with_data(script(folder, "ulimit -d"), b"", 12288)
            self.assertEqual(refused.output, b"12288\n")
        self.assertGreater(MEASURE.writes(b"E 0 000100 000000000000\n" * 100), 0)

    def test_limits(self):
        def rows(**changed):
            """Whether each number is within its limit."""
            found: Dict[str, Any] = dict(halves=lambda program: (1.0, 1.3), resident=lambda *words: 6144, looks=lambda program: (2.0, 1.0),
                                         with_data=runs, judging=lambda program: [])
            with mock.patch.multiple(MEASURE, **{**found, **changed}):
                return [within for _, within in MEASURE.measured("its")]

        def runs(program, session, kilobytes):
            """A run with so much memory."""
            wanted = text_of("sessions/first.out").encode()
            return MEASURE.Run(0, wanted, 0.0, 0.0) if kilobytes >= MEASURE.ENOUGH else MEASURE.Run(5, b"", 0.0, 0.0)

        self.assertEqual(rows(), [True] * 6)
        self.assertEqual(rows(halves=lambda program: (1.0, 1.31)), [False] + [True] * 5)
        self.assertEqual(rows(looks=lambda program: (2.1, 1.0)), [True, False] + [True] * 4)
        self.assertEqual(rows(resident=lambda *words: 6145), [True] * 3 + [False] + [True] * 2)
        self.assertEqual(rows(with_data=lambda *words: MEASURE.Run(5, b"", 0.0, 0.0)), [True] * 4 + [False, True])
        self.assertEqual(rows(with_data=lambda *words: MEASURE.Run(0, b"", 0.0, 0.0)), [True] * 4 + [False] * 2)

    def test_ratios(self):
        ended = MEASURE.Run(0, b"", 0.0, 0.0)
        with mock.patch.multiple(MEASURE, halves=lambda program: (2.0, 2.5), resident=lambda *words: 7, looks=lambda program: (1.5, 0.5),
                                 with_data=lambda *words: ended, judging=lambda program: []):
            told = [text for text, _ in MEASURE.measured("its")]
        self.assertIn("the first half takes 2.000 s, the second 2.500 s; the second over the first is 1.25, at most 1.3", told[0])
        self.assertIn("200000 EXAM lines: 1.500 s, and writing their transcript 0.500 s; the first over the second is 3.00, at most 2.0", told[1])
        with mock.patch.multiple(MEASURE, many_lines=lambda: [("a", b"")], judged=lambda program, session: (2.0, 3.0)):
            self.assertEqual(MEASURE.judging("its"), [("a: run takes 2.000 s, and verify 3.000 s; the second over the first is 1.50, at most 1.2", False)])

    def test_judged(self):
        sessions = []

        def run(program, session, prepare=None, command="run"):
            """A run whose time is the length of its input in seconds, and half of it in user mode."""
            sessions.append((command, session))
            return MEASURE.Run(0, b"J 0\n", len(session) / 2, float(len(session)))

        with mock.patch.object(MEASURE, "run", run):
            self.assertEqual(MEASURE.judged("its", b"END\n"), (4.0, 8.0))
        self.assertEqual(set(sessions), {("run", b"END\n"), ("verify", b"END\nJ 0\n")})

    def test_best(self):
        took = iter([9.0, 3.0] + [7.0] * MEASURE.RUNS)
        with mock.patch.object(MEASURE, "run", lambda program, session: MEASURE.Run(0, b"", next(took), 0.0)):
            self.assertEqual(MEASURE.seconds("its", 0), 3.0)

    def test_many_lines(self):
        for name, session in MEASURE.many_lines():
            self.assertTrue(all(line.split(";")[0].strip() for line in split(session[:4000].decode().rsplit("\n", 1)[0])), name)
        for taken, within in (((1.0, 1.2), True), ((1.0, 1.21), False)):
            with mock.patch.multiple(MEASURE, many_lines=lambda: [("a", b"")], judged=lambda program, session: taken):
                self.assertEqual([ok for _, ok in MEASURE.judging("its")], [within])
        with tempfile.TemporaryDirectory() as folder:
            self.assertEqual(len(MEASURE.judged(script(folder, "cat"), b"END\n")), 2)
            with self.assertRaisesRegex(Wrong, "run ends with status 0, and verify with 2"):
                MEASURE.judged(script(folder, "cat >/dev/null; [ $1 = run ] || { echo NO 1; exit 2; }"), b"END\n")

    def test_status(self):
        for within, status, written in ((True, 0, "ok    a\n"), (False, 1, "PAST  a\n")):
            with mock.patch.object(MEASURE, "measured", lambda program: [("a", within)]):
                self.assertEqual(called(MEASURE, "/bin/sh"), (status, written, ""))


if __name__ == "__main__":
    unittest.main()
