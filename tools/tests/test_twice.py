"""tools/twice: the runs of lines that are the same on both sides, and the list of their reasons."""

import os
import tempfile
import unittest
from unittest import mock

from shared import called, loaded

from itslib import bodies

REAL = loaded("twice")

BODY = "    let a = 1;\n    let b = 2;\n    let c = 3;\n    let d = 4;\n    a + b + c + d\n"
MONITOR = "//! One.\nuse its_word::Word;\n\n/// Adds.\nfn sum(n: u8) -> u8\n    requires { n < 2 }\n{\n" + BODY + "}\n"
CHECKER = "ghost use Rattle.x.{y};\nuse its_core::Core;\n\nimpl Plain {\n/// Adds as well.\n#[tactic(auto)]\nfn sum(n: u8) -> u8\n    ensures { result\n      ≡ n }\n{\n\n" + BODY + "}\n}\n"
RECORD = "-- only one is another\npub record One (old new : X) : Type 0 where\n" + "".join("  pub %s : new.%s ≡ old.%s\n" % (3 * (x,)) for x in "abcde")
BODIES = "\n# Bodies.\n[bodies]\n"
CHANCE = "\n[constants]\n"
REASONS = "# Words.\n[%s]\n%s" + BODIES + CHANCE
ROW = "sum | crates/its_world/src/a.rt | crates/its_direct/src/b.rt | It has to be.\n"
ALIKE = "crates/its_world/src/a.rt:5 sum and crates/its_direct/src/b.rt:7 sum: 100 of 100 words are the same"
SAID = "crates/its_world/src/a.rt:5-12 and crates/its_direct/src/b.rt:7-16 have 6 lines in common (sum)"


class Lines(unittest.TestCase):
    """The lines that count, and which of them are the same."""

    def runs(self, one, other, ending=".rt"):
        """The runs of two texts."""
        return list(REAL.runs_of("one", REAL.lines_of(one, ending), "other", REAL.lines_of(other, ending)))

    def test_lines(self):
        self.assertEqual([(line.at, line.text, line.item) for line in REAL.lines_of(CHECKER, ".rt")],
                         [(4, "impl Plain {", "Plain"), (7, "fn sum(n: u8) -> u8", "sum"), (12, "let a = 1;", "sum"), (13, "let b = 2;", "sum"),
                          (14, "let c = 3;", "sum"), (15, "let d = 4;", "sum"), (16, "a + b + c + d", "sum")])

    def test_items(self):
        for line, ending, item in (("    pub(crate) fn put<'a>(x: u8)", ".rt", "put"), ("impl<'a> Plain<'a> {", ".rt", "Plain"), ("pub const A: u8 = 1;", ".rt", "A"),
                                   ("    fnord();", ".rt", "before"), ("abbrev pub x_at : ℕ → ℕ", ".antt", "x_at"), ("unfoldable pub y : ℕ", ".antt", "y"),
                                   ("pub record Z (old new : X) : Type 0 where", ".antt", "Z"), ("  pub core : new ≡ old", ".antt", "before")):
            self.assertEqual(REAL.item_of(line, ending, "before"), item)

    def test_run(self):
        self.assertEqual(self.runs(MONITOR, CHECKER), [REAL.Run("one", "other", (5, 12), (7, 16), ("sum",), 6)])

    def test_five_are_no_run(self):
        self.assertEqual(self.runs(MONITOR, CHECKER.replace("let d = 4;", "let d = 5;")), [])
        self.assertEqual(self.runs(MONITOR, CHECKER.replace("fn sum", "fn summed")), [])

    def test_longest(self):
        longer = BODY.replace("    a +", "    let e = 5;\n    let f = 6;\n    a +")
        self.assertEqual([run.length for run in self.runs(MONITOR.replace(BODY, longer), CHECKER.replace(BODY, longer))], [8])

    def test_over_several_items(self):
        two = "fn a() -> u8 {\n    1\n}\nfn b() -> u8 {\n    2\n}\nfn c() -> u8 {\n    3\n}\n"
        self.assertEqual([(run.items, run.length) for run in self.runs(two, two)], [(("a", "b", "c"), 6)])

    def test_definitions(self):
        self.assertEqual([(run.items, run.length) for run in self.runs(RECORD, "use A.{b}\n\n" + RECORD, ".antt")], [(("One",), 6)])
        self.assertEqual(self.runs(RECORD, RECORD.replace("record One", "record Two"), ".antt"), [])


class Bodies(unittest.TestCase):
    """Whole bodies, without receivers."""

    def body(self, text, name="f"):
        """A function with these lines in its body."""
        return "impl X {\n    fn %s(&self) -> u8\n        ensures { result ≡ 1 }\n    {\n%s    }\n}\n" % (
            name, "".join("        %s\n" % line for line in text))

    def test_bodies(self):
        found = list(bodies.bodies_of("a", self.body(["let a = self.b;", "", "// why", "c(a);", "a"], "put")))
        self.assertEqual([(one.name, one.at, one.lines) for one in found], [("put", 2, 4)])
        self.assertEqual(list(bodies.bodies_of("a", self.body(["a;", "b"]))), [])

    def test_receivers(self):
        for one, other in ((["w.core.get(a)"], ["self.core.get(a)"]), (["next(w, slot, job, ask, true)"], ["self.next(true)"]),
                           (["f(&mut w.jobs)"], ["f(&self.jobs,)"]), (["f(w)"], ["self.f()"])):
            self.assertEqual(bodies.words_of(one), bodies.words_of(other))
        self.assertNotEqual(bodies.words_of(["f(slot)"]), bodies.words_of(["f(a)"]))

    def test_pairs(self):
        lines = ["let a = w.first(b, c);", "let d = a + 1;", "d.min(c).max(b)"]
        ones = list(bodies.bodies_of("a", self.body(lines, "one")))
        for change, count in (("max(b)", 1), ("max(e)", 1), ("then(|| 1).map(|e| e + c + b).filter(|x| x > d)", 0)):
            others = list(bodies.bodies_of("b", self.body([line.replace("max(b)", change) for line in lines], "other")))
            self.assertEqual(len(list(bodies.pairs_of(ones, others))), count)

    def test_constants(self):
        text = "pub const A: u32 = 0o1_000;\nconst B: usize =\n    512;\nconst C: u8 = 3;\nconst D: usize = A as usize;\n"
        found = list(bodies.constants_of("x", text))
        self.assertEqual([(one.name, one.value) for one in found], [("A", "0o1000"), ("B", "512"), ("C", "3")])
        others = list(bodies.constants_of("y", "const E: u32 = 0o1000;\nconst F: u8 = 3;\nconst B: u8 = 7;\n"))
        self.assertEqual([[one.name for one in group] for group in bodies.repeated(found + others)], [["A", "E"], ["B", "B"]])


class Reasons(unittest.TestCase):
    """The list."""

    def test_rows(self):
        self.assertEqual(REAL.reasons_of(REASONS % (REAL.LINES, "a, b | x | y | why\n")), [(["a", "b"], "x", "y")])
        self.assertEqual(REAL.reasons_of(REASONS % (REAL.LINES, "")), [])

    def test_refused(self):
        for row in ("a | x | y | ", "a | x | why"):
            with self.assertRaisesRegex(REAL.Wrong, "is no line of what"):
                REAL.reasons_of(REASONS % (REAL.LINES, row + "\n"))
        with self.assertRaisesRegex(REAL.Wrong, r"there is no \[lines\]"):
            REAL.reasons_of(REASONS % ("others", ROW))


class Calls(unittest.TestCase):
    """The tool on a repository."""

    def told(self, rows, monitor=MONITOR, *words, bodies=ROW, checker=CHECKER, chance=""):
        """What the tool says of a repository with these reasons, these texts of both machines, and these reasons of bodies and of constants."""
        reasons = (REASONS % (REAL.LINES, rows)).replace(BODIES, BODIES + bodies).replace(CHANCE, CHANCE + chance)
        files = {"crates/its_world/src/a.rt": monitor, "crates/its_world/src/a/tests.rt": CHECKER, "crates/its_direct/src/b.rt": checker,
                 "crates/its_direct/src/b.antt": MONITOR, "tools/twice.txt": reasons}
        with tempfile.TemporaryDirectory() as top, mock.patch.object(REAL, "TOP", top):
            for name, text in files.items():
                os.makedirs(os.path.dirname(os.path.join(top, name)), exist_ok=True)
                with open(os.path.join(top, name), "w", encoding="utf-8") as file:
                    file.write(text)
            return called(REAL, *words)

    def test_the_repository(self):
        self.assertEqual(called(REAL), (0, "", ""))

    def test_no_reason(self):
        self.assertEqual(self.told(""), (1, SAID + "\n", ""))
        self.assertEqual(self.told(ROW.replace("sum", "other"))[0], 1)
        self.assertEqual(self.told(ROW.replace("b.rt", "c.rt"))[0], 1)

    def test_reason(self):
        self.assertEqual(self.told(ROW), (0, "", ""))
        self.assertEqual(self.told(ROW, MONITOR, "--all"), (0, SAID + ": on purpose\n" + ALIKE + ": on purpose\n", ""))

    def test_bodies(self):
        self.assertEqual(self.told(ROW, bodies=""), (1, ALIKE + "\n", ""))
        said = "tools/twice.txt: 'other' is not alike in crates/its_world/src/a.rt and crates/its_direct/src/b.rt\n"
        self.assertEqual(self.told(ROW, bodies=ROW + ROW.replace("sum", "other")), (1, said, ""))

    def test_constants(self):
        text = "const A: u32 = 0o1000;\npub const B: u8 =\n    3;\n"
        self.assertEqual(self.told(ROW, MONITOR + text, "--constants"), (0, "", ""))
        self.assertEqual(self.told(ROW, MONITOR + text + "const E: usize = 0o1000;\n", "--constants"), (0, "", ""))
        self.assertEqual(self.told(ROW, MONITOR + text, "--constants", checker=CHECKER + "const C: u8 = 3;\n"), (0, "", ""))

    def test_constants_in_two_files(self):
        one, alike = "const A: u32 = 0o1000;\n", "crates/its_direct/src/b.rt %s; crates/its_world/src/a.rt A = 0o1000"
        by_value, by_name = CHECKER + "const C: usize = 0o1_000;\n", CHECKER + "const A: u32 = 7;\n"
        self.assertEqual(self.told(ROW, MONITOR + one, "--constants", checker=by_value), (1, alike % "C = 0o1000" + "\n", ""))
        self.assertEqual(self.told(ROW, MONITOR + one, "--constants", checker=by_name), (1, alike % "A = 7" + "\n", ""))
        row = "its_world::A, its_direct::C | a size, and a mask\n"
        self.assertEqual(self.told(ROW, MONITOR + one, "--constants", checker=by_value, chance=row), (0, "", ""))
        self.assertEqual(self.told(ROW, MONITOR + one, "--constants", "--all", checker=by_value, chance=row),
                         (0, alike % "C = 0o1000" + ": by chance\n", ""))
        stale = "tools/twice.txt: 'its_direct::C, its_world::A' are not alike in several files\n"
        self.assertEqual(self.told(ROW, MONITOR + one, "--constants", chance=row), (1, stale, ""))
        self.assertIn("is no line of which and why", self.told(ROW, MONITOR + one, "--constants", chance="its_world::A | \n").said)

    def test_constants_of_the_repository(self):
        self.assertEqual(called(REAL, "--constants"), (0, "", ""))

    def test_a_reason_for_nothing(self):
        said = "tools/twice.txt: 'sum' is not the same in crates/its_world/src/a.rt and crates/its_direct/src/b.rt\n"
        self.assertEqual(self.told(ROW, MONITOR.replace("a + b", "b + a")), (1, said, ""))

    def test_help(self):
        self.assertIn("six or more lines", called(REAL, "--help").written)


if __name__ == "__main__":
    unittest.main()
