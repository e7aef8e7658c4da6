"""tools/prose: the words, links and headings that it refuses."""

import unittest
from typing import Dict, List
from unittest import mock

from shared import TOP, called, loaded
from itslib.comments import comments_of
from itslib.links import Document, anchor, citations_in, document_of, faults_in

REAL = loaded("prose")

CALLS = "# Calls\n\n## `.IOT` of a word\n\n## Files\n\n## Files\n\n```\n# no heading\n```\n"


def known() -> Dict[str, Document]:
    """The headings of two documents."""
    return {"README.md": document_of("# its\n"), "docs/CALLS.md": document_of(CALLS)}


class Words(unittest.TestCase):
    """Private uses of words."""

    def found(self, text: str) -> List[str]:
        """The words that are refused in this text."""
        return [words for _, words, _ in REAL.uses_in("README.md", text)]

    def test_use(self) -> None:
        self.assertEqual(self.found("It stands behind it."), ["behind", "stands"])

    def test_code_is_passed_over(self) -> None:
        self.assertEqual(self.found("The clause `stands` of `behind`."), [])

    def test_line(self) -> None:
        self.assertEqual([line for line, _, _ in REAL.uses_in("README.md", "One.\n\nTwo is\nbehind it.\n")], [4])


class Comments(unittest.TestCase):
    """What is read of a source text."""

    # a file, its text, and what is read of each line
    TEXTS = (
        ("a.py", '"""One.\n\n    code\nmore"""\nX = "behind"   # two\n', ["# One.", "", "    code", "more", "# two"]),
        ("tool", '#!/usr/bin/env python3\n"""Who."""\n', ["# /usr/bin/env python3", "# Who."]),
        ("b.js", 'const a = "// no"; // yes\n/* of\n * two lines */ const r = /["/*]/;\n// x\n// y\n', ["# yes", "# of", "two lines", "# x", "y"]),
        ("c.css", "a::after { content: \"/* no */\"; }   /* yes */\n", ["# yes"]),
        ("c.rt", "//! Head.\n/// Of `f`.\nlet q = '\"'; let s = \"// no\"; // 'tis\n", ["# Head.", "Of `f`.", "# 'tis"]),
        ("D.antt", "-- What it is.\nx = y -- why\n", ["# What it is.", "# why"]),
        ("its", "#!/usr/bin/env bash\n# one\necho $# ${a#b} '# no' \"# no\" # two\ncat <<'END'\n# no\nEND\n",
         ["# /usr/bin/env bash", "# one", "# two"]),
        ("crates.txt", "# all\nits_word\n", ["# all"]),
        ("x.json", "# no\n", [""]),
    )

    def test_comments(self) -> None:
        for path, text, lines in self.TEXTS:
            with self.subTest(path=path):
                self.assertEqual(comments_of(path, text).rstrip("\n").split("\n"), lines)

    def test_place(self) -> None:
        self.assertEqual([use[:2] for use in REAL.uses_in("a.py", comments_of("a.py", "x = 1\n# It comes\n# behind.\n"))], [(3, "behind")])

    def test_place_at_the_beginning(self) -> None:
        self.assertEqual(list(REAL.uses_in("a.py", comments_of("a.py", "x = 1   # where it begins\n"))), [])


class Links(unittest.TestCase):
    """Links and citations that lead nowhere."""

    def wrong(self, text: str) -> List[str]:
        """What is wrong with the links of this text, which is README.md."""
        return [fault.wrong for fault in faults_in("README.md", text, known(), TOP)]

    def test_anchor(self) -> None:
        self.assertEqual(anchor("LOAD, `a/` and GO: a job"), "load-a-and-go-a-job")

    def test_headings(self) -> None:
        document = document_of(CALLS)
        self.assertEqual(document.headings, {"Calls", ".IOT of a word", "Files"})
        self.assertEqual(document.anchors, {"calls", "iot-of-a-word", "files", "files-1"})

    def test_right(self) -> None:
        self.assertEqual(self.wrong('See [CALLS](docs/CALLS.md), "Files" and "`.IOT` of\na word", and [there](docs/CALLS.md#files-1).'), [])

    def test_page_and_network(self) -> None:
        self.assertEqual(self.wrong("[the page](docs/its.html#example=first.its), [a site](https://example.com/none)"), [])

    def test_no_file(self) -> None:
        self.assertEqual(self.wrong("![a picture](docs/none.png)"), ["there is no docs/none.png"])

    def test_no_anchor(self) -> None:
        self.assertEqual(self.wrong("[there](docs/CALLS.md#core)"), ["there is no anchor docs/CALLS.md#core"])
        self.assertEqual(self.wrong("[here](#none)"), ["there is no anchor #none"])

    def test_no_heading(self) -> None:
        self.assertEqual(self.wrong('[CALLS](docs/CALLS.md), "Core"'), ['docs/CALLS.md has no heading "Core"'])

    def test_line(self) -> None:
        self.assertEqual([fault.line for fault in faults_in("README.md", "One.\n\n[two](none.md)\n", known(), TOP)], [3])

    def test_comments(self) -> None:
        self.assertEqual(list(citations_in('-- Calls on files (docs/CALLS.md,\n-- "Files").\n', known())), [])
        self.assertEqual(list(citations_in('//! Calls (docs/CALLS.md, "Core").\n', known())), ['docs/CALLS.md has no heading "Core"'])
        self.assertEqual(list(citations_in('# docs/NONE.md, "Files"\n', known())), ["there is no docs/NONE.md"])


class Repository(unittest.TestCase):
    """The documents and the comments as they are."""

    def test_files(self) -> None:
        files = REAL.written()
        for path in ("crates/its_top/specs/Promise.antt", "crates/its_core/src/lib.rt", "tools/page/page.js", "tools/page/page.css", "tools/web", "its"):
            self.assertIn(path, files)
        self.assertEqual([path for path in files if "/out/" in path], [])

    def test_nothing_is_refused(self) -> None:
        self.assertEqual(list(REAL.faults()) + list(REAL.faults_of_comments()), [])

    def test_status(self) -> None:
        none: List[str] = []
        for found, status in ((none, 0), (["README.md:1: 'behind': write after; past\n"], 1)):
            with mock.patch.multiple(REAL, faults=lambda: found, faults_of_comments=lambda: []):
                self.assertEqual(called(REAL), (status, "".join(found), ""))


if __name__ == "__main__":
    unittest.main()
