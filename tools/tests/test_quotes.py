"""tools/quotes: the quotations of documents."""

import unittest

from shared import called, loaded
from itslib.session import Wrong, exchanges

QUOTES = loaded("quotes")


class Quotes(unittest.TestCase):
    """Quotations, and sessions with their answers."""

    def test_quotes(self):
        self.assertEqual(called(QUOTES, "README.md", "docs/TOUR.md").status, 0)
        for document, said in (("docs/GLOSSARY.md", "docs/GLOSSARY.md: nothing is quoted"), ("docs/NONE.md", "docs/NONE.md: No such file or directory")):
            self.assertEqual(called(QUOTES, document), (1, "", "quotes: %s\n" % said))

    def test_blocks(self):
        lines = "a\n```\nx\n```\nb\n```text f\ny\nz\n```".split("\n")
        self.assertEqual(list(QUOTES.blocks_of(lines)), [(2, [], ["x"]), (6, ["text", "f"], ["y", "z"])])
        with self.assertRaisesRegex(Wrong, r"line 2 \(octal 2\): a block is not closed"):
            list(QUOTES.blocks_of(lines[:3]))

    def test_quotations(self):
        for words, block, quoted in ((["session", "sessions/first.its"], ["TICK 0 2", "T 0 2*"], True), (["session", "sessions/first.its"], ["T 0 2*"], False),
                                     (["session", "sessions/first.its"], ["TICK 0 2", "T 0 2."], False), (["text", "sessions/first.out"], ["J 0"], True),
                                     (["text", "sessions/first.out"], ["J 0", "J 0"], False), (["text", "sessions/first.out"], [], False)):
            self.assertEqual(QUOTES.is_quoted(words, block), quoted, block)
        self.assertRaises(Wrong, QUOTES.is_quoted, ["session", "sessions/first.out"], ["J 0"])
        self.assertEqual(QUOTES.uncommented(["; a", "X ; b", "  ;c"]), ["X"])
        self.assertEqual(QUOTES.excerpt_of(["SHOW D A B", "W 1 2 3 1", "/ 000000000001", "/ 1"]),
                         [("SHOW D A B", ["W 1 2 3 1", "/ 000000000001"]), ("/ 1", [])])

    def test_exchanges(self):
        told = exchanges("VERSION 2\nLOAD U J 0\n100/ 254000000100\nGO 100\nRUN 2 2\nTICK 8\n", "J 0\nT 0 2*\nT 0 2*\n? 6 SYNTAX\n")
        self.assertEqual([(one.number, one.kind, one.answer, one.reason, one.letters) for one in told[3:]],
                         [(4, "GO", [], "", []), (5, "RUN", ["T 0 2*", "T 0 2*"], "", ["**", "**"]), (6, "TICK", ["? 6 SYNTAX"], "SYNTAX", [])])
        with self.assertRaisesRegex(Wrong, "session, line 1 .octal 1.: transcript, line 1 .octal 1.: here is the end"):
            exchanges("LOAD U J 0\n", "")


if __name__ == "__main__":
    unittest.main()
