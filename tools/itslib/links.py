"""Links and citations of headings in documents and comments: those that lead nowhere."""

import os
import re
from typing import Dict, Iterator, List, NamedTuple, Set

LINK = re.compile(r"\[(?:[^\[\]]|\[[^\]]*\])*\]\(([^)\s]+)\)")
# headings after a link, as: , "Answers" and "What is tested"
QUOTED = r'\s+((?:"[^"]+"(?:,? (?:and|or)\s+|,\s+)?)+)'
AFTER = re.compile("(?:,| and| or)" + QUOTED)
CITED = re.compile(r"((?:docs/)?[A-Z]+\.md)," + QUOTED)
# a line end inside a comment, with the marks of a comment before it goes on
BREAK = re.compile(r"\s*\n\s*(?:--|//[/!]?|#|;)?\s*")


class Document(NamedTuple):
    """The headings of a document as they are written, without marks of code, and their anchors."""
    headings: Set[str]
    anchors: Set[str]


class Fault(NamedTuple):
    """A link or a citation that leads nowhere: its line, and what is wrong."""
    line: int
    wrong: str


def without_code(text: str) -> str:
    """The text with empty lines in place of the lines of its blocks of code."""
    return re.sub(r"(?ms)^ *```.*?^ *```", lambda found: re.sub(r"[^\n]", "", found.group()), text)


def bare(heading: str) -> str:
    """A heading without marks of code, in one line."""
    return " ".join(heading.replace("`", "").split())


def anchor(heading: str) -> str:
    """The anchor of a heading: small letters, digits and dashes for blanks."""
    shown = re.sub(r"\[([^\]]*)\]\([^)]*\)", r"\1", heading)
    return re.sub(r"[^\w\- ]", "", bare(shown).lower()).replace(" ", "-")


def document_of(text: str) -> Document:
    """The headings of a text and their anchors. A heading that occurs again has an anchor with a number."""
    headings = [found.group(1).strip() for found in re.finditer(r"(?m)^#+ +(.*)$", without_code(text))]
    anchors: Set[str] = set()
    counts: Dict[str, int] = {}
    for heading in headings:
        name = anchor(heading)
        anchors.add("%s-%d" % (name, counts[name]) if name in counts else name)
        counts[name] = counts.get(name, 0) + 1
    return Document({bare(heading) for heading in headings}, anchors)


def quoted(words: str) -> List[str]:
    """The headings that are quoted in these words."""
    return [bare(heading) for heading in re.findall(r'"([^"]+)"', words)]


def unknown(documents: Dict[str, Document], path: str, words: str) -> List[str]:
    """The headings that are quoted in these words and that the document of this path does not have."""
    return [heading for heading in quoted(words) if heading not in documents[path].headings]


def faults_in(path: str, text: str, documents: Dict[str, Document], top: str) -> Iterator[Fault]:
    """The links of a document that lead to no file, anchor or heading."""
    prose = without_code(text)
    for found in LINK.finditer(prose):
        target, line = found.group(1), prose.count("\n", 0, found.start()) + 1
        if re.match(r"[a-z]+:", target):
            continue
        name, _, part = target.partition("#")
        goal = os.path.normpath(os.path.join(os.path.dirname(path), name)) if name else path
        if not os.path.exists(os.path.join(top, goal)):
            yield Fault(line, "there is no %s" % target)
        elif goal in documents:
            if part and part not in documents[goal].anchors:
                yield Fault(line, "there is no anchor %s" % target)
            after = AFTER.match(prose, found.end())
            for heading in unknown(documents, goal, after.group(1)) if after else []:
                yield Fault(line, '%s has no heading "%s"' % (goal, heading))


def citations_in(text: str, documents: Dict[str, Document]) -> Iterator[str]:
    """What is wrong with the headings that comments cite, as docs/CALLS.md, "Files"."""
    for found in CITED.finditer(BREAK.sub(" ", text)):
        name = found.group(1)
        path = name if name in documents else os.path.join("docs", name)
        if path not in documents:
            yield "there is no %s" % name
            continue
        for heading in unknown(documents, path, found.group(2)):
            yield '%s has no heading "%s"' % (path, heading)
