"""The crates by crates.txt: their sections, what each uses, and what the head of each says."""

import os
import re
from dataclasses import dataclass
from typing import Dict, Iterator, List, Set

from .session import Wrong

# The sections of crates.txt, lowest first
SECTIONS = ("Words and records", "Text", "Definitions", "Stores", "Processor", "Monitor", "Second machine", "Program", "Tests")
TESTS = "Tests"


@dataclass
class Crate:
    """A crate: its section, and the crates of the repository that it uses, in the order of the list."""
    name: str
    section: str
    uses: List[str]


@dataclass
class House:
    """The crates in the order of the list, and what is said of each section."""
    crates: List[Crate]
    about: Dict[str, str]

    def named(self, name: str) -> Crate:
        """The crate with this name."""
        return next(crate for crate in self.crates if crate.name == name)

    def of(self, section: str) -> List[Crate]:
        """The crates of a section."""
        return [crate for crate in self.crates if crate.section == section]

    def below(self, name: str) -> Set[str]:
        """All crates that a crate uses, also through others."""
        found: Set[str] = set()
        left = list(self.named(name).uses)
        while left:
            one = left.pop()
            if one not in found:
                found.add(one)
                left += self.named(one).uses
        return found

    def arrows(self) -> Dict[str, List[str]]:
        """What each crate uses, without what it uses through another one that it uses (the transitive reduction)."""
        below = {crate.name: self.below(crate.name) for crate in self.crates}
        return {crate.name: [one for one in crate.uses if not any(one in below[other] for other in crate.uses)] for crate in self.crates}


def house_of(listed: str) -> House:
    """The crates of the text of crates.txt. A line `# SECTION: what it has` begins a section."""
    house, section = House([], {}), ""
    for line in listed.split("\n"):
        name, colon, rest = line.lstrip("# ").partition(":")
        if line.startswith("#"):
            if colon and name in SECTIONS:
                section = name
                house.about[name] = rest.strip()
        elif colon:
            house.crates.append(Crate(name.split()[0], section, rest.split()))
    names = {crate.name for crate in house.crates}
    for crate in house.crates:
        crate.uses = [one for one in crate.uses if one in names]
    return house


def wrong_order(house: House) -> Iterator[str]:
    """What is wrong with the sections and the order of the list."""
    if tuple(house.about) != SECTIONS:
        yield "the sections have to be %s, in this order" % ", ".join(SECTIONS)
    seen: Set[str] = set()
    for crate in house.crates:
        if not crate.section:
            yield "%s is in no section" % crate.name
        if crate.name.startswith("test_") != (crate.section == TESTS):
            yield "%s: crates of tests, and no others, are in the section %s and have names that begin with test_" % (crate.name, TESTS)
        for one in crate.uses:
            if one not in seen:
                yield "%s is above %s, which it uses" % (crate.name, one)
        seen.add(crate.name)


def head_of(folder: str) -> str:
    """The comment at the head of a crate's root file, in one line."""
    for name in ("lib.rt", "main.rt"):
        path = os.path.join(folder, "src", name)
        if os.path.isfile(path):
            with open(path, encoding="utf-8") as file:
                lines = file.read().split("\n")
            count = next(at for at, line in enumerate(lines) if not line.startswith("//!"))
            return " ".join(line[3:].strip() for line in lines[:count])
    raise Wrong("%s: there is no lib.rt and no main.rt" % folder)


def summary_of(head: str) -> str:
    """The first sentence of a head, without the documents and manuals that it cites."""
    return re.split(r"\.(?= |$)", re.sub(r" \((?:docs/|processor )[^)]*\)", "", head))[0] + "."


def wrong_tests(crate: Crate, house: House, head: str, top: str) -> Iterator[str]:
    """What is wrong with the places of tests that a head names: `Tests: CRATE, CRATE/src/FILE.rt.` or `Tests: none, because it has no code.`"""
    found = re.search(r" Tests: (.*)\.$", head)
    if not found:
        yield "%s: the head of its root file has to end with 'Tests: ..', which says where its tests are" % crate.name
        return
    if found.group(1) == "none, because it has no code":
        if os.listdir(os.path.join(top, "crates", crate.name, "src")) != ["lib.rt"]:
            yield "%s: it has code, so its head has to say where its tests are" % crate.name
        return
    for place in found.group(1).split(", "):
        tester = place.split("/")[0]
        if not os.path.exists(os.path.join(top, "crates", place)):
            yield "%s: its head names the tests %s, which are not there" % (crate.name, place)
        elif tester != crate.name and not (house.named(tester).section == TESTS and crate.name in house.below(tester)):
            yield "%s: its head names %s, which is no crate of tests that uses it" % (crate.name, tester)
