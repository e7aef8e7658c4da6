"""The definitions that distinguish the events of a session, and the places that are right for that.

A definition does so if one of its clauses has a constructor in a pattern: of `Item`, and then it walks a session from item to item;
or of what a line does (`Lined`, `Operated`); or of `Event`, the kinds of line. A relation by rules does so if a rule names a
constructor. A test by `==` or by a function that does so is not seen.
"""

import os
import re
from typing import Callable, Dict, Iterator, List, NamedTuple, Set, Tuple

ORDER = WALK, EFFECT, KIND = "walk", "effect", "kind"
SAID = {WALK: "a session", EFFECT: "what a line does", KIND: "the kinds of line"}
VARIANTS = "Rattle.its_records.specs.declared.session.Event.TheVariants"
TYPES = (
    ("Item", "Rattle.its_records.specs.Item", WALK),
    ("Lined", "Rattle.its_plain.specs.Operator.Lines", EFFECT),
    ("Operated", "Rattle.its_plain.specs.Operator", EFFECT),
)

# The places that may distinguish events: below crates/, the file and its definitions. First those that a promise rests on.
PROMISED = {
    # the transcript, the course of its run, and the judge
    "its_plain/specs/Transcript.antt": {WALK: "Shows"},
    "its_plain/specs/Transcript/Course.antt": {WALK: "course", EFFECT: "past"},
    "its_verify/specs/Rulings.antt": {WALK: "judged", EFFECT: "gone"},
    # what each line does, what it may touch, and how many turns it asks for
    "its_plain/specs/Operator/Lines.antt": {KIND: "operate lined"},
    "its_security/specs/OperatorParts.antt": {KIND: "touched"},
    "its_plain/specs/Transcript/Turns.antt": {KIND: "turns_asked ticks_asked turn_kept"},
    # of one kind of line: the bytes of TYPE, IN and OUT, the words of SENT and of `/`
    "its_plain/specs/Promise/Ledger.antt": {KIND: "typed_by placed_by"},
    "its_plain/specs/Promise/LinkLedger.antt": {KIND: "sent_by"},
    "its_security/specs/RunIntegrity.antt": {KIND: "IsSpared"},
    # reading and writing a line
    "its_session/specs/Events.antt": {WALK: "before_end", KIND: "place_after version_after item_then"},
    "its_session/specs/Writing.antt": {KIND: "text_of_event HasWords"},
    # what may follow a session that is saved
    "its_session/specs/Fits.antt": {WALK: "ReadAt", KIND: "EventFits place_of Stands"},
}
OTHER = {
    # the text that the stepped machine writes, and the command `check`
    "its_stepped/specs/Lines.antt": {
        WALK: "told", EFFECT: "told_by state_after lifted lifted_line machine_after touched_by refusal",
        KIND: "called_on unwound_for looks_at_files"},
    "its_top/specs/Checking.antt": {WALK: "checked_from"},
    # contracts of the code that performs a line
    "its_direct/specs/Events.antt": {EFFECT: "Obeys", KIND: "IsTold MayStand"},
    "its_verify/specs/Verifier.antt": {KIND: "RunsOutside"},
    # contracts of the loops that read a session: is it at its end
    "its_reader/specs/Items.antt": {KIND: "is_end"},
    "its_verify/specs/Going.antt": {KIND: "is_end"},
    "its_top/specs/Answer.antt": {KIND: "FindsStart"},
    "its_top/specs/Telling.antt": {KIND: "goes_on_after"},
    # the state that a session leaves, and the lines of the state part obeyed one by one
    "its_top/specs/Leaving.antt": {WALK: "left", EFFECT: "left_by"},
    "its_saved/specs/Text.antt": {EFFECT: "Obeys"},
    # the generated session
    "its_session/specs/Generated.antt": {KIND: "IsGenerated"},
}

USE = re.compile(r"(?:unfoldable )?(?:pub )?use (Rattle[\w.]*?)(?: as (\w+)|\.\{([^}]*)\})?$")
SIGNATURE = re.compile(r"\s*(?:(?:abbrev|unfoldable|pub) )*([^\s(){}]+) :(?: |$)")
RELATION = re.compile(r"(?:pub )?data (\w+)")
NAME = re.compile(r"[\w'.]+")
EQUALS = re.compile(r" =(?: |$)")


class Split(NamedTuple):
    """A definition that distinguishes events: its file, its name, what it distinguishes, and the line that does so first."""
    path: str
    name: str
    what: str
    line: int


def event_names(lines: List[str]) -> List[str]:
    """The kinds of event, by the lines of the declaration of `Event`."""
    return [found.group(1) for found in (re.match(r"    (\w+)(?: \{|,)", line) for line in lines) if found]


def rule_names(text: str, name: str) -> List[str]:
    """The constructors of a type of a file of definitions."""
    _, _, after = text.partition("data %s :" % name)
    block = after.splitlines()[1:]
    end = next((at for at, line in enumerate(block) if not line.startswith(" ")), len(block))
    return [found.group(1) for found in (re.match(r"  (\w+) :", line) for line in block[:end]) if found]


def constructors(read: Callable[[str], str], events: List[str]) -> Dict[str, str]:
    """The whole names of all constructors, and what each belongs to. A file is read below the top of the repository."""
    found = {"%s.%s" % (VARIANTS, name): KIND for name in event_names(events)}
    for name, module, what in TYPES:
        path = os.path.join("crates", *module.split(".")[1:]) + ".antt"
        found.update(("%s.%s" % (module, rule), what) for rule in rule_names(read(path), name))
    return found


def names_in(text: str) -> Dict[str, str]:
    """The whole names of what a file imports."""
    names: Dict[str, str] = {}
    for line in text.splitlines():
        found = USE.match(line)
        if not found:
            continue
        module, alias, words = found.groups()
        if alias:
            names[alias] = module
        for word in words.split(",") if words else ():
            there, _, here = word.strip().partition(" as ")
            names[here or there] = "%s.%s" % (module, there)
    return names


def clauses(text: str) -> Iterator[Tuple[int, str, str]]:
    """The number of the line, the name and the left side of each clause; of a relation by rules all its lines."""
    lines = text.splitlines()
    declared = {found.group(1) for found in map(SIGNATURE.match, lines) if found}
    relation = ""
    for at, line in enumerate(lines, 1):
        words = line.split()
        if not words or words[0].startswith("--"):
            continue
        if not line.startswith(" "):
            found = RELATION.match(line)
            relation = found.group(1) if found else ""
        if relation:
            yield at, relation, line
        elif words[0] in declared and not SIGNATURE.match(line):
            yield at, words[0], EQUALS.split(line)[0]


def splits(path: str, text: str, known: Dict[str, str]) -> List[Split]:
    """The definitions of this file that distinguish events, by the whole names of the constructors."""
    module, names = "Rattle." + ".".join(path[:-len(".antt")].split(os.sep)[1:]), names_in(text)
    types = {name for name, where, _ in TYPES if where == module}
    found: Dict[str, Split] = {}
    for at, name, left in clauses(text):
        for word in () if name in types else NAME.findall(left):
            head, dot, rest = word.partition(".")
            what = known.get(names.get(head, "%s.%s" % (module, head)) + dot + rest)
            if what and (name not in found or ORDER.index(what) < ORDER.index(found[name].what)):
                found[name] = Split(path, name, what, at)
    return list(found.values())


def places(table: Dict[str, Dict[str, str]]) -> Iterator[Tuple[str, str, str]]:
    """The places of a table: file, name, and what is distinguished."""
    for path, row in table.items():
        for what, names in row.items():
            for name in names.split():
                yield os.path.join("crates", *path.split("/")), name, what


def wrong_splits(found: List[Split], inside: Set[str]) -> Iterator[str]:
    """Places that distinguish events and are in no table, and places of the tables that distinguish none; `inside` has the files on which
    the promise rests."""
    right = set(places(PROMISED)) | set(places(OTHER))
    for split in found:
        if split[:3] not in right:
            yield "%s:%d: %s distinguishes %s, and is no place for that (tools/itslib/splits.py)" % (
                split.path, split.line, split.name, SAID[split.what])
    for path, name, what in sorted(right - {split[:3] for split in found}):
        yield "%s: tools/itslib/splits.py says that %s distinguishes %s, which it does not" % (path, name, SAID[what])
    for table in (PROMISED, OTHER):
        for path in sorted({path for path, _, _ in places(table)}):
            if (path in inside) != (table is PROMISED):
                yield "%s: tools/itslib/splits.py has it in the wrong table" % path


def counted_splits(found: List[Split], inside: Set[str]) -> str:
    """How docs/PROVED.md says how many there are."""
    mine = [split.what for split in found if split.path in inside]
    counts = tuple(mine.count(what) for what in ORDER)
    return "%d of them walk a session, %d look at what a line does, and %d at the kind of a line" % counts
