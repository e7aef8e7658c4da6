"""Functions that are written alike, and constants that have one value, in several files of code."""

import difflib
import re
from typing import Dict, Iterator, List, NamedTuple, Tuple

LEAST_LINES = 3            # a body of fewer lines is not compared
ALIKE = 0.9                # this part of the words of two bodies has to be the same, in their order

FUNCTION = re.compile(r"(\s*)(?:pub(?:\([^)]*\))? )?(?:const |unsafe |extern \"C\" )*fn (\w+)")
CONSTANT = re.compile(r"(?:pub(?:\([^)]*\))? )?const (\w+): ([^=]+) =\s*(.*?);$")
WORD = re.compile(r"[A-Za-z_]\w*|\d\w*|::|=>|->|==|!=|<=|>=|&&|\|\||\S")
RECEIVERS = ("self", "w", "world", "seen", "m", "caller")
FIRST = RECEIVERS + ("slot", "job", "ask")


class Body(NamedTuple):
    """A function: its file, its name, the line at which it begins, how many lines its body has, and its words without receivers."""
    path: str
    name: str
    at: int
    lines: int
    words: Tuple[str, ...]


class Pair(NamedTuple):
    """Two functions whose bodies are alike, and how much of them is the same."""
    one: Body
    other: Body
    same: float


class Constant(NamedTuple):
    """A constant: its file, its name, its type and its value."""
    path: str
    name: str
    kind: str
    value: str


def words_of(lines: List[str]) -> Tuple[str, ...]:
    """The words of a body. A receiver before a point is dropped, and so is what only one side hands on as the first arguments of a call: the
    world, the slot, the job and what the call asks for."""
    found = WORD.findall(" ".join(line for line in lines if not line.startswith("//")))
    words: List[str] = []
    at = 0
    while at < len(found):
        word, after = found[at], found[at + 1] if at + 1 < len(found) else ""
        if word in ("&", "mut", "*") or word == "," and after in (")", "}", "]"):
            at += 1
        elif word in RECEIVERS and after == ".":
            at += 2
        elif word in FIRST and after in (",", ")") and words[-1:] == ["("]:
            at += 2 if after == "," else 1
        else:
            words.append(word)
            at += 1
    return tuple(words)


def bodies_of(path: str, text: str) -> Iterator[Body]:
    """The functions of a file whose bodies have enough lines. In the layout of the kit a body is between `{` and `}` below its `fn`."""
    lines = text.split("\n")
    for at, line in enumerate(lines):
        found = FUNCTION.match(line)
        if not found:
            continue
        margin = found.group(1)
        ends = [n for n in range(at, len(lines)) if lines[n] == margin + "}"][:1]
        begins = [n for n in range(at, ends[0] if ends else at) if lines[n] == margin + "{"][:1]
        if begins:
            body = [one.strip() for one in lines[begins[0] + 1:ends[0]] if one.strip()]
            if len(body) >= LEAST_LINES:
                yield Body(path, found.group(2), at + 1, len(body), words_of(body))


def pairs_of(ones: List[Body], others: List[Body]) -> Iterator[Pair]:
    """The functions of two sides whose bodies are alike."""
    for one in ones:
        for other in others:
            if 2 * min(len(one.words), len(other.words)) < ALIKE * (len(one.words) + len(other.words)):
                continue
            compared = difflib.SequenceMatcher(None, one.words, other.words, autojunk=False)
            if compared.real_quick_ratio() >= ALIKE and compared.quick_ratio() >= ALIKE and compared.ratio() >= ALIKE:
                yield Pair(one, other, compared.ratio())


def constants_of(path: str, text: str) -> Iterator[Constant]:
    """The constants of a file that have a number or a text as their value."""
    for line in re.sub(r"=\n\s*", "= ", text).split("\n"):
        found = CONSTANT.match(line.strip())
        if found and re.match(r"[\d\"b]", found.group(3)):
            yield Constant(path, found.group(1), found.group(2).strip(), found.group(3).replace("_", ""))


def repeated(constants: List[Constant]) -> List[List[Constant]]:
    """The constants that are in several files: those of one name, and those of one value above 16."""
    by_key: Dict[Tuple[str, str], List[Constant]] = {}
    for one in constants:
        keys = [("name", one.name)] + ([("value", one.value)] if is_large(one.value) else [])
        for key in keys:
            by_key.setdefault(key, []).append(one)
    groups = [sorted(set(group)) for group in by_key.values() if len({one.path for one in group}) > 1]
    return sorted(group for at, group in enumerate(groups) if group not in groups[:at] and not any(set(group) < set(other) for other in groups))


def is_large(value: str) -> bool:
    """Whether a value is not one that many things have by chance."""
    if not re.fullmatch(r"0o[0-7]+|\d+", value):
        return True
    return int(value.replace("0o", ""), 8 if value.startswith("0o") else 10) > 16
