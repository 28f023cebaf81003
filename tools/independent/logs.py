"""The text of a log, and the first fault of a section (docs/FORMATS.md)."""
import re
from collections import namedtuple
from functools import cache

from axioms import instance
from clauses import Ground
from hints import Propagation, is_lemma, is_shown
from syntax import Refused

SMALL = r"(?:25[0-5]|2[0-4][0-9]|1[0-9][0-9]|[1-9]?[0-9])"
NUMBER = r"(?:0|[1-9][0-9]{0,9})"
ATOM = r"(?:E\.S\.S|B\.S\.S\.S\.S|H\.S\.S\.S|A\.S\.S|D\.N)".replace("S", SMALL).replace("N", NUMBER)
LINE = r"(?:a(?: S){3,6}|g N|e(?: -?ATOM)*|l(?: -?ATOM)*%s)\n".replace("ATOM", ATOM).replace("S", SMALL)
LINES = {it: re.compile((LINE % rest).replace("N", NUMBER)) for it, rest in [(1, ""), (2, " ;(?: N)*|d(?: N)*")]}
EQUALITY, LONG = re.compile(r"E\.([0-9]+)\.([0-9]+)"), re.compile(r"[0-9]{10}")
Section = namedtuple("Section", "first lines")  # the number of its first line in the file


def is_spelled(line: str, version: int) -> bool:
    is_ordered = "E" not in line or all(int(x) <= int(y) for x, y in EQUALITY.findall(line))
    return bool(LINES[version].fullmatch(line)) and is_ordered and all(int(it) < 2**32 for it in LONG.findall(line))


def read_log(text: str, first: int = 1, what: str = "log") -> tuple:
    """The version and the sections of a log, or its first line outside the grammar. Lines are numbered from `first`."""
    lines, sections = re.findall(r"[^\n]*\n|[^\n]+", text) or [""], []
    version = {"grass log 1\n": 1, "grass log 2\n": 2}.get(lines[0])
    for number, line in enumerate(lines, first):
        if version and line == "condition %d\n" % (len(sections) + 1):
            sections.append(Section(number + 1, []))
        elif sections and is_spelled(line, version):
            sections[-1].lines.append(line)
        elif number > first or not version:
            raise Refused("%s line %d" % (what, number), 5)
    return version, sections


class Judge:
    """Takes the lines of one section in turn. `standing` has the clauses of the lines that stand, by position."""

    def __init__(self, ground: Ground, version: int):
        self.ground, self.standing, self.position, self.last = ground, {}, 0, None
        self.propagation = Propagation() if version == 1 else None
        self.literal = cache(self.literal)

    def literal(self, word: str) -> tuple | None:
        """A literal, whether it is positive, and its atom; None where it is out of range."""
        kind, *numbers = word.lstrip("-").split(".")
        atom = (kind, *map(int, numbers))
        first = {"E": self.ground.terms, "D": self.ground.definitions}.get(kind, self.ground.versions)
        if atom[1] >= first or max(atom[2:], default=0) >= self.ground.terms:
            return None
        number, is_positive = self.ground.atom(*atom), word[0] != "-"
        return number if is_positive else -number, is_positive, atom

    def clause(self, kind: str, words: list, hints: list) -> tuple | None:
        """The clause of a line; None where it isn't as its kind asks."""
        if kind == "a":
            row, version, *terms = map(int, words)
            return instance(self.ground, row, version, terms)
        if kind == "g":
            return self.ground.clauses[int(words[0])] if int(words[0]) < len(self.ground.clauses) else None
        literals = [self.literal(word) for word in words]
        if None in literals:
            return None
        clause = tuple(number for number, _, _ in literals)
        if kind == "e":
            is_valid = is_lemma([(is_positive, atom) for _, is_positive, atom in literals])
        elif self.propagation:
            is_valid = self.propagation.shows(clause)
        else:
            is_valid = is_shown(clause, (self.standing[hint] for hint in hints))
        return clause if is_valid else None

    def fault(self, line: str) -> str | None:
        """Takes the next line; its fault, or None."""
        self.position += 1
        front, _, back = line.partition(" ;")
        kind, *words = front.split()
        named = [int(word) for word in (words if kind == "d" else back.split())]
        if any(it not in self.standing for it in named) or kind == "d" and len(set(named)) < len(named):
            return "NoSuchLine"
        if kind == "d":
            for it in named:
                del self.standing[it]
            self.last = None
            return None
        clause = self.clause(kind, words, named)
        if clause is None:
            return {"a": "NotInstance", "g": "NotClause", "e": "NotLemma", "l": "NotImplied"}[kind]
        self.standing[self.position] = self.last = clause
        if self.propagation:
            self.propagation.add(clause)


def judge(ground: Ground, section: Section, version: int, what: str = "log"):
    """Refuses the first faulty line of a section."""
    judging = Judge(ground, version)
    for number, line in enumerate(section.lines, section.first):
        fault = judging.fault(line)
        if fault:
            raise Refused("%s line %d, %s" % (what, number, fault), 5)
    if judging.last != ():
        raise Refused("%s line %d, NoEmptyClause" % (what, section.first + len(section.lines)), 5)
