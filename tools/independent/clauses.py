"""Formulas and clause form (docs/CLAUSES.md): the ground clauses of a condition or a question.

A literal is a number: an atom is above 0, and its opposite is the same number below 0. A formula is a literal, or a
tuple: "not" and a formula, "and" or "or" and any formulas, "iff" and two."""
import itertools
from typing import Callable

from paths import Access
from syntax import Acc, And, Cases, Compare, Emp, Free, Leaf, Lseg, Not, PointsTo, Write
from terms import Asked, Fresh, Part, Symbolic

TRUE, FALSE = ("and",), ("or",)


class Ground:
    """Clauses in the order of their numbers, each a tuple of literals. Atoms are spelled as in a log, and numbered from
    1 as they are met: ("E", x, y), ("B", version, x, y, z), ("H", version, x, v), ("A", version, x), ("D", number)."""

    def __init__(self, terms: int, versions: int, successors: dict):
        self.terms, self.versions, self.next, self.each = terms, versions, successors, range(terms)
        self.atoms, self.clauses, self.definitions = {}, [], 0

    def atom(self, *atom) -> int:
        return self.atoms.setdefault(atom, len(self.atoms) + 1)

    def equal(self, x: int, y: int) -> int:
        return self.atom("E", min(x, y), max(x, y))

    def define(self) -> int:
        self.definitions += 1
        return self.atom("D", self.definitions - 1)

    def literal(self, formula) -> int:
        """The literal of a formula, after the clauses that define it."""
        if isinstance(formula, int):
            return formula
        kind, *members = formula
        if kind == "not":
            return -self.literal(members[0])
        literals = [self.literal(member) for member in members]
        d = self.define()
        if kind == "iff":
            f, g = literals
            self.clauses += [(-d, -f, g), (-d, f, -g), (d, f, g), (d, -f, -g)]
        else:
            sign = 1 if kind == "and" else -1
            self.clauses += [(-sign * d, sign * literal) for literal in literals]
            self.clauses.append((sign * d, *[-sign * literal for literal in literals]))
        return d

    def add(self, *formulas):
        for formula in formulas:
            self.clauses.append((self.literal(formula),))

    def boolean(self, it):
        """A test, or a claim, over terms as a formula."""
        match it:
            case Compare(left, equal, right):
                return self.equal(left, right) if equal else -self.equal(left, right)
            case Leaf(assertion):
                return self.whole(assertion, 0)
            case Not(inner):
                return "not", self.boolean(inner)
        return ("and" if isinstance(it, And) else "or", *map(self.boolean, it.members))

    def cases(self, test, yes, no):
        return "or", ("and", self.boolean(test), yes), ("and", ("not", self.boolean(test)), no)

    def meaning(self, it, i: int) -> tuple:
        """Of an assertion in version i: some part of the heap meets it, and whether a term is in its footprint."""
        match it:
            case Emp():
                return TRUE, lambda z: FALSE
            case Compare():
                return self.boolean(it), lambda z: FALSE
            case Acc(at):
                return self.atom("A", i, at), lambda z: self.equal(z, at)
            case PointsTo(at, to):
                return ("and", self.atom("A", i, at), self.equal(self.next[i, at], to)), lambda z: self.equal(z, at)
            case Lseg(x, y):
                return self.atom("B", i, x, y, y), lambda z: ("and", self.atom("B", i, x, z, y), -self.equal(z, y))
            case Cases(test, yes, no):
                (yes, in_yes), (no, in_no) = self.meaning(yes, i), self.meaning(no, i)
                return self.cases(test, yes, no), lambda z: self.cases(test, in_yes(z), in_no(z))
        structures, inside = zip(*[self.meaning(member, i) for member in it.members])  # of a `Star`
        apart = [("not", ("and", one(z), other(z)))
                 for k, one in enumerate(inside) for other in inside[k + 1:] for z in self.each]
        return ("and", *structures, *apart), lambda z: ("or", *[in_member(z) for in_member in inside])

    def whole(self, it, i: int):
        """The whole heap of version i meets the assertion."""
        structure, inside = self.meaning(it, i)
        return ("and", structure, *[("iff", self.atom("A", i, z), inside(z)) for z in self.each])

    def version(self, i: int):
        """What holds of each version: null isn't allocated, each cell hops to a term, and to its successor term."""
        allocated, hop = (lambda x: self.atom("A", i, x)), (lambda x, v: self.atom("H", i, x, v))
        self.add(-allocated(0), *[("or", -allocated(x), *[hop(x, v) for v in self.each]) for x in self.each])
        for (version, x), t in self.next.items():  # in the order of the terms
            if version == i:
                self.add(("or", -allocated(x), hop(x, t)), ("or", allocated(x), self.equal(x, t)))

    def keep(self, i: int, changed: Callable):
        """Cells that aren't changed hop in version i + 1 as in version i."""
        for z, v in itertools.product(self.each, repeat=2):
            self.add(("or", changed(z), ("iff", self.atom("H", i + 1, z, v), self.atom("H", i, z, v))))

    def change(self, i: int, x: int, allocated: Callable, *hops: int):
        """The next version, in which the cell at x alone is another, and `allocated` says where cells are."""
        self.add(*[("iff", self.atom("A", i + 1, z), allocated(z)) for z in self.each], *hops)
        self.keep(i, lambda z: self.equal(z, x))

    def step(self, it, i: int):
        before = lambda z: self.atom("A", i, z)
        match it:
            case Access(x):
                self.add(before(x))
            case Compare():
                self.add(self.boolean(it))
            case Write(x, value):
                self.change(i, x, before, self.atom("H", i + 1, x, value))
            case Fresh(x, content):
                self.add(-before(x))
                self.change(i, x, lambda z: ("or", before(z), self.equal(z, x)), self.atom("H", i + 1, x, content))
            case Free(x):
                self.change(i, x, lambda z: ("and", before(z), -self.equal(z, x)))
            case Part(given, alternatives):
                structure, inside = self.meaning(given, i)
                kept = [("and", before(z), ("not", inside(z))) for z in self.each]
                self.add(structure)
                returned = [self.returned(alternative, i + 1, kept) for alternative in alternatives]
                self.add(*(returned[0] if len(returned) == 1 else [("or", *[("and", *it) for it in returned])]))
                self.keep(i, lambda z: ("not", kept[z]))

    def returned(self, after, j: int, kept: list) -> list:
        """What a call or a loop gives back in version j beside the cells that are kept."""
        structure, inside = self.meaning(after, j)
        both = [(kept[z], inside(z)) for z in self.each]
        exact = [("iff", self.atom("A", j, z), ("or", *both[z])) for z in self.each]
        return [structure, *[("not", ("and", *pair)) for pair in both], *exact]


def condition_ground(it: Symbolic) -> Ground:
    ground, last = Ground(it.terms, it.versions, it.next), it.versions - 1
    for version in range(it.versions):
        ground.version(version)
    ground.add(ground.whole(it.start, 0))
    for version, step in it.steps:
        ground.step(step, version)
    kind, of = it.check
    if kind == "access":
        ground.add(-ground.atom("A", last, of))
    elif kind == "part":
        ground.add(("not", ground.meaning(of, last)[0]))
    else:
        wholes = [ground.whole(alternative, last) for alternative in of]
        ground.add(("not", wholes[0] if len(wholes) == 1 else ("or", *wholes)))
    return ground


def question_ground(it: Asked) -> Ground:
    ground = Ground(it.terms, 1, it.next)
    ground.version(0)
    ground.add(ground.boolean(it.left), ("not", ground.boolean(it.right)))
    return ground


def add_fewer(ground: Ground, cells: int):
    """Fewer than `cells` classes of terms are allocated in version 0 (docs/FORMATS.md)."""
    add, leads, before = ground.clauses.append, [ground.define() for _ in ground.each], []
    for t in ground.each:
        add((leads[t], -ground.atom("A", 0, t), *[ground.equal(s, t) for s in range(t)]))
    for t in ground.each:
        more = [ground.define() for _ in range(cells)]  # more[j]: more than j of the terms up to t lead
        for j in range(cells):
            if j == 0 or before:  # those of the terms before t
                add((more[j], -leads[t], *[-it for it in before[j - 1 : j]]))
            if before:
                add((more[j], -before[j]))
        before = more
    add((-before[cells - 1],))
