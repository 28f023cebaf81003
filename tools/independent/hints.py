"""How a line of a log is shown: by equality, along its hints, or by unit propagation (docs/LOGS.md).

A clause is a set of literals, written as a tuple; a literal and its opposite are a number and its negation."""
from collections import defaultdict
from typing import Iterable


def is_shown(clause: tuple, hints: Iterable) -> bool:
    """The rule of hints: the clause's literals are taken as false, then the clauses of the hints in order."""
    true = {-literal for literal in clause}
    if any(literal in true for literal in clause):
        return True
    for hint in hints:
        left = {literal for literal in hint if -literal not in true}
        if len(left) != 1:
            return not left  # all are false, or two aren't
        true |= left
    return False


def is_lemma(literals: list) -> bool:
    """The opposites of these literals can't be true together: terms that they make equal are joined, and then some atom
    is both true and false. A literal is (is it positive, atom)."""
    joined, opposites = {}, [(not positive, atom) for positive, atom in literals]

    def leader(term: int) -> int:
        while term in joined:
            term = joined[term]
        return term

    for is_true, (kind, first, *terms) in opposites:
        if is_true and kind == "E" and leader(first) != leader(*terms):
            joined[leader(first)] = leader(*terms)
    true, false = set(), set()
    for is_true, (kind, first, *terms) in opposites:
        if kind != "E":
            (true if is_true else false).add((kind, first, *map(leader, terms)))
        elif not is_true and leader(first) == leader(*terms):
            return True
    return not true.isdisjoint(false)


class Propagation:
    """Unit propagation over clauses that are added one by one: by literal, the clauses that have it. What follows from
    the clauses alone is kept as true, in order; what follows from a line's literals is undone."""

    def __init__(self):
        self.true, self.clauses, self.is_contradictory = {}, defaultdict(list), False

    def add(self, clause: tuple):
        for literal in set(clause):
            self.clauses[literal].append(clause)
        self.is_contradictory = self.is_contradictory or self.is_refuted(self.forced(clause))

    def forced(self, clause: tuple) -> list:
        """The literal that is left where all others are false; where none is left, two that contradict each other."""
        left = {literal for literal in clause if -literal not in self.true}
        return list(left) if len(left) == 1 else [] if left else [1, -1]

    def is_refuted(self, waiting: list) -> bool:
        """Whether these literals lead to a contradiction; if not, what they lead to is true now."""
        while waiting:
            literal = waiting.pop()
            if -literal in self.true:
                return True
            if literal not in self.true:
                self.true[literal] = True
                waiting += [unit for clause in self.clauses[-literal] for unit in self.forced(clause)]
        return False

    def shows(self, clause: tuple) -> bool:
        before = len(self.true)
        found = self.is_contradictory or self.is_refuted([-literal for literal in clause])
        while len(self.true) > before:
            self.true.popitem()
        return found
