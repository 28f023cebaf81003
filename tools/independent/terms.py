"""Terms and versions of a condition (docs/CLAUSES.md; limits of kinds 6 and 7): the condition said over terms.

Terms are numbers, 0 is null. Assertions, tests and steps over terms are the forms of syntax.py and paths.py with a term
in the place of each name."""
from collections import namedtuple

from paths import Access, Condition
from rules import assigned_by, limit, statements
from syntax import (Acc, Call, Free, Leaf, Name, New, Not, PointsTo, Procedure, Program, Question, Read, Return, Set,
                    While, Write)

Fresh = namedtuple("Fresh", "location content")  # the step of `new`
Part = namedtuple("Part", "before after")  # that of a call or a loop: what is given up, alternatives of what comes back
# `next` has the successor terms, by version and term; each step has the version before it; the check is "access" and a
# term, "part" and an assertion, or "whole" and alternatives
Symbolic = namedtuple("Symbolic", "terms next versions start steps check")
Asked = namedtuple("Asked", "terms next left right")  # a question: its claims over terms


class Terms:
    """Terms in the order of their first appearance, and those that the variables have now."""

    def __init__(self, place: tuple):
        self.count, self.next, self.binding, self.place = 1, {}, {}, place  # the place is that of a limit

    def value(self) -> int:
        if self.count == 32:
            raise limit("terms", self.place, 33)
        self.count += 1
        return self.count - 1

    def successor(self, version: int, of: int) -> int:
        if (version, of) not in self.next:
            self.next[version, of] = self.value()
        return self.next[version, of]

    def use(self, it, version: int, binding: dict) -> int:
        """The term of an expression."""
        if isinstance(it, Read):
            return self.successor(version, self.use(it.at, version, binding))
        if it is not None and it.text not in binding:
            binding[it.text] = self.value()
        return binding[it.text] if it else 0

    def over_terms(self, it, version: int, binding: dict | None = None):
        """Any form over terms, walked from left to right, under the binding of a callee or the procedure's own."""
        binding = self.binding if binding is None else binding
        if it is None or isinstance(it, (Name, Read)):
            return self.use(it, version, binding)
        if isinstance(it, bool):
            return it
        if isinstance(it, list):
            return [self.over_terms(member, version, binding) for member in it]
        if isinstance(it, (Acc, PointsTo, Access)):
            at = self.use(it.at, version, binding)
            self.successor(version, at)
            return type(it)(at, *[self.use(to, version, binding) for to in it[1:]])
        return type(it)(*[self.over_terms(member, version, binding) for member in it])

    def assign(self, names: list, values: list):
        self.binding.update(zip([name.text for name in names], values))

    def given_up(self, callee: Procedure, arguments: list, version: int) -> tuple:
        """The binding of a callee's parameters, and its `requires` under it."""
        binding = {name.text: self.over_terms(it, version) for name, it in zip(callee.parameters, arguments)}
        return binding, self.over_terms(callee.requires, version, binding)


def symbolic(callees: dict, condition: Condition) -> Symbolic:
    procedure = condition.procedure
    terms, version, steps = Terms(procedure.name.place), 0, []
    start = terms.over_terms(condition.start.invariant if condition.start else procedure.requires, 0)
    for it in condition.steps:
        step = step_over_terms(terms, callees, procedure, it, version)
        steps.append((version, step))
        version += isinstance(step, (Write, Fresh, Free, Part))
    check = check_over_terms(terms, callees, condition, version)
    return Symbolic(terms.count, terms.next, version + 1, start, steps, check)


def step_over_terms(terms: Terms, callees: dict, procedure: Procedure, it, version: int):
    """A step over terms, None for one that changes the binding alone."""
    match it:
        case Set(target, value):
            terms.assign([target], [terms.over_terms(value, version)])
        case Return(_, values):
            terms.assign(procedure.results, terms.over_terms(values, version))
        case New(target):
            step = Fresh(terms.value(), terms.value())
            terms.assign([target], [step.location])
            return step
        case Call(targets, name, arguments):
            callee = callees[name.text]
            binding, before = terms.given_up(callee, arguments, version)
            results = [terms.value() for _ in targets]
            binding.update((name.text, value) for name, value in zip(callee.results, results))
            after = terms.over_terms(callee.ensures, version + 1, binding)
            terms.assign(targets, results)
            return Part(before, after)
        case While(_, _, invariant, body):
            before = terms.over_terms(invariant, version)
            assigned = {name.text for inner, _ in statements(body) for name in assigned_by(inner)}
            changed = [name for name in procedure.variables() if name.text in assigned]
            terms.assign(changed, [terms.value() for _ in changed])
            return Part(before, [terms.over_terms(invariant, version + 1)])
        case _:
            return terms.over_terms(it, version)


def check_over_terms(terms: Terms, callees: dict, condition: Condition, version: int) -> tuple:
    kind, _, of = condition.check
    if kind == "access":
        return "access", terms.over_terms(of, version)
    if kind == "entry":
        return "part", terms.given_up(callees[of.callee.text], of.arguments, version)[1]
    if kind == "return":
        return "whole", terms.over_terms(condition.procedure.ensures, version)
    invariant = terms.over_terms(of.invariant, version)
    return ("part", invariant) if kind == "loop entry" else ("whole", [invariant])


def all_symbolic(program: Program, conditions: list) -> list:
    """The conditions over terms; kind 6 is tried over the whole program before kind 7."""
    callees = {it.name.text: it for it in reversed(program.procedures)}
    found = [symbolic(callees, it) for it in conditions]
    for it, over_terms in zip(conditions, found):
        if over_terms.versions > 24:
            raise limit("versions", it.procedure.name.place, 25)
    return found


def asked(question: Question) -> Asked:
    """A question over terms; each negative leaf has one term more, of its own, after those of its assertion."""
    terms = Terms(question.place)

    def over_terms(claim, negative: bool):
        if isinstance(claim, Leaf):
            leaf = terms.over_terms(claim, 0)
            return (leaf, terms.value())[0] if negative else leaf
        if isinstance(claim, Not):
            return Not(over_terms(claim.inner, not negative))
        return type(claim)([over_terms(member, negative) for member in claim.members])

    left, right = over_terms(question.left, False), over_terms(question.right, True)
    return Asked(terms.count, terms.next, left, right)
