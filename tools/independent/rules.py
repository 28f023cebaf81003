"""Type rules, and the limits of kinds 1 to 3 (docs/LANGUAGE.md). An error is a place and the number of a rule."""
from typing import Iterator

from syntax import (Acc, Block, Call, Compare, Emp, If, Lseg, Name, New, PointsTo, Procedure, Program, Question,
                    Refused, Return, Set, While, refused_at)

RULES = ["", "UnknownName", "DuplicateName", "AssignToParameter", "WrongCount", "ReturnInLoop", "UnknownProcedure",
         "SecondLink", "DataField", "NameOutOfContract", "RepeatedResult", "NoBody", "NoLink"]
LIMITS = {"procedures": 256, "variables": 32, "atoms": 32}


def inside(form, *kinds: type) -> Iterator:
    """What a form, or a list of forms, has of these kinds."""
    if isinstance(form, kinds):
        yield form
    elif isinstance(form, (tuple, list)):
        for member in form:
            yield from inside(member, *kinds)


def atoms(form) -> int:
    return len([*inside(form, Emp, Acc, Lseg, PointsTo, Compare)])


def statements(block: Block, in_loop: bool = False) -> Iterator[tuple]:
    """All statements of a block in the order of the text, and whether each stands in a loop."""
    for it in block.statements:
        yield it, in_loop
        for inner in [it.taken, it.otherwise] if isinstance(it, If) else [it.body] if isinstance(it, While) else []:
            yield from statements(inner, in_loop or isinstance(it, While))


def loops(procedure: Procedure) -> list:
    return [it for it, _ in statements(procedure.body) if isinstance(it, While)]


def assigned_by(statement) -> list:
    """The variables that a statement assigns, those of its parts left out."""
    if isinstance(statement, (Set, New)):
        return [statement.target]
    return statement.targets if isinstance(statement, Call) else []


def duplicates(found: list) -> list:
    earlier = set()
    return [it for it in found if it.text in earlier or earlier.add(it.text)]


def limit(kind: str, place: tuple, count: int) -> Refused:
    return refused_at("Limit " + kind, place, ", count %d" % count)


def refuse(errors: list, counts: Iterator[tuple]):
    """The first error by place, and of two at one place the one with the smaller number; else the first limit."""
    for place, number in sorted(errors)[:1]:
        raise refused_at(RULES[number], place)
    for kind, place, count in counts:
        if count > LIMITS[kind]:
            raise limit(kind, place, count)


def check(program: Program):
    callees = {it.name.text: it for it in reversed(program.procedures)}  # of two with one name the first is meant
    errors = [*field_errors(program), *[(it.place, 2) for it in duplicates([it.name for it in program.procedures])]]
    for procedure in program.procedures:
        errors += variable_errors(procedure)
        errors += body_errors(procedure, callees) if procedure.body else [(procedure.close, 11)]
    refuse(errors, counts(program.procedures))


def counts(procedures: list) -> Iterator[tuple]:
    yield from (("procedures", it.name.place, len(procedures)) for it in procedures[256:257])
    yield from (("variables", it.name.place, len(it.variables())) for it in procedures)
    for it in procedures:
        assertions = [it.requires, it.ensures] + [loop.invariant for loop in loops(it)]
        yield from (("atoms", it.name.place, atoms(own)) for own in assertions)


def field_errors(program: Program) -> Iterator:
    links = [name for name, kind in program.fields if (name.text, kind.text) == ("next", "Node")]
    yield from ((name.place, 8) for name, kind in program.fields if kind.text != "Node")
    yield from ((name.place, 7) for name, kind in program.fields if kind.text == "Node" and name not in links[:1])
    yield from [] if links else [(program.close, 12)]


def variable_errors(it: Procedure) -> Iterator:
    """Names that are declared again, and contracts with a name that they may not have."""
    declared = {name.text for name in it.variables()}
    hidden, results = {name.text for name in it.locals}, {name.text for name in it.results}
    yield from ((name.place, 2) for name in duplicates(it.variables()))
    for contract, outside in ((it.requires, hidden | results), (it.ensures, hidden)):
        for name in inside(contract, Name):
            if name.text not in declared or name.text in outside:
                yield name.place, 9 if name.text in outside else 1


def body_errors(procedure: Procedure, callees: dict) -> Iterator:
    declared = {name.text for name in procedure.variables()}
    parameters = {name.text for name in procedure.parameters}
    for it, in_loop in statements(procedure.body):
        own = it[:1] if isinstance(it, If) else it[1:3] if isinstance(it, While) else it
        own = [it.targets, it.arguments] if isinstance(it, Call) else own
        yield from ((name.place, 1) for name in inside(own, Name) if name.text not in declared)
        yield from ((name.place, 3) for name in assigned_by(it) if name.text in parameters)
        yield from ((name.place, 10) for name in duplicates(assigned_by(it)))
        if isinstance(it, Return):
            yield from [(it.place, 5)] * in_loop
            yield from [(it.place, 4)] * (len(it.values) != len(procedure.results))
        elif isinstance(it, Call):
            callee = callees.get(it.callee.text)
            if not callee:
                yield it.callee.place, 6
            elif (len(it.arguments), len(it.targets)) != (len(callee.parameters), len(callee.results)):
                yield it.callee.place, 4


def check_question(question: Question):
    declared = {name.text for name in question.variables}
    sides = [question.left, question.right]
    errors = [(name.place, 2) for name in duplicates(question.variables)]
    errors += [(name.place, 1) for name in inside(sides, Name) if name.text not in declared]
    place, variables = question.place, question.variables
    refuse(errors, iter([("variables", place, len(variables)), ("atoms", place, atoms(sides))]))
