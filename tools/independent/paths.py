"""Lowered bodies and their paths: the conditions of a program, in order (docs/CLAUSES.md; limits of kinds 4 and 5).

A body is a graph of nodes without a cycle, since a loop on the way is one step. A step is a statement, an `Access`, or
a comparison that is taken to hold; for a `While` it is the whole loop. A path is a tuple of steps."""
from collections import namedtuple
from functools import reduce
from itertools import islice
from typing import Iterator

from rules import limit, loops
from syntax import And, Block, Call, Compare, Free, If, Name, Not, Or, Procedure, Program, Read, Return, While, Write


Access = namedtuple("Access", "at")
# kind: "access", "entry" of a callee, "loop entry", "return" or "loop end"; of: the name, the call or the loop
Check = namedtuple("Check", "kind place of", defaults=[None])
# a check that is made on arrival, or None; the ways from here: steps, each with the node that it leads to
Node = namedtuple("Node", "check ways", defaults=[()])
Condition = namedtuple("Condition", "procedure start steps check")  # `start` is a loop, or None for the entry
DEAD_END = Node(None)


def lower_block(block: Block, rest: Node) -> Node:
    return reduce(lambda after, it: lower(it, after), reversed(block.statements), rest)


def lower(it, rest: Node) -> Node:
    """The node of a statement that goes on with `rest`."""
    match it:
        case If(test, taken, otherwise):
            return lower_test(test, lower_block(taken, rest), lower_block(otherwise, rest))
        case While(place, test, _, _):
            return Node(Check("loop entry", place, it), ((it, lower_test(test, DEAD_END, rest)),))
        case Return(place, values):
            return reads(values, Node(None, ((it, Node(Check("return", place))),)))
        case Call(_, callee, arguments):
            return reads(arguments, Node(Check("entry", callee.place, it), ((it, rest),)))
        case Write(at, value):
            return reads([value], access(at, Node(None, ((it, rest),))))
        case Free(at):
            return access(at, Node(None, ((it, rest),)))
    return reads(it[1:], Node(None, ((it, rest),)))  # Set, New


def access(at: Name, rest: Node) -> Node:
    return Node(Check("access", at.place, at), ((Access(at), rest),))


def reads(expressions, rest: Node) -> Node:
    found = [it.at for it in expressions if isinstance(it, Read)]
    return reduce(lambda after, at: access(at, after), reversed(found), rest)


def lower_test(test, yes: Node, no: Node) -> Node:
    match test:
        case Compare(left, equal, right):
            return reads((left, right), Node(None, ((test, yes), (Compare(left, not equal, right), no))))
        case Not(inner):
            return lower_test(inner, no, yes)
        case And(members):
            return reduce(lambda after, it: lower_test(it, after, no), reversed(members), yes)
        case Or(members):
            return reduce(lambda after, it: lower_test(it, yes, after), reversed(members), no)


def walk(procedure: Procedure) -> Iterator[Condition]:
    """Depth first from the entry and from each loop, the way of a comparison before that of its opposite; each check on
    arrival is a condition."""
    starts = [(None, lower_block(procedure.body, Node(Check("return", procedure.close))))]
    for loop in loops(procedure):
        body = lower_block(loop.body, Node(Check("loop end", loop.body.close, loop)))
        starts.append((loop, lower_test(loop.test, body, DEAD_END)))
    for start, first in starts:
        waiting = [(first, ())]
        while waiting:
            node, path = waiting.pop()
            if node.check:
                yield Condition(procedure, start, path, node.check)
            path = path[:256]  # one step more than 256 is kept, to be refused
            waiting += [(after, path + (step,)) for step, after in reversed(node.ways)]


def conditions(program: Program) -> list:
    found = []
    for procedure in program.procedures:
        found += islice(walk(procedure), 1025)
        if len(found) > 1024 and found[-1025].procedure is procedure:
            raise limit("paths", procedure.name.place, 1025)
    for it in found:
        if len(it.steps) > 256:
            raise limit("steps", it.procedure.name.place, 257)
    return found
