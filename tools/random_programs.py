#!/usr/bin/env python3
"""Writes random programs that have every form of the grammar.

    tools/random_programs.py FOLDER [COUNT [SEED]]

The folder gets COUNT programs (40), random00.txt and so on; program k is made from SEED + k (0). They meet the type
rules, and most of them the limits. Few are verified. Other words, and a FOLDER that begins with `-`, print this and
end with status 2."""
import os, random, sys


class Writer:
    """Makes one program; its choices are those of `choose` alone."""

    def __init__(self, seed: int):
        self.choose = random.Random(seed)
        self.shapes = [(name, self.choose.randint(0, 2), self.choose.randint(0, 2)) for name in "pqr"]
        self.shapes = self.shapes[: self.choose.randint(1, 3)]

    def one_in(self, count: int) -> bool:
        return self.choose.randrange(count) == 0

    def operand(self, names: list) -> str:
        return self.choose.choice(names + ["null"])

    def expression(self, names: list) -> str:
        return self.choose.choice(names) + ".next" if names and self.one_in(4) else self.operand(names)

    def test(self, names: list, side, depth: int = 2) -> str:
        kind = self.choose.randrange(9)
        if depth and kind < 3:
            sign, count = self.choose.choice([" && ", " || "]), self.choose.randint(2, 3)
            return "(" + sign.join(self.test(names, side, depth - 1) for _ in range(count)) + ")"
        if depth and kind == 3:
            return "!(" + self.test(names, side, depth - 1) + ")"
        return side(names) + self.choose.choice([" == ", " != "]) + side(names)

    def item(self, names: list, depth: int) -> str:
        kind = self.choose.randrange(10)
        if depth and kind == 0:
            test, yes, no = self.test(names, self.operand, 1), *[self.assertion(names, depth - 1) for _ in "yn"]
            return "if (%s) { %s } else { %s }" % (test, yes, no)
        if depth and kind == 1:
            return "(" + self.assertion(names, depth - 1) + ")"
        if kind == 2:
            return "emp"
        if kind in (3, 4) and names:
            at = self.choose.choice(names)
            return "acc(%s)" % at if kind == 3 else "%s.next |-> %s" % (at, self.operand(names))
        if kind < 8:
            return "lseg(%s, %s)" % (self.operand(names), self.choose.choice([self.operand(names), "null"]))
        return self.operand(names) + self.choose.choice([" == ", " != "]) + self.operand(names)

    def assertion(self, names: list, depth: int = 2) -> str:
        return " &*& ".join(self.item(names, depth) for _ in range(self.choose.choice([1, 1, 2, 2, 3])))

    def call(self, names: list, targets: list) -> str:
        fits = [shape for shape in self.shapes if shape[2] <= len(targets)]
        if not fits:
            return "free %s;" % self.choose.choice(names)
        name, parameters, results = self.choose.choice(fits)
        given = ", ".join(self.choose.sample(targets, results))
        arguments = ", ".join(self.expression(names) for _ in range(parameters))
        return "%s%s(%s);" % (given + " := " if given else "", name, arguments)

    def statement(self, names: list, targets: list, results: int, depth: int) -> str:
        """`results` is how many values a `return` gives, -1 in a loop, where none may stand."""
        kind = self.choose.randrange(16)
        inner = lambda count: self.block(names, targets, count, depth - 1)
        if depth and kind < 2:
            otherwise = " else " + inner(results) if self.one_in(2) else ""
            return "if (%s) %s%s" % (self.test(names, self.expression), inner(results), otherwise)
        if depth and kind == 2:
            invariant = " invariant " + self.assertion(names) if not self.one_in(4) else ""
            return "while (%s)%s %s" % (self.test(names, self.expression, 1), invariant, inner(-1))
        if kind == 3 and results >= 0:
            return ("return " + ", ".join(self.expression(names) for _ in range(results))).strip() + ";"
        if kind < 7:
            return self.call(names, targets)
        if kind < 9:
            return "%s.next := %s;" % (self.choose.choice(names), self.expression(names))
        if kind == 9:
            return "free %s;" % self.choose.choice(names)
        target = self.choose.choice(targets)
        return "%s := %s;" % (target, "new Node" if kind < 12 else self.expression(names))

    def block(self, names: list, targets: list, results: int, depth: int) -> str:
        count = self.choose.choice([0, 1, 1, 2, 2, 3])
        lines = [self.statement(names, targets, results, depth) for _ in range(count)]
        return "{ " + "".join(line + self.choose.choice([" ", "\n  ", " // x\n"]) for line in lines) + "}"

    def procedure(self, name: str, parameters: int, results: int) -> str:
        own, given = ["x", "y"][:parameters], ["u", "v"][:results]
        hidden = ["s", "t"][: self.choose.randint(1, 2)]
        typed = lambda names: ", ".join(it + ": Node" for it in names)
        text = "procedure %s(%s)%s\n" % (name, typed(own), " returns (%s)" % typed(given) if given else "")
        if not self.one_in(4):
            text += "  requires %s\n" % self.assertion(own)
        if not self.one_in(4):
            alternatives = [self.assertion(own + given) for _ in range(self.choose.choice([1, 1, 2, 3]))]
            text += "  ensures %s\n" % " || ".join(alternatives)
        body = self.block(own + given + hidden, given + hidden, results, 2)
        return text + "{\n  var %s: Node;\n  %s\n" % (", ".join(hidden), body[2:] if body != "{ }" else "}")


def program(seed: int) -> str:
    writer = Writer(seed)
    return "struct Node { var next: Node; }\n" + "".join(writer.procedure(*shape) for shape in writer.shapes)


def main():
    words = sys.argv[1:]
    if not 1 <= len(words) <= 3 or words[0][:1] in ("", "-") or any(not it.isdecimal() for it in words[1:]):
        sys.exit(print(__doc__, file=sys.stderr) or 2)
    count, seed = map(int, (words[1:] + ["40", "0"][len(words) - 1 :]))
    os.makedirs(words[0], exist_ok=True)
    for number in range(count):
        with open(os.path.join(words[0], "random%02d.txt" % number), "w") as file:
            file.write(program(seed + number))


if __name__ == "__main__":
    main()
