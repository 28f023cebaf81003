"""Tokens and grammar (docs/LANGUAGE.md): the program, or the question, that a text spells, or why it is refused.

An operand is a `Name`, or None for `null`; an expression is an operand or a `Read`. A place is a line and a column."""
import bisect, re
from collections import namedtuple
from typing import Callable

RESERVED = """struct Node var next procedure returns requires ensures invariant if else while return new free null emp
    acc lseg""".split()
TOKEN = re.compile(r"\w+|&\*&|\|->|:=|==|!=|&&|\|\||\S", re.ASCII)  # what is no token is none of the grammar's words
NAME = re.compile(r"(?!(?:%s)\Z)[A-Za-z_]\w{0,63}" % "|".join(RESERVED), re.ASCII)
END = ""  # what stands in the list of tokens after the last one


class Refused(Exception):
    """What is answered in place of a verdict."""

    def __init__(self, words: str, status: int = 4):
        self.words, self.status = words, status  # the words after `refused: `, and the exit status


def refused_at(what: str, place: tuple, rest: str = "") -> Refused:
    return Refused("%s at %d:%d%s" % (what, *place, rest))


# A class for each form. Tests and claims share Not, And and Or; tests and assertions share Compare.
Name, Read = namedtuple("Name", "text place"), namedtuple("Read", "at")
Compare, Not = namedtuple("Compare", "left equal right"), namedtuple("Not", "inner")
And, Or, Star = namedtuple("And", "members"), namedtuple("Or", "members"), namedtuple("Star", "members")
Emp, Acc, PointsTo = namedtuple("Emp", ""), namedtuple("Acc", "at"), namedtuple("PointsTo", "at to")
Lseg, Cases = namedtuple("Lseg", "start end"), namedtuple("Cases", "test yes no")
Set, New, Write = namedtuple("Set", "target value"), namedtuple("New", "target"), namedtuple("Write", "at value")
Free, Call = namedtuple("Free", "at"), namedtuple("Call", "targets callee arguments")
If, While = namedtuple("If", "test taken otherwise"), namedtuple("While", "place test invariant body")
Return, Block = namedtuple("Return", "place values"), namedtuple("Block", "statements close")
Field, Program = namedtuple("Field", "name kind"), namedtuple("Program", "fields close procedures")
Leaf, Question = namedtuple("Leaf", "assertion"), namedtuple("Question", "variables place left right")


class Procedure(namedtuple("Procedure", "name parameters results requires ensures locals body close")):
    """`ensures` is a list; `body` is None where a `;` stands in its place; `close` is the last brace or that `;`."""

    def variables(self) -> list:
        return self.parameters + self.results + self.locals


def tokens(text: bytes) -> list:
    """The tokens of a text, each with its place, and then END."""
    text = re.sub(rb"//[^\n]*", lambda comment: b" " * len(comment[0]), text)
    odd = re.search(rb"[^A-Za-z0-9_ \t\r\n{}(),;:.=!&*|\->/]", text)
    if odd:
        raise Refused("Byte at offset %d" % odd.start())
    lines = [0] + [feed.end() for feed in re.finditer(b"\n", text)]

    def place(offset: int) -> tuple:
        line = bisect.bisect_right(lines, offset)
        return line, offset - lines[line - 1] + 1

    depth = 0
    for bracket in re.finditer(rb"[(){}]", text):
        depth += 1 if bracket[0] in b"({" else -1
        if depth > 64:
            raise refused_at("Deep", place(bracket.start()))
    found = [(token[0], token.start()) for token in TOKEN.finditer(text.decode("ascii"))]
    return [Name(word, place(start)) for word, start in found + [(END, len(text))]]


class Parser:
    """Reads by the grammar, a method a rule, and refuses the first token that can't go on."""

    def __init__(self, text: bytes):
        self.tokens, self.at = tokens(text), 0

    def sees(self, word: str, ahead: int = 0) -> bool:
        return self.at + ahead < len(self.tokens) and self.tokens[self.at + ahead].text == word

    def sees_name(self) -> bool:
        return NAME.fullmatch(self.tokens[self.at].text) is not None

    def take(self, *words: str) -> Name:
        token = self.tokens[self.at]
        if token.text not in words:
            raise refused_at("Syntax", token.place)
        self.at += 1
        return token

    def may(self, word: str) -> bool:
        """Takes the word if it stands here."""
        return self.sees(word) and bool(self.take(word))

    def name(self, *others: str) -> Name:
        """A name, or one of these words."""
        return self.take(*others, self.tokens[self.at].text) if self.sees_name() else self.take(*others)

    def read(self, *parts) -> list:
        """Takes the words and reads the other parts, in order; gives what the other parts are."""
        found = [self.take(part) if isinstance(part, str) else part() for part in parts]
        return [it for part, it in zip(parts, found) if not isinstance(part, str)]

    def listed(self, member: Callable, sign: str = ",") -> list:
        members = [member()]
        while self.may(sign):
            members.append(member())
        return members

    def joined(self, kind: type, member: Callable, sign: str):
        """A list of one member is that member."""
        members = self.listed(member, sign)
        return members[0] if len(members) == 1 else kind(members)

    def bracketed(self, member: Callable) -> list:
        return self.read("(", lambda: [] if self.sees(")") else self.listed(member), ")")[0]

    def program(self) -> Program:
        fields, procedures = [], []
        self.read("struct", "Node", "{")
        while self.may("var"):
            fields.append(Field(*self.read(lambda: self.name("next"), ":", lambda: self.name("Node"), ";")))
        close = self.take("}").place
        while not self.may(END):
            procedures.append(self.procedure())
        return Program(fields, close, procedures)

    def procedure(self) -> Procedure:
        name, parameters = self.read("procedure", self.name, self.parameters)
        results = self.parameters() if self.may("returns") else []
        requires = self.claimed("requires")
        ensures = self.listed(self.assertion, "||") if self.may("ensures") else [Emp()]
        local, close = [], self.take(";", "{")
        while close.text == "{" and self.sees("var"):
            local += self.declaration()
        body = self.statements() if close.text == "{" else None
        close = body.close if body else close.place
        return Procedure(name, parameters, results, requires, ensures, local, body, close)

    def parameters(self) -> list:
        return self.bracketed(lambda: self.read(self.name, ":", "Node")[0])

    def claimed(self, word: str):
        """The assertion after this word, where it stands here."""
        return self.assertion() if self.may(word) else Emp()

    def declaration(self) -> list:
        return self.read("var", lambda: self.listed(self.name), ":", "Node", ";")[0]

    def block(self) -> Block:
        return self.read("{", self.statements)[0]

    def statements(self) -> Block:
        found = []
        while not self.sees("}"):
            found.append(self.statement())
        return Block(found, self.take("}").place)

    def statement(self):
        if self.may("if"):
            test, taken = self.read("(", self.test, ")", self.block)
            return If(test, taken, self.block() if self.may("else") else Block([], taken.close))
        if self.sees("while"):
            place = self.take("while").place
            return While(place, *self.read("(", self.test, ")", lambda: self.claimed("invariant"), self.block))
        return self.read(self.plain_statement, ";")[0]

    def plain_statement(self):
        if self.may("free"):
            return Free(self.name())
        if self.sees("return"):
            place = self.take("return").place
            return Return(place, [] if self.sees(";") else self.listed(self.expression))
        first = self.name()
        if self.sees("("):
            return Call([], first, self.bracketed(self.expression))
        if self.may("."):
            return Write(first, *self.read("next", ":=", self.expression))
        targets = [first] + (self.listed(self.name) if self.may(",") else [])
        self.take(":=")
        if len(targets) == 1 and self.may("new"):
            return New(first, *self.read("Node"))
        if len(targets) > 1 or self.sees_name() and self.sees("(", 1):
            return Call(targets, self.name(), self.bracketed(self.expression))
        return Set(first, self.expression())

    def operand(self) -> Name | None:
        token = self.name("null")
        return None if token.text == "null" else token

    def expression(self):
        operand = self.operand()
        return Read((operand, self.take("next"))[0]) if operand and self.may(".") else operand

    def compare(self, left, side: Callable) -> Compare:
        return Compare(left, self.take("==", "!=").text == "==", side())

    def test(self, side: Callable | None = None):
        """A test of expressions, or of what `side` reads."""
        literal = lambda: self.literal(side or self.expression)
        return self.joined(Or, lambda: self.joined(And, literal, "&&"), "||")

    def literal(self, side: Callable):
        if self.sees("!"):
            return Not(*self.read("!", "(", lambda: self.test(side), ")"))
        return self.read("(", lambda: self.test(side), ")")[0] if self.sees("(") else self.compare(side(), side)

    def assertion(self):
        return self.joined(Star, self.item, "&*&")

    def item(self):
        if self.sees("("):
            return self.read("(", self.assertion, ")")[0]
        if self.may("emp"):
            return Emp()
        if self.may("acc"):
            return Acc(*self.read("(", self.name, ")"))
        if self.may("lseg"):
            return Lseg(*self.read("(", self.operand, ",", self.operand, ")"))
        if self.may("if"):
            part = "{", self.assertion, "}"
            return Cases(*self.read("(", lambda: self.test(self.operand), ")", *part, "else", *part))
        left = self.operand()
        if left and self.may("."):
            return PointsTo(left, *self.read("next", "|->", self.operand))
        return self.compare(left, self.operand)

    def question(self) -> Question:
        variables, place = self.declaration() if self.sees("var") else [], self.tokens[self.at].place
        return Question(variables, place, *self.read("requires", self.claim, "ensures", self.claim, END))

    def claim(self):
        return self.joined(Or, lambda: self.joined(And, self.negation, "&&"), "||")

    def negation(self):
        return Not(self.primary()) if self.may("!") else self.primary()

    def primary(self):
        return self.read("(", self.claim, ")")[0] if self.sees("(") else Leaf(*self.read("{", self.assertion, "}"))
