#!/usr/bin/env python3
"""Judges a proof log from the text of the program and the log alone.

    tools/independent/check_log.py FILE LOG                prints what `grass recheck FILE LOG` prints
    tools/independent/check_log.py --smallest FILE ANSWER  judges the section of what `grass smallest FILE` wrote
    tools/independent/check_log.py --entail FILE ANSWER    judges the section of what `grass entail FILE` wrote

The exit status is that of `grass recheck`: 0 valid, 2 other words, 3 a read fault, 4 a refused FILE, 5 a refused LOG or
ANSWER, 6 a write fault. docs/LOGS.md says what is judged, and by which module."""
import os, re, sys

from clauses import Ground, add_fewer, condition_ground, question_ground
from logs import judge, read_log
from paths import conditions
from rules import check, check_question
from syntax import Parser, Refused
from terms import all_symbolic, asked


IS_WORD = re.compile(r"(?s)(?!-)[^\udc80-\udcff]+")  # Python has surrogates in the place of bytes that aren't UTF-8


def contents(name: str, limit: int, what: str = "") -> bytes:
    try:
        with open(name, "rb") as file:
            text = file.read(limit + 1)
    except FileNotFoundError:
        raise Refused(what + "Absent", 5 if what else 4)
    if len(text) > limit:
        raise Refused(what + "TooLong", 5 if what else 4)
    return text


def program_conditions(name: str) -> list:
    """The conditions of an admitted program, over terms."""
    program = Parser(contents(name, 2**20)).program()
    check(program)
    return all_symbolic(program, conditions(program))


def recheck(file: str, log: str) -> str:
    found = program_conditions(file)
    version, sections = read_log(contents(log, 2**26, "log ").decode("latin-1"))
    if len(sections) != len(found):
        raise Refused("log sections %d of %d" % (len(sections), len(found)), 5)
    for condition, section in zip(found, sections):
        judge(condition_ground(condition), section, version)
    return "rechecked: %d of %d valid" % (len(found), len(found))


def judge_answer(ground: Ground, text: str, before: int):
    """Judges the one section of an answer whose log begins after this number of lines."""
    version, sections = read_log(text.split("\n", before)[-1], before + 1, "answer")
    if version != 2 or len(sections) != 1:
        raise Refused("answer sections %d of 1" % len(sections), 5)
    judge(ground, sections[0], version, "answer")


def recheck_smallest(file: str, answer: str) -> str:
    found = program_conditions(file)
    text = contents(answer, 2**26, "answer ").decode("latin-1")
    numbers = r"smallest: condition ([1-9]\d{0,9}) of (\d+), (\d|[1-9]\d) cells\n.*\ndrawing\ncondition (\d+)\n"
    head = re.match(numbers + r"(?:(?:state|store|heap).*\n)+end\n", text)
    number, count, cells, drawn = map(int, head.groups()) if head else (0, 0, 0, 0)
    if not head or count != len(found) or not number == drawn <= count or cells > found[number - 1].terms:
        raise Refused("answer line 1", 5)
    if cells:
        ground = condition_ground(found[number - 1])
        add_fewer(ground, cells)
        judge_answer(ground, text, head[0].count("\n"))
    elif head[0] != text:
        raise Refused("answer line %d" % (head[0].count("\n") + 1), 5)
    return "rechecked: condition %d of %d has no counterexample with fewer than %d first cells" % (number, count, cells)


def recheck_entail(file: str, answer: str) -> str:
    question = Parser(contents(file, 2**20)).question()
    check_question(question)
    ground = question_ground(asked(question))
    text = contents(answer, 2**26, "answer ").decode("latin-1")
    if not text.startswith("entailed\n"):
        raise Refused("answer line 1", 5)
    judge_answer(ground, text, 1)
    return "rechecked: entailed"


def main(words: list) -> int:
    mode = {"--smallest": recheck_smallest, "--entail": recheck_entail}.get((words + [""])[0])
    files = words[1:] if mode else words
    try:
        if len(files) != 2 or not all(map(IS_WORD.fullmatch, files)):
            raise Refused("usage", 2)
        status, text = 0, (mode or recheck)(*files)
    except Refused as refused:
        status, text = refused.status, "refused: " + refused.words
    except OSError:
        return 3
    try:
        print(text, flush=True)
    except OSError:
        os._exit(6)
    return status


if __name__ == "__main__":
    sys.exit(main(sys.argv[1:]))
