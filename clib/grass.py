"""The verifier as a Python module, over libgrass.so (beside this file, or GRASS_LIBRARY).

    >>> import grass
    >>> grass.check(b"struct Node { var next: Node; } procedure p() requires emp ensures emp { }").text
    'verified: 1 of 1 valid\\n'
"""
import ctypes
import os
import re
from collections import namedtuple

CHECK, SMALLEST, PATHS, LOG, ENTAIL, RECHECK, REPLAY = range(7)
NO_ROOM, OUT_OF_MEMORY = 6, 7
PIECE = 64
LINE = re.compile(r"^(valid|refuted): condition (\d+), (.*) at (\d+):(\d+)$", re.M)

Answer = namedtuple("Answer", "status text")
Condition = namedtuple("Condition", "number is_valid description line column")
Shown = namedtuple("Shown", "story picture")


class TextRefused(Exception):
    """The text is no program that can be checked; the message says why."""


class Ended(ctypes.Structure):
    """How a call ended."""

    _fields_ = [("status", ctypes.c_uint32), ("count", ctypes.c_uint32), ("length", ctypes.c_size_t)]


def _library():
    here = os.path.dirname(os.path.abspath(__file__))
    library = ctypes.CDLL(os.environ.get("GRASS_LIBRARY") or os.path.join(here, "libgrass.so"))
    for name in ("grass_answer", "grass_conditions", "grass_shown"):
        getattr(library, name).restype = None
    return library


_LIBRARY = _library()


def _bytes(text):
    return text.encode() if isinstance(text, str) else bytes(text)


def _words(value):
    """A number is passed as it is, bytes as their address and their length."""
    if isinstance(value, int):
        return [ctypes.c_uint32(value)]
    return [ctypes.c_char_p(value), ctypes.c_size_t(len(value))]


def _ask(name, *values, room=1 << 16):
    """A call, once more with more room where the first is too small."""
    words = [word for value in values for word in _words(value)]
    reply, ended = ctypes.create_string_buffer(room), Ended()
    getattr(_LIBRARY, name)(*words, reply, ctypes.c_size_t(room), ctypes.byref(ended))
    if ended.status == OUT_OF_MEMORY:
        raise MemoryError("memory ran out in the verifier")
    if ended.status == NO_ROOM:
        return _ask(name, *values, room=ended.length)
    return ended, reply.raw[: ended.length].decode()


def _answer(mode, text, other=b""):
    ended, words = _ask("grass_answer", mode, _bytes(text), _bytes(other))
    return Answer(ended.status, words)


def check(text):
    """What `grass check` answers."""
    return _answer(CHECK, text)


def smallest(text):
    """What `grass smallest` answers."""
    return _answer(SMALLEST, text)


def paths(text):
    """What `grass paths` answers."""
    return _answer(PATHS, text)


def log(text):
    """What `grass log` answers."""
    return _answer(LOG, text)


def entail(question):
    """What `grass entail` answers."""
    return _answer(ENTAIL, question)


def recheck(text, proof_log):
    """What `grass recheck` answers."""
    return _answer(RECHECK, text, proof_log)


def replay(text, drawing):
    """What `grass replay` answers."""
    return _answer(REPLAY, text, drawing)


def conditions(text):
    """All conditions in their order, each as it is settled."""
    given, skip, count = _bytes(text), 0, 1
    while skip < count:
        ended, lines = _ask("grass_conditions", given, skip, PIECE)
        if ended.status:
            raise TextRefused(lines)
        for verdict, number, description, line, column in LINE.findall(lines):
            yield Condition(int(number), verdict == "valid", description, int(line), int(column))
        skip, count = skip + PIECE, ended.count


def shown(text, number):
    """The smallest counterexample of a condition, told and drawn; None where the condition is valid."""
    ended, told = _ask("grass_shown", _bytes(text), number)
    if ended.status > 1:
        raise TextRefused(told or f"there is no condition {number}")
    story, _, picture = told.partition("<")
    return Shown(story, "<" + picture) if picture else None
