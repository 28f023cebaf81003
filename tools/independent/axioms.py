"""The rows of axioms and their instances (docs/FORMATS.md)."""

from clauses import Ground

# a row: its variables, in the order in which an instance names their terms, and its clause
ROWS = {
    1: ("x", "B x x x"),
    2: ("x y", "-B x y x, x = y"),
    3: ("x y z", "-B x y y, -B x z z, B x y z, B x z y"),
    4: ("x y z", "-B x y z, B x y y"),
    5: ("x y z", "-B x y z, B y z z"),
    6: ("x y z", "-B x y y, -B y z z, B x z z"),
    7: ("x y u z", "-B x y z, -B y u z, B x y u"),
    8: ("x y u z", "-B x y z, -B y u z, B x u z"),
    9: ("x y u z", "-B x y z, -B x u y, B x u z"),
    10: ("x y u z", "-B x y z, -B x u y, B u y z"),
    11: ("x v", "-H x v, B x v v"),
    12: ("x v w", "-H x v, -B x w w, w = x, B x v w"),
    13: ("x y", "A x, -B x y y, x = y"),
    14: ("x w", "-H x x, -B x w w, w = x"),
    15: ("x v", "-H x v, A x"),
}


def instance(ground: Ground, row: int, version: int, terms: list) -> tuple | None:
    """The clause of an instance; None where it is none over these numbers of terms and versions."""
    names, clause = ROWS.get(row, ("", ""))
    if len(names.split()) != len(terms) or version >= ground.versions or max(terms) >= ground.terms:
        return None
    of = dict(zip(names.split(), terms))

    def literal(kind: str, *words: str) -> int:
        if words[0] == "=":
            return ground.equal(of[kind], of[words[1]])
        atom = ground.atom(kind.lstrip("-"), version, *[of[word] for word in words])
        return -atom if kind[0] == "-" else atom

    return tuple(literal(*words.split()) for words in clause.split(", "))
