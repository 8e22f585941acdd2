"""Constants folded on the tree of `program_tree.py`, for `meaning.py`: what `--fold` makes of a program, by its rule alone.

Each term is rewritten once, from the inside out. What threads name, and the turns of a loop, are those of the text.
"""
from program_tree import OPERATORS, UNARY, Function, Loop, wrapped

NOTHING = ("list", [])


def folded(program):
    """The program, which is changed: all bodies of its functions and blocks are folded."""
    for function in program.functions.values():
        program.uses(function)
    for function in program.functions.values():
        function.body = statement(program, function.body)
    return program


def is_number(*terms):
    return all(term[0] == "number" for term in terms)


def expression(program, e):
    """The expression with its constants folded."""
    kind = e[0]
    if kind == "global" and e[1] in program.constants:
        return ("number", program.constants[e[1]])
    if kind in ("number", "local", "global"):
        return e
    if kind == "local_at":
        return (*e[:3], expression(program, e[3]), e[4])
    if kind == "global_at":
        return (*e[:2], expression(program, e[2]), e[3])
    if kind == "call":
        return (*e[:2], [expression(program, a) for a in e[2]])
    if kind == "unary":
        a = expression(program, e[2])
        return ("number", wrapped(int(UNARY[e[1]](a[1])))) if is_number(a) else ("unary", e[1], a)
    parts = [expression(program, part) for part in (e[2:4] if kind == "binary" else e[1:])]
    if kind == "binary":
        if is_number(*parts) and not (e[1] in "/%" and parts[1][1] == 0):
            return ("number", wrapped(int(OPERATORS[e[1]](parts[0][1], parts[1][1]))))
        return ("binary", e[1], *parts, e[4])
    if not is_number(parts[0]):
        return (kind, *parts)
    holds = parts[0][1] != 0
    if kind == "choose":
        return parts[1 if holds else 2]
    if holds == (kind == "||"):
        return ("number", int(holds))
    return ("number", int(parts[1][1] != 0)) if is_number(parts[1]) else (kind, *parts)


def statement(program, s):
    """The statement with its constants folded; `NOTHING` where none is left of it."""
    kind = s[0]
    if kind == "list":
        return ("list", [part for part in (statement(program, part) for part in s[1]) if part != NOTHING])
    if kind == "set":
        return (*s[:2], expression(program, s[2]))
    if kind in ("set_at", "put_at"):
        return tuple(expression(program, part) if isinstance(part, tuple) and isinstance(part[0], str) else part for part in s)
    if kind == "if":
        test, yes, no = expression(program, s[1]), statement(program, s[2]), statement(program, s[3])
        return (yes if test[1] else no) if is_number(test) else ("if", test, yes, no)
    if kind == "while":
        loop, test = s[1], expression(program, s[1].test)
        return NOTHING if test == ("number", 0) else ("while", Loop(test, loop.bound, statement(program, loop.body), loop.place))
    if kind == "par":
        return ("par", [branch(program, *each) for each in s[1]])
    if kind == "call":
        return (*s[:2], [expression(program, a) for a in s[2]])
    if kind == "abort":
        return (*s[:3], expression(program, s[3]), statement(program, s[4]))
    if kind == "return":
        return ("return", expression(program, s[1]))
    return s


def branch(program, kind, what, given):
    """A branch: of a block the body is folded, once, where it stands."""
    if isinstance(what, Function):
        what.body = statement(program, what.body)
    return kind, what, [expression(program, a) for a in given]
