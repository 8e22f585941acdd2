"""Which statements are certain to pause, which loops have a number of turns that their form tells, and what breaks rule 20."""
from __future__ import annotations

from collections.abc import Iterator
from itertools import islice
from typing import NamedTuple

from forec_text import tree
from forec_text.names import Fault, Names
from forec_text.tree import Function, Place

MOST_TURNS = 1_000_000
MOST_NOTES = 12
UPWARDS = ("<", "<=")


class Note(NamedTuple):
    """A place that a finding speaks of."""
    place: Place
    text: str


class Loops:
    """Judges the loops of a program whose names are known and that breaks none of their rules."""

    def __init__(self, names: Names) -> None:
        self.names = names
        self.globals = {item.name.text for item in names.program.globals}
        self.known: dict[Function, bool] = {}
        self.pausing: dict[Function, bool] = {}

    # -- turns

    def turns(self, loop: tree.Loop) -> int | None:
        """The number of turns that the form of a `for` tells, or None."""
        match loop:
            case tree.For(_, tree.Declare(_, (tree.Local(name, None, (start,)),)), test, step, _, body):
                pass
            case tree.For(_, tree.Assign(name=name, index=None, operator=None, value=start), test, step, _, body):
                pass
            case _:
                return None
        match test:
            case tree.Binary(_, ("<" | "<=" | ">" | ">=") as order, tree.Read(tested), end) if tested.text == name.text:
                first, last, by = plain(start), plain(end), stride(step, name.text, order in UPWARDS)
            case _:
                return None
        if first is None or last is None or not by or name.text in self.globals or changes(body, name.text):
            return None
        return count(first, last, by, order)

    def ends(self, loop: tree.Loop) -> bool:
        """Whether a loop has a bound, or turns that its form tells."""
        return loop.bound is not None or self.turns(loop) is not None

    # -- certain pauses

    def pauses(self, function: Function) -> bool:
        if function not in self.known:
            self.known[function] = self.certain(function.body)
        return self.known[function]

    def certain(self, body: tuple[tree.Stmt, ...]) -> bool:
        return any(map(self.is_certain, body))

    def is_certain(self, statement: tree.Stmt) -> bool:
        """Whether a statement is certain to pause."""
        match statement:
            case tree.Pause():
                return True
            case tree.Group(_, body):
                return self.certain(body)
            case tree.If(_, _, yes, no):
                return no is not None and self.is_certain(yes) and self.is_certain(no)
            case tree.Par(_, branches):
                return any(map(self.branch_pauses, branches))
            case tree.CallStatement(_, call):
                return self.branch_pauses(call)
            case tree.Abort(_, _, immediate, _, body):
                return not immediate and self.certain(body)
            case tree.While() | tree.For():
                return (is_endless(statement) or (self.turns(statement) or 0) > 0) and self.is_certain(statement.body)
        return False

    def branch_pauses(self, branch: tree.Branch) -> bool:
        if isinstance(branch, tree.Group):
            return self.certain(branch.body)
        called = self.names.item(branch.place)
        return isinstance(called, Function) and self.pauses(called)

    # -- rule 20

    def faults(self) -> Iterator[tuple[Fault, list[Note]]]:
        """Each loop that breaks rule 20, and why its body may not pause."""
        for function in self.names.program.functions:
            for loop in tree.walk(function.body):
                if isinstance(loop, tree.Loop) and not self.ends(loop) and not self.is_certain(loop.body):
                    word = "while" if isinstance(loop, tree.While) else "for"
                    notes = list(islice(self.escapes(tree.listed(loop.body)), MOST_NOTES))
                    why = ("and its body isn't certain to pause: one pause is enough that each turn reaches" if notes else
                           "and its body is the ; alone: take it away where a body follows, else write pause;" if isinstance(loop.body, tree.Nothing) else
                           "and no statement of its body pauses")
                    yield Fault(loop.place, 20, f"this {word} has no bound, {why}"), notes

    def escapes(self, body: tuple[tree.Stmt, ...]) -> Iterator[Note]:
        """The statements of a list that may pause and may not."""
        for statement in body:
            if self.may_pause(statement):
                yield from self.escape(statement)

    def escape(self, statement: tree.Stmt) -> Iterator[Note]:
        """Why a statement that may pause isn't certain to."""
        match statement:
            case tree.Group(_, body):
                yield from self.escapes(body)
            case tree.If(place, _, _, None):
                yield Note(place, "where this condition doesn't hold nothing pauses: an else with a pause is missing")
            case tree.If(place, _, yes, no) if no is not None:
                for side, word in ((yes, "holds"), (no, "doesn't hold")):
                    if not self.is_certain(side):
                        yield from self.escape(side) if self.may_pause(side) else [Note(side.place, f"where the condition {word} nothing pauses")]
            case tree.While() | tree.For():
                endless = is_endless(statement) or (self.turns(statement) or 0) > 0
                yield from self.escapes(tree.listed(statement.body)) if endless else [
                    Note(statement.place, "this loop may have no turn, and then its pause isn't reached: put a pause behind it")]
            case tree.Abort(place, _, True, _, _):
                yield Note(place, "with immediate this body may be left before it pauses: put a pause behind it")
            case tree.Abort(_, _, _, _, body):
                yield from self.escapes(body)
            case tree.Par(place, _):
                yield Note(place, "no branch of this par is certain to pause")
            case tree.CallStatement(place, call):
                yield Note(place, f"'{call.name.text}' may end without a pause")
                called = self.names.item(call.place)
                yield from self.escapes(called.body) if isinstance(called, Function) else []

    def may_pause(self, statement: tree.Stmt) -> bool:
        """Whether there is a pause in a statement, or in a function that it calls or starts."""
        return any(isinstance(part, tree.Pause) or isinstance(part, tree.Call) and self.called_may_pause(part)
                   for part in tree.walk(statement))

    def called_may_pause(self, call: tree.Call) -> bool:
        called = self.names.item(call.place)
        if not isinstance(called, Function):
            return False
        if called not in self.pausing:
            self.pausing[called] = any(map(self.may_pause, called.body))
        return self.pausing[called]


def is_endless(loop: tree.Loop) -> bool:
    """Whether the test of a loop is missing, or a number other than 0."""
    if isinstance(loop.test, tree.Literal):
        return loop.test.value != 0
    return loop.test is None


def plain(expression: tree.Expr) -> int | None:
    """The value of a number with or without a minus."""
    match expression:
        case tree.Literal(_, value):
            return value
        case tree.Unary(_, "-", tree.Literal(_, value)):
            return value if value == -2**31 else -value
    return None


def stride(step: tree.Stmt | None, name: str, upwards: bool) -> int | None:
    """By how much a step changes the variable in this direction; nothing where it has another form."""
    match step:
        case tree.Assign(name=to, index=None, operator=("+" | "-") as sign, value=tree.Literal(_, by)):
            pass
        case tree.Assign(name=to, index=None, operator=None, value=tree.Binary(_, ("+" | "-") as sign, tree.Read(of), tree.Literal(_, by))):
            if of.text != name:
                return None
        case _:
            return None
    if to.text != name or by < 1 or (sign == "+") != upwards:
        return None
    return by if upwards else -by


def changes(body: tree.Stmt, name: str) -> bool:
    """Whether a statement assigns or declares this name."""
    return any(isinstance(part, (tree.Assign, tree.Local)) and part.name.text == name for part in tree.walk(body))


def count(first: int, last: int, by: int, order: str) -> int | None:
    """How many of the numbers from the first one on pass the test; nothing where they are too many, or leave the 32 bits."""
    distance = (last - first if by > 0 else first - last) + (1 if order in ("<=", ">=") else 0)
    turns = max(0, -(-distance // abs(by)))
    return turns if turns <= MOST_TURNS and -2**31 <= first + turns * by < 2**31 else None
