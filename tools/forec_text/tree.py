"""A program as a tree. The place of a statement is its first token (of an abort the word `abort`), that of an operator's expression
the operator, and of any other expression its first token."""
from __future__ import annotations

import dataclasses
from collections.abc import Callable, Iterator
from typing import NamedTuple, TypeAlias


class Place(NamedTuple):
    """A line and a column, both from 1; columns count bytes."""
    line: int
    column: int

    def __str__(self) -> str:
        return f"{self.line}:{self.column}"


class Name(NamedTuple):
    text: str
    place: Place


class Number(NamedTuple):
    value: int
    place: Place


node = dataclasses.dataclass(frozen=True, slots=True, eq=False)


# ---- expressions

@node
class Literal:
    place: Place
    value: int


@node
class Read:
    name: Name

    @property
    def place(self) -> Place:
        return self.name.place


@node
class Element:
    name: Name
    index: Expr

    @property
    def place(self) -> Place:
        return self.name.place


@node
class Unary:
    place: Place
    operator: str
    of: Expr


@node
class Binary:
    """Also `&&` and `||`."""
    place: Place
    operator: str
    left: Expr
    right: Expr


@node
class Choose:
    place: Place
    test: Expr
    yes: Expr
    no: Expr


@node
class Call:
    """A call in an expression or as a statement, or a branch of a `par`."""
    name: Name
    arguments: tuple[Expr, ...]

    @property
    def place(self) -> Place:
        return self.name.place


# ---- statements

@node
class Nothing:
    place: Place


@node
class Group:
    """Statements in curly brackets; also a branch of a `par`."""
    place: Place
    body: tuple[Stmt, ...]


@node
class Local:
    name: Name
    length: Number | None
    values: tuple[Expr, ...]


@node
class Declare:
    place: Place
    locals: tuple[Local, ...]


@node
class Assign:
    """Also `x++` and its kin, as `x += 1`."""
    place: Place
    name: Name
    index: Expr | None
    operator: str | None
    mark: Place
    value: Expr


@node
class CallStatement:
    place: Place
    call: Call


@node
class If:
    place: Place
    test: Expr
    yes: Stmt
    no: Stmt | None


@node
class While:
    place: Place
    test: Expr
    bound: Number | None
    body: Stmt


@node
class For:
    place: Place
    start: Stmt | None
    test: Expr | None
    step: Stmt | None
    bound: Number | None
    body: Stmt


@node
class Pause:
    place: Place


@node
class Par:
    place: Place
    branches: tuple[Branch, ...]


@node
class Abort:
    place: Place
    weak: bool
    immediate: bool
    test: Expr
    body: tuple[Stmt, ...]


@node
class Return:
    place: Place
    value: Expr


# ---- programs

@node
class Global:
    name: Name
    kind: str  # const, input, output, plain, shared or shared output
    length: Number | None = None
    values: tuple[Number, ...] = ()
    policy: str | None = None
    combine: Name | None = None


@node
class Function:
    name: Name
    gives: bool
    params: tuple[Name, ...]
    body: tuple[Stmt, ...]


@node
class Program:
    items: tuple[Global | Function, ...]

    @property
    def globals(self) -> list[Global]:
        return [item for item in self.items if isinstance(item, Global)]

    @property
    def functions(self) -> list[Function]:
        return [item for item in self.items if isinstance(item, Function)]


Expr: TypeAlias = Literal | Read | Element | Unary | Binary | Choose | Call
Stmt: TypeAlias = Nothing | Group | Declare | Assign | CallStatement | If | While | For | Pause | Par | Abort | Return
Branch: TypeAlias = Call | Group
Loop: TypeAlias = While | For
Node: TypeAlias = Expr | Stmt | Local


def parts(of: Node) -> list[Node]:
    """The nodes right below a node, in the order of the text but for the test of an abort, which comes first."""
    found: list[Node] = []
    for field in of.__slots__:
        value = getattr(of, field)
        found += [part for part in (value if isinstance(value, tuple) else (value,)) if hasattr(part, "__dataclass_fields__")]
    return found


def walk(of: Node | tuple[Node, ...], below: Callable[[Node], list[Node]] = parts) -> Iterator[Node]:
    """A node and all below it, where `below` tells those right below one; of a list that of each."""
    waiting = list(reversed(of)) if isinstance(of, tuple) else [of]
    while waiting:
        found = waiting.pop()
        yield found
        waiting += reversed(below(found))


def listed(of: Stmt) -> tuple[Stmt, ...]:
    """The statements of a group, or the one statement."""
    return of.body if isinstance(of, Group) else (of,)
