"""The threads of a program and the variables that each names: what breaks rule 10, with all its places."""
from __future__ import annotations

import dataclasses
from collections import Counter
from collections.abc import Callable, Iterable, Iterator
from itertools import islice
from typing import TypeVar

from forec_text import tree
from forec_text.loops import Note
from forec_text.names import Fault, Names
from forec_text.tree import Function, Global, Place

MOST_SHOWN = 8
T = TypeVar("T")


@dataclasses.dataclass(frozen=True, slots=True)
class Use:
    """A name of a global in a text, and whether it is assigned there."""
    item: Global
    place: Place
    assigned: bool


@dataclasses.dataclass(slots=True, eq=False)
class Body:
    """What stands in a function or a block of its own: the globals that it names, the void functions that it calls, and its branches."""
    name: str
    statements: tuple[tree.Stmt, ...]
    uses: list[Use] = dataclasses.field(default_factory=list)
    calls: list[Body] = dataclasses.field(default_factory=list)
    branches: list[tuple[Place, Body]] = dataclasses.field(default_factory=list)


@dataclasses.dataclass(frozen=True, slots=True)
class Instance:
    """A thread that names a variable: its name, the place of its branch (`main` has none), and the uses."""
    name: str
    started: Place | None
    uses: list[Use]


def closure(first: Iterable[T], following: Callable[[T], Iterable[T]]) -> list[T]:
    """These, what follows them, what follows that, and so on: each once."""
    known = dict.fromkeys(first)
    found = list(known)
    for each in found:
        fresh = [other for other in dict.fromkeys(following(each)) if other not in known]
        known.update(dict.fromkeys(fresh))
        found += fresh
    return found


def own_parts(of: tree.Node) -> list[tree.Node]:
    """The nodes right below one that the same thread runs: of the branches of a `par` the arguments alone."""
    if isinstance(of, tree.Par):
        return [argument for branch in of.branches if isinstance(branch, tree.Call) for argument in branch.arguments]
    return tree.parts(of)


class Threads:
    """The bodies of a program, and which threads there are."""

    def __init__(self, names: Names) -> None:
        self.names = names
        self.bodies = {function: Body(function.name.text, function.body) for function in names.program.functions}
        for body in list(self.bodies.values()):
            self.fill(body)
        self.main = next(body for function, body in self.bodies.items() if body.name == "main" and not function.gives)
        self.counts: dict[tuple[Body, bool], Counter[Global]] = {}

    def fill(self, body: Body) -> None:
        for part in tree.walk(body.statements, own_parts):
            if isinstance(part, (tree.Read, tree.Element, tree.Assign)):
                item = self.names.item(part.name.place)
                if isinstance(item, Global):
                    body.uses.append(Use(item, part.name.place, isinstance(part, tree.Assign)))
            elif isinstance(part, tree.CallStatement):
                body.calls.append(self.body_of(part.call))
            elif isinstance(part, tree.Par):
                body.branches += [(branch.place, self.body_of(branch)) for branch in part.branches]

    def body_of(self, branch: tree.Branch) -> Body:
        if isinstance(branch, tree.Group):
            block = Body(f"the block at {branch.place}", branch.body)
            self.fill(block)
            return block
        called = self.names.item(branch.place)
        assert isinstance(called, Function)
        return self.bodies[called]

    def inlined(self, body: Body) -> list[Body]:
        """A body and those of the functions that it calls, each once."""
        return closure([body], lambda each: each.calls)

    def uses(self, body: Body) -> list[Use]:
        """What a thread with this body names itself."""
        return [use for each in self.inlined(body) for use in each.uses]

    # -- rule 10

    def below(self, body: Body) -> Counter[Global]:
        """How many threads below one with this body name each global; two stand for more."""
        return self.counted(body, False)

    def counted(self, body: Body, whole: bool) -> Counter[Global]:
        if (body, whole) not in self.counts:
            found: Counter[Global] = Counter()
            if whole:
                found.update({use.item for use in self.uses(body)})
                found += self.below(body)
            else:
                for called in body.calls:
                    found += self.below(called)
                for _, branch in body.branches:
                    found += self.counted(branch, True)
            self.counts[body, whole] = Counter({item: min(number, 2) for item, number in found.items()})
        return self.counts[body, whole]

    def instances(self, item: Global, body: Body, started: Place | None = None) -> Iterator[Instance]:
        """The threads from one with this body on that name a global."""
        uses = [use for use in self.uses(body) if use.item is item]
        if uses:
            yield Instance(body.name, started, uses)
        yield from self.instances_below(item, body)

    def instances_below(self, item: Global, body: Body) -> Iterator[Instance]:
        for place, branch in body.branches:
            if self.counted(branch, True)[item]:
                yield from self.instances(item, branch, place)
        for called in body.calls:
            if self.below(called)[item]:
                yield from self.instances_below(item, called)

    def faults(self) -> Iterator[tuple[Fault, list[Note]]]:
        """Each variable that breaks rule 10, and the threads that name it."""
        for item in self.names.program.globals:
            if item.kind in ("plain", "output") and self.counted(self.main, True)[item] > 1:
                found = list(islice(self.instances(item, self.main), MOST_SHOWN))
                first = [f"{each.name} {each.uses[0].place}" for each in found[:2]]
                more = f", and by {len(found) - 2} more" if len(found) > 2 else ""
                text = f"'{item.name.text}' isn't shared, and two threads name it: {first[0]} and {first[1]}{more}"
                yield Fault(item.name.place, 10, text), [note for each in found for note in notes_of(each)]


def notes_of(thread: Instance) -> Iterator[Note]:
    """A line for each use of a variable in a thread."""
    where = f", started at {thread.started}," if thread.started and not thread.name.startswith("the block") else ""
    for use in thread.uses[:MOST_SHOWN]:
        yield Note(use.place, f"{thread.name}{where} {'assigns' if use.assigned else 'reads'} it here")
