"""What in a program that keeps all rules is likely to be meant otherwise. Each kind of warning has a page of help with its name."""
from __future__ import annotations

import dataclasses
from collections.abc import Callable, Iterator

from forec_text import tree
from forec_text.loops import Loops, Note, is_endless
from forec_text.names import Names, returns
from forec_text.threads import Body, Threads, Use, closure, own_parts
from forec_text.tree import Function, Global, Place

LONGEST_SCOPE = 1000  # statements behind a declaration that are looked through
OUTPUTS = ("output", "shared output")


@dataclasses.dataclass(frozen=True, slots=True)
class Warning:  # pylint: disable=redefined-builtin
    """A warning at a place, and the page of help that explains it."""
    place: Place
    page: str
    text: str
    notes: tuple[Note, ...] = ()


class Reading:
    """A program that keeps all rules, and what the warnings ask of it."""

    def __init__(self, names: Names) -> None:
        self.names, self.loops, self.threads = names, Loops(names), Threads(names)
        self.program = names.program
        self.reached = self.reach()
        self.uses = [use for body in self.reached_bodies() for use in body.uses]
        self.endless: dict[Function, bool] = {}
        self.setting: dict[tuple[Function, Global], bool] = {}

    def reach(self) -> set[Function]:
        """The functions that some thread runs, those that combine values among them."""
        combine = [self.names.item(item.combine.place) for item in self.program.globals if item.combine]
        main = [function for function, body in self.threads.bodies.items() if body is self.threads.main]
        return set(closure([function for function in [*main, *combine] if isinstance(function, Function)], self.names.called))

    def reached_bodies(self) -> list[Body]:
        """The bodies of these functions, and of the blocks in them."""
        bodies = [self.threads.bodies[function] for function in self.program.functions if function in self.reached]
        return closure(bodies, lambda body: [branch for _, branch in body.branches])

    def function_ends_never(self, function: Function) -> bool:
        if function not in self.endless:
            self.endless[function] = any(ends_never(self, each) for each in function.body)
        return self.endless[function]

    def function_sets(self, function: Function, item: Global) -> bool:
        if (function, item) not in self.setting:
            self.setting[function, item] = sets(self, item, function.body)
        return self.setting[function, item]

    def within(self, body: Body) -> list[Use]:
        """What a thread and those below it name."""
        found = closure([body], lambda each: [*each.calls, *(branch for _, branch in each.branches)])
        return [use for each in found for use in each.uses]


# ---- names

def hides(reading: Reading) -> Iterator[Warning]:
    """A local or parameter with the name of a global."""
    known = {item.name.text: item for item in reversed(reading.program.items)}
    for function in reading.program.functions:
        inner = [part.name for part in tree.walk(function.body) if isinstance(part, tree.Local)]
        for what, name in [*(("parameter", param) for param in function.params), *(("local", each) for each in inner)]:
            if item := known.get(name.text):
                kind = "function" if isinstance(item, Function) else "global"
                yield Warning(name.place, "hides", f"the {what} '{name.text}' hides the {kind} '{name.text}' of {item.name.place}")


def unassigned(reading: Reading) -> Iterator[Warning]:
    """An output that no thread assigns."""
    assigned = {use.item for use in reading.uses if use.assigned}
    for item in reading.program.globals:
        if item.kind in OUTPUTS and item not in assigned:
            yield Warning(item.name.place, "unassigned", f"no thread assigns the output '{item.name.text}'")


def unread(reading: Reading) -> Iterator[Warning]:
    """An input that no thread reads."""
    read = {use.item for use in reading.uses}
    for item in reading.program.globals:
        if item.kind == "input" and item not in read:
            yield Warning(item.name.place, "unread", f"no thread reads the input '{item.name.text}'")


def unreached(reading: Reading) -> Iterator[Warning]:
    """A function that no thread reaches."""
    for function in reading.program.functions:
        if function not in reading.reached:
            yield Warning(function.name.place, "unreached", f"no thread reaches the function '{function.name.text}'")


# ---- statements that are never reached

def after(reading: Reading) -> Iterator[Warning]:
    """Code after what never ends, or after a return."""
    for body in lists_of(reading.program):
        for statement, following in zip(body, body[1:]):
            if ends_never(reading, statement):
                yield Warning(following.place, "after", f"this is never reached: what begins at {statement.place} never ends")
                break
            if returns([statement]):
                yield Warning(following.place, "after", f"this is never reached: at {statement.place} the function returns")
                break


def lists_of(program: tree.Program) -> Iterator[tuple[tree.Stmt, ...]]:
    """All lists of statements."""
    for function in program.functions:
        yield function.body
        for part in tree.walk(function.body):
            if isinstance(part, (tree.Group, tree.Abort)):
                yield part.body


def ends_never(reading: Reading, what: tree.Stmt | tree.Branch) -> bool:
    """Whether a statement never comes to its end, unless an abort around it leaves it."""
    match what:
        case tree.While() | tree.For():
            return is_endless(what)
        case tree.Group(_, body):
            return any(ends_never(reading, each) for each in body)
        case tree.If(_, _, yes, no):
            return no is not None and ends_never(reading, yes) and ends_never(reading, no)
        case tree.Par(_, branches):
            return any(ends_never(reading, branch) for branch in branches)
        case tree.CallStatement(_, call):
            return ends_never(reading, call)
        case tree.Call(name, _):
            called = reading.names.item(name.place)
            return isinstance(called, Function) and reading.function_ends_never(called)
    return False


# ---- values that are lost

def dropped(reading: Reading) -> Iterator[Warning]:
    """What a thread assigns while a later branch assigns it in each tick, under a combine function that keeps one of both alone."""
    for item in reading.program.globals:
        kept = kept_by(reading, item)
        if kept is None or item.policy == "new" or item.length:  # which element is assigned isn't known
            continue
        for body in reading.reached_bodies():
            for branches in pars_of(body):
                yield from dropped_of(reading, item, branches if kept == 1 else branches[::-1])


def kept_by(reading: Reading, item: Global) -> int | None:
    """Which of its two parameters the combine function of a variable returns, where it only returns one."""
    function = reading.names.item(item.combine.place) if item.combine else None
    match function:
        case Function(body=(tree.Return(_, tree.Read(name)),)):
            return next((at for at, param in enumerate(function.params) if param.text == name.text), None)
    return None


def pars_of(body: Body) -> Iterator[list[Body]]:
    """The branches of each `par` in a body."""
    bodies = iter(body.branches)
    for part in tree.walk(body.statements, own_parts):
        if isinstance(part, tree.Par):
            yield [next(bodies)[1] for _ in part.branches]


def dropped_of(reading: Reading, item: Global, branches: list[Body]) -> Iterator[Warning]:
    last = next((branch for branch in reversed(branches) if assigns_always(reading, item, branch)), None)
    for branch in branches[:branches.index(last)] if last else []:
        assigned = [use for use in reading.within(branch) if use.item is item and use.assigned]
        if assigned and item.combine:
            text = f"what {branch.name} assigns to '{item.name.text}' is dropped: {last.name} assigns it in each tick, and "
            yield Warning(assigned[0].place, "dropped", f"{text}'{item.combine.text}' keeps its value alone")


def assigns_always(reading: Reading, item: Global, body: Body) -> bool:
    """Whether a thread assigns a variable in each tick: in an endless loop before the one pause in it, which no pause precedes."""
    for statement in body.statements:
        if isinstance(statement, tree.Loop) and is_endless(statement):
            inside = tree.listed(statement.body)
            pausing = [at for at, each in enumerate(inside) if reading.loops.may_pause(each)]
            return len(pausing) == 1 and isinstance(inside[pausing[0]], tree.Pause) and sets(reading, item, inside[:pausing[0]])
        if reading.loops.may_pause(statement):
            return False
    return False


def sets(reading: Reading, item: Global, body: tuple[tree.Stmt, ...]) -> bool:
    """Whether a list of statements is certain to assign a variable."""
    return any(sets_it(reading, item, each) for each in body)


def sets_it(reading: Reading, item: Global, statement: tree.Stmt) -> bool:
    match statement:
        case tree.Assign(name=name):
            return reading.names.item(name.place) is item
        case tree.Group(_, body):
            return sets(reading, item, body)
        case tree.If(_, _, yes, no):
            return no is not None and sets_it(reading, item, yes) and sets_it(reading, item, no)
        case tree.CallStatement(_, call):
            called = reading.names.item(call.place)
            return isinstance(called, Function) and reading.function_sets(called, item)
    return False


def lost(reading: Reading) -> Iterator[Warning]:
    """The values that the body of a weak abort gives in its last tick, where all of them are assigned anew right behind it."""
    for body in lists_of(reading.program):
        for at, statement in enumerate(body):
            if isinstance(statement, tree.Abort) and statement.weak:
                yield from lost_of(reading, statement, body[at + 1:])


def lost_of(reading: Reading, abort: tree.Abort, behind: tuple[tree.Stmt, ...]) -> Iterator[Warning]:
    inside = Body("", abort.body)
    reading.threads.fill(inside)
    given = {use.item for use in reading.within(inside) if use.assigned}
    again: dict[Global, tree.Assign] = {}
    for statement in behind:
        if reading.loops.may_pause(statement):
            break
        if isinstance(statement, tree.Assign) and statement.operator is None and statement.index is None:
            item = reading.names.item(statement.name.place)
            reads = any(isinstance(part, tree.Read) and reading.names.item(part.place) is item for part in tree.walk(statement.value))
            if isinstance(item, Global) and not reads:
                again.setdefault(item, statement)
    if given and given <= again.keys():
        for item in sorted(given, key=lambda item: again[item].place):
            text = f"in the tick in which the weak abort of {abort.place} ends, what its body gives '{item.name.text}' is lost here"
            yield Warning(again[item].place, "lost", f"{text}: abort without weak doesn't run the body in that tick")


# ---- locals that begin anew

def anew(reading: Reading) -> Iterator[Warning]:
    """A local that counts or remembers, and is set anew each time that its block or function is entered."""
    again = repeated(reading)
    for function in reading.program.functions:
        yield from anew_in(function.body, function in again, f"each time that '{function.name.text}' is entered")


def repeated(reading: Reading) -> set[Function]:
    """The functions that are called or started in a loop, or in such a function."""
    in_loops: list[Function] = []
    for function in reading.program.functions:
        for loop in tree.walk(function.body):
            if isinstance(loop, tree.Loop):
                called = [reading.names.item(part.place) for part in tree.walk(loop.body) if isinstance(part, tree.Call)]
                in_loops += [each for each in called if isinstance(each, Function) and not each.gives]
    return set(closure(in_loops, reading.names.called))


def anew_in(body: tuple[tree.Stmt, ...], again: bool, when: str) -> Iterator[Warning]:
    """The warnings of a list of statements, which is entered again and again or not."""
    for at, statement in enumerate(body):
        if isinstance(statement, tree.Declare) and again and len(body) - at <= LONGEST_SCOPE:
            for local in statement.locals:
                yield from anew_local(local, body[at:], when)
        if isinstance(statement, tree.Loop):
            yield from anew_in(tree.listed(statement.body), True, f"in each turn of the loop at {statement.place}")
            continue
        for part in tree.parts(statement):
            if isinstance(part, tree.Stmt):
                yield from anew_in(tree.listed(part), again, when)


def anew_local(local: tree.Local, scope: tuple[tree.Stmt, ...], when: str) -> Iterator[Warning]:
    """The warning for a local whose one assignment stands in no loop of its scope: nobody sees what it becomes by it. The same where the
    first of several always adds to its first value."""
    name, parts = local.name.text, list(tree.walk(scope))
    assigned = [part for part in parts if isinstance(part, tree.Assign) and part.name.text == name]
    in_loops = {part for loop in parts if isinstance(loop, tree.Loop) for part in tree.walk(loop)} if len(assigned) == 1 else set()
    begins = not local.length and all(isinstance(value, tree.Literal) for value in local.values)
    always = bool(assigned) and counts(assigned[0]) and any(part is assigned[0] for part in scope)
    if not begins or not always and (len(assigned) != 1 or assigned[0] in in_loops):
        return
    own_reads = {part.place for part in tree.walk(assigned[0].value) if isinstance(part, tree.Read)}
    reads = [part.place for part in parts if isinstance(part, tree.Read) and part.name.text == name and part.place not in own_reads]
    forgets = bool(reads) and all(place < assigned[0].place for place in reads)
    if forgets or counts(assigned[0]):
        note = Note(assigned[0].place, "what it becomes here isn't kept")
        yield Warning(local.name.place, "anew", f"'{name}' is set anew {when}: what it keeps from tick to tick is declared before the loop", (note,))


def counts(statement: tree.Assign) -> bool:
    """Whether an assignment adds a number to a variable, or takes one from it."""
    match statement:
        case tree.Assign(operator="+" | "-", value=tree.Literal()):
            return True
        case tree.Assign(name=name, operator=None, value=tree.Binary(_, "+" | "-", tree.Read(of), tree.Literal())):
            return of.text == name.text
    return False


# ---- division

def divisor(reading: Reading) -> Iterator[Warning]:
    """A division by what may be 0, with no test of it around or before."""
    for function in reading.program.functions:
        yield from divisors_of_list(reading, function.body, frozenset())


def names_in(*parts: tree.Node | None) -> frozenset[str]:
    found = (part for each in parts if each for part in tree.walk(each))
    return frozenset(part.name.text for part in found if isinstance(part, (tree.Read, tree.Element)))


def divisors_of_list(reading: Reading, body: tuple[tree.Stmt, ...], tested: frozenset[str]) -> Iterator[Warning]:
    """The warnings of a list; a name that an earlier statement of it tests, or sets to a number, counts as tested. So does a local that
    begins with a value made of constants."""
    for statement in body:
        yield from divisors(reading, statement, tested)
        match statement:
            case tree.If(_, test, _, _) | tree.While(_, test, _, _):
                tested |= names_in(test)
            case tree.Assign(name=name, operator=None, value=tree.Literal(_, value)) if value:
                tested |= {name.text}
            case tree.Declare(_, found):
                tested |= {each.name.text for each in found if each.values and is_constant(reading, each.values[0])}


def is_constant(reading: Reading, value: tree.Expr) -> bool:
    """Whether a value is made of constants, apart from indices, and isn't just 0."""
    match value:
        case tree.Literal(_, number):
            return number != 0
        case tree.Read(name) | tree.Element(name, _):
            item = reading.names.item(name.place)
            return isinstance(item, Global) and item.kind == "const"
    return all(is_constant(reading, part) for part in tree.parts(value) if not isinstance(part, tree.Literal))


def divisors(reading: Reading, part: tree.Node, tested: frozenset[str]) -> Iterator[Warning]:
    match part:
        case tree.Group(_, body):
            yield from divisors_of_list(reading, body, tested)
            return
        case tree.Abort(_, _, _, test, body):
            yield from divisors(reading, test, tested)
            yield from divisors_of_list(reading, body, tested)
            return
        case tree.If(_, test, _, _) | tree.While(_, test, _, _) | tree.Choose(_, test, _, _) | tree.For(_, _, test, _, _, _):
            inner = tested | names_in(test)
        case tree.Binary(_, "&&" | "||", left, _):
            inner = tested | names_in(left)
        case tree.Binary(place, "/" | "%", _, by) | tree.Assign(operator="/" | "%", mark=place, value=by):
            inner = tested
            if may_be_zero(reading, by, tested):
                yield Warning(place, "divisor", f"{shown(by)} may be 0 here, and no test of it stands around or before: it is a trap then")
        case _:
            inner = tested
    for each in tree.parts(part):
        yield from divisors(reading, each, inner)


def shown(expression: tree.Expr) -> str:
    return f"'{expression.name.text}'" if isinstance(expression, tree.Read) else "the divisor"


def may_be_zero(reading: Reading, by: tree.Expr, tested: frozenset[str]) -> bool:
    match by:
        case tree.Literal(_, value):
            return value == 0
        case tree.Read(name) | tree.Element(name, _):
            item = reading.names.item(name.place)
            if isinstance(item, Global) and item.kind == "const":
                values = [number.value for number in item.values]
                return 0 in values or item.length is not None and len(values) < item.length.value
        case tree.Unary(_, "-", of):
            return may_be_zero(reading, of, tested)
        case tree.Binary(_, "|", left, right):
            return may_be_zero(reading, left, tested) and may_be_zero(reading, right, tested)
        case tree.Binary(_, "+" | "*" | "-" | "<<" | ">>", left, right) if not names_in(left, right):
            return False
        case tree.Choose(_, test, yes, no):
            inner = tested | names_in(test)
            return may_be_zero(reading, yes, inner) or may_be_zero(reading, no, inner)
    return not names_in(by) & tested


KINDS: tuple[Callable[[Reading], Iterator[Warning]], ...] = (hides, unassigned, unread, unreached, after, dropped, lost, anew, divisor)


def of(names: Names) -> list[Warning]:
    """All warnings for a program that keeps all rules, in the order of their places."""
    reading = Reading(names)
    return sorted((each for kind in KINDS for each in kind(reading)), key=lambda each: (each.place, each.page))
