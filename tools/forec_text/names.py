"""What each name of a program stands for, and what breaks the rules that are judged name by name and form by form: all but 10 and 20."""
from __future__ import annotations

import dataclasses
import difflib
from collections.abc import Iterable, Iterator

from forec_text import tree
from forec_text.hints import NAMES
from forec_text.tree import Function, Global, Name, Place

LONGEST_NAME, MOST_OF_A_SORT, MOST_PARAMS, MOST_FUNCTIONS = 63, 64, 16, 1024
LONGEST_ARRAY, GREATEST_BOUND = 65_536, 1_000_000
INPUTS, OUTPUTS = ("input",), ("output", "shared output")


@dataclasses.dataclass(frozen=True, slots=True)
class Fault:
    """A rule that is broken at a place."""
    place: Place
    rule: int
    text: str


@dataclasses.dataclass(frozen=True, slots=True, eq=False)
class Declared:
    """What a name stands for: a global, a function, or a local or parameter, which has no item."""
    name: Name
    array: bool
    item: Global | Function | None

    @property
    def kind(self) -> str:
        if isinstance(self.item, Global):
            return self.item.kind
        return "local" if self.item is None else "int function" if self.item.gives else "void function"

    @property
    def is_variable(self) -> bool:
        """Whether it is a global that isn't constant."""
        return isinstance(self.item, Global) and self.item.kind != "const"


class Names:
    """The names of a program: `bound` tells of each use, by its place, what it stands for; `faults` are those that were met."""

    def __init__(self, program: tree.Program) -> None:
        self.program, self.faults, self.bound = program, list[Fault](), dict[Place, Declared]()
        self.globals: dict[str, Declared] = {}
        self.scopes = [self.globals]
        self.inside: Function | None = None
        for item in program.items:
            self.declare(item.name, isinstance(item, Global) and item.length is not None, item)
        self.judge_globals()
        for function in program.functions:
            self.read_function(function)
        self.judge_functions()
        self.faults.sort(key=lambda fault: (fault.place, fault.rule))

    def broken(self, rule: int, place: Place, text: str) -> None:
        self.faults.append(Fault(place, rule, text))

    def item(self, place: Place) -> Global | Function | None:
        """The global or function that the name at a place stands for."""
        return self.bound[place].item if place in self.bound else None

    # -- declarations

    def declare(self, name: Name, array: bool, item: Global | Function | None = None) -> None:
        if len(name.text) > LONGEST_NAME:
            self.broken(21, name.place, f"a name has at most {LONGEST_NAME} bytes, and this one has {len(name.text)}")
        first = self.scopes[-1].setdefault(name.text, found := Declared(name, array, item))
        if first is not found:
            self.broken(2, name.place, f"'{name.text}' is declared a second time; the first one is at {first.name.place}")

    def judge_length(self, name: Name, length: tree.Number | None, values: int) -> None:
        if length is None:
            return
        if not 1 <= length.value <= LONGEST_ARRAY:
            self.broken(17, length.place, f"the length of an array is from 1 to {LONGEST_ARRAY}")
        if values > length.value % 2**32:
            self.broken(18, name.place, f"'{name.text}' has {values} values, and its length is {length.value % 2**32}")

    def judge_globals(self) -> None:
        for sort, kinds in (("inputs", INPUTS), ("outputs", OUTPUTS)):
            count = 0
            for item in [item for item in self.program.globals if item.kind in kinds and variables_of(item)]:
                count += variables_of(item)
                if count > MOST_OF_A_SORT:
                    elements = ", elements of arrays among them" if item.length else ""
                    self.broken(22, item.name.place, f"there are at most {MOST_OF_A_SORT} {sort}{elements}")
        for item in self.program.globals:
            self.judge_length(item.name, item.length, len(item.values))
            if item.combine and (found := self.use(item.combine)):
                function = found.item
                if not isinstance(function, Function) or not function.gives or len(function.params) != 2:
                    self.broken(16, item.combine.place, f"'{item.combine.text}' isn't an int function with two parameters")

    def judge_functions(self) -> None:
        functions = self.program.functions
        for function in functions[MOST_FUNCTIONS:]:
            self.broken(24, function.name.place, f"there are at most {MOST_FUNCTIONS} functions")
        if not any(function.name.text == "main" and not function.gives and not function.params for function in functions):
            place = next((item.name.place for item in self.program.items if item.name.text == "main"), Place(1, 1))
            self.broken(3, place, "there is no function main in the form void main(void) { .. }")
        for function in in_cycles(functions, self.called):
            self.broken(6, function.name.place, f"'{function.name.text}' reaches itself through calls and branches")
        for function in functions:
            if len(function.params) > MOST_PARAMS:
                self.broken(23, function.name.place, f"a function has at most {MOST_PARAMS} parameters")
            if function.gives and not returns(function.body):
                self.broken(15, function.name.place, f"'{function.name.text}' may end without a return")

    def called(self, function: Function) -> list[Function]:
        """The functions that a function calls or starts."""
        calls = (part for part in tree.walk(function.body) if isinstance(part, tree.Call))
        return [item for call in calls if isinstance(item := self.item(call.place), Function)]

    # -- uses

    def lookup(self, text: str) -> Declared | None:
        return next((scope[text] for scope in reversed(self.scopes) if text in scope), None)

    def use(self, name: Name) -> Declared | None:
        found = self.lookup(name.text)
        if not found:
            known = [text for scope in self.scopes for text in scope if text != "main" or name.text not in NAMES]
            near = difflib.get_close_matches(name.text, known, 1, 0.6) if len(known) < 5000 else []
            meant = f"; did you mean '{near[0]}'?" if near else f"; perhaps: {NAMES[name.text]}" if name.text in NAMES else ""
            self.broken(1, name.place, f"'{name.text}' isn't declared here{meant}")
            return None
        self.bound[name.place] = found
        if found.is_variable and self.inside and self.inside.gives:
            self.broken(11, name.place, f"the int function '{self.inside.name.text}' names '{name.text}', which isn't a constant")
        return found

    def use_variable(self, name: Name, index: tree.Expr | None) -> Declared | None:
        found = self.use(name)
        if found and found.kind.endswith("function"):
            self.broken(4, name.place, f"'{name.text}' is a function, and is used as a variable")
        elif found and found.array != (index is not None):
            self.broken(4, name.place, f"'{name.text}' is an array, and has no index here" if found.array else
                        f"'{name.text}' is no array, and has an index here")
        return found

    def use_function(self, call: tree.Call, kind: str, use: str) -> None:
        found = self.use(call.name)
        for argument in call.arguments:
            self.read_expression(argument)
        if not found:
            return
        name, function = call.name, found.item
        if not isinstance(function, Function) or found.kind != kind:
            what = "a variable" if not isinstance(function, Function) else "an int function" if function.gives else "a void function"
            self.broken(4, name.place, f"'{name.text}' is {what}, and {use}")
        elif len(call.arguments) != len(function.params):
            self.broken(5, name.place, f"'{name.text}' has {counted(len(function.params), 'parameter')}, and gets {len(call.arguments)}")
        if isinstance(function, Function) and name.text == "main":
            self.broken(7, name.place, "main is called or started")

    # -- functions, statements and expressions

    def read_function(self, function: Function) -> None:
        self.inside = function
        self.scopes.append({})
        for param in function.params:
            self.declare(param, False)
        self.read_list(function.body)
        self.scopes.pop()
        self.inside = None

    def read_list(self, body: Iterable[tree.Stmt]) -> None:
        for statement in body:
            self.read_statement(statement)

    def read_scope(self, body: Iterable[tree.Stmt]) -> None:
        self.scopes.append({})
        self.read_list(body)
        self.scopes.pop()

    def read_branch(self, branch: tree.Branch) -> None:
        if isinstance(branch, tree.Call):
            self.use_function(branch, "void function", "is started as a branch here")
            return
        outer, self.scopes = self.scopes, [self.globals]
        self.read_scope(branch.body)
        self.scopes = outer

    def read_statement(self, statement: tree.Stmt) -> None:
        self.judge_statement(statement)
        match statement:
            case tree.Group(_, body):
                self.read_scope(body)
            case tree.Declare(_, found):
                for local in found:
                    self.read_local(local)
            case tree.Assign():
                self.read_assignment(statement)
            case tree.CallStatement(_, call):
                self.use_function(call, "void function", "is called as a statement here")
                called = self.item(call.place)
                if self.inside and self.inside.gives and isinstance(called, Function) and not called.gives:
                    self.broken(13, call.place, f"the int function '{self.inside.name.text}' calls the void function '{call.name.text}'")
            case tree.If(_, test, yes, no):
                self.read_expression(test)
                self.read_scope([yes])
                self.read_scope([no] if no else [])
            case tree.While(_, test, _, body):
                self.read_expression(test)
                self.read_scope([body])
            case tree.For():
                self.scopes.append({})
                self.read_list([statement.start] if statement.start else [])
                self.read_expression(statement.test)
                self.read_list([statement.step] if statement.step else [])
                self.read_scope([statement.body])
                self.scopes.pop()
            case tree.Par(_, branches):
                for branch in branches:
                    self.read_branch(branch)
            case tree.Abort():
                self.read_expression(statement.test)
                self.read_scope(statement.body)
            case tree.Return(_, value):
                self.read_expression(value)

    def judge_statement(self, statement: tree.Stmt) -> None:
        gives = self.inside is not None and self.inside.gives
        if gives and isinstance(statement, (tree.Pause, tree.Par, tree.Abort)):
            word = type(statement).__name__.lower()
            self.broken(12, statement.place, f"a {word} stands in an int function, which takes no time")
        if not gives and isinstance(statement, tree.Return):
            self.broken(14, statement.place, "a return stands in a void function")
        bound = statement.bound if isinstance(statement, tree.Loop) else None
        if bound and not 1 <= bound.value <= GREATEST_BOUND:
            self.broken(19, bound.place, f"a bound is from 1 to {GREATEST_BOUND}")

    def read_local(self, local: tree.Local) -> None:
        for value in local.values:
            self.read_expression(value)
        self.judge_length(local.name, local.length, len(local.values))
        self.declare(local.name, local.length is not None)

    def read_assignment(self, statement: tree.Assign) -> None:
        self.read_expression(statement.index)
        self.read_expression(statement.value)
        name = statement.name
        found = self.use_variable(name, statement.index)
        if found and found.kind == "input":
            self.broken(8, name.place, f"'{name.text}' is an input, and is assigned")
        if found and found.kind == "const":
            self.broken(9, name.place, f"'{name.text}' is a constant, and is assigned")

    def read_expression(self, expression: tree.Expr | None) -> None:
        match expression:
            case tree.Read(name):
                self.use_variable(name, None)
            case tree.Element(name, index):
                self.use_variable(name, index)
                self.read_expression(index)
            case tree.Call():
                self.use_function(expression, "int function", "stands in an expression here")
            case tree.Unary() | tree.Binary() | tree.Choose():
                for part in tree.parts(expression):
                    self.read_expression(part)


def variables_of(item: Global) -> int:
    """How many variables an input, output or shared variable is: an array is one for each element."""
    return 1 if item.length is None else max(0, item.length.value)


def counted(count: int, what: str) -> str:
    return f"{count or 'no'} {what}{'' if count == 1 else 's'}"


def returns(body: Iterable[tree.Stmt]) -> bool:
    """Whether a list of statements can't end without a return."""
    return any(isinstance(each, tree.Return)
               or isinstance(each, tree.Group) and returns(each.body)
               or isinstance(each, tree.If) and each.no is not None and returns([each.yes]) and returns([each.no]) for each in body)


def in_cycles(functions: list[Function], called) -> Iterator[Function]:
    """The functions that reach themselves, by Tarjan's way to find strongly connected parts."""
    order: dict[Function, int] = {}
    least: dict[Function, int] = {}
    kept: list[Function] = []
    for root in functions:
        work = [] if root in order else [(root, iter(edges := called(root)), edges)]
        while work:
            function, rest, edges = work[-1]
            if function not in order:
                order[function] = least[function] = len(order)
                kept.append(function)
            following = next(rest, None)
            if following is not None and following not in order:
                work.append((following, iter(more := called(following)), more))
            elif following is not None:
                least[function] = min(least[function], least.get(following, len(functions)))
            else:
                work.pop()
                if work:
                    least[work[-1][0]] = min(least[work[-1][0]], least[function])
                if least[function] == order[function]:
                    part = kept[kept.index(function):]
                    del kept[-len(part):]
                    if len(part) > 1 or function in edges:
                        yield from part
                    for each in part:
                        least[each] = len(functions)
