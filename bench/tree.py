"""A program's tree for the walkers, the baselines of speed: as lines of words for `walker.rs`, and, of a program of one thread
without inputs, as constants for `walker.c`.
"""
import os
import sys
from typing import NamedTuple

sys.path.insert(0, os.path.join(os.path.dirname(os.path.dirname(os.path.realpath(__file__))), "tests"))
sys.dont_write_bytecode = True

from program_tree import Function, Program  # noqa: E402

UNARY = {"-": "minus", "~": "invert", "!": "not"}
BINARY = {"+": "add", "-": "sub", "*": "mul", "/": "div", "%": "rem", "<<": "shl", ">>": "shr", "<": "lt", "<=": "le", ">": "gt",
          ">=": "ge", "==": "eq", "!=": "ne", "&": "and", "^": "xor", "|": "or"}


class Term(NamedTuple):
    """A part of the tree: its kind, its numbers, and the parts in it, either as many as the kind has or a list of any length."""
    kind: str
    numbers: tuple = ()
    parts: tuple = ()
    listed: bool = False

    def words(self):
        length = [str(len(self.parts))] if self.listed else []
        return " ".join([self.kind, *map(str, self.numbers), *length, *(part.words() for part in self.parts)])

    def may_rest(self):
        """Whether a thread may rest, fork or be aborted here."""
        return self.kind in ("pause", "par", "abort") or any(part.may_rest() for part in self.parts)


def listed(kind, parts, *numbers):
    return Term(kind, numbers, tuple(parts), listed=True)


class Tree:
    """The functions and threads of a program. Void functions are put in place where they are called."""

    def __init__(self, text):
        self.program = Program(text)
        self.tables = list(self.program.tables)
        self.names = [name for name, function in self.program.functions.items() if function.gives]
        self.words, self.uses = 0, []
        self.functions = [self.statement(self.program.functions[name].body, 0) for name in self.names]
        self.threads = []
        self.thread(self.program.functions["main"], list(range(len(self.program.variables))))

    def thread(self, function, uses):
        """Adds a thread with those below it, and gives its number."""
        number, outer = len(self.threads), (self.words, self.uses)
        self.threads.append(None)
        self.words, self.uses = function.words, uses
        body = self.statement(function.body, 0)
        self.threads[number] = (self.words, uses, body)
        self.words, self.uses = outer
        return number

    # -- expressions and statements, of a function whose words start at `base`

    def all(self, parts, base):
        return tuple(self.expression(part, base) for part in parts)

    def expression(self, e, base):
        kind = e[0]
        if kind == "number":
            return Term("number", (e[1],))
        if kind == "local":
            return Term("local", (base + e[1],))
        if kind == "local_at":
            return Term("local_at", (base + e[1], e[2]), self.all([e[3]], base))
        if kind == "global":
            constants = self.program.constants
            return Term("number", (constants[e[1]],)) if e[1] in constants else Term("variable", (self.copy(e[1]),))
        if kind == "global_at" and e[1] in self.tables:
            return Term("table_at", (self.tables.index(e[1]),), self.all([e[2]], base))
        if kind == "global_at":
            return Term("variable_at", self.row(e[1]), self.all([e[2]], base))
        if kind == "unary":
            return Term(UNARY[e[1]], (), self.all([e[2]], base))
        if kind == "binary":
            return Term(BINARY[e[1]], (), self.all(e[2:4], base))
        if kind == "call":
            return listed("call", self.all(e[2], base), self.names.index(e[1]))
        return Term({"&&": "both", "||": "either", "choose": "choose"}[kind], (), self.all(e[1:], base))

    def copy(self, name):
        """Where the thread's copy of a variable stands."""
        return self.uses.index(self.program.arrays[name][0].number)

    def row(self, name):
        """Where the thread's copies of a shared array begin, and how many they are."""
        return self.copy(name), len(self.program.arrays[name])

    def statement(self, s, base):
        kind = s[0]
        if kind == "list":
            return listed("list", [self.statement(part, base) for part in s[1]])
        if kind == "set":
            to = ("set_local", (base + s[1][1],)) if s[1][0] == "local" else ("set_variable", (self.copy(s[1][1]),))
            return Term(*to, self.all([s[2]], base))
        if kind == "set_at":
            return Term("set_at", (base + s[1], s[2]), self.all(s[3:5], base))
        if kind == "put_at":
            return Term("set_variable_at", self.row(s[1]), self.all(s[2:4], base))
        if kind == "clear":
            return Term("clear", (base + s[1], s[2]))
        if kind == "if":
            return Term("if", (), self.all([s[1]], base) + (self.statement(s[2], base), self.statement(s[3], base)))
        if kind == "while":
            body = self.statement(s[1].body, base)
            bound = -1 if s[1].bound is None else s[1].bound
            return Term("while" if body.may_rest() else "loop", (bound,), self.all([s[1].test], base) + (body,))
        if kind == "pause":
            return Term("pause")
        if kind == "call":
            return self.put_in_place(self.program.functions[s[1]], s[2], base)
        if kind == "par":
            return listed("par", [self.branch(branch, base) for branch in s[1]])
        if kind == "abort":
            return Term("abort", (int(s[1]), int(s[2])), self.all([s[3]], base) + (self.statement(s[4], base),))
        return Term("return", (), self.all([s[1]], base))

    def put_in_place(self, function, given, base):
        inner, self.words = self.words, self.words + function.words
        sets = [Term("set_local", (inner + slot,), self.all([value], base)) for slot, value in enumerate(given)]
        return listed("list", sets + [self.statement(function.body, inner)])

    def branch(self, branch, base):
        _, what, given = branch
        function = what if isinstance(what, Function) else self.program.functions[what]
        return listed("branch", self.all(given, base), self.thread(function, self.program.uses(function)))


def numbered(values):
    return " ".join(map(str, [len(values), *values]))


def in_words(text):
    """The tree of a program as lines of words."""
    tree = Tree(text)
    program = tree.program
    lines = [f"variable {v.name} {v.kind} {v.policy} {tree.names.index(v.combine) if v.combine else -1} {v.start}" for v in program.variables]
    lines += [f"table {numbered(program.tables[name])}" for name in tree.tables]
    lines += [f"function {program.functions[name].words} {body.words()}" for name, body in zip(tree.names, tree.functions)]
    lines += [f"thread {count} {numbered(uses)} {body.words()}" for count, uses, body in tree.threads]
    return "\n".join(lines) + "\n"


def in_c(text, ticks):
    """The tree of a program as constants of C, with how many ticks are to run."""
    tree = Tree(text)
    program, lines = tree.program, []

    def node(term):
        parts = ", ".join(node(part) for part in term.parts)
        name = f"n{len(lines)}"
        if term.listed and parts:
            lines.append(f"static const struct node *const {name}_list[] = {{ {parts} }};")
            parts = f".list = {name}_list"
        at, count = (*term.numbers, 0, 0)[:2]
        lines.append(f"static const struct node {name} = {{ {term.kind.upper()}, {at}, {count}, {len(term.parts)}, {parts} }};")
        return f"&{name}"

    def array(kind, name, values):
        lines.append(f"static {kind} {name}[] = {{ {', '.join(map(str, values))} }};")

    for k, name in enumerate(tree.tables):
        array("const int", f"table{k}", program.tables[name])
    array("const struct table", "tables", (f"{{ table{k}, {len(program.tables[name])} }}" for k, name in enumerate(tree.tables)))
    bodies = [node(body) for body in tree.functions]
    array("const struct function", "functions", (f"{{ {body}, {program.functions[name].words} }}" for name, body in zip(tree.names, bodies)))
    array("int", "variables", (v.start for v in program.variables))
    array("const char *const", "names", (f'"{v.name}"' for v in program.variables))
    array("const int", "outputs", (int(v.kind == "output") for v in program.variables))
    count, _, body = tree.threads[0]
    lines.append(f"static int frame[{max(count, 1)}];")
    lines.append(f"static const struct node *const start = {node(body)};")
    return "\n".join(lines + [f"enum {{ TICKS = {ticks} }};"]) + "\n"
