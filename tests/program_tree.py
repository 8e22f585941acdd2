"""Programs as trees, for `meaning.py`: tokens, the grammar, and what the form of a program tells by itself.

That is the number of turns of a loop, the variables that a thread names, and the most that a tick can cost. A program has
to be accepted: nothing is checked.
"""
import re

MOST_TURNS = 1_000_000


# ---- numbers

def wrapped(n):
    """The number of 32 bits that has the same lowest bits."""
    return (n + 2**31) % 2**32 - 2**31


def quotient(a, b):
    return abs(a) // abs(b) * (1 if (a < 0) == (b < 0) else -1)


OPERATORS = {
    "+": lambda a, b: a + b, "-": lambda a, b: a - b, "*": lambda a, b: a * b,
    "/": quotient, "%": lambda a, b: a - b * quotient(a, b),
    "<<": lambda a, b: a << b % 32, ">>": lambda a, b: a >> b % 32,
    "<": lambda a, b: a < b, "<=": lambda a, b: a <= b, ">": lambda a, b: a > b, ">=": lambda a, b: a >= b,
    "==": lambda a, b: a == b, "!=": lambda a, b: a != b,
    "&": lambda a, b: a & b, "^": lambda a, b: a ^ b, "|": lambda a, b: a | b,
}
UNARY = {"-": lambda a: -a, "~": lambda a: ~a, "!": lambda a: a == 0}


# ---- tokens

RESERVED = set("int void const input output shared combine all new mod with par pause weak abort immediate when if else "
               "while for return".split())
TOKEN = re.compile(r"(?P<blank>[\t-\r ]+|//[^\n]*|/\*.*?\*/)|(?P<word>[A-Za-z_0-9]+)"
                   r"|(?P<mark><<=|>>=|\+=|-=|\*=|/=|%=|&=|\|=|\^=|<<|>>|<=|>=|==|!=|&&|\|\||\+\+|--|[-+*/%&|^~!<>=?:;,(){}\[\]#])", re.S)


def number_of(word):
    if word[:2] in ("0x", "0X"):
        return wrapped(int(word[2:], 16))
    return wrapped(int(word, 8 if word[0] == "0" else 10))


def tokens_of(text):
    """The tokens of a text as triples of kind, value and place; columns count bytes."""
    at, line, start, found = 0, 1, 0, []
    while at < len(text):
        match = TOKEN.match(text, at)
        assert match, f"no token fits at {line}:{at - start + 1}"
        place, word = (line, at - start + 1), match.group()
        if match.lastgroup == "mark" or word in RESERVED:
            found.append((word, word, place))
        elif match.lastgroup == "word":
            found.append(("number", number_of(word), place) if word[0].isdigit() else ("name", word, place))
        breaks = word.count("\n")
        if breaks:
            line, start = line + breaks, at + word.rindex("\n") + 1
        at = match.end()
    return found + [("end", "end", (line, at - start + 1))]


# ---- the tree: tuples whose first part is their kind. Names of locals are resolved while it is read.

LEVELS = [["||"], ["&&"], ["|"], ["^"], ["&"], ["==", "!="], ["<", "<=", ">", ">="], ["<<", ">>"], ["+", "-"], ["*", "/", "%"]]
ASSIGNING = ["=", "+=", "-=", "*=", "/=", "%=", "&=", "|=", "^=", "<<=", ">>="]


class Function:
    """A function, or the block of a branch."""

    def __init__(self, params, gives):
        self.params, self.words, self.gives = params, params, gives
        self.body = self.uses = self.bound = None


class Loop:
    """A `while`, or a `for` without its start. `form` is what its number of turns is inferred from; a `for` with a step is `stepped`,
    and the step is the last part of its body."""

    def __init__(self, test, bound, body, place, form=None, stepped=False):
        self.test, self.bound, self.body, self.place, self.form, self.stepped = test, bound, body, place, form, stepped


class Variable:
    """An input, output, plain global or shared variable, or an element of a shared array."""

    def __init__(self, number, name, kind, start, policy="mod", combine=None):
        self.number, self.name, self.kind, self.start, self.policy, self.combine = number, name, kind, start, policy, combine


class Program:
    def __init__(self, text):
        self.tokens, self.at = tokens_of(text), 0
        self.functions, self.constants, self.tables, self.variables, self.arrays = {}, {}, {}, [], {}
        self.named, self.loops, self.frame, self.scopes = [], [], None, []
        while not self.sees("end"):
            self.item()
        for loop in self.loops:
            if loop.form and loop.bound is None:
                loop.bound = self.inferred(*loop.form)

    # -- reading tokens

    def sees(self, *kinds):
        return self.tokens[self.at][0] in kinds

    def place(self):
        return self.tokens[self.at][2]

    def take(self, kind=None):
        token = self.tokens[self.at]
        assert kind is None or token[0] == kind, f"{kind} is expected at {token[2]}, where {token[1]} stands"
        self.at += 1
        return token[1]

    def takes(self, kind):
        if self.sees(kind):
            self.at += 1
            return True
        return False

    def listed(self, read, end):
        """What stands between commas up to this mark, which is taken."""
        found = []
        if not self.takes(end):
            found.append(read())
            while self.takes(","):
                found.append(read())
            self.take(end)
        return found

    # -- globals and functions

    def item(self):
        words = []
        while self.sees("const", "input", "shared", "output"):
            words.append(self.take())
        if self.sees("void") or self.tokens[self.at + 2][0] == "(":
            return self.function()
        self.take("int")
        kind = "const" if "const" in words else "input" if "input" in words else "output" if "output" in words else "plain"
        for name, length, values in self.listed(self.declarator, ";" if "shared" not in words else "combine"):
            if kind == "const" and length is None:
                self.constants[name] = values[0]
            elif kind == "const":
                self.tables[name] = values + [0] * (length - len(values))
            else:
                self.declare_variable(name, length, values, kind)
        if "shared" in words:
            policy = self.take()
            self.take("with")
            combine = self.take("name")
            self.take(";")
            for variable in self.arrays[name]:
                variable.policy, variable.combine = policy, combine
        return None

    def declarator(self):
        name, length, values = self.take("name"), None, []
        if self.takes("["):
            length = self.take("number")
            self.take("]")
        if self.takes("="):
            values = self.listed(self.signed, "}") if self.takes("{") else [self.signed()]
        return name, length, values

    def signed(self):
        minus = self.takes("-")
        number = self.take("number")
        return wrapped(-number) if minus else number

    def declare_variable(self, name, length, values, kind):
        """A scalar is one variable; of an array each element is one."""
        names = [name] if length is None else [f"{name}[{i}]" for i in range(length)]
        first = len(self.variables)
        self.arrays[name] = [Variable(first + i, n, kind, values[i] if i < len(values) else 0) for i, n in enumerate(names)]
        self.variables += self.arrays[name]

    def function(self):
        gives = self.take() == "int"
        name = self.take("name")
        self.take("(")
        if self.takes("void"):
            params = self.listed(None, ")")
        else:
            params = self.listed(lambda: (self.take("int"), self.take("name"))[1], ")")
        self.functions[name] = self.body_of(params, gives)

    def body_of(self, params, gives=False):
        """A function's or a block's body, with a frame and scopes of its own."""
        outer = self.frame, self.scopes
        self.frame, self.scopes = Function(len(params), gives), [{name: (slot, None) for slot, name in enumerate(params)}]
        self.take("{")
        function = self.frame
        function.body = self.statements()
        self.frame, self.scopes = outer
        return function

    # -- statements

    def statements(self):
        found = []
        while not self.takes("}"):
            found.append(self.statement())
        return ("list", found)

    def scoped(self, read):
        self.scopes.append({})
        found = read()
        self.scopes.pop()
        return found

    def statement(self):
        place = self.place()
        if self.takes("{"):
            return self.scoped(self.statements)
        if self.takes(";"):
            return ("list", [])
        if self.takes("int"):
            return ("list", self.listed(self.local, ";"))
        if self.takes("if"):
            self.take("(")
            test = self.expression()
            self.take(")")
            yes = self.scoped(self.statement)
            no = self.scoped(self.statement) if self.takes("else") else ("list", [])
            return ("if", test, yes, no)
        if self.takes("while"):
            self.take("(")
            test = self.expression()
            self.take(")")
            return self.loop(test, self.bound(), self.scoped(self.statement), place)
        if self.takes("for"):
            return self.scoped(lambda: self.for_loop(place))
        if self.takes("pause"):
            self.take(";")
            return ("pause",)
        if self.takes("par"):
            self.take("(")
            branches = self.listed(self.branch, ")")
            self.take(";")
            return ("par", branches)
        if self.sees("weak", "abort"):
            return self.abort()
        if self.takes("return"):
            value = self.expression()
            self.take(";")
            return ("return", value)
        found = self.simple()
        self.take(";")
        return found

    def bound(self):
        return self.take("number") if self.takes("#") else None

    def loop(self, test, bound, body, place, form=None, stepped=False):
        found = Loop(test, bound, body, place, form, stepped)
        self.loops.append(found)
        return ("while", found)

    def for_loop(self, place):
        self.take("(")
        start = test = step = None
        if self.takes("int"):
            name = self.tokens[self.at][1]
            start = self.local()
        elif not self.sees(";"):
            name = self.tokens[self.at][1]
            start = self.simple()
        self.take(";")
        if not self.sees(";"):
            test = self.expression()
        self.take(";")
        if not self.sees(")"):
            step = self.simple()
        self.take(")")
        bound = self.bound()
        before = len(self.named)
        body = self.scoped(self.statement)
        form = (name, start, test, step, self.named[before:]) if start and test and step else None
        turn = ("list", [body] + ([step] if step else []))
        loop = self.loop(test or ("number", 1), bound, turn, place, form, bool(step))
        return ("list", ([start] if start else []) + [loop])

    def branch(self):
        if self.sees("{"):
            return ("branch", self.body_of([]), [])
        name = self.take("name")
        return ("branch", name, self.listed(self.expression, ")") if self.takes("(") else [])

    def abort(self):
        weak = self.takes("weak")
        self.take("abort")
        self.take("{")
        body = self.scoped(self.statements)
        self.take("when")
        immediate = self.takes("immediate")
        self.take("(")
        test = self.expression()
        self.take(")")
        self.take(";")
        return ("abort", weak, immediate, test, body)

    def local(self):
        name = self.take("name")
        self.named.append(name)
        length, values = None, None
        if self.takes("["):
            length = self.take("number")
            self.take("]")
            place = self.tokens[self.at - 4][2]
            if self.takes("="):
                self.take("{")
                values = self.listed(self.expression, "}")
        elif self.takes("="):
            values = [self.expression()]
        slot = self.frame.words
        self.frame.words += 1 if length is None else length
        self.scopes[-1][name] = (slot, length)
        if length is None:
            return ("set", ("local", slot), values[0]) if values else ("clear", slot, 1)
        return ("list", [("clear", slot, length)]
                + [("set_at", slot, length, ("number", i), value, place) for i, value in enumerate(values or [])])

    def simple(self):
        if self.sees("++", "--"):
            mark, place = self.tokens[self.at][0], self.place()
            self.take()
            return self.assigned(self.target(), mark[0], ("number", 1), place)
        if self.tokens[self.at + 1][0] == "(":
            name = self.take("name")
            self.take("(")
            return ("call", name, self.listed(self.expression, ")"))
        target, mark, place = self.target(), self.tokens[self.at][0], self.place()
        assert mark in ASSIGNING + ["++", "--"], f"no statement at {place}"
        self.take()
        if mark in ("++", "--"):
            return self.assigned(target, mark[0], ("number", 1), place)
        return self.assigned(target, mark[:-1] or None, self.expression(), place)

    def target(self):
        """A scalar, or an element with its index: an expression that reads it."""
        self.named.append(self.tokens[self.at][1])
        return self.read_name()

    def assigned(self, target, operator, value, place):
        if operator:
            value = ("binary", operator, target, value, place)
        if target[0] == "local_at":
            return ("set_at", *target[1:3], target[3], value, target[4])
        if target[0] == "global_at":
            return ("put_at", target[1], target[2], value, target[3])
        return ("set", target, value)

    # -- expressions

    def expression(self):
        test = self.level(0)
        if not self.takes("?"):
            return test
        yes = self.expression()
        self.take(":")
        return ("choose", test, yes, self.expression())

    def level(self, n):
        if n == len(LEVELS):
            return self.unary()
        left = self.level(n + 1)
        while self.sees(*LEVELS[n]):
            place, operator = self.place(), self.take()
            right = self.level(n + 1)
            left = (operator, left, right) if operator in ("&&", "||") else ("binary", operator, left, right, place)
        return left

    def unary(self):
        if self.sees("-", "~", "!"):
            operator = self.take()
            return ("unary", operator, self.unary())
        if self.takes("("):
            inside = self.expression()
            self.take(")")
            return inside
        if self.sees("number"):
            return ("number", self.take())
        if self.tokens[self.at + 1][0] == "(":
            name = self.take("name")
            self.take("(")
            return ("call", name, self.listed(self.expression, ")"))
        return self.read_name()

    def read_name(self):
        place, name = self.place(), self.take("name")
        index = None
        if self.takes("["):
            index = self.expression()
            self.take("]")
        for scope in reversed(self.scopes):
            if name in scope:
                slot, length = scope[name]
                return ("local", slot) if index is None else ("local_at", slot, length, index, place)
        return ("global", name) if index is None else ("global_at", name, index, place)

    # -- turns that the form of a `for` tells

    def inferred(self, name, start, test, step, named):
        """The number of turns of a `for` over this name, whose body assigns or declares those names, or None."""
        value = plain_number(start[2]) if start[0] == "set" else None
        if value is None or test[0] != "binary" or test[1] not in ("<", "<=", ">", ">=") or test[2] != start[1]:
            return None
        up, end = test[1] in ("<", "<="), plain_number(test[3])
        stepped = step[0] == "set" and step[1] == start[1] and step[2][:3] == ("binary", "+" if up else "-", start[1])
        by = step[2][3] if stepped else None
        if end is None or not by or by[0] != "number" or by[1] < 1:
            return None
        if name in named or name in self.constants or name in self.tables or name in self.arrays:
            return None
        turns = 0
        while OPERATORS[test[1]](value, end):
            value, turns = value + (by[1] if up else -by[1]), turns + 1
            if turns > MOST_TURNS or value != wrapped(value):
                return None
        return turns

    # -- the variables of a thread

    def function_of(self, what):
        """A function that is named, or the body of a block."""
        return what if isinstance(what, Function) else self.functions[what]

    def uses(self, function):
        """The numbers of the variables that a body or a thread below it names, in order of declaration."""
        if function.uses is None:
            found = set()
            self.collect(function.body, found)
            function.uses = sorted(found)
        return function.uses

    def collect(self, node, found):
        """Adds the variables of a part of the tree."""
        if isinstance(node, Loop):
            self.collect(node.test, found)
            self.collect(node.body, found)
        elif isinstance(node, Function):
            found.update(self.uses(node))
        elif isinstance(node, (tuple, list)):
            kind = node[0] if node else None
            if kind in ("global", "global_at", "put_at"):
                found.update(v.number for v in self.arrays.get(node[1], []))
            elif kind in ("call", "branch") and isinstance(node[1], str):
                found.update(self.uses(self.functions[node[1]]))
            for part in node:
                self.collect(part, found)

    # -- the most that a tick can cost

    def bound_of(self, function):
        if function.bound is None:
            function.bound = self.most(function.body)
        return function.bound

    def most(self, node):
        """The most units that a part of the tree can cost in a tick."""
        kind = node[0]
        if kind in ("number", "local", "global", "pause"):
            return 1
        if kind in ("local_at", "global_at"):
            return 1 + self.most(node[3] if kind == "local_at" else node[2])
        if kind == "unary":
            return 1 + self.most(node[2])
        if kind == "binary":
            return 1 + self.most(node[2]) + self.most(node[3])
        if kind in ("&&", "||"):
            return 1 + self.most(node[1]) + self.most(node[2])
        if kind in ("choose", "if"):
            return 1 + self.most(node[1]) + max(self.most(node[2]), self.most(node[3]))
        if kind == "call":
            function = self.functions[node[1]]
            own = 1 if function.gives else len(node[2])
            return own + sum(map(self.most, node[2])) + self.bound_of(function)
        if kind == "list":
            return sum(map(self.most, node[1]))
        if kind == "set":
            return self.most(node[2]) + 1
        if kind in ("set_at", "put_at"):
            return 1 + sum(map(self.most, node[3:5] if kind == "set_at" else node[2:4]))
        if kind == "clear":
            return node[2]
        if kind == "while":
            turns = 2 if node[1].bound is None else node[1].bound + 1
            return turns * (self.most(node[1].test) + 1 + self.most(node[1].body))
        if kind == "par":
            return self.most_of_par(node[1])
        if kind == "abort":
            return 2 * (self.most(node[3]) + 1) + self.most(node[4])
        assert kind == "return", kind
        return self.most(node[1])

    def most_of_par(self, branches):
        functions = [self.function_of(what) for _, what, _ in branches]
        found = 1 + sum(self.most(a) for _, _, given in branches for a in given) + sum(map(self.bound_of, functions))
        for variable in self.variables:
            sharing = sum(variable.number in self.uses(function) for function in functions)
            if variable.combine and sharing > 1:
                found += (sharing - 1) * (1 + self.bound_of(self.functions[variable.combine]))
        return found


def plain_number(e):
    """The value of a number with or without a minus, or None."""
    if e[0] == "unary" and e[1] == "-" and e[2][0] == "number":
        return wrapped(-e[2][1])
    return e[1] if e[0] == "number" else None
