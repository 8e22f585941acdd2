#!/usr/bin/env python3
"""Draws small programs of the whole language by chance, each with a trace. Every program keeps the rules of the language.

Usage: random_programs.py SEED COUNT FOLDER      (writes SEED.forec, SEED.trace and so on for COUNT seeds into the folder)

A program has inputs, plain variables that one thread at most names, shared variables and arrays of the three policies with combine
functions, indices that are numbers, counters of loops or computed, int functions, a constant array, helpers that are called as
statements, branches with and without arguments, nested `par`s, and the four aborts, nested and round a `par`. One in four may trap.
"""
import os
import random
import sys

COMBINE = {
    "plus": "return x + y;",
    "minus": "return x - y;",
    "lower": "return x < y ? x : y;",
    "greater": "if (x > y) return x; return y;",
    "mixed": "return x * 3 + y;",
    "last": "return y;",
    "slow": "int r = 0; for (int i = 0; i < 3; i++) { r = r + (x ^ y) % 5; } return r + x;",
    "halved": "int n = x; while (n > 9) #40 { n = n / 2; } return n + y;",
}
# these trap for some numbers
COMBINE_TRAPS = {
    "ratio": "return x / y;",
    "picked": "int a[3] = {1, 2, 3}; return a[x & 3] + y;",
    "counted": "int n = x & 7; while (n) #4 { n--; } return y;",
}
MOST_THREADS = 40


class Scope:
    """What a statement may name: locals, locals that it leaves alone, arrays with their lengths, and plain variables."""

    def __init__(self, one_instance, scalars=(), fixed=(), arrays=(), plain=()):
        self.one_instance = one_instance
        self.scalars, self.fixed, self.arrays, self.plain = list(scalars), list(fixed), list(arrays), list(plain)

    def inner(self, fixed=()):
        return Scope(self.one_instance, self.scalars, self.fixed + list(fixed), self.arrays, self.plain)


class Draw:
    """Draws one program. A statement is a pair: its text, and whether it is certain to pause."""

    def __init__(self, seed):
        self.chance = random.Random(seed)
        self.traps = self.chance.random() < 0.25
        self.fresh = 0
        self.threads, self.most = 0, MOST_THREADS
        self.inputs = [f"in{n}" for n in range(self.chance.randint(1, 3))]
        self.shared, self.plain, self.arrays = [], [], []
        self.int_functions, self.helpers, self.branches = [], [], []

    def pick(self, *choices):
        return self.chance.choice(choices)

    def odds(self, p):
        return self.chance.random() < p

    def name(self, front):
        self.fresh += 1
        return f"{front}{self.fresh}"

    # -- expressions

    def readable(self, scope):
        elements = [f"{name}[{self.chance.randrange(length)}]" for name, length in self.arrays]
        return self.inputs + self.shared * 2 + elements * 2 + scope.scalars * 2 + scope.fixed + scope.plain + ["limit"]

    def literal(self):
        if self.odds(0.05):
            return self.pick("2147483647", "0x80000000", "017", "65536")
        return str(self.chance.randint(0, 9))

    def element(self, scope, depth):
        """An element of a shared array: its index is a number, or a counter or what is computed brought inside, and may be outside."""
        name, length = self.pick(*self.arrays)
        if self.odds(0.4):
            return f"{name}[{self.chance.randrange(length)}]"
        if self.traps and self.odds(0.2):
            return f"{name}[{self.pick(length, -1, self.expression(scope, depth))}]"
        index = self.pick(*scope.fixed) if scope.fixed and self.odds(0.5) else self.expression(scope, depth)
        return f"{name}[({index} & 2147483647) % {length}]"

    def expression(self, scope, depth):
        if depth == 0 or self.odds(0.3):
            return self.literal() if self.odds(0.35) else self.pick(*self.readable(scope))
        a, b = self.expression(scope, depth - 1), self.expression(scope, depth - 1)
        operator = self.pick("+", "-", "*", "&", "|", "^", "<", "<=", ">", ">=", "==", "!=", "&&", "||", "+", "-", "<<", ">>")
        forms = [f"({a} {operator} {b})"] * 6 + [f"({self.pick('-', '~', '!')}{a})", f"({a} ? {b} : {self.literal()})"]
        forms += [f"({a} {self.pick('/', '%')} {b})" if self.traps else f"({a} / ({b} & 7 | 1))"]
        forms += [f"table[{a}]" if self.traps and self.odds(0.2) else f"table[{a} & 3]"]
        if scope.arrays:
            array, length = self.pick(*scope.arrays)
            forms += [f"{array}[({a} & 2147483647) % {length}]"] * 2
        if self.arrays:
            forms += [self.element(scope, depth - 1)] * 2
        if self.int_functions:
            forms += [f"{self.pick(*self.int_functions)}({a}, {b})"] * 2
        return self.pick(*forms)

    def test(self, scope):
        """A condition of an abort or an `if` that is now this, now that."""
        n, read = self.pick(*self.inputs), self.pick(*self.readable(scope))
        forms = [n, n, f"{n} == {self.chance.randint(0, 2)}", f"{n} && {read} > {self.literal()}", f"{read} % 3 == 1", f"!{n}"]
        if self.traps and self.odds(0.3):
            forms += [f"8 / {n}"]
        return self.pick(*forms)

    # -- statements

    def block(self, scope, depth, most=3):
        """Statements in braces."""
        inner, texts, certain = scope.inner(), [], False
        for _ in range(self.chance.randint(1, most)):
            text, pauses = self.statement(inner, depth)
            texts.append(text)
            certain = certain or pauses
        return "{ " + " ".join(texts) + " }", certain

    def pausing_block(self, scope, depth):
        """Statements in braces that are certain to pause."""
        text, certain = self.block(scope, depth)
        return text if certain else (text[:-1] + "pause; }" if self.odds(0.7) else "{ pause; " + text[2:])

    def statement(self, scope, depth):
        kinds = [self.assignment] * 5 + [self.pause] * 2 + [self.declaration]
        if depth:
            kinds += [self.choice, self.bounded, self.counted, self.abort, self.abort, self.par, self.par, self.par, self.group, self.ever]
            kinds += [self.call] if self.helpers else []
        return self.pick(*kinds)(scope, depth)

    def assignment(self, scope, depth):
        targets = self.shared * 3 + [self.element(scope, 1) for _ in self.arrays] * 3 + scope.scalars + scope.plain
        value = self.expression(scope, 2)
        if scope.arrays and self.odds(0.2):
            array, length = self.pick(*scope.arrays)
            index = self.expression(scope, 1) if self.traps and self.odds(0.3) else str(self.chance.randrange(length))
            return f"{array}[{index}] {self.pick('=', '+=', '^=')} {value};", False
        target = self.pick(*targets)
        if self.traps and self.odds(0.15):
            return f"{target} = {self.pick('limit', target)} {self.pick('/', '%')} {self.pick(*self.inputs)};", False
        return self.pick(*[f"{target} = {value};"] * 3, f"{target} {self.pick('+=', '-=', '*=', '|=')} {value};",
                         f"{target}++;", f"--{target};"), False

    def pause(self, scope, depth):
        return "pause;", True

    def declaration(self, scope, depth):
        if self.odds(0.3):
            name, length = self.name("a"), self.chance.randint(1, 4)
            values = f" = {{{self.expression(scope, 1)}}}" if self.odds(0.5) else ""
            scope.arrays.append((name, length))
            return f"int {name}[{length}]{values};", False
        name = self.name("v")
        text = f"int {name} = {self.expression(scope, 1)};" if self.odds(0.8) else f"int {name};"
        scope.scalars.append(name)
        return text, False

    def choice(self, scope, depth):
        yes, first = self.block(scope, depth - 1)
        if self.odds(0.4):
            return f"if ({self.test(scope)}) {yes}", False
        no, second = self.block(scope, depth - 1)
        return f"if ({self.test(scope)}) {yes} else {no}", first and second

    def bounded(self, scope, depth):
        """A loop with a bound, over a counter of its own."""
        n, bound = self.name("n"), self.chance.randint(1, 4)
        body, _ = self.block(scope.inner([n]), depth - 1, 2)
        pauses = self.odds(0.4)
        if pauses:
            body += " pause;"
        left = self.chance.randint(0, bound + 3 if pauses else bound + 1 if self.traps else bound)
        return f"{{ int {n} = {left}; while ({n}) #{bound} {{ {n}--; {body} }} }}", False

    def counted(self, scope, depth):
        """A `for` whose turns its form tells."""
        i = self.name("i")
        head, turns = self.pick((f"int {i} = 0; {i} < {{}}; {i}++", 1), (f"int {i} = 6; {i} > {{}}; {i} -= 2", 0))
        end = self.chance.randint(0, 3)
        if self.odds(0.5):
            return f"for ({head.format(end)}) {self.pausing_block(scope.inner([i]), depth - 1)}", not turns or end > 0
        return f"for ({head.format(end)}) {self.block(scope.inner([i]), depth - 1, 2)[0]}", False

    def ever(self, scope, depth):
        """A loop that is certain to pause, for ever or while a condition holds."""
        body = self.pausing_block(scope, depth - 1)
        head = self.pick("while (1)", "for (;;)", f"while ({self.test(scope)})")
        return f"{head} {body}", "while (1)" == head or "for (;;)" == head

    def group(self, scope, depth):
        return self.block(scope, depth - 1)

    def abort(self, scope, depth):
        immediate = self.odds(0.4)
        if self.odds(0.7):
            body = f"{{ while (1) {self.pausing_block(scope, depth - 1)} }}"
            certain = True
        else:
            body, certain = self.block(scope, depth - 1)
        weak = self.pick("", "weak ")
        return f"{weak}abort {body} when {'immediate ' if immediate else ''}({self.test(scope)});", certain and not immediate

    def par(self, scope, depth):
        """Branches: functions with or without arguments, and blocks, which see global names alone."""
        if self.traps and self.odds(0.4):
            return self.trapping_par(), False
        branches, certain = [], False
        for _ in range(self.pick(1, 2, 2, 3)):
            known = [b for b in self.branches if self.threads + b[3] <= self.most]
            if known and self.odds(0.6):
                name, params, pauses, count = self.pick(*known)
                given = ", ".join(self.expression(scope, 1) for _ in range(params))
                branches.append(f"{name}({given})" if params or self.odds(0.3) else name)
                self.threads += count
            else:
                self.threads += 1
                below = depth - 1 if self.threads < self.most else 0
                text, pauses = self.block(self.own_scope(scope.one_instance), below)
                branches.append(text)
            certain = certain or pauses
        return f"par({', '.join(branches)});", certain

    def trapping_par(self):
        """Branches of which several may trap in one tick, or whose combine calls may."""
        values = self.inputs + ["0", "1", "8", f"limit / {self.pick(*self.inputs)}", f"table[{self.pick(*self.inputs)}]"]
        targets = self.shared + [f"{name}[{i}]" for name, length in self.arrays for i in range(length)]
        branches = [" ".join(f"{v} = {self.pick(*values)};" for v in targets if self.odds(0.8)) for _ in range(3)]
        self.threads += 3
        return f"par({', '.join(f'{{ {b} }}' for b in branches)});"

    def own_scope(self, one_instance, scalars=()):
        """The names of a new thread: where it has one instance, it may have some of the plain variables to itself."""
        mine = [p for p in self.plain if one_instance and self.odds(0.4)]
        self.plain = [p for p in self.plain if p not in mine]
        return Scope(one_instance, scalars, plain=mine)

    def call(self, scope, depth):
        known = [h for h in self.helpers if self.threads + h[3] <= self.most]
        if not known:
            return ";", False
        name, params, pauses, count = self.pick(*known)
        self.threads += count
        return f"{name}({', '.join(self.expression(scope, 1) for _ in range(params))});", pauses

    # -- functions

    def int_function(self):
        name = self.name("f")
        kept = self.shared, self.arrays, self.inputs
        self.shared, self.arrays, self.inputs = [], [], []
        scope = Scope(False, ["x", "y", "r"])
        body = [f"r {self.pick('=', '+=', '^=')} {self.expression(scope, 2)};"]
        body += [f"if ({self.expression(scope, 1)}) return {self.expression(scope, 1)};"] if self.odds(0.4) else []
        body += [f"for (int i = 0; i < {self.chance.randint(0, 4)}; i++) r = r + {self.expression(scope.inner(['i']), 1)};"] if self.odds(0.5) else []
        text = f"int {name}(int x, int y) {{ int r = x; {' '.join(body)} return {self.expression(scope, 1)}; }}"
        self.shared, self.arrays, self.inputs = kept
        self.int_functions.append(name)
        return text

    def void_function(self, known, front):
        """A helper or a branch, which several threads may have. It uses those before it alone."""
        name, params = self.name(front), self.chance.randint(0, 2)
        before, self.threads, self.most = self.threads, 0, 8
        scope = Scope(False, [f"p{n}" for n in range(params)])
        text, certain = self.block(scope, 2)
        if front == "t" and self.odds(0.5):
            text, certain = f"{{ while (1) {self.pausing_block(scope, 1)} }}", True
        counted = self.threads + (front == "t")
        self.threads, self.most = before, MOST_THREADS
        known.append((name, params, certain, counted))
        return f"void {name}({', '.join(f'int p{n}' for n in range(params)) or 'void'}) {text}"

    def main(self):
        self.threads = 1
        scope = self.own_scope(True)
        if self.odds(0.3):
            first, _ = self.block(scope, 3)
            return f"void main(void) {first}"
        start, _ = self.statement(scope, 0) if self.odds(0.3) else ("", False)
        shape = self.pick(self.par, self.par, self.abort, self.abort, self.group)
        inside, certain = shape(scope, 3)
        tail, pauses = self.block(scope, 1, 2)
        rest = "" if certain or pauses else " pause;"
        if self.odds(0.2):
            return f"void main(void) {{ {start} {inside} {tail} }}"
        return f"void main(void) {{ {start} while (1) {{ {inside} {tail}{rest} }} }}"

    def shared_array(self, name, combine):
        """The declaration of a shared array, with values for some of its elements, all of them or none."""
        length = self.pick(1, 2, 3, 4, 5, 6, 17)
        values = [str(self.chance.randint(-3, 9)) for _ in range(self.chance.randint(0, length))]
        start = f" = {{{', '.join(values)}}}" if values else ""
        self.arrays.append((name, length))
        sharing, policy = self.pick("shared output", "output shared", "shared"), self.pick("all", "new", "mod", "mod")
        return f"{sharing} int {name}[{length}]{start} combine {policy} with {self.pick(*combine)};"

    def program(self):
        """The program's text."""
        functions = {**COMBINE, **COMBINE_TRAPS}
        trapping = self.chance.randint(0, 2) if self.traps else 0
        combine = self.chance.sample(sorted(COMBINE_TRAPS), trapping) + self.chance.sample(sorted(COMBINE), 3 - trapping)
        lines = [f"input int {', '.join(self.inputs)};", "const int limit = 5, table[4] = {3, -1, 7};"]
        for n in range(self.chance.randint(1, 4)):
            sharing = self.pick("shared output", "shared output", "output shared", "shared")
            policy, start = self.pick("all", "new", "mod", "mod"), self.chance.randint(-3, 9)
            lines.append(f"{sharing} int s{n} = {start} combine {policy} with {self.pick(*combine)};")
            self.shared.append(f"s{n}")
        lines += [self.shared_array(f"e{n}", combine) for n in range(self.pick(0, 0, 1, 1, 2))]
        for n in range(self.chance.randint(0, 3)):
            lines.append(f"{self.pick('output int', 'int')} g{n} = {self.chance.randint(-2, 5)};")
            self.plain.append(f"g{n}")
        lines += [f"int {name}(int x, int y) {{ {functions[name]} }}" for name in combine]
        lines += [self.int_function() for _ in range(self.chance.randint(0, 2))]
        for known, front in ((self.helpers, "h"), (self.branches, "t")):
            lines += [self.void_function(known, front) for _ in range(self.chance.randint(0, 3))]
        return "\n".join(lines + [self.main()]) + "\n"

    def trace(self):
        """Rows for the program's inputs, in some order."""
        order = self.chance.sample(self.inputs, len(self.inputs))
        rows = [" ".join(str(self.number()) for _ in order) for _ in range(self.chance.randint(3, 12))]
        return "\n".join([" ".join(order)] + rows) + "\n"

    def number(self):
        return self.pick(0, 0, 0, 1, 1, 2, self.chance.randint(-9, 9), self.chance.randint(-2147483648, 2147483647) if self.odds(0.2) else 0)


class Constants(Draw):
    """Draws a program with many constants: what is computed of numbers alone, tests that they decide, and loops that never turn."""

    def constant(self, depth):
        """An expression over numbers."""
        if depth == 0 or self.odds(0.4):
            return self.pick("limit", "off", "on", self.literal(), self.literal())
        a, b = self.constant(depth - 1), self.constant(depth - 1)
        operator = self.pick("+", "-", "*", "&", "|", "^", "<", "<=", ">", ">=", "==", "!=", "&&", "||", "<<", ">>")
        forms = [f"({a} {operator} {b})"] * 5 + [f"({self.pick('-', '~', '!')}{a})", f"({a} ? {b} : {self.literal()})"]
        forms += [f"({a} {self.pick('/', '%')} {b})" if self.traps else f"({a} / ({b} & 7 | 1))"]
        return self.pick(*forms)

    def expression(self, scope, depth):
        if self.odds(0.4):
            return self.constant(depth)
        if depth and self.odds(0.25):
            sides = [self.constant(depth - 1), super().expression(scope, depth - 1)]
            self.chance.shuffle(sides)
            choice = f"({self.constant(1)} ? {sides[0]} : {sides[1]})"
            return self.pick(f"({sides[0]} {self.pick('&&', '||', '*', '+', '/' if self.traps else '-')} {sides[1]})", choice)
        return super().expression(scope, depth)

    def test(self, scope):
        return self.constant(2) if self.odds(0.4) else super().test(scope)

    def program(self):
        return super().program().replace("const int limit = 5, ", "const int limit = 5, off = 0, on = 1, ", 1)


def drawn(seed, draws=Draw):
    """A program's text and a trace for it."""
    draw = draws(seed)
    return draw.program(), draw.trace()


def main():
    first, count, folder = int(sys.argv[1]), int(sys.argv[2]), sys.argv[3]
    for seed in range(first, first + count):
        for end, text in zip(("forec", "trace"), drawn(seed)):
            with open(os.path.join(folder, f"{seed}.{end}"), "w", encoding="ascii") as file:
                file.write(text)


if __name__ == "__main__":
    main()
