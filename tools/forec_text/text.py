"""From bytes to a tree: tokens, levels and the grammar, or the place and the word of the line that refuses the text."""
from __future__ import annotations

import os
import re
from collections.abc import Iterator
from typing import Any

import lark
from lark.lexer import Lexer, PatternStr

from forec_text import tree
from forec_text.tree import Name, Number, Place

MOST_BYTES, MOST_TOKENS, MOST_LEVELS = 1_048_576, 200_000, 128
GRAMMAR = os.path.join(os.path.dirname(os.path.realpath(__file__)), "forec.lark")
BLANK = re.compile(r"(?:[\t-\r ]+|//[^\n]*|/\*.*?\*/)+", re.S)
WORD = re.compile(r"[A-Za-z0-9_]+")
NUMBER = re.compile(r"0[0-7]*|[1-9][0-9]*|0[xX][0-9A-Fa-f]+")
# The operators from the loosest to the tightest; all group to the left.
LEVELS = ("||", "&&", "|", "^", "&", "== !=", "< <= > >=", "<< >>", "+ -", "* / %")
TIGHTNESS = {operator: level for level, operators in enumerate(LEVELS) for operator in operators.split()}
OPERATORS = {*TIGHTNESS, "~", "!", "?"}
STATEMENTS = {"if", "while", "for", "abort", "else"}
OPENING, CLOSING, ENDING = {"(", "[", "{"}, {")", "]", "}"}, {")", "]", "}", ",", ";"}


class Refused(Exception):
    """A text that is no program: `kind` is the word of the program's line. Only a text that is too long has no place."""

    def __init__(self, kind: str, place: Place | None) -> None:
        super().__init__(kind)
        self.kind, self.place = kind, place


# ---- tokens

def wrapped(number: int) -> int:
    """The number of 32 bits with the same lowest bits."""
    return (number + 2**31) % 2**32 - 2**31


def value_of(word: str) -> int | None:
    """The value of a number as it is written, or None where it is none."""
    if not NUMBER.fullmatch(word) or len(word.lstrip("0xX")) > 11:
        return None
    value = int(word, 16 if word[1:2] in ("x", "X") else 8 if word[0] == "0" else 10)
    return value if value < 2**32 else None


class Tokens(Lexer):
    """The lexer, in the form that Lark takes."""

    def __init__(self, conf: Any) -> None:
        self.kinds = {str(each.pattern.value): each.name for each in conf.terminals if isinstance(each.pattern, PatternStr)}
        marks = sorted((word for word in self.kinds if not word[0].isalpha()), key=len, reverse=True)
        self.mark = re.compile("|".join(map(re.escape, marks)))

    def lex(self, text: str) -> Iterator[lark.Token]:  # type: ignore[override]  # pylint: disable=arguments-renamed,arguments-differ
        """The tokens. The text is refused where one of them opens too many levels, once the tokens up to it were taken."""
        tokens, before = self.all_of(text), 0
        for token, level in zip(tokens, levels(tokens)):
            yield token
            if before < level > MOST_LEVELS:
                raise Refused("deep", place_of(token))
            before = level

    def all_of(self, text: str) -> list[lark.Token]:
        """All tokens of a text. It is refused at the first place at which none begins, or the first that is one too many."""
        at, line, start, found = 0, 1, 0, []
        while at < len(text):
            if blank := BLANK.match(text, at):
                if breaks := text.count("\n", at, blank.end()):
                    line, start = line + breaks, text.rindex("\n", at, blank.end()) + 1
                at = blank.end()
                continue
            place = Place(line, at - start + 1)
            match = None if text.startswith("/*", at) else WORD.match(text, at) or self.mark.match(text, at)
            if not match or match.group()[0].isdigit() and value_of(match.group()) is None:
                raise Refused("lex", place)
            if len(found) == MOST_TOKENS:
                raise Refused("many", place)
            word = match.group()
            kind = "NUMBER" if word[0].isdigit() else self.kinds.get(word, "NAME")
            found.append(lark.Token(kind, word, at, line, place.column))
            at = match.end()
        return found


def levels(tokens: list[lark.Token]) -> Iterator[int]:
    """The level after each token: what is open of brackets, statements and operators."""
    opened: list[str] = []
    for before, token, behind in zip(["", *tokens], tokens, [*tokens[1:], ""]):
        if token in ENDING:
            while opened and opened[-1] in OPERATORS:
                opened.pop()
        if token in CLOSING and opened:
            ends = opened.pop() == "{"
        else:
            ends = token == ";" and opened[-1:] != ["("]
        if token == "{":
            opened.append({"=": "= {", "abort": "abort {"}.get(str(before), "{"))
        elif token in OPENING or token in STATEMENTS or token in OPERATORS:
            opened.append(str(token))
        if ends and (token in ("}", ";")):
            end_statements(opened, behind == "else")
        yield len(opened)


def end_statements(opened: list[str], goes_on: bool) -> None:
    """Takes the statements off that end with a token, of which the last `if` goes on where an `else` comes next."""
    while opened and opened[-1] in STATEMENTS and not (goes_on and opened[-1] == "if"):
        if opened.pop() == "else":
            opened.pop()


# ---- the tree

def place_of(token: lark.Token) -> Place:
    return Place(token.line, token.column)


def name_of(token: lark.Token) -> Name:
    return Name(str(token), place_of(token))


def number_of(token: lark.Token) -> Number:
    value = value_of(token)
    assert value is not None, "the lexer takes no other number"
    return Number(wrapped(value), place_of(token))


def join(operands: list[Any], operators: list[Any], tightness: int) -> None:
    """Makes expressions of the last operands, as long as the operator between them is at least so tight."""
    while operators and TIGHTNESS[operators[-1]] >= tightness:
        right, mark = operands.pop(), operators.pop()
        operands.append(tree.Binary(place_of(mark), str(mark), operands.pop(), right))


def grouped(terms: list[Any]) -> tree.Expr:
    """The expression of operands with operators between them."""
    operands, operators = terms[:1], []
    for operator, operand in zip(terms[1::2], terms[2::2]):
        join(operands, operators, TIGHTNESS[operator])
        operators.append(operator)
        operands.append(operand)
    join(operands, operators, 0)
    return operands[0]


def grown(_: lark.Transformer, parts: list[Any]) -> list[Any]:
    """A list that begins, or that has one part more."""
    if len(parts) < 2:
        return parts
    parts[0].append(parts[1])
    return parts[0]


def optional(_: lark.Transformer, parts: list[Any]) -> Any:
    return parts[0] if parts else None


def given(_: lark.Transformer, parts: list[Any]) -> bool:
    return bool(parts)


@lark.v_args(inline=True)
class Builder(lark.Transformer):
    """Makes the tree of what Lark reads, from below: a method for each form of the grammar."""
    # pylint: disable=missing-function-docstring,too-many-public-methods

    tables = names = scalars = signeds = some = stmts = locals = exprs = branches = lark.v_args(inline=False)(grown)
    init = test = step = lark.v_args(inline=False)(optional)
    weak = immediate = lark.v_args(inline=False)(given)

    def program(self, found=None, item=None):
        if isinstance(item, list):
            found.extend(item)
        elif item:
            found.append(item)
        return found or []

    def constants(self, found):
        return found

    def constant(self, name, value):
        return tree.Global(name_of(name), "const", None, (value,))

    def table(self, name, length, values):
        return tree.Global(name_of(name), "const", number_of(length), tuple(values))

    def inputs(self, names):
        return [tree.Global(name_of(name), "input") for name in names]

    def outputs(self, scalars):
        return [tree.Global(name, "output", None, values) for name, values in scalars]

    def plain(self, scalars):
        return [tree.Global(name, "plain", None, values) for name, values in scalars]

    def shared(self, kind, scalar, policy, combine):
        name, values = scalar
        return [tree.Global(name, kind, None, values, policy, name_of(combine))]

    def shared_array(self, kind, row, policy, combine):
        name, length, values = row
        return [tree.Global(name, kind, length, values, policy, name_of(combine))]

    def row(self, name, length, values=()):
        return name_of(name), number_of(length), tuple(values)

    def sharing(self, output=None):
        return "shared output" if output else "shared"

    def policy(self, word):
        return str(word)

    def scalar(self, name, value=None):
        return name_of(name), (value,) if value else ()

    def signed(self, first, number=None):
        if number is None:
            return number_of(first)
        return Number(wrapped(-number_of(number).value), place_of(first))

    def function(self, kind, name, params, block):
        return tree.Function(name_of(name), kind == "int", params, block.body)

    def params(self, some=()):
        return tuple(map(name_of, some))

    def block(self, brace, statements):
        return tree.Group(place_of(brace), tuple(statements))

    def group(self, block):
        return block

    def same(self, inside):
        return inside

    def nothing(self, mark):
        return tree.Nothing(place_of(mark))

    def declare(self, word, found):
        return tree.Declare(place_of(word), tuple(found))

    def plain_local(self, name, value=None):
        return tree.Local(name_of(name), None, (value,) if value else ())

    def array(self, name, length, values=()):
        return tree.Local(name_of(name), number_of(length), tuple(values))

    def choice(self, word, test, yes, no=None):
        return tree.If(place_of(word), test, yes, no)

    def while_loop(self, word, test, bound, body):
        return tree.While(place_of(word), test, bound, body)

    def for_loop(self, word, *parts):
        return tree.For(place_of(word), *parts)

    def first(self, word, name, value):
        return tree.Declare(place_of(word), (tree.Local(name_of(name), None, (value,)),))

    def bound(self, number=None):
        return number_of(number) if number else None

    def pause(self, word):
        return tree.Pause(place_of(word))

    def par(self, word, branches):
        return tree.Par(place_of(word), tuple(branches))

    def abort(self, weak, word, block, immediate, test):
        return tree.Abort(place_of(word), weak, immediate, test, block.body)

    def give(self, word, value):
        return tree.Return(place_of(word), value)

    def target(self, name, index=None):
        return name_of(name), index

    def assign(self, target, value):
        name, index = target
        return tree.Assign(name.place, name, index, None, name.place, value)

    def assign_with(self, target, mark, value):
        name, index = target
        return tree.Assign(name.place, name, index, str(mark)[:-1], place_of(mark), value)

    def update(self, mark):
        return mark

    def step_behind(self, target, mark):
        name, index = target
        return tree.Assign(name.place, name, index, mark[0], place_of(mark), tree.Literal(place_of(mark), 1))

    def step_before(self, mark, target):
        name, index = target
        return tree.Assign(place_of(mark), name, index, mark[0], place_of(mark), tree.Literal(place_of(mark), 1))

    def call_statement(self, name, values):
        call = self.call(name, values)
        return tree.CallStatement(call.place, call)

    def branch_call(self, name, values=()):
        return self.call(name, values)

    def branch_block(self, block):
        return block

    def values(self, found=()):
        return tuple(found)

    def expr(self, chain, mark=None, yes=None, no=None):
        test = grouped(chain)
        return tree.Choose(place_of(mark), test, yes, no) if mark else test

    def chain(self, *parts):
        if len(parts) == 1:
            return list(parts)
        parts[0].extend(parts[1:])
        return parts[0]

    def operator(self, mark):
        return mark

    def sign(self, mark, of):
        return tree.Unary(place_of(mark), str(mark), of)

    def literal(self, number):
        found = number_of(number)
        return tree.Literal(found.place, found.value)

    def read(self, name):
        return tree.Read(name_of(name))

    def element(self, name, index):
        return tree.Element(name_of(name), index)

    def call(self, name, values):
        return tree.Call(name_of(name), values)


def parser() -> lark.Lark:
    with open(GRAMMAR, encoding="ascii") as file:
        return lark.Lark(file.read(), parser="lalr", start="program", lexer=Tokens, transformer=Builder())


PARSER = parser()


def read(data: bytes) -> tree.Program:
    """The program of a text, or the exception Refused."""
    if len(data) > MOST_BYTES:
        raise Refused("long", None)
    text = data.decode("latin-1")  # so that columns count bytes
    try:
        return tree.Program(tuple(PARSER.parse(text)))  # type: ignore[arg-type]
    except lark.UnexpectedToken as fault:
        if fault.token.type != "$END":
            raise Refused("syntax", place_of(fault.token)) from None
        end = Place(text.count("\n") + 1, len(text) - text.rfind("\n"))
        raise Refused("syntax", end) from None
