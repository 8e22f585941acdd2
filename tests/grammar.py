"""Where the tokens of a text stop to be a front of some program: a second opinion for the tests, by Earley's way to recognize a grammar.

It knows nothing of levels: a text that is nested too deeply is none for it to judge.
"""
import re

WORDS = ("int void const input output shared combine all new mod with par pause weak abort immediate when if else while for return").split()
MARKS = "<<= >>= += -= *= /= %= &= |= ^= << >> <= >= == != && || ++ -- + - * / % & | ^ ~ ! < > = ? : ; , ( ) { } [ ] #".split()
UPDATES, OPERATORS = MARKS[:10], "|| && | ^ & == != < <= > >= << >> + - * / %".split()

# A line for each symbol, its forms separated by ` / `; `name` and `number` are tokens, and so is what has no line.
RULES = """
Program  = / Program Item
Item     = const int Tables ; / input int Names ; / output int Scalars ; / int Scalars ; / Sharing int Shared combine Policy with name ;
         / Type name ( Params ) Body
Tables   = Table / Tables , Table
Table    = name = Signed / name [ number ] = { Signeds }
Names    = name / Names , name
Scalars  = Scalar / Scalars , Scalar
Scalar   = name / name = Signed
Shared   = Scalar / name [ number ] / name [ number ] = { Signeds }
Sharing  = shared / shared output / output shared
Signed   = number / - number
Signeds  = Signed / Signeds , Signed
Policy   = all / new / mod
Type     = int / void
Params   = / void / Some
Some     = int name / Some , int name
Body     = { Stmts }
Stmts    = / Stmts Stmt
Stmt     = Body / ; / int Locals ; / Simple ; / if ( Expr ) Stmt / if ( Expr ) Stmt else Stmt / while ( Expr ) Bound Stmt
         / for ( Init ; Test ; Step ) Bound Stmt / pause ; / par ( Branches ) ; / Weak abort Body when Immediate ( Expr ) ; / return Expr ;
Locals   = Local / Locals , Local
Local    = name / name = Expr / name [ number ] / name [ number ] = { Exprs }
Exprs    = Expr / Exprs , Expr
Values   = / Exprs
Bound    = / # number
Init     = / Simple / int name = Expr
Test     = / Expr
Step     = / Simple
Weak     = / weak
Immediate = / immediate
Simple   = Target = Expr / Target Update Expr / Target ++ / Target -- / ++ Target / -- Target / name ( Values )
Target   = name / name [ Expr ]
Branches = Branch / Branches , Branch
Branch   = name / name ( Values ) / Body
Expr     = Chain / Chain ? Expr : Expr
Chain    = Unary / Chain Operator Unary
Unary    = - Unary / ~ Unary / ! Unary / number / name / name [ Expr ] / name ( Values ) / ( Expr )
"""


def grammar():
    """The forms of each symbol."""
    forms, name = {}, None
    for line in RULES.strip().splitlines():
        first, *rest = line.split()
        if first != "/":
            name, rest = first, rest[1:]
            forms[name] = []
        for form in f" {' '.join(rest)} ".split(" / "):
            if form.strip() or first != "/" and not forms[name]:
                forms[name].append(tuple(form.split()))
    forms["Update"], forms["Operator"] = ([(mark,) for mark in marks] for marks in (UPDATES, OPERATORS))
    return forms


FORMS = grammar()
EMPTY = {name for name, forms in FORMS.items() if () in forms}
TOKEN = re.compile(r"(?P<blank>[ \t-\r]|//[^\n]*|/\*.*?\*/)|(?P<name>[A-Za-z_]\w*)|(?P<number>[0-9]\w*)|(?P<mark>" +
                   "|".join(map(re.escape, MARKS)) + ")", re.S | re.A)


def tokens(text):
    """The tokens of a text that has no other bytes: where each begins, and what it is."""
    return [(found.start(), kind_of(found)) for found in TOKEN.finditer(text) if found.lastgroup != "blank"]


def kind_of(found):
    return found.lastgroup if found.lastgroup == "number" or found.lastgroup == "name" and found.group() not in WORDS else found.group()


def closed(items, sets):
    """All items of a set, which is the last one: what may begin there, and what goes on behind a symbol that ends there."""
    here, work = len(sets), list(items)
    while work:
        name, form, at, start = work.pop()
        if at == len(form):
            origin = items if start == here else sets[start]
            more = [(n, f, a + 1, s) for n, f, a, s in origin if a < len(f) and f[a] == name]
        elif form[at] in FORMS:
            more = [(form[at], other, 0, here) for other in FORMS[form[at]]]
            more += [(name, form, at + 1, start)] if form[at] in EMPTY else []
        else:
            continue
        fresh = [item for item in more if item not in items]
        items.update(fresh)
        work += fresh
    return items


def refused_at(text):
    """Where the first token begins with which the tokens are no front of any program's, the text's length where all are such a front and
    no program, or None for a program."""
    sets, items = [], {("Program", form, 0, 0) for form in FORMS["Program"]}
    for start, kind in tokens(text):
        sets.append(closed(items, sets))
        items = {(n, f, a + 1, s) for n, f, a, s in sets[-1] if a < len(f) and f[a] == kind}
        if not items:
            return start
    whole = any(n == "Program" and a == len(f) and s == 0 for n, f, a, s in closed(items, sets))
    return None if whole else len(text)


def place(text, at):
    """The line and the column, from 1."""
    return f"{text.count(chr(10), 0, at) + 1}:{at - text.rfind(chr(10), 0, at)}"
