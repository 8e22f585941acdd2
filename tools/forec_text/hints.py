"""Guesses at what was meant where a text is no program. They judge nothing: the place is the program's. Needs nothing beside Python."""
from __future__ import annotations

import difflib
import re
from typing import NamedTuple

LONGEST_WORD, LONGEST, LONGEST_TEXT, SEEN = 64, 8192, 100_000, 1024

# What a word of C, at a place at which no program goes on or right before it, may mean.
TYPE = "int is the only type; 0 is false, and 1 is true"
PART = "int is the only type: each part is a variable of its own, or an element of an array"
MARK = "leave this word out: it changes nothing here"
KEPT = ("there is no static: int n = 0; before the loop of a thread, or outside of the functions, keeps its value from tick to tick; "
        "in a function that is called, or inside the loop, it is set anew each time (docs/GUIDE.md, Where does state live?)")
CHOICE = "there is no switch: write if (x == 1) .. else if (x == 2) .. else .."
WORDS = {
    "define": "there is no #define: write const int NAME = 4; outside of the functions",
    "include": "there is no #include: a program is one text",
    "enum": "there is no enum: write const int IDLE = 0, BUSY = 1; outside of the functions",
    "do": "there is no do: write the body, and then a while with the body; or while (1) with a pause",
    "break": ("there is no break: test at the head of the loop, as in while (!x) pause; with one more pause behind it where an outer loop "
              "repeats it"),
    "continue": "there is no continue: put what follows it into an if, and leave the pause behind that",
    "goto": "there is no goto: what is done again stands in a loop",
    "sizeof": "there is no sizeof: an int has 4 bytes",
    "return": "a return has a number; a void function has none, and ends at its last line: put the rest into an else, or use an abort",
    "static": KEPT,
    **dict.fromkeys("and or not AND OR NOT".split(), "write && for and, || for or, ! for not"),
    "MOD": "the rest of a division is %, as in x % 4",
    **dict.fromkeys("IF THEN ELSE END_IF then endif".split(), "write if (x) { .. } else { .. }, in small letters"),
    **dict.fromkeys("ELSIF elsif elif elseif".split(), "write else if (x) { .. }, in two words"),
    **dict.fromkeys("WHILE END_WHILE".split(), "write while (x) { .. }, in small letters, with a pause where each turn is a tick"),
    **dict.fromkeys("FOR TO BY END_FOR".split(), "write for (int i = 1; i <= 3; i++) { .. }, in small letters"),
    **dict.fromkeys("DO REPEAT UNTIL END_REPEAT begin".split(), "a body stands in curly brackets: while (x) { .. }"),
    **dict.fromkeys("CASE OF END_CASE".split(), CHOICE),
    **dict.fromkeys("VAR VAR_INPUT VAR_OUTPUT END_VAR PROGRAM FUNCTION_BLOCK".split(),
                    "write input int a; output int b = 0; void main(void) { .. }"),
    "emit": "there are no signals: write s = 1; and behind the next pause s = 0;",
    "sustain": "there are no signals: write while (1) { s = 1; pause; } in an abort, and s = 0; behind it",
    "await": "write abort { while (1) pause; } when (s); which waits for the next tick with s",
    "halt": "write while (1) pause;",
    "present": "write if (s) { .. } else { .. }",
    "loop": "write while (1) { .. } with a pause in it",
    "every": "write abort { while (1) pause; } when (s); while (1) { abort { .. while (1) pause; } when (s); }",
    "suspend": "what waits while s is on begins with while (s) pause;",
    "signal": "there are no signals: write shared int s = 0 combine mod with last; outside of the functions",
    **dict.fromkeys(("switch", "case", "default"), CHOICE),
    **dict.fromkeys(("struct", "union", "typedef"), PART),
    **dict.fromkeys("bool _Bool char short long float double signed unsigned string size_t".split(), TYPE),
    **dict.fromkeys((f"{sign}int{bits}_t" for sign in ("", "u") for bits in (8, 16, 32, 64)), TYPE),
    **dict.fromkeys(("extern", "volatile", "inline", "register", "auto"), MARK),
}
# The same for other pairs of what stands before the place and of what stands there: patterns, of which the first pair that fits is told;
# and whether it is told outside of functions alone (0), in them alone (1) or in both (2). They judge nothing: the place is the program's.
MISSING = "a ; or a mark may be missing before this place"
# The same where a bracket is open in front of the place, and the statement can't end there.
OPEN = {"(": "a ) may be missing before this place, or a comma or an operator", "[": "a ] may be missing before this place"}
RESERVED = "int|void|const|input|output|shared|combine|all|new|mod|with|par|weak|abort|when|immediate|if|else|while|for|return"
HINTS = [
    (2, r"\bint", r"(all|new|mod|with|when|weak|pause|par|input|output|shared|combine|immediate)\b", "this word is reserved: choose another name"),
    (1, r"#", "", "the bound of a loop is a number, and no name"),
    (2, r"", "#", "a # stands behind the bracket of a while or for, and a number behind it"),
    (1, r"\b(if|while|for|when|immediate)", r"", "the condition stands in round brackets"),
    (1, r"\bpause", r"\(\s*\d", "a pause is one tick; three of them are for (int i = 0; i < 3; i++) pause;"),
    (1, r"\bpause", r"\(", "a pause is one tick; n of them, and one at least, are pause; for (int i = 1; i < n; i++) pause;"),
    (1, r"\w\]?\s*", ":=", "an assignment is =, and a comparison is =="),
    (1, r"\w\s*", ":", "there are no labels, since there is no goto"),
    (1, "<", ">", "what isn't equal is tested by !="),
    (1, r"\bpar", r"\{", "branches stand in round brackets, with commas between: par(left, right(1), { x = 2; });"),
    (1, r"\bpar\s*\([^()]*", r";|\{", "there are commas between branches: par(left, right(1), { x = 2; });"),
    (1, r"\babort", r"", "the body comes first, in curly brackets: abort { .. } when (stop);"),
    (1, r"\bweak", r"", "weak stands before abort: weak abort { .. } when (stop);"),
    (1, r"\}", r"when\b", "a body that a condition ends begins with abort: abort { .. } when (stop);"),
    (1, r"[;{})]", r"when\b", "a condition ends a body: abort { .. } when (stop); what is done once is an if"),
    (1, r"[;{})]", r"const\b", "a constant stands outside of the functions; in one it is a local: int"),
    (1, r"[;{})]", r"(input|output|shared)\b", "inputs, outputs and shared variables stand outside of the functions"),
    (0, r"\b(input|output|shared|const)", r"\w", "int stands before the names"),
    (0, r"\binput\b[^;{}]*", r"=", "an input has no first value, since the trace gives its values"),
    (0, r"\binput\b[^;{}]*", r"\[", "an input is one number, and no array"),
    (0, r"\boutput\b[^;{}]*", r"\[", "an array that is an output is shared: shared output int a[2] combine mod with last;"),
    (0, r"\bcombine", r"", "a policy stands behind combine: combine mod with last; or all, or new"),
    (0, r"\bint\b[^;{}]*(\{[^;{}]*\} ?)?", r"combine\b", "what is combined is shared: shared output int n = 0 combine mod with last;"),
    (0, r",", rf"({RESERVED})\b", "a declaration ends with a ; before the next one begins"),
    (0, r"\bshared\b[^;{}]*(\{[^;{}]*\} ?)?", "[;,]", "a shared variable says how values become one: shared int n = 0 combine mod with last;"),
    (0, r"(^|[;}])\s*int\s+\w+", r"\[", "a global array is const, as const int a[2] = {1, 2}; or shared; another one is a local"),
    (0, r"\bconst\b[^;{}]*", r"[;,]", "a constant has its value at once: const int n = 4, a[2] = {1, 2};"),
    (0, r"[(,]\s*int\s+\w+", r"\[", "an array can't be an argument: a function names constant arrays itself"),
    (2, r"\[", r"\]|\w+", "the length of an array is a number between the brackets, and no name"),
    (2, r"\]\s*=", r"", "the values of an array stand in curly brackets: {1, 2}"),
    (2, r"\]", r"\[", "an array has one index: a[2 * i + j]"),
    (1, r"\bfor\s*\([^;]*(;[^;]*;[^;]*)?", ",", "a for has one variable and one step"),
    (1, r"\(\s*\w+", ",", "a comma parts arguments alone"),
    (0, r"\(|\bint\s+\w+\s*,", r"\w+\s*[,)]", "each parameter has its own int"),
    (2, r"\bint", r"[*&]", "there are no pointers: an array and an index say which"),
    (1, r"[\w)\]=+*/(,?:&|<>!-]", r"\+\+|--", "++ and -- are statements of their own, and stand in no expression"),
    (1, r"[\w\]]", r"=(?!=)|[-+*/%&|^]=|<<=|>>=", "an assignment is a statement of its own; a comparison is =="),
    (1, r"\?[^:;]*", r"[;)]", "a choice has two sides: x ? 1 : 0"),
    (1, r"[;{}]\s*\w+", r"[!=<>+*/%&|^?-]", "this is an expression: a statement assigns, calls, or begins with a word such as if"),
    (2, r"[=(,?:*/<>&|!+-]", r"\+", "there is no unary +"),
    (0, r"=\s*-?", r"[A-Za-z_(]", "the first value of a global is one number; what is calculated is set in main"),
    (0, r"=\s*-?\w+", r"[^\w\s;,}]", "the first value of a global is one number; what is calculated is set in main"),
    (0, r"\)", ";", "a function has its body at once, and may be used before it"),
    (0, r"\}", ";", "no ; stands behind the body of a function"),
    (1, r"[;}]", r"else\b", "no if waits for an else: more than one statement stands in curly brackets"),
    (0, r"", r"\}", "there is a } too many"),
    (0, r"(^|[;}])", r"\w+( \w+)? ?\(", "the definition of a function begins with void, or with int where it returns a number"),
    (0, r"(^|[;}])", r"\w", "statements stand in functions: a } before this place may be one too many"),
    (2, r"", "$", "the text ends here: a bracket or a ; is missing"),
    (1, r"\}", r"\}", "the body of an abort is followed by its condition: abort { .. } when (stop);"),
    (2, rf"\b(?!(?:{RESERVED})$)\w+|[)\]]", r"else\b|\}|\w", MISSING),
]

# What a name that isn't declared may mean, where no name of the text is like it.
OWN = "no function is there from the start, so write your own: "
NAMES = {
    **dict.fromkeys("true TRUE True on ON".split(), "all values are numbers: 1 is true"),
    **dict.fromkeys("false FALSE False off OFF".split(), "all values are numbers: 0 is false"),
    **dict.fromkeys("wait delay delay_ms sleep usleep".split(), f"{OWN}void wait(int n) {{ pause; for (int i = 1; i < n; i++) pause; }} waits for n ticks"),
    **dict.fromkeys("await wait_for wait_until".split(), "what waits for x is while (!x) pause;"),
    **dict.fromkeys("printf print puts".split(), "nothing has to print: the outputs are printed at the end of each tick"),
    **dict.fromkeys("time now clock millis".split(), "there is no clock: count the ticks, or let the time be an input"),
    "abs": f"{OWN}int abs(int x) {{ return x < 0 ? -x : x; }}",
    "min": f"{OWN}int min(int x, int y) {{ return x < y ? x : y; }}",
    "max": f"{OWN}int max(int x, int y) {{ return x > y ? x : y; }}",
}

# The same where a for begins with the name.
COUNTER = "a for declares what it counts with: for (int i = 0; i < 3; i++)"

# The bytes before and at a place at which no token begins, and what they may mean.
LEX = [
    (r"#\s*include\b[^\n]*", r"", "there is no #include: a program is one text"),
    (r"(?<!\w)\d+", r"\.", "numbers are whole: count in tenths, as 15 for 1.5"),
    (r"[A-Za-z_]\w*\s*", r"\.\d", "a name has no bits: bit 3 of x is x >> 3 & 1"),
    (r"", r"\.\d", "numbers are whole: count in tenths, as 5 for .5"),
    (r"", r"0[0-9]*[89]", "a number that begins with 0 is octal: leave the 0 out"),
    (r"", r"0[bB][01]+", "there are no binary numbers: write them with 0x, as 0x1A for 11010"),
    (r"", r"[0-9]+_[0-9_]*", "a number has no _ between its digits"),
    (r"", r"(?:0[xX][0-9a-fA-F]+|[0-9]+)(?:[uU][lL]{0,2}|[lL]{1,2}[uU]?)\b", "a number has no letters behind it: the only type is int"),
    (r"", r"[0-9]+[eE][0-9]+", "numbers are whole, and written out"),
    (r"", r"[0-9]+(?:ms|s|min|h)\b", "time is counted in ticks: at 10 ms a tick, 100 for 1s"),
    (r"", r"[0-9]{10,}", "a number has 32 bits: at most 4294967295"),
    (r"", r"[0-9]+[A-Za-z_]", "a name begins with a letter or _, and a number has digits alone"),
    (r"", r"'[^'\\]'", "there are no characters: write the code, as 97 for 'a'"),
    (r"", r"[\"']", "there are no strings: an output is a number"),
    (r"[\w\])]\s*", r"\.", "there are no structs and no members: a name has letters, digits and _"),
    (r"", r"/\*", "this comment isn't closed: a */ is missing"),
    (r"", r"\\\s*\n", "a line needs no mark at its end: leave the backslash out"),
    (r"", r"[^\x00-\x7f]", "this letter isn't ASCII: names have A to Z, a to z, 0 to 9 and _, and marks are those of the keyboard"),
]

# Of a line of a trace: whether it is told of the header alone (0), of a row alone (1) or of both (2); a pattern of the line, and what it
# may mean.
TABLE = "forec trace TABLE makes a trace of a table with"
TRACE = [
    (2, r"\xef\xbb\xbf", "the trace begins with a byte order mark: save it as UTF-8 without one"),
    (2, r"\xff\xfe|\xfe\xff|.?\0", "the trace is UTF-16: save it as UTF-8"),
    (0, r"\s*(//|/\*|#include|(const|input|output|shared|int|void)\s+\w+)", "this looks like a program: it comes first, as in forec why PROGRAM TRACE"),
    (0, r"\s*#2\s", "#2 alone is the header of a trace that gives changes"),
    (2, r".*#", f"a trace has no comments: {TABLE} comments"),
    (0, r".*[,;]", f"blanks stand between the words of a trace: {TABLE} commas"),
    (1, r".*[,;]", "blanks stand between the numbers of a row, and nothing else"),
    (1, r".*\sx\d+\s*$", f"a trace has a row for each tick: {TABLE} repeated rows"),
    (0, r"\s*-?\d", "the first line of a trace names the inputs"),
    (1, r"(.*\s)?[+-]?\d*\.\d", f"numbers are whole: {TABLE} fractions, as tenths with --scale 10"),
    (1, r"(.*\s)?\+\d", "a number has no +"),
    (1, r"(.*\s)?0[xX]", "the numbers of a trace are decimal"),
    (1, r"(.*\s)?(?i:true|false|on|off)\b", "the values are numbers: 0 is false, and 1 is true"),
]
NEAREST = 0.7
COMMENT = re.compile(r"//[^\n]*|/\*.*?(?:\*/|\Z)", re.S)
STARTS = re.compile(r"(void|const|input|output|shared)\b|int\s+\w+\s*\(")


class Brace(NamedTuple):
    """A curly bracket that is open: its line, and how far this line is indented."""
    line: int
    indent: int


def guess(kind: str, data: bytes, line: int, column: int) -> str:
    """What may have been meant where a text is refused with this word at this place; nothing where there is no guess."""
    if found := of_encoding(data):
        return found
    lines = data.split(b"\n")
    front = b"\n".join([*lines[:line - 1], lines[line - 1][:column - 1]]).decode("latin-1")
    back = b"\n".join([lines[line - 1][column - 1:], *lines[line:]]).decode("latin-1")
    if kind == "lex":
        return of_bytes(front[-SEEN:], back[:SEEN])
    if kind == "1":
        return of_name(data.decode("latin-1"), re.match(r"\w*", back)[0])  # type: ignore[index]
    if kind != "syntax":
        return ""
    if not front.strip() and re.match(r"[\w \t\r]+\n[-\d \t\r]+(\n|\Z)", back) and not re.match(rf"\s*({RESERVED}|pause|par)\b", back):
        return "this looks like a trace: the program comes first, as in forec why PROGRAM TRACE"
    return of_syntax(front, back)


def of_trace(line: bytes, number: int, is_last: bool) -> str:
    """What may have been meant where the header of a trace, line 0, or another line can't be used."""
    if number and not line.strip():
        return "the trace ends right behind its last row, with no empty line" if is_last else "each row has a number for each input"
    text = line[:LONGEST].decode("latin-1")
    return next((told for where, form, told in TRACE if where in (2, min(number, 1)) and re.match(form, text)), "")


def of_encoding(data: bytes) -> str:
    if data.startswith(b"\xef\xbb\xbf"):
        return "the text begins with a byte order mark: save it as UTF-8 without one"
    if data.startswith((b"\xff\xfe", b"\xfe\xff")) or b"\0" in data[:4]:
        return "the text is UTF-16: save it as UTF-8"
    return ""


def of_bytes(front: str, back: str) -> str:
    """What bytes that begin no token may mean."""
    return next((text for before, behind, text in LEX if re.search(f"(?:{before})$", front) and re.match(behind, back)), "")


def of_syntax(front: str, back: str) -> str:
    """What it may mean that no program goes on with `back` after `front`."""
    front, back = (COMMENT.sub(blanks, text) for text in (front, back[:LONGEST]))
    open_brace = unclosed(front, back.strip())
    if open_brace and back.strip() and not (STARTS.match(back) and is_left_of(front, open_brace)):
        open_brace = None
    front, back = front.strip(), back.strip()
    inside, open_bracket = front.count("{") > front.count("}"), innermost(front)
    front, back = (re.sub(r"\w+", lambda word: word[0][:LONGEST_WORD], re.sub(r"\s+", " ", text)) for text in (front, back))
    front, back = front[-SEEN:], back[:SEEN]
    beside = [re.match(r"#?\s*(\w+)", back), re.search(r"(\w+)$", front), re.search(r"(\w+)\s*(\([^(){};]*\)?)?$", front),
              re.search(r"\(\s*(\w+)\s*\)$", front)]
    words = [found[1] for found in beside if found]
    if told := next((WORDS[word] for word in words if word in WORDS), ""):
        return told
    if open_brace:
        return f"{'the text ends here, and ' if not back else ''}the {{ of line {open_brace} may be unclosed"
    if near := misspelt(words[:3]):
        return near
    if open_bracket == "[" and re.match(r"=(?!=)", back):
        return OPEN[open_bracket]
    for where, before, behind, text in HINTS:
        if where in (2, inside) and re.match(behind, back) and re.search(f"(?:{before})$", front):
            return OPEN.get(open_bracket, text) if text == MISSING else text
    return OPEN.get(open_bracket, "") if back[:1] in "{;}" else ""


def of_name(text: str, name: str) -> str:
    """Which other name of a text is like one that isn't declared, or what this one may mean."""
    known = set(re.findall(r"\b[A-Za-z_]\w*", COMMENT.sub(blanks, text[:LONGEST_TEXT]))) - {name, *RESERVED.split("|"), "pause", "par"}
    known -= {"main"} if name in NAMES else set()
    near = difflib.get_close_matches(name[:LONGEST_WORD], [each for each in sorted(known) if len(each) <= LONGEST_WORD], 1)
    if near or name in NAMES:
        return f"'{name}' may be {near[0]}" if near else NAMES[name]
    return COUNTER if name and re.search(rf"\bfor\s*\(\s*{name}\s*=", text[:LONGEST_TEXT]) else ""


def blanks(found: re.Match[str]) -> str:
    """Blanks and line feeds in place of a comment."""
    return re.sub(r"[^\n]", " ", found[0])


def misspelt(words: list[str]) -> str:
    """Which reserved word one of these may be."""
    known = [*RESERVED.split("|"), "pause", "par"]
    for word in words:
        near = difflib.get_close_matches(word, known, 1, NEAREST)
        if near and word not in known and len(word) > 2:
            return f"'{word}' may be {near[0]}"
    return ""


def is_left_of(front: str, line: int) -> bool:
    """Whether the place behind a text is the first one in its line, and no further to the right than a line of it begins."""
    *before, last = front.expandtabs().split("\n")
    return not last.strip() and line <= len(before) and len(last) <= len(before[line - 1]) - len(before[line - 1].lstrip())


def innermost(front: str) -> str:
    """The last bracket of a text that is open at its end, or nothing."""
    opened: list[str] = []
    for mark in re.findall(r"[][(){}]", front):
        if mark in "([{":
            opened.append(mark)
        elif opened:
            opened.pop()
    return opened[-1] if opened else ""


def unclosed(front: str, back: str) -> int | None:
    """The line of the curly bracket that may be unclosed: of those before a place the first one at whose line's indentation, or left of
    it, another line begins before it is closed, else the last one that is open."""
    opened: list[Brace] = []
    lines = front.expandtabs().split("\n")
    if not lines[-1].strip() and back and back[0] not in "{}":
        lines[-1] += "."
    for number, line in enumerate(lines, 1):
        code = line.lstrip()
        indent = len(line) - len(code)
        if code and code[0] != "{" and opened and indent < opened[-1].indent + (code[0] != "}"):
            return opened[-1].line
        for mark in re.findall("[{}]", code):
            if mark == "{":
                opened.append(Brace(number, indent))
            elif opened:
                opened.pop()
    return opened[-1].line if opened else None
