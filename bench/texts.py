"""Texts that are large or made to be dear, and what judging them takes: each at most a second and 100 MB."""
import itertools
import os
import string
import subprocess
import time

from measure import best, row, written

MOST_SECONDS, MOST_MEMORY = 1.0, 100.0  # of one text
MOST_BYTES, MOST_TOKENS = 1_048_576, 200_000
ONE = "output int o = 0; void main(void) { o = "
TIMES = 3


def assignments(tokens):
    """A program of so many tokens."""
    return "output int o = 0;\nvoid main(void) {\n" + "o = o + 1;\n" * ((tokens - 12) // 6) + "}\n"


def chain(tokens):
    """1,024 functions, each of which calls the one before as often as the tokens allow: too many statements to be expanded."""
    calls = max(1, (tokens - 1024 * 7) // (1023 * 4))
    bodies = (f"void f{i}(void) {{ {f'f{i - 1}(); ' * calls}}}\n" for i in range(1, 1023))
    return "void f0(void) { pause; }\n" + "".join(bodies) + f"void main(void) {{ {'f1022(); ' * calls}}}\n"


def called_groups(tokens):
    """1,000 functions for 200,000 tokens, each of which calls the one before in five groups, and 2,000 calls of the last."""
    functions, calls = tokens // 200, tokens // 100
    bodies = (f"void f{i}(void) {{{{{{{{{{ f{i - 1}(); }}}}}}}}}}\n" for i in range(1, functions))
    return "void f0(void) { ; }\n" + "".join(bodies) + f"void main(void) {{\n{f'f{functions - 1}();' * calls}\n}}\n"


def globals_named(tokens):
    """A global for each 50 tokens, named fourteen times."""
    names = [f"g{i}" for i in range(tokens // 50)]
    body = "".join(f"{name} = {name} + 1;\n" for name in names) * 7
    return "".join(f"int {name};\n" for name in names) + f"void main(void) {{\n{body}}}\n"


def nested_locals(tokens):
    """Locals of their own in each of 126 blocks that stand in one another, each named twice: one for each 8 tokens."""
    blocks = ""
    for depth in range(126):
        names = [f"a{depth}_{i}" for i in range((tokens // 126 - 5) // 8)]
        blocks += "{ int " + ", ".join(names) + ";\n" + "".join(f"{name} = {name} + 1;\n" for name in names)
    return "void main(void) " + blocks + "}" * 126 + "\n"


def names(count):
    """So many names, each another one, of four bytes."""
    capitals, letters = string.ascii_uppercase, string.ascii_letters
    return ("".join(name) for name in itertools.islice(itertools.product(capitals, letters, letters, letters), count))


def doubled_calls():
    """1,000 functions that each call the one before twice."""
    bodies = (f"void f{i}(void) {{ f{i - 1}(); f{i - 1}(); }}\n" for i in range(1, 1001))
    return "void f0(void) { }\n" + "".join(bodies) + "void main(void) { while (1) { f1000(); pause; } }\n"


def deep_calls():
    """100 functions that each call the one before in 60 `if`s."""
    bodies = (f"void f{i}(void) {{{' if (1)' * 60} f{i - 1}(); }}\n" for i in range(1, 101))
    return "void f0(void) { }\n" + "".join(bodies) + "void main(void) { f100(); }\n"


def idle_chain(calls):
    """So many calls of a chain of 1,000 functions that come to nothing."""
    bodies = (f"void f{i}(void) {{ f{i - 1}(); }}\n" for i in range(1, 1000))
    return "void f0(void) { }\n" + "".join(bodies) + f"void main(void) {{\n{'f999();' * calls}\n}}\n"


def hostile():
    """Texts that are made to be dear: what each is, its bytes, and the status of `check`."""
    yield "128 brackets", f"{ONE}{'(' * 128}1{')' * 128}; }}", 3
    yield "127 brackets", f"{ONE}{'(' * 127}1{')' * 127}; }}", 0
    yield "129 numbers that are added", f"{ONE}{' + '.join(['1'] * 129)}; }}", 3
    yield "1,000 functions, each calls one twice", doubled_calls(), 3
    yield "100 functions of 60 nested if", deep_calls(), 3
    yield "20,000 calls of a chain that does nothing", idle_chain(20_000), 0
    yield "200,000 brackets (", "(" * MOST_TOKENS, 3
    yield "1 MB of brackets (", "(" * MOST_BYTES, 3
    yield "199,900 brackets ( in an expression", f"{ONE}{'(' * 199_900}", 3
    yield "190,000 brackets { in a body", f"void main(void) {'{' * 95_000}{'}' * 95_000}", 3
    yield "49,990 if (1)", f"void main(void) {{ {'if (1) ' * 49_990}; }}", 3
    yield "if (1) alone", "if (1) " * 50_000, 3
    yield "60 nested if, then 100,000 ;", f"void main(void) {{{'if (1) ' * 60}{{{';' * 100_000}}}}}", 0
    yield "200,000 names", " ".join(names(MOST_TOKENS)), 3
    yield "99,990 globals in one declaration", f"int {','.join(names(99_990))}; void main(void) {{ }}", 3
    yield "65,000 locals in one declaration", f"void main(void) {{ int {','.join(names(65_000))}; }}", 0
    yield "200,000 marks ;", ";" * MOST_TOKENS, 3
    yield "1 MB of white space", " " * MOST_BYTES, 3
    yield "1 MB of one name", "a" * MOST_BYTES, 3


def judged(program, path, status):
    """The seconds and the peak memory in MB that judging a text takes."""
    start = time.perf_counter()
    child = subprocess.Popen([program, "check", path], stdin=subprocess.DEVNULL, stdout=subprocess.DEVNULL)
    _, ended, usage = os.wait4(child.pid, 0)
    seconds = time.perf_counter() - start
    child.returncode = os.waitstatus_to_exitcode(ended)
    assert child.returncode == status, f"{path} ended with {child.returncode}"
    return seconds, usage.ru_maxrss / 1024


def hostile_texts(program, scratch):
    """What judging the hostile texts takes, beside what it may; gives how many take more."""
    dear = 0
    for name, text, status in hostile():
        assert len(text) <= MOST_BYTES, f"{name}: {len(text)} bytes"
        path = written(scratch, "hostile", text)
        seconds, memory = (min(figures) for figures in zip(*(judged(program, path, status) for _ in range(TIMES))))
        share = max(seconds / MOST_SECONDS, memory / MOST_MEMORY)
        dear += share > 1
        most = f"at most {MOST_SECONDS * 1000:.0f} ms, {MOST_MEMORY:.0f} MB"
        row(f"check: {name}", f"{seconds * 1000:.0f} ms, {memory:.0f} MB", most, f"{share:.2f}")
    return dear


def front_end(program, scratch):
    """Reading and compiling of large texts, against a C compiler that only checks the nearest text in C."""
    header = written(scratch, "header", "\n")
    seconds = {}
    for statements in (16_000, 32_000):
        body = "o = o + 1;\n" * statements
        ours = written(scratch, "large.forec", f"output int o = 0;\nvoid main(void) {{\n{body}}}\n")
        theirs = written(scratch, "large.c", f"int o = 0;\nint main(void) {{\n{body}}}\n")
        seconds[statements] = best([program, "run", ours], header, os.devnull, 5)
        gcc = best(["gcc", "-fsyntax-only", "-O0", theirs], header, os.devnull, 3)
        row(f"front end, {statements * 6 + 13:,} tokens", f"{seconds[statements] * 1000:.1f} ms",
            f"gcc -fsyntax-only: {gcc * 1000:.0f} ms", f"{gcc / seconds[statements]:.2f}")
    row("front end, twice the tokens", f"{seconds[32_000] * 1000:.1f} ms", f"half: {seconds[16_000] * 1000:.1f} ms",
        f"{seconds[32_000] / seconds[16_000]:.2f}")


def constants(statements):
    """So many statements, each of 14 terms that are folded, in a function that is put in place twice."""
    sums = "x = 1 + (2 ? x * (3 - 4) : 5 / 0);\n" * statements
    return f"output int x = 0;\nvoid sums(void) {{\n{sums}}}\nvoid main(void) {{ sums(); sums(); }}\n"


def folding(program, scratch):
    """Making of large programs whose constants are folded, beside the same without folding."""
    header, seconds = written(scratch, "header", "\n"), {}
    for statements in (3_500, 7_000):
        text = written(scratch, "constants.forec", constants(statements))
        seconds[statements] = best([program, "run", text, "--fold"], header, os.devnull, 5)
        plain = best([program, "run", text], header, os.devnull, 5)
        row(f"run --fold, {statements * 28:,} terms, no rows", f"{seconds[statements] * 1000:.1f} ms", f"without --fold: {plain * 1000:.1f} ms",
            f"{plain / seconds[statements]:.2f}")
    row("run --fold, twice the terms", f"{seconds[7_000] * 1000:.1f} ms", f"half: {seconds[3_500] * 1000:.1f} ms",
        f"{seconds[7_000] / seconds[3_500]:.2f}")


def checks(program, scratch):
    """Judging and translating texts of 200,000 tokens and of half as many."""
    for name, make, status in (
        ("assignments", assignments, 0),
        ("1,024 functions in a chain of calls", chain, 3),
        ("calls that come to nothing by 1,000 functions", called_groups, 0),
        ("4,000 globals", globals_named, 0),
        ("25,000 locals in nested blocks", nested_locals, 0),
    ):
        half, whole = (
            best([program, "check", written(scratch, f"{tokens}.forec", make(tokens))], os.devnull, os.devnull, 5, status=status)
            for tokens in (100_000, 200_000)
        )
        row(f"check: {name}", f"{whole * 1000:.1f} ms", f"half the tokens: {half * 1000:.1f} ms", f"{whole / half:.2f}")
