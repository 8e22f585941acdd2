#!/usr/bin/env python3
"""What went between the threads of a run, computed straight from the rules of the language: the log of a run, the first line at which a
text is no log, and what the replay of a log says. It shares nothing with the compiler.

A thread is run by itself: what its branches are told, and what they reply, goes through a function `ask`. For a log `ask` runs the branch;
for a replay it looks the reply up in the log.

Usage: exchanges.py log PROGRAM [--budget B] < TRACE           (B is a number, or `bound`)
       exchanges.py replay PROGRAM LOG [--budget B] < TRACE

It prints the lines of `forec log` or `forec replay`, and ends with the status. The program has to be accepted: nothing is checked.
"""
import re
import sys
from typing import NamedTuple

from meaning import BUDGET, Over, Thread, Trap, Units, in_a_deep_stack, report
from program_tree import Function, Loop, Program

MOST_WORDS = 4_194_304
MOST_BYTES = 134_217_728  # of a log that is read
REFUSED, FULL = 3, 10


# ---- thread instances

class Instance:
    """A thread of the program: its number and that of its parent, its name, and its body, in which branches are instances."""

    def __init__(self, number, parent, name, params):
        self.number, self.parent, self.name, self.params = number, parent, name, params
        self.function = self.uses = None


class Instances:
    """All thread instances, numbered in the order of the text in which each void function stands in the place of its call."""

    def __init__(self, program):
        self.program, self.all = program, []
        self.add(None, "main", program.functions["main"])
        for instance in self.all:
            instance.uses = program.uses(instance.function)
        self.all[0].uses = range(len(program.variables))

    def add(self, parent, name, function):
        found = Instance(len(self.all), parent, name, function.params)
        self.all.append(found)
        found.function = self.own(function, found.number)
        return found

    def own(self, function, thread):
        """A copy of a function that is put in place, or of the body of a branch."""
        found = Function(function.params, function.gives)
        found.words, found.body = function.words, self.placed(function.body, thread)
        return found

    def placed(self, s, thread):
        """A statement of a thread, with all that is put in place."""
        kind = s[0]
        if kind == "list":
            return ("list", [self.placed(part, thread) for part in s[1]])
        if kind == "if":
            return (*s[:2], self.placed(s[2], thread), self.placed(s[3], thread))
        if kind == "while":
            return ("while", self.loop(s[1], thread))
        if kind == "abort":
            return (*s[:4], self.placed(s[4], thread))
        if kind == "call":
            return ("call", self.own(self.program.functions[s[1]], thread), s[2])
        if kind == "par":
            return ("par", [("branch", self.branch(what, thread), given) for _, what, given in s[1]])
        return s

    def loop(self, loop, thread):
        """The step of a `for` stands before the body in the text, and runs after it."""
        if not loop.stepped:
            body = self.placed(loop.body, thread)
        else:
            step = self.placed(loop.body[1][1], thread)
            body = ("list", [self.placed(loop.body[1][0], thread), step])
        return Loop(loop.test, loop.bound, body, loop.place)

    def branch(self, what, thread):
        instance = self.add(thread, "{}" if isinstance(what, Function) else what, self.program.function_of(what))
        instance.function.instance = instance
        return instance.function


# ---- jobs and replies

class Job(NamedTuple):
    """What a thread is told: to start, with arguments, or to wake. A job to wake has no arguments that count."""
    starts: bool
    allowance: int
    arguments: tuple
    values: tuple

    def line(self):
        return " ".join(map(str, ("start" if self.starts else "wake", self.allowance, *self.arguments, *self.values)))


class Reply(NamedTuple):
    """What a thread replies. One that trapped has no copies that count, and one that is over no units either."""
    kind: str
    units: int = 0
    copies: tuple = ()
    place: tuple = ()
    trap: str = ""

    def line(self):
        if self.kind == "over":
            return "over"
        if self.kind == "trapped":
            return "trapped %d %d:%d %s" % (self.units, *self.place, self.trap)
        return " ".join([self.kind, str(self.units)] + [f"{value}{'*' if mark else ''}" for value, mark in self.copies])


class Branch:
    """A branch as its parent sees it: what it was told, and what it replied."""

    def __init__(self, instance, arguments, parent):
        self.instance, self.arguments, self.uses, self.begun, self.ended = instance, tuple(arguments), instance.uses, False, False
        self.hand_down(parent)

    def hand_down(self, parent):
        self.copies = {v: [parent.copies[v][0], False] for v in self.uses}

    def job(self, allowance):
        values = tuple(self.copies[v][0] for v in self.uses)
        found = Job(not self.begun, allowance, () if self.begun else self.arguments, values)
        self.begun = True
        return found

    def take(self, reply):
        self.ended = reply.kind == "ended"
        self.copies = dict(zip(self.uses, reply.copies))


class Alone(Thread):
    """A thread by itself. `ask` gives the reply of an instance to a job."""

    def __init__(self, program, instance, ask):
        self.program, self.instance, self.ask, self.uses = program, instance, ask, instance.uses
        self.copies, self.units, self.text, self.trap, self.ended = {}, Units(0), None, None, False

    def answer(self, job):
        """The reply to a job. One to start makes the thread anew."""
        if job.starts:
            function = self.instance.function
            self.text = self.run(function.body, [*job.arguments] + [0] * (function.words - len(job.arguments)))
        self.copies = {v: [value, False] for v, value in zip(self.uses, job.values)}
        self.units = Units(job.allowance)
        try:
            kind = next(self.text, "ended")
        except Trap as trap:
            return Reply("trapped", self.units.spent, (), trap.place, trap.kind)
        except Over:
            return Reply("over")
        return Reply(kind or "paused", self.units.spent, tuple((value, mark) for value, mark in (self.copies[v] for v in self.uses)))

    def child(self, what, arguments):
        return Branch(what.instance, arguments, self)

    def let_run(self, children):
        """Each branch is told what is left of this thread's units, whatever the others take; all of theirs are counted in the end."""
        left = self.units.budget - self.units.spent
        jobs = [child.job(left) for child in children]
        replies = [self.ask(child.instance, job) for child, job in zip(children, jobs)]
        if any(reply.kind == "over" for reply in replies):
            raise Over()
        self.units.count(sum(reply.units for reply in replies))
        for child, reply in zip(children, replies):
            if reply.kind == "trapped":
                raise Trap(reply.place, reply.trap)
            child.take(reply)


class Main(Alone):
    """Thread 0, which has a job in each tick."""

    def __init__(self, program, instance, ask, budget):
        super().__init__(program, instance, ask)
        self.budget, self.ticks = budget, 0

    def go_on(self):
        self.ticks += 1
        reply = self.answer(Job(self.ticks == 1, self.budget, (), tuple(self.copies[v][0] for v in self.uses)))
        if reply.kind == "over":
            raise Over()
        self.ended = reply.kind == "ended"
        if reply.kind == "trapped":
            self.trap = Trap(reply.place, reply.trap)


# ---- the log of a run

class Recorder:
    """Runs the threads, and keeps each job with its reply."""

    def __init__(self, program, instances):
        self.threads = [Alone(program, instance, self.ask) for instance in instances]
        self.pairs = [[] for _ in instances]

    def ask(self, instance, job):
        reply = self.threads[instance.number].answer(job)
        self.pairs[instance.number].append((job, reply))
        return reply


def text_of(pairs):
    """The text of a log: of each thread but thread 0 the pairs of a job and its reply."""
    lines = []
    for number, own in enumerate(pairs[1:], 1):
        lines.append(f"thread {number} jobs {len(own)}\n")
        lines += [f"{job.line()}\n{reply.line()}\n" for job, reply in own]
    return "".join(lines)


def words_of(instances, pairs):
    """How many words the jobs and replies of a run need: a job 3 and one for each argument and copy, a reply 6 and two for each copy."""
    return sum(len(own) * (9 + instance.params + 3 * len(instance.uses)) for instance, own in zip(instances[1:], pairs[1:]))


def log(program, trace, budget, write):
    """Writes the log of a run, and gives the status."""
    instances = Instances(program).all
    recorder = Recorder(program, instances)
    status = report(program, trace, budget, lambda line: None, main=Main(program, instances[0], recorder.ask, budget))
    if words_of(instances, recorder.pairs) > MOST_WORDS:
        write("log full\n")
        return FULL
    write(text_of(recorder.pairs))
    return status


# ---- reading a log

NUMBER = re.compile(rb"0|[1-9][0-9]*")
SIGNED = re.compile(rb"0|-?[1-9][0-9]*")
PLACE = re.compile(rb"([1-9][0-9]*):([1-9][0-9]*)")


class NoLog(ValueError):
    """These bytes are no log of the program; `line` is the first one that with those before it begins none."""

    def __init__(self, line):
        super().__init__(f"line {line}")
        self.line = line


class NoLine(ValueError):
    """A line that isn't of the form that is wanted."""


def number_in(word, most):
    if not NUMBER.fullmatch(word) or len(word) > len(str(most)) or int(word) > most:
        raise NoLine(word)
    return int(word)


def value_in(word):
    if not SIGNED.fullmatch(word) or len(word) > 11 or not -2**31 <= int(word) < 2**31:
        raise NoLine(word)
    return int(word)


def values_in(words, count):
    if len(words) != count:
        raise NoLine(words)
    return tuple(map(value_in, words))


def jobs_in(line, number):
    """How many jobs a thread's first line tells. Its number may have as many digits as it likes."""
    words = line.split(b" ")
    if len(words) != 4 or words[:3] != [b"thread", b"%d" % number, b"jobs"] or not NUMBER.fullmatch(words[3]):
        raise NoLine(line)
    return int(words[3]) if len(words[3]) < 30 else 10**30


def job_in(line, instance):
    kind, *words = line.split(b" ")
    arguments = instance.params if kind == b"start" else 0
    if kind not in (b"start", b"wake") or not words:
        raise NoLine(line)
    allowance, values = number_in(words[0], 2**62), values_in(words[1:], arguments + len(instance.uses))
    return Job(kind == b"start", allowance, values[:arguments], values[arguments:])


def reply_in(line, instance):
    kind, *words = line.split(b" ")
    if line == b"over":
        return Reply("over")
    if kind == b"trapped" and len(words) == 3:
        place = PLACE.fullmatch(words[1])
        if not place or words[2] not in (b"divide", b"index", b"turns"):
            raise NoLine(line)
        found = tuple(number_in(part, 2**32 - 1) for part in place.groups())
        return Reply("trapped", number_in(words[0], 2**64 - 1), (), found, words[2].decode())
    if kind not in (b"paused", b"ended") or not words:
        raise NoLine(line)
    units, values = number_in(words[0], 2**64 - 1), values_in([word.removesuffix(b"*") for word in words[1:]], len(instance.uses))
    return Reply(kind.decode(), units, tuple((value, word.endswith(b"*")) for value, word in zip(values, words[1:])))


def read(data, instances):
    """Of each thread its pairs of a job and a reply."""
    *lines, rest = data.split(b"\n")
    at, pairs = 0, [[]]

    def take(read_line, of):
        nonlocal at
        at += 1
        try:
            return read_line(lines[at - 1], of)
        except (NoLine, IndexError):
            raise NoLog(at) from None

    for instance in instances[1:]:
        own, left = [], take(jobs_in, instance.number)
        while left > 0:
            own.append((take(job_in, instance), take(reply_in, instance)))
            left -= 1
        pairs.append(own)
    if at < len(lines) or rest:
        raise NoLog(at + 1)
    return pairs


# ---- replaying it

class Differs(Exception):
    """A thread tells a branch another job than the log has next for it, or one where the log has none."""


class Lookup:
    """Looks replies up in a log: each branch's next one."""

    def __init__(self, pairs):
        self.pairs, self.used = pairs, [0] * len(pairs)

    def ask(self, instance, job):
        own, at = self.pairs[instance.number], self.used[instance.number]
        if at == len(own) or own[at][0] != job:
            raise Differs()
        self.used[instance.number] += 1
        return own[at][1]

    def leaves(self, instances, parent):
        """Whether a job of a branch of this thread isn't used."""
        return any(self.used[one.number] < len(self.pairs[one.number]) for one in instances if one.parent == parent)


def first_difference(program, instances, pairs, number):
    """The first job of a thread, from 1, that fails; where none does and jobs of its branches are left, the number of its jobs and 1 more."""
    lookup, before = Lookup(pairs), None
    thread = Alone(program, instances[number], lookup.ask)
    for at, (job, reply) in enumerate(pairs[number], 1):
        if not job.starts and before != "paused":
            return at
        try:
            if thread.answer(job) != reply:
                return at
        except Differs:
            return at
        before = reply.kind
    return len(pairs[number]) + 1 if lookup.leaves(instances, number) else None


def replay(program, data, trace, budget, write):
    """Writes what the replay of a log says, and gives the status."""
    instances = Instances(program).all
    if len(data) > MOST_BYTES:
        write("refused long\n")
        return REFUSED
    try:
        pairs = read(data, instances)
    except NoLog as bad:
        write(f"refused log {bad.line}\n")
        return REFUSED
    for number in range(len(instances) - 1, 0, -1):
        job = first_difference(program, instances, pairs, number)
        if job is not None:
            write(f"replay differs {number} {job}\n")
            return REFUSED
    lookup = Lookup(pairs)
    main = Main(program, instances[0], lookup.ask, budget)
    try:
        status = report(program, trace, budget, write, main=main)
    except Differs:
        write(f"replay differs 0 {main.ticks}\n")
        return REFUSED
    if lookup.leaves(instances, 0):
        write(f"replay differs 0 {main.ticks + 1}\n")
        return REFUSED
    write("replay ok\n")
    return status


# ---- as commands

def contents(path):
    with open(path, "rb") as file:
        return file.read()


def told(command, text, trace, budget, data=None):
    """What `log`, or `replay` of this data, prints for a program's text, and its status."""
    program, lines = Program(text), []
    if budget == "bound":
        budget = program.bound_of(program.functions["main"])
        if budget > 2**62:
            return b"bound none\n", 2
    given = (program, trace) if command == "log" else (program, data, trace)
    status = (log if command == "log" else replay)(*given, int(budget), lines.append)
    return "".join(lines).encode(), status


def main():
    words, budget = sys.argv[1:], BUDGET
    if "--budget" in words:
        at = words.index("--budget")
        budget = words[at + 1]
        del words[at:at + 2]
    found, status = told(words[0], contents(words[1]).decode("latin-1"), sys.stdin.buffer.read(), budget, *map(contents, words[2:]))
    sys.stdout.buffer.write(found)
    return status


if __name__ == "__main__":
    sys.exit(in_a_deep_stack(main))
