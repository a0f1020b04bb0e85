#!/usr/bin/env python3
"""Works out the covering words of scanners from the definitions alone, as docs/DEFINITIONS.md gives them.

tests/cover.py                     prints a case for each source below, in the format of crates/cases/README.md
tests/cover.py PROGRAM             compares what PROGRAM --x-cover gives of these sources, and of two long ones
tests/cover.py PROGRAM SEED COUNT  compares random sources (cover_sources.py)

Expressions are trees here, and a word is walked through the trees of all rules at once, choice by choice: no automaton is made. A front
is one way through a tree up to the last unit read. It has the events of its tags, and what is left to do, as a list of tasks.
"""

import functools
import itertools
import pathlib
import subprocess
import sys
import tempfile
from collections import namedtuple

sys.dont_write_bytecode = True

from cover_sources import FIXED, LONG, random_source  # noqa: E402

GREATEST_UNIT = {"": 0xFF, "-w": 0xFFFF, "-8": 0xFF, "-x": 0xFFFF, "-u": 0xFFFFFFFF}
MOST_UNITS = 1048576
ANY = "any unit"
DONE = frozenset({()})
START = "part 0"

Task = namedtuple("Task", "kind part detail")
Front = namedtuple("Front", "rule events tasks")
Found = namedtuple("Found", "rule events length")
Node = namedtuple("Node", "word fronts found begins")


def spelling(encoding, point):
    """The units of a code point."""
    if encoding == "-x" and point >= 0x10000:
        return (0xD800 + (point - 0x10000) // 1024, 0xDC00 + (point - 0x10000) % 1024)
    if encoding != "-8" or point <= 0x7F:
        return (point,)
    count = 2 if point <= 0x7FF else 3 if point <= 0xFFFF else 4
    later = [0x80 + (point >> 6 * place) % 64 for place in reversed(range(count - 1))]
    return ((0xF00 >> count) % 256 + (point >> 6 * (count - 1)), *later)


# ---- parts


class Part:
    """One occurrence of an expression in a rule; each copy of a repetition's body is one of its own."""

    def __init__(self, term, encoding):
        self.sort, self.term, self.inside = term.sort, term, []
        if self.sort == "class":
            self.readings = readings(encoding, term.points)
        elif self.sort == "any":
            self.readings = [ANY]
        elif self.sort == "repeat":
            copies = max(term.least, 1) if term.most is None else term.most
            self.inside = [Part(term.body, encoding) for _ in range(copies)]
        else:
            self.inside = [Part(member, encoding) for member in term.members]
        self.has_tree = self.is_matching()

    def is_matching(self):
        """Whether the part has a tree."""
        if self.sort in ("class", "any"):
            return bool(self.readings)
        if self.sort == "repeat":
            copies, most = len(self.inside), self.term.most
            return (most is None or most >= self.term.least) and (self.term.least == 0 or copies > 0 and self.inside[0].has_tree)
        return (any if self.sort == "or" else all)(part.has_tree for part in self.inside)

    def ways_in(self):
        """The ways to begin, in the order of the choices: the events first met, and the tasks."""
        if self.sort in ("class", "any"):
            return [((), (Task("read", self, lists),)) for lists in self.readings]
        if self.sort == "tag":
            return [(((self.term.name, True),), ())]
        if self.sort == "repeat":
            return [((), (Task("iterate", self, 0),))]
        if self.sort == "or":
            return [(self.unset_but(part), (Task("begin", part, None),)) for part in self.inside if part.has_tree]
        return [((), tuple(Task("begin", part, None) for part in self.inside))]

    def unset_but(self, chosen):
        """Each tag under the members that are not chosen, unset."""
        return tuple((tag, False) for part in self.inside if part is not chosen for tag in part.term.tags())

    def iterations(self, number):
        """The ways from before an iteration: into it, and past it where it may be left out."""
        ways = []
        if (self.term.most is None or number < self.term.most) and self.inside[0].has_tree:
            copy = self.inside[min(number, len(self.inside) - 1)]
            ways.append(((), (Task("begin", copy, None), Task("iterate", self, number + 1))))
        if number >= self.term.least:
            ways.append((tuple((tag, False) for tag in self.term.body.tags()) if number == 0 else (), ()))
        return ways


@functools.cache
def readings(encoding, points):
    """The lists of units that a class reads, in the order of its choice: in UTF-16 first those of two units, and then those of one."""
    lists = [spelling(encoding, point) for point in points]
    if encoding != "-x":
        return [frozenset(lists)] if lists else []
    counted = [frozenset(units for units in lists if len(units) == count) for count in (2, 1)]
    return [some for some in counted if some]


@functools.cache
def lists_by_unit(lists):
    """For each unit that a reading goes on with, the lists of units that finish it behind that."""
    later = {}
    for units in lists:
        if units:
            later.setdefault(units[0], set()).add(units[1:])
    return {unit: frozenset(some) for unit, some in later.items()}


def lists_after(lists, unit):
    """The lists of units that finish a reading behind one more unit."""
    return DONE if lists == ANY else lists_by_unit(lists).get(unit, ())


# ---- walks


def options(task):
    """The ways on from a task, in the order of the choices: events and further tasks."""
    if task.kind == "begin":
        return [(events, tasks + (Task("end", task.part, None),)) for events, tasks in task.part.ways_in()]
    return task.part.iterations(task.detail) if task.kind == "iterate" else [((), ())]


def ways(tasks, begun=frozenset(), ended=frozenset(), events=()):
    """The plain ways to where a unit is read or nothing is left to do, in the order of the choices: events, and the tasks from there on."""
    if not tasks or tasks[0].kind == "read" and tasks[0].detail != DONE:
        yield events, tasks
        return
    task = tasks[0]
    if task.part in {"begin": begun, "end": ended}.get(task.kind, ()):
        return
    begun = begun | {task.part} if task.kind == "begin" else begun
    ended = ended | {task.part} if task.kind == "end" else ended
    for met, more in options(task):
        yield from ways(more + tasks[1:], begun, ended, events + met)


def at_offset(events, offset):
    """Events with the offset at which they were met, and None where a tag was unset."""
    return tuple((tag, offset if is_set else None) for tag, is_set in events)


class Walker:
    """The walks through the rules of a scanner, the rule for the end aside."""

    def __init__(self, scanner, encoding):
        parts = [(rule, Part(rule.whole_term(), encoding)) for rule in scanner.rules if rule.kind != "$"]
        self.scanner, self.greatest = scanner, GREATEST_UNIT[encoding]
        self.first = [Front(rule, (), (Task("begin", part, None),)) for rule, part in parts if part.has_tree]

    def stops(self, fronts, offset):
        """Where the fronts come to before the next unit, in order."""
        return [Front(front.rule, front.events + at_offset(met, offset), tasks) for front in fronts for met, tasks in ways(front.tasks)]

    def found(self, stops, offset):
        """What matches here: the first rule, by its least choices."""
        ends = (Found(stop.rule, stop.events, offset) for stop in stops if not stop.tasks)
        return next(ends, None)

    def start(self):
        """The node of the empty word."""
        return Node((), self.first, self.found(self.stops(self.first, 0), 0), 0)

    def next(self, node, stops, unit):
        """The node of a word with one more unit."""
        fronts, seen = [], set()
        for stop in stops:
            lists = lists_after(stop.tasks[0].detail, unit) if stop.tasks else ()
            tasks = (Task("read", stop.tasks[0].part, lists),) + stop.tasks[1:] if lists else ()
            if lists and tasks not in seen:
                seen.add(tasks)
                fronts.append(Front(stop.rule, stop.events, tasks))
        word = node.word + (unit,)
        found = self.found(self.stops(fronts, len(word)), len(word))
        return Node(word, fronts, found or node.found, len(word) if fronts else node.begins)

    def borders(self, stops):
        """Units at least one of which begins each run of units that are read alike."""
        units = {units[0] for stop in stops if stop.tasks and stop.tasks[0].detail != ANY for units in stop.tasks[0].detail}
        return sorted({0} | units | {unit + 1 for unit in units if unit < self.greatest})


def kernel(node):
    """The places of all cuts, each once; of the empty word that of part 0."""
    return tuple(dict.fromkeys((front.tasks[0].part, front.tasks[0].detail) for front in node.fronts)) if node.word else START


# ---- covers


class TooLong(Exception):
    """The words of a scanner have too many units together: the first sum that is over the limit."""


def cover(walker):
    """The nodes of the covering words, in order."""
    start = walker.start()
    nodes, seen, queue, total = [start], {kernel(start)}, [start], 0
    for least in queue:
        stops, last = walker.stops(least.fronts, len(least.word)), None
        for unit in walker.borders(stops):
            node = walker.next(least, stops, unit)
            if kernel(node) == last:
                continue
            last = kernel(node)
            nodes.append(node)
            total += len(node.word)
            if total > MOST_UNITS:
                raise TooLong(total)
            if last and last not in seen:
                seen.add(last)
                queue.append(node)
    return nodes


def value(events, tag, is_many):
    """The value of a tag behind events, as a line has it."""
    shown = ["-" if offset is None else str(offset) for name, offset in events if name == tag]
    return "[" + ",".join(shown) + "]" if is_many else (["-"] + shown)[-1]


def match_line(scanner, captures, node, start=0):
    """The line of the match of a word, or of a match from a start, whose offsets are those of the stream."""
    ending = next((rule for rule in scanner.rules if rule.kind == "$"), None)
    found = Found(ending, (), 0) if ending and not node.word else node.found
    if found is None:
        return "none %d %d" % (start, node.begins)
    rule, cursor = found.rule, found.length
    if rule.context is not None:
        cursor = int(value(found.events, "/", False))
    words = ["jump" if rule.is_jump else "rule", str(rule.number), str(start), str(cursor)]
    words += ["%s=%s" % (name, value(found.events, name, is_many)) for name, is_many in rule.named_tags()]
    if captures and rule.kind != "$":
        ends = [[value(found.events, (number, end), False) for end in ("open", "close")] for number in range(rule.groups() + 1)]
        words += ["(%s,%s)" % (opened, closed) for opened, closed in ends]
    return " ".join(words + (["=> " + rule.target] if rule.target else []))


def hexadecimal(word):
    """The units of a word."""
    return " ".join("0x%02X" % unit for unit in word) or "-"


def lines(source):
    """The text of the covers of a source."""
    text = []
    for number, scanner in source.scanners():
        text.append("scanner %d%s" % (number, " " + scanner.condition if scanner.condition else ""))
        walker = Walker(scanner, source.encoding)
        text += ["%s : %s" % (hexadecimal(node.word), match_line(scanner, source.captures, node)) for node in cover(walker)]
    return text


# ---- cases and comparisons


def quoted(lines):
    """Lines of text as a file of cases has them."""
    shown = (line.replace("%", "%25") for line in lines)
    return ["| " + (line[:-1] + "%20" if line.endswith(" ") else line) if line else "|" for line in shown]


def case_lines(source):
    """The case of a source."""
    given = ["case " + source.name, "given c.re"] + quoted(source.text().split("\n")[:-1])
    return given + [" ".join(["run --x-cover"] + source.options() + ["c.re"])] + ["out"] + quoted(lines(source)) + [""]


def ending(source):
    """The status, and what is told at both outputs."""
    try:
        return 0, "".join(line + "\n" for line in lines(source)), ""
    except TooLong:
        return 1, "", "c.re:1:1: error: too many cover words\n"


def differs(program, source, folder):
    """Whether the program gives another text than the definitions, which is told."""
    (folder / "c.re").write_text(source.text())
    run = subprocess.run([program, "--x-cover"] + source.options() + ["c.re"], cwd=folder, capture_output=True, text=True, check=False)
    status, text, message = ending(source)
    if (run.returncode, run.stdout, run.stderr) == (status, text, message):
        return False
    print("%s, %s\n%sstatus %d %s" % (source.name, " ".join(source.options()), source.text(), run.returncode, run.stderr))
    for given, told in itertools.zip_longest(run.stdout.split("\n"), text.split("\n")):
        if given != told:
            print("gives  %s\nwanted %s" % (given, told))
            break
    return True


def main():
    if len(sys.argv) == 1:
        print("\n".join(line for source in FIXED for line in case_lines(source)))
        return 0
    program = str(pathlib.Path(sys.argv[1]).resolve())
    sources = FIXED + LONG
    if len(sys.argv) > 2:
        seed, count = int(sys.argv[2]), int(sys.argv[3])
        sources = [random_source(seed, number) for number in range(1, count + 1)]
    with tempfile.TemporaryDirectory() as folder:
        count = sum(differs(program, source, pathlib.Path(folder)) for source in sources)
    print("%d sources, %d differ" % (len(sources), count))
    return 1 if count else 0


if __name__ == "__main__":
    sys.exit(main())
