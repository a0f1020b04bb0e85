#!/usr/bin/env python3
"""Cuts the scanners of format 3 out of their cases, and puts each into a C program.

tests/c/format3.py FOLDER

The scanners are those of the cases "a scanner of format 3 is run: .." of crates/cases/data/format3.txt. For the scanner K, counted from 1,
the folder gets K.emitted, the text that is run; K.c, its piece in a C program over tests/c/format3.h; and K.1.in, K.2.in and so on, the
inputs of its runs. What is to be known of a piece is taken from its own text. The buffer is one of plain `char` where a unit has one byte.
For each scanner a line `K NAME` is printed.
"""

import pathlib
import re
import sys

DATA = pathlib.Path(__file__).resolve().parent.parent.parent / "crates" / "cases" / "data" / "format3.txt"
BEGIN = "case a scanner of format 3 is run: "
PIECE = re.compile(r"/\*!begin:re2c .*?/\*!end:re2c\*/", re.DOTALL)
HEAD = re.compile(r"/\*!head:re2c 3 (custom )?(kept )?\w+ (\w+) \d+ \d+ (\d+)\*/\n/\*!names:re2c (\d) ")
UNITS = {1: "char", 2: "unsigned short", 4: "unsigned int"}
KEPT_UNITS = {1: "unsigned char", 2: "unsigned short", 4: "unsigned int"}


def read_text(text):
    """The bytes that a TEXT spells."""
    return re.sub(rb"%(..)", lambda found: bytes.fromhex(found[1].decode()), text.encode())


def read_case(text):
    """The emitted text of a case, and the inputs of its runs."""
    files = {"q.c": b"", "in.txt": b""}
    inputs = []
    order = ""
    for line in text.split("\n"):
        if line.startswith(("| ", "> ")) or line == "|":
            if order in files:
                files[order] += read_text(line[2:]) + (b"\n" if line.startswith("|") else b"")
        elif line.startswith("given "):
            order = line.removeprefix("given ")
            files[order] = b""
        else:
            order = ""
            if line.startswith("run ") and files["in.txt"] not in inputs:
                inputs.append(files["in.txt"])
    return files["q.c"], inputs


class Program:
    """A piece in a C program."""

    def __init__(self, piece):
        self.piece = piece
        head = HEAD.search(piece)
        self.is_kept = head[2] is not None
        self.counts = head[3] in ("plain", "count")
        self.is_whole = head[3] in ("plain", "eoffixed")
        self.stores = head[4] != "0"
        self.unit = int(head[5])
        self.conditions = re.findall(r"\tcase yyc(\w+): goto yyc_", piece)
        checks = re.findall(r"YYFILL\((\d+)\)", piece)
        self.padding = max(map(int, checks)) if checks else int(head[3] == "plain")

    def tags(self):
        """What prints the tags of each rule."""
        names = []
        told = {}
        for line in self.piece.split("\n"):
            tag = re.fullmatch(r"\t(?!yyt\d)(\w+) = yyt\d+;", line)
            rule = re.match(r"\t/\*!code:re2c (\d+) ", line)
            if tag:
                names.append(tag[1])
            elif rule and names:
                told[rule[1]] = names
                names = []
        return told

    def states(self):
        """The switch over stored states, where the user has it and not the piece."""
        if not self.is_kept or not self.stores or "switch (YYGETSTATE())" in self.piece:
            return
        yield "\tswitch (YYGETSTATE()) {"
        yield from self.state_cases()
        yield "\tdefault: goto %s;" % re.search(r"\n(yy\d+_(?:0|cond)):\n", self.piece)[1]
        yield "\t}"

    def state_cases(self):
        """A state goes on at its block, and at the next one where a refill is tried behind it."""
        label = ""
        tried = []
        lines = self.piece.split("\n")
        for line, behind in zip(lines, lines[1:]):
            if re.fullmatch(r"yy\d+_\d+:", line):
                label = line[:-1]
                yield from ("\tcase %s: goto %s;" % (state, label) for state in tried)
                tried = []
            state = re.fullmatch(r"\tYYSETSTATE\((\d+)\);", line)
            if state and "YYFILL()" in behind:
                tried.append(state[1])
            elif state:
                yield "\tcase %s: goto %s;" % (state[1], label)

    def refill(self):
        if self.stores:
            return "#define YYFILL(units) wait_for_units()" if self.counts else "#define YYFILL() wait_for_units()"
        if self.counts:
            return "#define YYFILL(units) do { if (fill_to(units)) return -1; } while (0)"
        return "#define YYFILL() fill()"

    def front(self, jumps):
        """What stands before the function."""
        tags = self.tags()
        registers = sorted(set(re.findall(r"yyt\d+", self.piece)))
        yield "#define YYCTYPE %s" % UNITS[self.unit]
        yield "#define COUNTS %d" % self.counts
        yield "#define WHOLE %d" % self.is_whole
        yield "#define REFILL 1"
        yield "#define PADDING %d" % self.padding
        yield "#define NAMES %s" % "".join('"%s", ' % name for name in self.conditions)
        yield "#define FIRST %s" % ("yyc" + self.conditions[0] if self.conditions else "0")
        yield "#define JUMPS %s" % "".join("{ %d, %s }, " % jump for jump in jumps)
        yield "#define REGISTERS(DO) %s" % " ".join("DO(%s)" % name for name in registers)
        yield "#define TELL(rule) %s" % " ".join(
            "if (rule == %s) { %s }" % (rule, " ".join("TAG(%s)" % name for name in names)) for rule, names in tags.items())
        if self.conditions:
            yield "enum { %s };" % ", ".join("yyc" + name for name in self.conditions)
        for name in sorted({name for names in tags.values() for name in names}):
            yield "static const YYCTYPE *%s;" % name
        yield "#define KEPT %d" % self.is_kept
        yield "#include <format3.h>"
        if self.is_kept:
            yield "static %s yych;" % KEPT_UNITS[self.unit]
        yield self.refill()

    def lines(self, jumps):
        yield from self.front(jumps)
        yield "static int match(void)\n{"
        yield from self.states()
        yield self.piece
        yield "\treturn 0;\n}"

    def text(self):
        return "\n".join(self.lines(jumps_of("\n".join(self.lines([]))))) + "\n"


def jumps_of(text):
    """The lines in which a condition is set before a jump, as C counts them, each with its rule."""
    jumps = []
    number = set_in = 0
    for line in text.split("\n"):
        number += 1
        if "YYSETCONDITION(yyc" in line:
            set_in = number
        jump = re.search(r"goto yyc_\w+; /\* (\d+) \*/", line)
        if jump:
            jumps.append((set_in, jump[1]))
        given = re.match(r"#line (\d+) ", line)
        if given:
            number = int(given[1]) - 1
    return jumps


def main():
    folder = pathlib.Path(sys.argv[1])
    cases = [case for case in re.split(r"\n(?=case )", DATA.read_text()) if case.startswith(BEGIN)]
    for number, case in enumerate(cases, 1):
        emitted, inputs = read_case(case)
        (folder / ("%d.emitted" % number)).write_bytes(emitted)
        (folder / ("%d.c" % number)).write_text(Program(PIECE.search(emitted.decode())[0]).text())
        for place, content in enumerate(inputs, 1):
            (folder / ("%d.%d.in" % (number, place))).write_bytes(content)
        print(number, case.split("\n")[0].removeprefix(BEGIN))


if __name__ == "__main__":
    sys.exit(main())
