#!/usr/bin/env python3
"""Writes runs of altered emitted texts behind the texts that they are made from, or runs altered outputs of the examples.

Usage: tests/altered.py, or tests/altered.py examples [COUNT], from anywhere.

Without words it writes: each case of crates/cases/data/altered.txt has an emitted text, as the last content of q.c, and a run of its
scanner. What stands in a case behind the line that this script writes is made anew: runs of the fronts of the text, and of the text with a
byte set to 00. A front that ends before the piece does is refused, and so is a piece with a byte 00 outside its actions; all others run as
the text does. The format is that of crates/cases/README.md.

With `examples` it writes nothing, and runs the first scanner of each output of examples/ in format 3 over a small input: the output as it
is, cut at COUNT places of the scanner's piece (25 where it is left out), and with a byte 00 at COUNT places. The same is wanted of these
runs. RE2C names the program (where it is unset, bin/re2c builds it). The status is 1 where some run is another one.
"""

import os
import pathlib
import re
import subprocess
import sys
import tempfile

sys.dont_write_bytecode = True

import fuzz

DATA = pathlib.Path(__file__).resolve().parent.parent / "crates" / "cases" / "data" / "altered.txt"
MARK = "# Made by tests/altered.py, to the end of the case.\n"
BEGIN = b"/*!begin:re2c 1*/"
END = b"/*!end:re2c*/"
ACTION = re.compile(rb"/\*!code:re2c [0-9]+ ([0-9]+)\*/")
REFUSED = "status 1\nerr\n| q.c:1:1: error: not emitted text\n"

# How far the places of a text that are cut or altered stand apart: all places of small texts, and some of the others.
STEPS = {
    "if and ifx": 1,
    "if and ifx, without a head": 13,
    "stored states in few bytes": 1,
    "stored states": 97,
    "stored states, without a head": 97,
    "words, of format 3": 61,
    "conditions and stored states, of format 3": 29,
    "if and ifx, emitted in format 3": 11,
}


def read_text(text):
    """The bytes that a TEXT spells."""
    return re.sub(rb"%(..)", lambda found: bytes.fromhex(found[1].decode()), text.encode())


class Sample:
    """An emitted text, and a run of it."""

    def __init__(self, made_from):
        self.made_from = made_from
        lines = made_from.split("\n")
        self.name = lines[0].removeprefix("case ")
        self.text = b""
        self.left = ""
        self.words = ""
        self.read(lines[1:])
        self.end = self.text.index(END) + len(END)
        self.actions = [range(found.end(), found.end() + int(found[1])) for found in ACTION.finditer(self.text)]
        assert self.text.startswith(BEGIN) and self.actions, self.name

    def read(self, lines):
        order = ""
        for line in lines:
            if line == "|" or line.startswith(("| ", "> ")):
                self.take(order, line)
            else:
                order = line
                self.begin(order)

    def begin(self, order):
        if order in ("given q.c", "file q.c"):
            self.text = b""
        elif order.startswith("run "):
            self.words = order

    def take(self, order, line):
        if order in ("given q.c", "file q.c"):
            self.text += read_text(line[2:]) + (b"\n" if line.startswith("|") else b"")
        elif order == "out":
            self.left += line + "\n"

    def fronts(self):
        """The runs of fronts of the text."""
        places = set(range(0, len(self.text), STEPS[self.name])) | {self.end - 1, self.end}
        return [self.run(f"cut q.c {place}", place < self.end) for place in sorted(places) if place < len(self.text)]

    def zeroed(self):
        """The runs of the text with a byte 00."""
        return [self.run(f"set q.c {place} 00", not self.is_inert(place)) for place in range(0, len(self.text), STEPS[self.name])]

    def is_inert(self, place):
        """Whether the byte says nothing to a run."""
        return place >= self.end or any(place in action for action in self.actions)

    def run(self, order, refused):
        """A run of the text as an order alters it."""
        return f"{order}\n{self.words}\n" + (REFUSED if refused else "out\n" + self.left)

    def case(self):
        return f"{self.made_from}\n{MARK}" + "".join(self.fronts() + self.zeroed())


SCANNER = re.compile(rb"/\*!begin:re2c [0-9]+\*/\n/\*!head:re2c 3 ")


class Example:
    """The output of an example in format 3, and the runs of its first scanner."""

    def __init__(self, program, folder, text):
        self.program, self.folder, self.name = program, folder, text.name
        (folder / "q.re").write_bytes(text.data)
        self.text = b""
        try:
            made = self.call("-i", *text.options, "--x-format", "3", "-o", "q.c", "q.re")
            if made.returncode == 0:
                self.text = (folder / "q.c").read_bytes()
        except subprocess.TimeoutExpired:
            print("%s takes long, and is left out" % text.name, flush=True)
        self.mark = SCANNER.search(self.text)

    def call(self, *words):
        return subprocess.run([self.program, *words], cwd=self.folder, capture_output=True, timeout=120)

    def run(self, text):
        """The status of a run of a text, and what it puts."""
        (self.folder / "q.c").write_bytes(text)
        done = self.call("--x-run", "in.txt", "q.c")
        return done.returncode, done.stdout, done.stderr

    def different(self, count):
        """How many runs there are, and the altered texts that run otherwise than is wanted."""
        text, begin, first = self.text, self.mark.start(), self.mark.end()
        end = text.index(END, first) + len(END)
        actions = [range(found.end(), found.end() + int(found[1])) for found in ACTION.finditer(text, first, end)]
        lines = text[:begin].split(b"\n")
        refused = 1, b"", b"q.c:%d:%d: error: not emitted text\n" % (len(lines), len(lines[-1]) + 1)
        whole = self.run(text)
        step = max(1, (end - first) // count)
        told = [] if whole[0] == 0 else ["as it is"]
        for place in range(first, end, step):
            if self.run(text[:place]) != refused:
                told.append("cut at %d" % place)
            is_inert = any(place in action for action in actions)
            if self.run(text[:place] + b"\0" + text[place + 1:]) != (whole if is_inert else refused):
                told.append("00 at %d" % place)
        return 1 + 2 * len(range(first, end, step)), told


def run_examples(count):
    """Runs the altered outputs of all examples."""
    program = os.path.abspath(os.environ.get("RE2C") or DATA.parents[3] / "bin" / "re2c")
    runs, texts, different = 0, 0, 0
    with tempfile.TemporaryDirectory() as made:
        folder = pathlib.Path(made)
        for given in (DATA.parents[3] / "examples").iterdir():
            if given.is_file():
                (folder / given.name).write_bytes(given.read_bytes())
        (folder / "in.txt").write_bytes(b"ab 12.5 \"x\"\n\0\0\0\0")
        # (an example stands there a second time by its blocks alone)
        for text in {text.name: text for text in reversed(fuzz.examples().texts)}.values():
            example = Example(program, folder, text)
            if example.mark:
                more, told = example.different(count)
                runs, texts, different = runs + more, texts + 1, different + len(told)
                for one in told:
                    print("%s: another run, %s" % (example.name, one), flush=True)
    print("%d runs of %d outputs, %d differ" % (runs, texts, different))
    return 1 if different or not texts else 0


def main():
    if sys.argv[1:2] == ["examples"]:
        return run_examples(int(sys.argv[2]) if len(sys.argv) > 2 else 25)
    head, *cases = re.split(r"\n(?=case )", DATA.read_text())
    samples = [Sample(case.partition(MARK)[0].strip()) for case in cases]
    assert [sample.name for sample in samples] == list(STEPS), "the cases of the texts are those of STEPS"
    DATA.write_text("\n".join([head] + [sample.case() for sample in samples]))
    return 0


if __name__ == "__main__":
    sys.exit(main())
