#!/usr/bin/env python3
"""Compares the runs of the program with those of tests/simulate.py, which was written from docs/OUTPUT.md and docs/COMMAND.md alone.

The texts are the outputs of random sources (tests/c/scanners.py) and of the examples, in formats 1, 2 and 3, where format 1 is format 2
without its head line. Each runs over some inputs, through windows and by refills of random sizes, as it is and altered: cut, with a byte of
zero, and with the changes of tests/fuzz.py. Both have to end with one status, the same lines, and the same message.

Usage: tests/simulate_random.py [COUNT [SEED]], from anywhere: COUNT runs (5000 where it is left out), by texts that are made from SEED (1).
RE2C names the program (where it is unset, bin/re2c builds it). The status is 1 where some run differs; its files stay in a folder, which is
named.
"""
import collections
import os
import random
import shutil
import subprocess
import sys
import tempfile

sys.dont_write_bytecode = True
HERE = os.path.dirname(os.path.abspath(__file__))
sys.path.insert(0, os.path.join(HERE, "c"))

import fuzz
import scanners
import simulate

WINDOWS = [1, 2, 3, 4, 5, 6, 7, 8, 10, 13, 32, 4096]
STEPS = [1, 1, 2, 3, 4, 5, 6, 4096]
# of a text: how often it runs as it is, and how often altered
WHOLE, ALTERED = 6, 6
# how long a compilation or a run may take
SECONDS = 120
# how many runs that differ end the script
MOST = 20


class Trial:
    """Makes texts, runs them by both, and counts."""

    def __init__(self, program, folder, seed):
        self.program, self.folder, self.rng = program, folder, random.Random(seed)
        self.examples = fuzz.examples()
        self.pool = fuzz.Pool(fuzz.EMITTED_TOKENS, fuzz.STATEMENTS)
        self.counts, self.different = collections.Counter(), 0
        for path in os.listdir(os.path.join(HERE, "..", "examples")):
            path = os.path.join(HERE, "..", "examples", path)
            if os.path.isfile(path):
                shutil.copy(path, folder)

    def write(self, name, data):
        with open(os.path.join(self.folder, name), "wb") as given:
            given.write(data)

    def call(self, words):
        return subprocess.run([self.program] + words, cwd=self.folder, capture_output=True, timeout=SECONDS)

    # ---- texts

    def source(self):
        """A source, its options, and what its inputs are made from."""
        if self.rng.random() < 0.25:
            text = self.examples.choose(self.rng)
            return text.data, list(text.options), [text.data[:40], b"ab 12\n", b""]
        scanner = scanners.Scanner(random.Random(self.rng.random()))
        return "\n".join(scanner.source(2)).encode(), scanner.words(), list(scanner.inputs())

    def texts(self):
        """Outputs of a source, each with its format, and the inputs; none where it is refused."""
        data, options, inputs = self.source()
        self.write("s.re", data)
        lines = ["-i"] if self.rng.random() < 0.5 else []
        made = []
        for form in (2, 3):
            done = self.call(lines + options + ["--x-format", str(form), "-o", "s.c", "s.re"])
            if done.returncode == 0:
                with open(os.path.join(self.folder, "s.c"), "rb") as given:
                    made.append((form, given.read()))
        if made and self.rng.random() < 0.5:
            made.append((1, b"".join(line for line in made[0][1].splitlines(True) if not line.startswith(b"/*!head:re2c "))))
        return made, inputs

    def altered(self, text):
        """A text that is cut, has a byte of zero, or is changed otherwise."""
        way, place = self.rng.random(), self.rng.randrange(len(text) + 1)
        if way < 0.1:
            return text[:place]
        if way < 0.2:
            return text[:place] + b"\0" + text[place + 1:]
        if way < 0.6:
            change = self.rng.choice(fuzz.FINE)
            return change(self.rng, text, self.pool)
        return fuzz.changed(self.rng, text, self.pool, "emitted")

    # ---- runs

    def run(self, form, kind, text, data):
        """Runs a text over an input by both."""
        window, step = self.rng.choice(WINDOWS), self.rng.choice(STEPS)
        block = self.rng.choice([1, 2, 3]) if self.rng.random() < 0.1 else None
        self.write("t.c", text)
        self.write("t.in", data)
        words = ["--x-run", "t.in", "--x-window", str(window), "--x-piece", str(step)] + (["--x-block", str(block)] if block else [])
        done = self.call(words + ["t.c"])
        found = (done.returncode, done.stdout.decode("latin-1"), done.stderr.decode("latin-1"))
        wanted = simulate.run(text, data, ("t.c", "t.in"), block, window, step)
        self.count(form, kind, found)
        if found != wanted:
            self.keep("%s t.c\n  the program: %r\n  the page:    %r\n" % (" ".join(words), found, wanted))

    def keep(self, told):
        """Keeps the files of a run that differs."""
        self.different += 1
        folder = os.path.join(self.folder, "different%d" % self.different)
        os.mkdir(folder)
        for name in ("s.re", "t.c", "t.in"):
            shutil.copy(os.path.join(self.folder, name), folder)
        print("in %s: %s" % (folder, told), end="", flush=True)

    def count(self, form, kind, found):
        self.counts["runs"] += 1
        self.counts["of format %d" % form] += 1
        is_refused = "not emitted" in found[2]
        self.counts["of texts as they are" if kind == "whole" else "refused" if is_refused else "of altered texts"] += 1
        if "window full" in found[2]:
            self.counts["to a full window"] += 1
        elif not is_refused and found[1]:
            self.counts["to " + found[1].splitlines()[-1].split(" ")[0]] += 1

    def round(self):
        """Runs the outputs of a source."""
        try:
            made, inputs = self.texts()
        except subprocess.TimeoutExpired:
            self.counts["sources left out, since they take long"] += 1
            return
        self.counts["sources"] += 1
        for form, text in made:
            for kind, times in (("whole", WHOLE), ("altered", ALTERED)):
                for _ in range(times):
                    given = text if kind == "whole" else self.altered(text)
                    self.run(form, kind, given, self.rng.choice(inputs))


def main():
    count = int(sys.argv[1]) if len(sys.argv) > 1 else 5000
    seed = int(sys.argv[2]) if len(sys.argv) > 2 else 1
    program = os.environ.get("RE2C") or os.path.join(HERE, "..", "bin", "re2c")
    folder = tempfile.mkdtemp()
    trial = Trial(os.path.abspath(program), folder, seed)
    while trial.counts["runs"] < count and trial.different < MOST:
        trial.round()
    if not trial.different:
        shutil.rmtree(folder)
    print(", ".join("%d %s" % (number, name) for name, number in trial.counts.items()) + ": %d differ" % trial.different)
    return 1 if trial.different else 0


if __name__ == "__main__":
    sys.exit(main())
