#!/usr/bin/env python3
"""Compiles random scanners, as C in format 2 and as C and C++ in format 3, and compares what these programs print with the program's own runs of
the emitted text, line by line. The runs in both formats have to be the same too.

A scanner has up to three conditions, with and without a rule for any unit, whose rules jump to one another, and tags, histories, trailing
contexts, or groups under either order. It is made in one of the four modes, with refills of a few units, with stored states or without,
through pointers or by primitives, in one of the five encodings. Each runs over some inputs, among them the empty one.

Usage: tests/c/scanners.py [COUNT [SEED]], from anywhere; COUNT scanners (100 where it is left out), the first of them made from SEED (1).
RE2C names the program (bin/re2c where it is unset), and CC a compiler; where it is unset gcc and clang are both tried, and for format 3 g++ and
clang++, and cc where none is there. FORMATS names the formats, 2 and 3 where it is unset. One scanner in ten is compiled with the sanitizers of
addresses and of undefined behaviour, where the compiler has them. Outputs of format 3 are compiled with all warnings, also with lines of the
source in them.
The status is 0 where nothing differs. A scanner that differs stays in a folder, which is named.
"""
import os
import random
import re
import shutil
import subprocess
import sys
import tempfile

HERE = os.path.dirname(os.path.abspath(__file__))
OPTIONS = {
    2: ["-std=c99", "-Wall", "-Wextra", "-Werror", "-Wno-unused-label", "-Wno-unused-variable", "-Wno-unused-but-set-variable"],
    3: ["-Wall", "-Wextra", "-Werror", "-pedantic"],
}
STANDARDS = {False: ["c99", "c11"], True: ["c++11", "c++17"]}
SANITIZERS = ["-g", "-fsanitize=address,undefined", "-fno-sanitize-recover"]

# An encoding: its option, the bytes of a unit, its type in C, and how a text is written in it.
ENCODINGS = [
    ("", 1, "unsigned char", "latin-1"),
    ("-8", 1, "unsigned char", "utf-8"),
    ("-w", 2, "unsigned short", "utf-16-le"),
    ("-x", 2, "unsigned short", "utf-16-le"),
    ("-u", 4, "unsigned int", "utf-32-le"),
]
PLAIN, FIXED, ENDED, COUNTED = "plain", "fixed", "ended", "counted"
CONFIGURATIONS = {
    PLAIN: "re2c:yyfill:enable = 0;",
    FIXED: "re2c:yyfill:enable = 0; re2c:eof = 0;",
    ENDED: "re2c:eof = 0;",
    COUNTED: "",
}


class Rule:
    """A rule of a source: its conditions, its expression, where it goes, whether it has an action, and its tags in order."""

    def __init__(self, conditions, text, goes, acts, tags):
        self.conditions = conditions
        self.text = text
        self.goes = goes
        self.acts = acts
        self.tags = tags


class Scanner:
    """A random scanner."""

    def __init__(self, choose):
        self.choose = choose
        self.encoding = choose.choice(ENCODINGS) if choose.random() < 0.4 else ENCODINGS[0]
        self.mode = choose.choice([PLAIN, FIXED, ENDED, COUNTED])
        self.stores = self.mode in (ENDED, COUNTED) and choose.random() < 0.5
        self.custom = choose.random() < 0.2
        self.refill = choose.choice([1, 1, 2, 3, 7])
        self.sort = choose.choice(["none", "tags", "tags", "captures", "posix"])
        self.conditions = ["A", "B", "C"][: choose.choice([1, 2, 2, 3])] if choose.random() < 0.7 else []
        self.letters = ["a", "b", "c", "d"] + self.wide_letters()
        self.made_tags = 0
        self.rules = self.random_rules()

    def wide_letters(self):
        option = self.encoding[0]
        if not option:
            return []
        return ["\u00e9", "\u20ac"] + (["\U0001d11e"] if option != "-w" else [])

    # ---- expressions

    def spelled(self, letter):
        code = ord(letter)
        if code < 0x80:
            return letter
        return "\\u%04X" % code if code < 0x10000 else "\\U%08X" % code

    def literal(self):
        letters = [self.choose.choice(self.letters) for _ in range(self.choose.choice([1, 1, 2, 3]))]
        return '"%s"' % "".join(self.spelled(letter) for letter in letters)

    def letter_class(self):
        chosen = sorted(set(self.choose.choice(self.letters) for _ in range(3)))
        return "[%s]" % "".join(self.spelled(letter) for letter in chosen)

    def tag(self, tags, repeated):
        self.made_tags += 1
        history = repeated and self.choose.random() < 0.7
        name = "t%d" % self.made_tags
        tags.append((name, history))
        return ("#" if history else "@") + name

    def expression(self, depth, tags, repeated, tagged):
        kind = self.choose.random()
        if depth == 0 or kind < 0.3:
            return self.letter_class() if self.choose.random() < 0.3 else self.literal()
        if kind < 0.65:
            parts = []
            for _ in range(self.choose.choice([2, 2, 3])):
                if tagged and len(tags) < 4 and self.choose.random() < 0.4:
                    parts.append(self.tag(tags, repeated))
                parts.append("(%s)" % self.expression(depth - 1, tags, repeated, tagged))
            return " ".join(parts)
        if kind < 0.8:
            parts = [self.expression(depth - 1, tags, repeated, tagged) for _ in range(self.choose.choice([2, 2, 3]))]
            return "(%s)" % " | ".join(parts)
        sign = self.choose.choice(["*", "+", "?", "{2}", "{0,2}", "{1,3}"])
        return "(%s)%s" % (self.expression(depth - 1, tags, sign != "?", tagged), sign)

    # ---- rules

    def random_rules(self):
        rules = []
        for _ in range(self.choose.randint(1, 5)):
            tags = []
            text = self.expression(3, tags, False, self.sort == "tags")
            if self.sort in ("none", "tags") and self.choose.random() < 0.15:
                text = "%s / %s" % (text, self.expression(1, tags, False, self.sort == "tags"))
            rules.append(self.rule(text, tags))
        every = self.conditions or [None]
        for condition in every:
            if self.choose.random() < 0.5:
                rules.append(Rule([condition] if condition else [], "*", None, True, []))
        if self.mode in (FIXED, ENDED):
            rules.append(Rule(["*"] if self.conditions else [], "$", None, True, []))
        # each condition that is gone to has a rule
        for condition in self.conditions:
            if not any(condition in rule.conditions for rule in rules):
                rules.insert(0, Rule([condition], self.literal(), None, True, []))
        return rules

    def rule(self, text, tags):
        if not self.conditions:
            return Rule([], text, None, True, tags)
        conditions = [one for one in self.conditions if self.choose.random() < 0.5] or [self.choose.choice(self.conditions)]
        goes = self.choose.choice(self.conditions) if self.choose.random() < 0.6 else None
        return Rule(conditions, text, goes, goes is None or self.choose.random() < 0.4, tags)

    # ---- the source and its inputs

    def words(self):
        words = [self.encoding[0]] if self.encoding[0] else []
        words += ["-c"] if self.conditions else []
        words += ["-f"] if self.stores else []
        words += {"none": [], "tags": ["-T"], "captures": ["--captures"], "posix": ["-P"]}[self.sort]
        return words + (["--input", "custom"] if self.custom else [])

    def lines(self):
        for number, rule in enumerate(self.rules, 1):
            line = "<%s> " % ",".join(rule.conditions) if rule.conditions else ""
            line += rule.text
            if rule.goes:
                line += (" => " if rule.acts else " :=> ") + rule.goes
            yield line + (" { return %d; }" % number if rule.acts else "")

    def source(self, chosen):
        """The source for a format. For format 3 it declares no variable that the piece declares."""
        counts = self.mode in (PLAIN, COUNTED)
        yield "#define YYCTYPE %s" % self.encoding[2]
        yield "#define COUNTS %d" % counts
        yield "#define WHOLE %d" % (self.mode in (PLAIN, FIXED))
        yield "#define REFILL %d" % self.refill
        yield "#define NAMES %s" % "".join('"%s", ' % one for one in self.conditions)
        if self.conditions:
            yield "enum { %s };" % ", ".join("yyc%s" % one for one in self.conditions)
        tells = []
        for number, rule in enumerate(self.rules, 1):
            if rule.tags:
                printed = " ".join("%s(%s)" % ("HISTORY" if history else "TAG", name) for name, history in rule.tags)
                tells.append("if (rule == %d) { %s }" % (number, printed))
        yield "#define TELL(rule) %s" % " ".join(tells)
        yield "#include <lines.h>"
        for rule in self.rules:
            for name, history in rule.tags:
                yield "static int %s;" % name if history else "static const YYCTYPE *%s;" % name
        if chosen == 2:
            yield "#include <jumps.h>"
        else:
            yield "#define KEPT %d\n#include <format3.h>" % self.stores
            yield from ["static %s yych;" % self.encoding[2]] if self.stores else []
        if self.stores:
            yield "#define YYFILL(units) wait_for_units()" if counts else "#define YYFILL() wait_for_units()"
        elif counts:
            yield "#define YYFILL(units) do { if (fill_to(units)) return -1; } while (0)"
        else:
            yield "#define YYFILL() fill()"
        yield "static int match(void)\n{\n/*!re2c\n%s" % CONFIGURATIONS[self.mode]
        yield from self.lines()
        yield "*/\n\treturn 0;\n}"

    def known(self, emitted):
        """What the C program has to know of the emitted text."""
        padding = max((int(units) for units in re.findall(r"YYFILL\((\d+)\)", emitted)), default=0)
        jumps = []
        line = 0
        for number, text in enumerate(emitted.split("\n"), 1):
            if "YYSETCONDITION(yyc" in text:
                line = number
            jump = re.search(r"goto yyc_\w+; /\* (\d+) \*/", text)
            if jump:
                jumps.append("{ %d, %s }, " % (line, jump.group(1)))
        names = sorted(set(re.findall(r"yytm?\d+", emitted)))
        first = re.search(r"case (yyc\w+): goto", emitted)
        yield "#define FIRST %s" % (first.group(1) if first else "0")
        yield "#define PADDING %d" % (padding or (self.mode == PLAIN))
        yield "#define JUMPS %s" % "".join(jumps)
        yield "#define REGISTERS(DO)%s" % "".join(" DO(%s)" % name for name in names if not name.startswith("yytm"))
        for name in names:
            if name.startswith("yytm"):
                yield "static int %s;" % name

    def inputs(self):
        yield b""
        for _ in range(5):
            text = "".join(self.choose.choice(self.letters) for _ in range(self.choose.choice([1, 3, 6, 12, 25])))
            yield text.encode(self.encoding[3])
        # what is no text of the encoding
        size = self.encoding[1]
        units = [self.choose.choice([0x61, 0x62, 0x63, 0xC3, 0xE2, 0x82, 0xD8]) for _ in range(8)]
        yield b"".join(unit.to_bytes(size, "little") for unit in units)


def run(words, folder, wanted=(0,)):
    made = subprocess.run(words, cwd=folder, stdout=subprocess.PIPE, stderr=subprocess.PIPE, timeout=300)
    if made.returncode not in wanted:
        raise RuntimeError("%s: status %d: %s" % (" ".join(words), made.returncode, made.stderr.decode("utf-8", "replace")))
    return made


class Trial:
    """Runs scanners in a folder."""

    def __init__(self, program, compilers, folder):
        self.program = program
        self.compilers = compilers
        self.folder = folder
        self.refused = 0
        self.lines = 0
        self.sanitized = [one for one in compilers if self.has_sanitizers(one)]
        for name in ("jumps.h", "custom.h", "format3.h"):
            shutil.copy(os.path.join(HERE, name), folder)

    def has_sanitizers(self, compiler):
        self.write("empty.c", b"int main(void) { return 0; }\n")
        try:
            run([compiler] + SANITIZERS + ["empty.c", "-o", "empty"], self.folder)
            run(["./empty"], self.folder)
        except (RuntimeError, OSError):
            return False
        return True

    def write(self, name, content):
        with open(os.path.join(self.folder, name), "wb") as file:
            file.write(content)

    def one(self, scanner, sanitize):
        """What differs, or nothing."""
        contents = list(scanner.inputs())
        told = []
        for chosen in formats():
            self.write("s.re", ("\n".join(scanner.source(chosen)) + "\n").encode())
            words = [self.program, "--x-format", str(chosen)] + scanner.words() + ["-o", "s.c", "s.re"]
            made = run(words[:1] + ["-i"] + words[1:], self.folder, (0, 1))
            if made.returncode == 1:
                # an empty rule of a context, say, is refused by its name
                self.refused += not told
                # the lines before the block are not as many in each format
                told.append(made.stderr.split(b" ", 1)[1])
                continue
            with open(os.path.join(self.folder, "s.c"), encoding="utf-8") as file:
                self.write("lines.h", ("\n".join(scanner.known(file.read())) + "\n").encode())
            programs = self.compile(chosen, sanitize)
            wanted = [self.wanted(content) for content in contents]
            for content, lines in zip(contents, wanted):
                self.write("s.in", content)
                for name in programs:
                    found = run(["./" + name, "s.in"], self.folder).stdout
                    if found != lines:
                        return "in format %d by %s over %r:\n%s-- and not\n%s" % (chosen, name, content, found.decode(), lines.decode())
            told.append(wanted)
            if chosen == 3:
                run(words, self.folder)
                self.compile(chosen, False)
        return None if all(one == told[0] for one in told) else "the runs, or the faults, differ by their format"

    def wanted(self, content):
        """The program's own run."""
        self.write("s.in", content)
        lines = run([self.program, "--x-run", "s.in", "s.c"], self.folder).stdout
        self.lines += lines.count(b"\n")
        return lines

    def compile(self, chosen, sanitize):
        """Makes programs of an output, and returns their names: in format 2 as C99, and in format 3 by each standard."""
        made = []
        for compiler in self.compilers:
            plus = compiler.endswith("++")
            if chosen == 2 and plus:
                continue
            more = SANITIZERS if sanitize and compiler in self.sanitized else []
            for standard in STANDARDS[plus] if chosen == 3 else [None]:
                name = "s.%s" % os.path.basename(compiler) + (".%s" % standard if standard else "")
                language = ["-x", "c++" if plus else "c", "-std=" + standard] if standard else []
                run([compiler] + language + OPTIONS[chosen] + ["-isystem", "."] + more + ["s.c", "-o", name], self.folder)
                made.append(name)
                more = []
        return made


def formats():
    return [int(one) for one in os.environ.get("FORMATS", "2 3").split()]


def compilers():
    """The compilers that are tried; where there is none, that is told, and nothing goes on."""
    if os.environ.get("CC"):
        names = [os.environ["CC"]]
    else:
        names = [one for one in ("gcc", "clang", "g++", "clang++") if shutil.which(one)] or ["cc"]
    if not shutil.which(names[0]):
        sys.exit("scanners.py: there is no C compiler %s, so nothing is compiled; CC names another one" % names[0])
    return names


def main():
    count = int(sys.argv[1]) if len(sys.argv) > 1 else 100
    seed = int(sys.argv[2]) if len(sys.argv) > 2 else 1
    program = os.environ.get("RE2C") or os.path.join(HERE, "..", "..", "bin", "re2c")
    folder = tempfile.mkdtemp()
    trial = Trial(os.path.abspath(program), compilers(), folder)
    for number in range(seed, seed + count):
        scanner = Scanner(random.Random(number))
        try:
            differs = trial.one(scanner, number % 10 == 0)
        except (RuntimeError, subprocess.TimeoutExpired) as error:
            differs = str(error)
        if differs:
            print("scanners.py: scanner %d differs (in %s): %s" % (number, folder, differs))
            return 1
    shutil.rmtree(folder)
    print("%d scanners, %d of them refused, %d lines by %s, none differs"
          % (count, trial.refused, trial.lines, " and ".join(trial.compilers)))
    return 0


if __name__ == "__main__":
    sys.exit(main())
