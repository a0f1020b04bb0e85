#!/usr/bin/env python3
"""Looks what a debugger is told of outputs of format 3 that were made without -i: which line of which file each instruction has.

Some of the examples are compiled without optimization by each compiler, as C and as C++, and the table of lines is read from the object file by
readelf. Then
- each row that names the source, or a file that it includes, has a line of it that stands in the output, word for word;
- each row that names the output has that line of it, which is one of a piece, or stands before the first one, and none of an action;
- each line of a piece that reads a unit or moves the cursor has a row, and so has each line of an action that begins with a `return` of a value.

Usage: tests/c/line_table.py, from anywhere. RE2C names the program (bin/re2c where it is unset), and CC a compiler; where it is unset gcc,
clang, g++ and clang++ are tried, as far as they are there. The status is 0 where nothing differs, and where there is no readelf.
"""
import os
import pathlib
import re
import shutil
import subprocess
import sys
import tempfile

ROOT = pathlib.Path(__file__).resolve().parent.parent.parent
EXAMPLES = [
    ("quoted", []),
    ("two_scanners", []),
    ("ranges", []),
    ("dates", ["-T"]),
    ("utf_8", ["-8"]),
    ("strings_and_comments", ["-c"]),
    ("pushed", ["-f"]),
    ("numbers", []),
    ("own_prefixes", ["-c", "-T"]),
    ("two_at_once", ["-T"]),
]
LINE = re.compile(r'#line (\d+) "(.*)"')
CODE = re.compile(r"\t/\*!code:re2c \d+ \d+\*/(.*)")
ROW = re.compile(r"(\S+)\s+(\d+)\s+(?:0x)?[0-9a-f]+\b.*")
SURE = re.compile(r"\t(\w+ = \*.+|\+\+.+);")
OUTPUT = "out.c"


def run(words, folder):
    made = subprocess.run(words, cwd=folder, stdout=subprocess.PIPE, stderr=subprocess.PIPE)
    if made.returncode:
        raise SystemExit("%s: status %d: %s" % (" ".join(map(str, words)), made.returncode, made.stderr.decode("utf-8", "replace")))
    return made.stdout.decode()


class Output:
    """An output, and which line of which file a compiler takes each of its lines for."""

    def __init__(self, folder):
        self.folder = folder
        self.lines = (folder / OUTPUT).read_text().split("\n")
        self.taken = {}
        self.returns = set()
        self.sure = set()
        self.files = {}
        place = (OUTPUT, 1)
        for number, text in enumerate(self.lines, 1):
            given = LINE.fullmatch(text)
            if given:
                place = (given[2], int(given[1]))
                continue
            self.note(number, text, place)
            place = (place[0], place[1] + 1)

    def note(self, number, text, place):
        self.taken.setdefault(place, []).append(number)
        if place[0] != OUTPUT and re.match(r"\s*return [^;]", text) and self.is_inside(number):
            self.returns.add(place)
        if place[0] == OUTPUT and SURE.fullmatch(text):
            self.sure.add(place)

    def is_inside(self, number):
        """Whether a line stands in a piece."""
        before = "\n".join(self.lines[: number - 1])
        return before.count("/*!begin:re2c") > before.count("/*!end:re2c*/")

    def file_lines(self, name):
        if name not in self.files:
            self.files[name] = (self.folder / name).read_text().split("\n")
        return self.files[name]

    def wrong(self, name, line):
        """What is wrong with a row, or nothing."""
        numbers = self.taken.get((name, line))
        if not numbers:
            return "no line of the output is taken for it"
        if name == OUTPUT:
            return None if numbers == [line] else "the output has that line elsewhere"
        wanted = self.file_lines(name)[line - 1]
        for number in numbers:
            text = self.lines[number - 1]
            action = CODE.fullmatch(text)
            if text == wanted or (action and action[1] in wanted) or (text and wanted.startswith(text)):
                return None
        return "the output has %r there" % self.lines[numbers[0] - 1]


def rows(folder):
    """The rows of the table of lines: names of files, and lines in them."""
    for text in run(["readelf", "-W", "--debug-dump=decodedline", "out.o"], folder).split("\n"):
        row = ROW.fullmatch(text.rstrip())
        if row and int(row[2]) > 0:
            yield os.path.basename(row[1]), int(row[2])


def differences(folder):
    output = Output(folder)
    found = set(rows(folder))
    own = {name for name, _ in output.taken}
    for name, line in sorted(found):
        if name in own:
            wrong = output.wrong(name, line)
            if wrong:
                yield "%s:%d: %s" % (name, line, wrong)
    for name, line in sorted((output.returns | output.sure) - found):
        yield "%s:%d: no instruction has this line" % (name, line)
    if not output.sure:
        yield "no line of a piece is known"


def compilers():
    """The compilers that are tried; where there is none, that is told, and nothing goes on."""
    if os.environ.get("CC"):
        names = [os.environ["CC"]]
    else:
        names = [one for one in ("gcc", "clang", "g++", "clang++") if shutil.which(one)] or ["cc"]
    if not shutil.which(names[0]):
        sys.exit("line_table.py: there is no C compiler %s, so nothing is compiled; CC names another one" % names[0])
    return names


def main():
    if not shutil.which("readelf"):
        print("there is no readelf: nothing is compared")
        return 0
    program = os.path.abspath(os.environ.get("RE2C") or ROOT / "bin" / "re2c")
    failed = 0
    for name, options in EXAMPLES:
        with tempfile.TemporaryDirectory() as made:
            folder = pathlib.Path(made)
            for one in (ROOT / "examples").iterdir():
                if one.is_file():
                    shutil.copy(one, folder)
            run([program, "--x-format", "3", *options, "-o", OUTPUT, name + ".re"], folder)
            for compiler in compilers():
                language = "c++" if compiler.endswith("++") else "c"
                run([compiler, "-x", language, "-g", "-O0", "-w", "-c", OUTPUT, "-o", "out.o"], folder)
                told = list(differences(folder))
                for one in told:
                    print("%s by %s: %s" % (name, compiler, one))
                failed += len(told)
            print("%s: %d rows by the last compiler" % (name, len(set(rows(folder)))))
    print("%d examples by %s, %d differ" % (len(EXAMPLES), ", ".join(compilers()), failed))
    return 1 if failed else 0


if __name__ == "__main__":
    sys.exit(main())
