#!/usr/bin/env python3
"""Compares the runs that the cases of crates/cases/data want with those of tests/simulate.py. It needs no program.

A run of a case counts where the emitted text stands in the case, and nothing fails in it on purpose: then the status, the lines and the
message are to be the same. The format of cases is that of crates/cases/README.md.

Usage: tests/simulate_cases.py, from anywhere. The status is 1 where some run differs.
"""
import pathlib
import re
import sys

sys.dont_write_bytecode = True

import simulate

DATA = pathlib.Path(__file__).resolve().parent.parent / "crates" / "cases" / "data"
OPTIONS = {"--x-block": None, "--x-window": 4096, "--x-piece": 4096}


def spelled(text):
    """The bytes that a TEXT spells."""
    return re.sub(rb"%(..)", lambda found: bytes.fromhex(found[1].decode()), text.encode())


def content(line):
    """What a line of content adds, or nothing where it is an order."""
    if line == "|" or line.startswith("| "):
        return spelled(line[2:]) + b"\n"
    if line.startswith("> "):
        return spelled(line[2:])
    found = re.fullmatch(r"\* (\d+) (.*)", line)
    return spelled(found[2]) * int(found[1]) if found else None


class Case:
    """A case: its files as they stand, and its runs so far."""

    def __init__(self, text):
        self.files, self.runs, self.altered, self.fails = {}, [], [], False
        self.into, self.key = None, None
        lines = [line for line in text.split("\n") if line and not line.startswith("#")]
        self.name = lines[0]
        for line in lines[1:]:
            added = content(line)
            if added is None:
                self.order(*line.split(" "))
            elif self.into is not None:
                self.into[self.key] += added

    def order(self, word, *of):
        self.into = None
        if word == "given" or (word == "file" and of[1:] == ()):
            self.into, self.key = self.files, of[0]
            self.files[of[0]] = b""
        elif word == "file":
            self.files.pop(of[0], None)
        elif word in ("cut", "set"):
            self.altered.append((word,) + of)
        elif word == "fail":
            self.fails = True
        elif word == "run":
            words = [spelled(one).decode("latin-1") for one in of]
            self.runs.append({"words": words, "files": self.seen(), "status": 0, "out": b"", "err": b"", "counts": not self.fails})
            self.altered, self.fails = [], False
        elif word == "status":
            self.runs[-1]["status"] = int(of[0])
        elif of:
            self.runs[-1]["counts"] = False
        else:
            self.into, self.key = self.runs[-1], word

    def seen(self):
        """The files, as the orders before the run alter them."""
        files = dict(self.files)
        for word, name, place, *byte in self.altered:
            data, at = files.get(name, b""), int(place)
            files[name] = data[:at] if word == "cut" else data[:at] + bytes.fromhex(byte[0]) + data[at + 1:]
        return files


def asked(words):
    """The emitted file and the input of a run, and its options; nothing where the words ask for no run."""
    options, names, words = dict(OPTIONS), [], list(words)
    if "--x-run" not in words[:-1]:
        return None
    given = words.pop(words.index("--x-run") + 1)
    while words:
        word = words.pop(0)
        if word in OPTIONS:
            if not words or not words[0].isdigit():
                return None
            options[word] = int(words.pop(0))
        elif word != "--x-run":
            names.append(word)
    return (names[0], given, options) if len(names) == 1 else None


def compare(case, run):
    """Whether a run counts, and whether it is the one that is wanted."""
    words = asked(run["words"])
    if not run["counts"] or run["status"] > 1 or words is None:
        return False, True
    name, given, options = words
    if name not in run["files"] or given not in run["files"]:
        return False, True
    found = simulate.run(run["files"][name], run["files"][given], (name, given), *options.values())
    wanted = run["status"], run["out"].decode("latin-1"), run["err"].decode("latin-1")
    if found != wanted:
        print("%s: %s\n  wanted: %r\n  found:  %r" % (case.name, " ".join(run["words"]), wanted, found))
    return True, found == wanted


def main():
    runs, different = 0, 0
    for path in sorted(DATA.glob("*.txt")):
        for text in re.split(r"(?m)^(?=case )", path.read_text())[1:]:
            case = Case(text)
            for run in case.runs:
                counts, same = compare(case, run)
                runs, different = runs + counts, different + (not same)
    print("%d runs, %d differ" % (runs, different))
    return 1 if different or not runs else 0


if __name__ == "__main__":
    sys.exit(main())
