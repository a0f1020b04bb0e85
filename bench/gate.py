#!/usr/bin/env python3
"""Measures where the processor time of the gate goes: clones the last commit, runs `rt ci` there from nothing, and prints
its last line, the wall time, the processor minutes in all, and a table by crate: proofs, tests, programs (built from what was proved), and
must-fail edits with the proof that they begin with. A quiet machine is wanted: processes beside it lengthen each of its own,
and edits that another run tries are counted too.

Usage: bench/gate.py [FOLDER], where FOLDER is to have the clone and the log (none: a new folder below /tmp).
"""
import collections
import os
import re
import resource
import subprocess
import sys
import tempfile
import threading
import time

TICKS = os.sysconf("SC_CLK_TCK")
KINDS = ("proofs", "tests", "programs", "edits")


def kind_of(words, folder, clone):
    """Returns what a process of the prover works for, or None where it is none of this run's."""
    if folder.startswith("/tmp/rt-edit-"):
        return "edits"
    if not folder.startswith(clone):
        return None
    if "--test" in words:
        return "tests"
    return "programs" if "--crate-checked" in words else "proofs"


def look(process, clone, found):
    """Notes what a process has used so far."""
    with open(f"/proc/{process}/stat", encoding="utf-8", errors="replace") as it:
        fields = it.read().rpartition(")")[2].split()
    with open(f"/proc/{process}/cmdline", encoding="utf-8", errors="replace") as it:
        words = it.read().split("\0")
    name = re.search(r"--crate-name\0(\w+)", "\0".join(words))
    kind = kind_of(words, os.readlink(f"/proc/{process}/cwd"), clone)
    if name and kind:
        used = (int(fields[11]) + int(fields[12])) / TICKS
        found[process, fields[19]] = name[1], kind, used


def sample(clone, found, ended):
    """Notes what each process has used, twice a second."""
    while not ended.wait(0.5):
        for process in filter(str.isdigit, os.listdir("/proc")):
            try:
                look(process, clone, found)
            except (OSError, IndexError):
                continue


def gate_words():
    """The words of a gate from nothing: some kits keep what passed, and begin anew only where they are asked to."""
    told = subprocess.run(["rt", "help"], stdout=subprocess.PIPE, stderr=subprocess.STDOUT, text=True, check=False).stdout
    return ["rt", "ci", "--anew"] if "--anew" in told else ["rt", "ci"]


def table(found):
    """Prints the processor minutes by crate and kind."""
    sums = collections.defaultdict(lambda: dict.fromkeys(KINDS, 0.0))
    for name, kind, used in found.values():
        sums[name][kind] += used / 60
    print("| Crate | " + " | ".join(it.capitalize() for it in KINDS) + " |")
    print("|---" * (len(KINDS) + 1) + "|")
    for name, by in sorted(sums.items(), key=lambda it: -sum(it[1].values())):
        print(f"| `{name}` | " + " | ".join(f"{by[it]:.1f}" if by[it] else "" for it in KINDS) + " |")
    print("| all | " + " | ".join(f"{sum(by[it] for by in sums.values()):.1f}" for it in KINDS) + " |")


def main(words):
    root = subprocess.check_output(["git", "rev-parse", "--show-toplevel"], text=True, cwd=os.path.dirname(os.path.abspath(__file__))).strip()
    folder = os.path.abspath(words[1]) if len(words) > 1 else tempfile.mkdtemp(prefix="gate-")
    clone, found, ended = f"{folder}/clone", {}, threading.Event()
    os.makedirs(folder, exist_ok=True)
    subprocess.check_call(["git", "clone", "-q", root, clone])
    sampler = threading.Thread(target=sample, args=(clone, found, ended))
    sampler.start()
    begun = time.time()
    with open(f"{folder}/log", "w", encoding="utf-8") as log:
        status = subprocess.run(gate_words(), cwd=clone, stdout=log, stderr=subprocess.STDOUT).returncode
    wall, used = time.time() - begun, resource.getrusage(resource.RUSAGE_CHILDREN)
    ended.set()
    sampler.join()
    with open(f"{folder}/log", encoding="utf-8", errors="replace") as log:
        print(log.read().rstrip("\n").rpartition("\n")[2])
    print(f"{wall / 60:.1f} minutes on {os.cpu_count()} processors; {(used.ru_utime + used.ru_stime) / 60:.1f} processor minutes")
    table(found)
    return status


if __name__ == "__main__":
    sys.exit(main(sys.argv))
