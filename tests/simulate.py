#!/usr/bin/env python3
"""Runs a scanner of an emitted file over an input, and prints the lines that `re2c --x-run` is to print.

It was written from docs/OUTPUT.md and docs/COMMAND.md and shares nothing with the program; tests/simulate_random.py compares the two.
tests/emitted.py reads the text leniently, checks it by the rules of a valid piece, and prints it again: it is emitted text only where the
same bytes come out.

Usage: tests/simulate.py [--x-block N] [--x-window N] [--x-piece N] INPUT EMITTED
"""
import sys

sys.dont_write_bytecode = True

import emitted


class Stuck(Exception):
    """No step is possible."""


class Ended(Exception):
    """A check for more units than there are."""


class Left(Exception):
    """The scanner is left at a refill, and comes back at a block."""


class WindowFull(Exception):
    """A refill is asked for which the window has no room."""


class Machine:
    """A scanner over a stream, of which a window shows a part: its run is made match by match."""

    def __init__(self, piece, units, window, step):
        self.piece = piece
        self.mode = piece.mode_of_run()
        self.stream = units + [0] * self.padding()
        self.asks = self.mode in ("count", "eof")
        self.window = window
        self.step = step
        self.input_end = len(units)
        self.limit = 0 if self.asks else len(self.stream)
        self.answered = False
        self.cond = piece.conds[0][0] if piece.conds else None
        self.cursor = 0
        # ends of groups stay from match to match
        self.ends = {}
        self.statements = sum(len(code) for code in piece.blocks)

    def padding(self):
        if self.mode == "count":
            return max((one[1] for code in self.piece.blocks for one in code if one[0] == "need"), default=0)
        return 1 if self.mode == "plain" else 0

    def begin(self):
        self.start = self.marker = self.cursor
        self.unit = None
        self.accept = 0
        self.registers = {}
        self.histories = {}
        self.state = None
        self.tags = {}
        self.groups = None
        self.goes = None

    def refill(self, kept, needed):
        """Asks for a refill: whether it added units. A scanner that stores states is left before it, and comes back behind it."""
        if kept + needed > self.window:
            raise WindowFull("window full: %d kept, %d needed, %d in all" % (kept, needed, self.window))
        leaves = self.piece.stores() and not self.answered
        more = min(self.step, self.window - (self.limit - self.start), len(self.stream) - self.limit)
        self.limit += more
        self.answered = self.answered or more == 0
        if leaves:
            self.unit = None
            raise Left(self.piece.places[self.state])
        return more > 0

    def block_of_cond(self):
        if not self.piece.conds:
            return 0
        return dict(self.piece.conds)[self.cond]

    def match(self):
        """Makes a match: how it ended, and the number of its rule."""
        self.begin()
        code, at, steps = self.piece.blocks[self.block_of_cond()], 0, 0
        while True:
            if steps >= 2 * (self.limit - self.start + 2) * self.statements:
                return "loop", None
            steps += 1
            statement = code[at]
            kind = statement[0]
            if kind in ("code", "jump"):
                return ("rule" if kind == "code" else "jump"), statement[1]
            if kind == "leave":
                return "none", None
            try:
                target = getattr(self, "do_" + kind)(*statement[1:])
            except Stuck:
                return "stuck", None
            except Ended:
                return "end", None
            except Left as back:
                target, steps = back.args[0], steps - 1
            if target is None:
                at += 1
            else:
                code, at = self.piece.blocks[target], 0

    # ---- the statements; each gives the block where it goes, or None where the next one follows

    def do_peek(self):
        if self.cursor < self.limit:
            self.unit = self.stream[self.cursor]
        elif self.piece.eof is None:
            raise Stuck
        else:
            self.unit = self.piece.eof

    def do_skip(self):
        if self.cursor >= self.limit:
            raise Stuck
        self.cursor += 1

    def do_backup(self):
        self.marker = self.cursor

    def do_restore(self):
        self.cursor = self.marker

    def do_accept(self, number):
        self.accept = number

    def do_set(self, register):
        self.registers[register] = self.cursor

    def do_unset(self, register):
        self.registers[register] = None

    def do_copy(self, target, source):
        self.registers[target] = self.registers.get(source)

    def do_mset(self, history):
        self.append(history, self.cursor)

    def do_munset(self, history):
        self.append(history, None)

    def append(self, history, event):
        if history == 0:
            raise Stuck
        self.histories[history] = self.histories.get(history, []) + [event]

    def do_mcopy(self, target, source):
        if target == 0:
            raise Stuck
        self.histories[target] = self.histories.get(source, [])

    def read_unit(self):
        if self.unit is None:
            raise Stuck
        return self.unit

    def do_ifunit(self, most, block):
        return block if self.read_unit() <= most else None

    def do_ifis(self, unit, block):
        return block if self.read_unit() == unit else None

    def do_ifset(self, number, block):
        unit = self.read_unit()
        at = 256 * (number // 8) + unit
        return block if unit <= 0xFF and self.piece.table[at] >> number % 8 & 1 else None

    def do_switch(self, cases, default):
        unit = self.read_unit()
        return next((block for units, block in cases if unit in units), default)

    def do_ifaccept(self, number, block):
        return block if self.accept == number else None

    def do_ifend(self, block):
        return block if self.cursor >= self.limit else None

    def do_state(self, number):
        self.state = number

    def do_need(self, count):
        while self.limit - self.cursor < count:
            if not self.refill(self.cursor - self.start, count):
                raise Ended

    def do_try(self, block):
        return block if self.refill(self.limit - self.start, 1) else None

    def do_cond(self, name):
        self.cond = self.goes = name

    def do_tag(self, name, register):
        self.tags[False, name] = self.registers.get(register)

    def do_mtag(self, name, history):
        self.tags[True, name] = self.histories.get(history, [])

    def do_count(self, count):
        self.groups = count

    def do_end(self, number, register):
        self.ends[number] = self.registers.get(register)

    def do_back(self, register):
        offset = self.registers.get(register)
        if offset is None:
            raise Stuck
        self.cursor = offset

    def do_goto(self, block):
        return block

    # ---- the lines of a run

    def values(self):
        told = lambda offset: "-" if offset is None else str(offset)
        text = ""
        for (is_history, name), value in self.tags.items():
            text += " %s=" % name + ("[" + ",".join(map(told, value)) + "]" if is_history else told(value))
        for group in range(self.groups or 0):
            text += " (%s,%s)" % (told(self.ends.get(2 * group)), told(self.ends.get(2 * group + 1)))
        return text + (" => " + self.goes if self.goes is not None else "")

    def lines(self):
        """The lines of the run, one by one."""
        while True:
            start = self.cursor
            if self.mode in ("plain", "count") and start >= self.input_end:
                yield "end %d %d" % (start, start)
                return
            outcome, rule = self.match()
            if rule is None:
                yield "%s %d %d" % (outcome, start, self.cursor)
                return
            yield "%s %d %d %d" % (outcome, rule, start, self.cursor) + self.values()
            if self.cursor == start:
                yield "stop %d" % start
                return


def units_of(data, size):
    return [int.from_bytes(data[at:at + size], "little") for at in range(0, len(data), size)]


def run(text, data, names=("EMITTED", "INPUT"), block=None, window=4096, step=4096):
    """The status of a run, what it puts to the standard output, and what to the standard error."""
    try:
        piece = emitted.piece_of(text, block)
    except emitted.NotEmitted as place:
        return 1, "", "%s:%s: error: not emitted text\n" % (names[0], place)
    if len(data) % piece.unit:
        return 1, "", "%s:1:1: error: input is no whole number of units\n" % names[1]
    lines = []
    try:
        for line in Machine(piece, units_of(data, piece.unit), window, step).lines():
            lines.append(line + "\n")
    except WindowFull as full:
        return 1, "".join(lines), "%s:1:1: error: %s\n" % (names[1], full)
    return 0, "".join(lines), ""


def main():
    words, options = sys.argv[1:], {"--x-block": None, "--x-window": 4096, "--x-piece": 4096}
    while len(words) > 2 and words[0] in options:
        options[words[0]] = int(words[1])
        words = words[2:]
    if len(words) != 2:
        sys.exit(__doc__)
    with open(words[1], "rb") as one, open(words[0], "rb") as other:
        status, out, err = run(one.read(), other.read(), (words[1], words[0]), *options.values())
    sys.stdout.buffer.write(out.encode("latin-1"))
    sys.stderr.buffer.write(err.encode("latin-1"))
    return status


if __name__ == "__main__":
    sys.exit(main())
