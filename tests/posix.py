#!/usr/bin/env python3
"""Works out matches by the POSIX order from the definitions alone, as docs/DEFINITIONS.md gives them.

tests/posix.py                     works out each case of crates/cases/data/posix.txt, and compares what stands there
tests/posix.py PROGRAM COUNT SEED  does so, and then compares random sources under -P, of which PROGRAM compiles COUNT and runs each over
                                   random words; status 1 at the first difference, which is told whole

All plain trees of a word are listed, each with the lengths of all its positions, and are compared two by two: no way through a rule is
dropped before its end. A source for which that is too much is passed by, and counted.
"""

import argparse
import pathlib
import random
import re
import subprocess
import sys
import tempfile
from collections import namedtuple

sys.dont_write_bytecode = True

from cover import DONE, Found, Front, Walker, at_offset, cover, hexadecimal, lists_after, match_line  # noqa: E402
from cover_sources import BOUNDS, SIGNS, Cat, Enclosed, Maker, Or, Repeat, Rule, Source, Tag, Text, letters, other  # noqa: E402

ROWS = pathlib.Path(__file__).resolve().parent.parent / "crates/cases/data/posix.txt"
MOST_FRONTS = 1500
TEXTS = ["a", "b", "ab", "ba", "aa", "aba", "bab", ""]
COUNTS = [1, 2, 3, 4, 4, 5, 5, 6, 6, 6]

Step = namedtuple("Step", "kind part position detail")


# ---- trees


class TooManyTrees(Exception):
    """There are too many ways through a rule to list them."""


def options(step):
    """The ways on from a step: what is met, and further steps. A position's beginning and end are met as a tag is."""
    part, position = step.part, step.position
    if step.kind == "end":
        return [(((("end", position), True),), ())]
    if step.kind == "read":
        return [((), ())]
    if step.kind == "iterate":
        return [(met, iteration(step, more)) for met, more in part.iterations(step.detail)]
    begun, end = (("begin", position), True), Step("end", part, position, None)
    if part.sort in ("class", "any"):
        return [((begun,), (Step("read", part, position, lists), end)) for lists in part.readings]
    if part.sort == "tag":
        return [((begun, (part.term.name, True)), (end,))]
    if part.sort == "repeat":
        return [((begun,), (Step("iterate", part, position, 0), end))]
    members = [Step("begin", member, position + (place,), None) for place, member in enumerate(part.inside)]
    if part.sort == "or":
        return [((begun,) + part.unset_but(member.part), (member, end)) for member in members if member.part.has_tree]
    return [((begun,), (*members, end))]


def iteration(step, tasks):
    """The steps of an iteration, which has the place of its number, or none where the repetition stops."""
    if not tasks:
        return ()
    body = Step("begin", tasks[0].part, step.position + (step.detail,), None)
    return body, step._replace(detail=step.detail + 1)


def ways(steps):
    """The plain ways to where a unit is read or nothing is left to do: what is met, and the steps from there on."""
    waiting, count = [(steps, frozenset(), frozenset(), ())], 0
    while waiting:
        steps, begun, ended, met = waiting.pop()
        count += 1
        if count > 100 * MOST_FRONTS:
            raise TooManyTrees
        if not steps or steps[0].kind == "read" and steps[0].detail != DONE:
            yield met, steps
            continue
        step = steps[0]
        if step.part in {"begin": begun, "end": ended}.get(step.kind, ()):
            continue
        begun = begun | {step.part} if step.kind == "begin" else begun
        ended = ended | {step.part} if step.kind == "end" else ended
        waiting += [(more + steps[1:], begun, ended, met + some) for some, more in options(step)]


def lengths(events):
    """The length of each position of a tree."""
    begins, found = {}, {}
    for name, offset in events:
        if name[0] == "begin":
            begins[name[1]] = offset
        elif name[0] == "end":
            found[name[1]] = offset - begins[name[1]]
    return found


def is_before(one, two):
    """Whether of two trees, given by their lengths, the first one is before: it is longer at the first position where they differ."""
    for position in sorted(one.keys() | two.keys()):
        if one.get(position, -1) != two.get(position, -1):
            return one.get(position, -1) > two.get(position, -1)
    raise AssertionError("two trees are alike")


def first_tree(trees):
    """The tree before which no other one is."""
    best, best_lengths = trees[0], lengths(trees[0].events)
    for tree in trees[1:]:
        tree_lengths = lengths(tree.events)
        if is_before(tree_lengths, best_lengths):
            best, best_lengths = tree, tree_lengths
    return best


class WordWalker(Walker):
    """The leftmost greedy walks through the rules of a scanner, kept for each word."""

    def __init__(self, scanner, encoding=""):
        super().__init__(scanner, encoding)
        self.nodes = {}

    def node(self, word):
        """The node of a word."""
        if word not in self.nodes:
            last = self.node(word[:-1]) if word else None
            self.nodes[word] = self.next(last, self.stops(last.fronts, len(last.word)), word[-1]) if word else self.start()
        return self.nodes[word]

    def after(self, units, start=0):
        """The node of the longest word from a start that begins a match, or of one unit more."""
        end = start
        while end < len(units) and self.node(units[start:end]).fronts:
            end += 1
        return self.node(units[start:end])


class PosixWalker(WordWalker):
    """All walks, none of which is dropped: a node has found all trees of a word, and `after` answers the first of them."""

    def __init__(self, scanner, encoding=""):
        super().__init__(scanner, encoding)
        self.first = [front._replace(tasks=(Step("begin", front.tasks[0].part, (), None),)) for front in self.first]
        self.listed = {}

    def stops(self, fronts, offset):
        """Where the fronts come to before the next unit, by rule."""
        if id(fronts) not in self.listed:
            found = []
            for front in fronts:
                for met, steps in ways(front.tasks):
                    found.append(Front(front.rule, front.events + at_offset(met, offset), steps))
                    if len(found) > MOST_FRONTS:
                        raise TooManyTrees
            self.listed[id(fronts)] = found, fronts
        return self.listed[id(fronts)][0]

    def found(self, stops, offset):
        """What matches here: the trees of the first rule."""
        trees = [Found(stop.rule, stop.events, offset) for stop in stops if not stop.tasks]
        return [tree for tree in trees if tree.rule is trees[0].rule]

    def next(self, node, stops, unit):
        """The node of a word with one more unit."""
        fronts, word = [], node.word + (unit,)
        for stop in stops:
            lists = lists_after(stop.tasks[0].detail, unit) if stop.tasks else ()
            if lists:
                fronts.append(stop._replace(tasks=(stop.tasks[0]._replace(detail=lists),) + stop.tasks[1:]))
        found = self.found(self.stops(fronts, len(word)), len(word))
        return node._replace(word=word, fronts=fronts, found=found or node.found, begins=len(word) if fronts else node.begins)

    def after(self, units, start=0):
        node = super().after(units, start)
        return node._replace(found=first_tree(node.found) if node.found else None)


def moved(node, start):
    """A node with the offsets of the stream."""
    found = node.found and node.found._replace(
        events=[(name, None if offset is None else offset + start) for name, offset in node.found.events],
        length=node.found.length + start,
    )
    return node._replace(found=found, begins=node.begins + start)


# ---- the lines of runs and of covering words


def run_lines(walker, captures, word):
    """The lines of a run; one unit 0 stands behind the word."""
    lines, start = [], 0
    while start < len(word):
        lines.append(match_line(walker.scanner, captures, moved(walker.after(word + (0,), start), start), start))
        outcome, cursor = lines[-1].split()[0], int(lines[-1].split()[2 if lines[-1].startswith("none") else 3])
        if outcome == "none":
            return lines
        if cursor == start:
            return lines + ["stop %d" % cursor]
        start = cursor
    return lines + ["end %d %d" % (start, start)]


def cover_lines(scanner, captures, kind):
    """The text of the covering words of one scanner, each with its match by walkers of one kind."""
    words, walker = [node.word for node in cover(Walker(scanner, ""))], kind(scanner)
    return ["scanner 1"] + ["%s : %s" % (hexadecimal(word), match_line(scanner, captures, walker.after(word))) for word in words]


# ---- the rows


def atom(tokens):
    """An expression that is no sequence of others, with its signs."""
    token = tokens.pop(0)
    if token == "(":
        term = Enclosed(alternatives(tokens))
        assert tokens.pop(0) == ")"
    elif token[0] == '"':
        term = Text(re.sub(r"\\u(....)", lambda found: chr(int(found[1], 16)), token[1:-1]))
    elif token[0] == "[":
        term = letters(token[1:-1])
    else:
        term = Tag(token[1:], token[0] == "#")
    signs = {sign: bounds for bounds, sign in SIGNS.items()}
    while tokens and tokens[0][0] in "*+?{":
        token = tokens.pop(0)
        least, _, most = token.strip("{}").partition(",")
        bounds = signs.get(token) or (int(least), int(most) if most else int(least) if "," not in token else None)
        term = Repeat(term, *bounds)
    return term


def sequence(tokens):
    """A sequence, or the one expression that it is."""
    members = [atom(tokens)]
    while tokens and tokens[0] not in ("|", ")", "/"):
        members.append(atom(tokens))
    return Cat(*members) if len(members) > 1 else members[0]


def alternatives(tokens):
    """Alternatives, or the one expression that they are."""
    members = [sequence(tokens)]
    while tokens and tokens[0] == "|":
        tokens.pop(0)
        members.append(sequence(tokens))
    return Or(*members) if len(members) > 1 else members[0]


def read_rule(line):
    """A rule without conditions."""
    tokens = re.findall(r'"[^"]*"|\[[^]]*\]|[@#]\w+|\{\d[^}]*\}|[^\s]', line.removesuffix("{ }"))
    if tokens == ["*"]:
        return other()
    term, context = alternatives(tokens), None
    if tokens:
        assert tokens.pop(0) == "/"
        context = alternatives(tokens)
    assert not tokens, tokens
    return Rule(term, context=context)


def read_source(lines, captures):
    """The one scanner of a source."""
    rules = [line for line in lines if not line.startswith(("/*", "*/", "re2c:"))]
    source = Source("", [read_rule(line) for line in rules], captures=captures)
    return source.scanners()[0][1]


def content(lines):
    """The content of an order, whose lines begin with a sign."""
    text = "".join(line[2:] + ("\n" if line[0] == "|" else "") for line in lines)
    return re.sub("%([0-9A-F]{2})", lambda found: chr(int(found[1], 16)), text)


class Row:
    """A case: its files, and the scanner of the last compilation, with the kind of walkers that its options ask for."""

    def __init__(self, name):
        self.name, self.files, self.scanner, self.captures, self.kind, self.encoding = name, {}, None, False, WordWalker, ""
        self.wanted = None

    def order(self, words, lines):
        """Takes an order with its content. A text that differs is answered with the one that is right."""
        if words[0] == "given":
            self.files[words[1]] = content(lines)
        elif words[0] == "run" and "--x-run" in words:
            units = tuple(self.files[words[2]].encode("latin1"))
            self.wanted = run_lines(self.kind(self.scanner, self.encoding), self.captures, units)
        elif words[0] == "run":
            self.kind, self.encoding = PosixWalker if "-P" in words else WordWalker, "-8" if "-8" in words else ""
            self.captures = "-P" in words or "--captures" in words
            self.scanner = read_source(self.files[words[-1]].splitlines(), self.captures)
            self.wanted = cover_lines(self.scanner, self.captures, self.kind) if "--x-cover" in words else None
        elif words == ["out"] and content(lines) != "".join(line + "\n" for line in self.wanted):
            return self.wanted
        return None


def rows():
    """The orders of the file of cases: line numbers, words and contents."""
    found = []
    for number, line in enumerate(ROWS.read_text().splitlines(), 1):
        if line[:1] in ("|", ">"):
            found[-1][2].append(line)
        elif line and line[0] != "#":
            found.append((number, line.split(" "), []))
    return found


def differing_rows():
    """Tells each row that differs, and how many there are."""
    row, count, differ = None, 0, 0
    for number, words, lines in rows():
        if words[0] == "case":
            row = Row(" ".join(words[1:]))
            continue
        wanted = row.order(words, lines)
        count += words == ["out"]
        if wanted:
            differ += 1
            print("%s:%d: %s\n%swanted\n%s" % (ROWS.name, number, row.name, content(lines), "\n".join(wanted)))
    print("%d rows, %d differ" % (count, differ))
    return differ


# ---- random sources


class PosixMaker(Maker):
    """Makes random rules over two letters, with many groups and repetitions, and in some with many strings to choose among."""

    def __init__(self, rng, tags):
        super().__init__(rng, "", tags)
        self.choosing = rng.choice([0, 0.5, 0.8])

    def leaf(self):
        rng = self.rng
        if rng.random() < self.choosing:
            texts = rng.sample(TEXTS, rng.choice([2, 2, 3, 4]))
            return Enclosed(Or(*map(Text, sorted(texts, key=len) if rng.random() < 0.7 else texts)))
        if self.with_tags and rng.random() < 0.2:
            self.count += 1
            return Tag("t%d" % self.count, rng.random() < 0.4)
        return rng.choice([Text("a"), Text("a"), Text("b"), Text("b"), letters("ab"), Text(rng.choice(TEXTS))])

    def term(self, depth):
        rng = self.rng
        if depth and rng.random() < 0.3:
            return Repeat(self.inner(depth, 2), *rng.choice(BOUNDS + [(0, 3), (1, 3), (2, 3)]))
        return super().term(depth)

    def inner(self, depth, binds):
        term = super().inner(depth, binds)
        return Enclosed(term) if not isinstance(term, Enclosed) and self.rng.random() < 0.3 else term


def random_source(seed, number):
    """A source of one or two rules by its seed and number, and the generator of its words."""
    rng = random.Random("posix %d %d" % (seed, number))
    tags = rng.random() < 0.15
    maker, rules = PosixMaker(rng, tags), []
    for _ in range(rng.choice([1, 1, 1, 2])):
        context = maker.term(1) if rng.random() < 0.1 else None
        rules.append(Rule(maker.term(rng.choice([2, 3, 3, 4])), context=context))
    if rng.random() < 0.2:
        rules.append(other())
    return Source("random %d %d" % (seed, number), rules, tags=tags, captures=True), rng


def random_word(rng, walker):
    """A word that begins a match for as long as one of its length may."""
    word, count = (), rng.choice(COUNTS)
    while len(word) < count:
        words = [word + (ord(letter),) for letter in rng.sample("ab", 2)]
        word = next((longer for longer in words if walker.node(longer).fronts), words[0])
    return word


def telling_words(rng, scanner):
    """Some random words, before all those that the leftmost greedy order matches in another way."""
    walker, leftmost = PosixWalker(scanner), WordWalker(scanner)
    words = sorted({random_word(rng, walker) for _ in range(12)})
    lines = {word: run_lines(walker, True, word) for word in words}
    return sorted(lines.items(), key=lambda item: item[1] == run_lines(leftmost, True, item[0]))[:4]


def ending(words, folder):
    """The status of a command, and what it tells."""
    run = subprocess.run(words, cwd=folder, capture_output=True, text=True, check=False)
    return run.returncode, run.stdout, run.stderr


def compared(program, source, rng, folder):
    """How many words were compared for a source: none where it is passed by, and None where something differs, which is told."""
    try:
        words = telling_words(rng, source.scanners()[0][1])
    except TooManyTrees:
        return 0
    (folder / "p.re").write_text(source.text())
    options = [program, "-P", "-i"] + (["-T"] if source.tags else [])
    status, text, message = ending(options + ["-o", "p.c", "p.re"], folder)
    if status == 1 and message.endswith("too many states\n"):
        return 0
    if (status, text, message) != (0, "", ""):
        print("%s\n%sstatus %d %s%s" % (source.name, source.text(), status, text, message))
        return None
    for word, lines in words:
        (folder / "in.txt").write_bytes(bytes(word))
        given = ending([program, "--x-run", "in.txt", "p.c"], folder)
        if given != (0, "".join(line + "\n" for line in lines), ""):
            print("%s\n%sover %s\nstatus %d\n%s%swanted\n%s" % (
                source.name, source.text(), bytes(word).decode(), *given, "\n".join(lines)))
            return None
    return len(words)


def random_sources(program, count, seed):
    """Compares random sources until so many are compared, or one differs."""
    done, passed, runs = 0, 0, 0
    with tempfile.TemporaryDirectory() as folder:
        while done < count:
            source, rng = random_source(seed, done + passed + 1)
            ran = compared(program, source, rng, pathlib.Path(folder))
            if ran is None:
                return 1
            done, passed, runs = done + (ran > 0), passed + (ran == 0), runs + ran
    print("%d sources, %d runs, none differs; %d sources passed by" % (done, runs, passed))
    return 0


def main():
    words = argparse.ArgumentParser(description="Compares matches by the POSIX order with the definitions.")
    words.add_argument("program", nargs="?")
    words.add_argument("count", nargs="?", type=int, default=1000)
    words.add_argument("seed", nargs="?", type=int, default=1)
    given = words.parse_args()
    if differing_rows():
        return 1
    return random_sources(str(pathlib.Path(given.program).resolve()), given.count, given.seed) if given.program else 0


if __name__ == "__main__":
    sys.exit(main())
