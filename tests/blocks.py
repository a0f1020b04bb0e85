#!/usr/bin/env python3
"""Writes random cases of blocks, with what each block resolves to, to the standard output.

tests/blocks.py SEED COUNT > crates/block_cases/data/random.txt

It makes the items of each block as trees, prints them as a source with random spacing and spellings, and works out from the trees
what the block resolves to, or its first fault (block_rules.py). The format is that of crates/block_cases/README.md.
"""

import random
import sys

sys.dont_write_bytecode = True

from block_rules import (  # noqa: E402
    NAMES,
    Choice,
    Definition,
    Difference,
    Dot,
    Enclosed,
    Environment,
    Fault,
    Name,
    Points,
    Repeated,
    Rule,
    Sequence,
    Setting,
    Tag,
    Text,
    resolve,
)

GREATEST = {"": 0xFF, "-w": 0xFFFF, "-8": 0x10FFFF, "-x": 0x10FFFF, "-u": 0x10FFFF}
GREATEST_UNIT = {"": 0xFF, "-w": 0xFFFF, "-8": 0xFF, "-x": 0xFFFF, "-u": 0xFFFFFFFF}
OPENERS = {"code": "/*!re2c", "rules": "/*!rules:re2c", "use": "/*!use:re2c"}
PREFIXES = {"yyt": "re2c:tags:prefix", "yyc_": "re2c:condprefix", "yyc": "re2c:condenumprefix"}
BLOCKS = ["code", "code code", "rules use", "rules use use", "code rules code use", "rules code use code"]


class Options:
    """The options of a case."""

    def __init__(self, rng):
        self.encoding = rng.choice(["", "", "-8", "-x", "-u", "-w"])
        self.tags = rng.random() < 0.6
        self.captures = rng.choice(["", "", "--captures", "-P"])
        self.conditions = rng.random() < 0.4
        self.empty = rng.choice(["match-empty"] * 4 + ["match-none"] * 2 + ["error"])
        self.policy = rng.choice(["ignore"] * 5 + ["substitute", "substitute", "fail"])
        self.custom = rng.random() < 0.1
        self.greatest = GREATEST[self.encoding]

    def words(self):
        words = [self.encoding, self.captures]
        words += ["-T"] if self.tags else []
        words += ["-c"] if self.conditions else []
        words += ["--empty-class=" + self.empty] if self.empty != "match-empty" else []
        words += ["--encoding-policy=" + self.policy] if self.policy != "ignore" else []
        words += ["--input=custom"] if self.custom else []
        return " ".join(word for word in words if word)


class Source:
    """A text behind an opener, token by token."""

    def __init__(self, rng, kind, file):
        self.rng, self.file, self.text, self.last = rng, file, "", "x"
        self.line, self.column = 1, len(OPENERS[kind]) + 1

    def add(self, text):
        self.text += text
        for byte in text.encode():
            self.line, self.column = (self.line + 1, 1) if byte == 10 else (self.line, self.column + 1)

    def may_touch(self, token):
        """Whether a token may stand right behind the last one, as far as this is easy to say."""
        word = "_0123456789abcdefghijklmnopqrstuvwxyzABCDEFGHIJKLMNOPQRSTUVWXYZ:-"
        if self.last[-1] in word and token[0] in word:
            return False
        return "/" not in (self.last[-1], token[0]) and (self.last[-1], token[0]) != ("=", ">")

    def put(self, token):
        """Writes a token, and gives its place."""
        gaps = [" "] * 12 + ["\n"] * 2 + ["  ", "\t", " /* gap */ ", " // gap\n"]
        self.add("" if self.may_touch(token) and self.rng.random() < 0.3 else self.rng.choice(gaps))
        place = (self.file, self.line, self.column)
        self.add(token)
        self.last = token
        return place

    def show(self, expression):
        """Writes an expression, and gives the place of its first token."""
        before = Marker(self)
        expression.show(self)
        return before.first

    def lines(self):
        text = self.text if self.text.endswith("\n") else self.text + "\n"
        return text[:-1].split("\n")


class Marker:
    """Takes note of the place of the next token."""

    def __init__(self, source):
        self.first, put = None, source.put

        def noting(token):
            place = put(token)
            self.first = self.first or place
            return place

        source.put = noting


# ---- random trees


class Maker:
    """Makes random items for the blocks of a case."""

    def __init__(self, rng, options):
        self.rng, self.options, self.count = rng, options, 0
        self.known, self.kept, self.tags = [], [], []

    def chance(self, part):
        return self.rng.random() < part

    def point(self):
        rng, greatest = self.rng, self.options.greatest
        if self.chance(0.75):
            return rng.randint(0x20, 0x7E)
        if self.chance(0.002):
            return greatest + rng.randint(1, 3)
        if greatest > 0xFF and self.chance(0.004 if self.options.policy == "fail" else 0.1):
            return rng.randint(0xD7FE, 0xE001)
        return rng.randint(0, rng.choice([0xFF, min(greatest, 0xD7FF), greatest]))

    def other_bound(self, point):
        """A bound of a range, whose other one is a point: mostly a near one, on either side."""
        if self.chance(0.1):
            return self.point()
        return max(0, min(self.options.greatest, point + self.rng.randint(-20, 20)))

    def spelled(self, point, plain):
        """A spelling of a point, where these printable characters stand for themselves."""
        letter = chr(point) if point < 0x7F else ""
        if letter and letter in plain and self.chance(0.9):
            return letter
        forms = ["\\U%08X" % point, "\\U%08x" % point]
        forms += ["\\u%04x" % point, "\\X%04X" % point] * 2 if point <= 0xFFFF else []
        forms += ["\\x%02X" % point, "\\x%02x" % point, "\\%03o" % point] * 3 if point <= 0xFF else []
        if letter and letter in "\a\b\f\n\r\t\v":
            forms += ["\\" + "abfnrtv"["\a\b\f\n\r\t\v".index(letter)]] * 6
        elif " " < letter and not letter.isalnum():
            forms += ["\\" + letter] * 6
        return self.rng.choice(forms)

    def text(self, lengths):
        count = self.rng.choice(lengths)
        points = [self.point() for _ in range(count)]
        quote = self.rng.choice("\"\"'")
        plain = "".join(chr(letter) for letter in range(0x20, 0x7F) if chr(letter) not in quote + "\\")
        spelling = "".join(self.spelled(point, plain) for point in points)
        if count > 1 and self.chance(0.05):
            points, spelling = points + [0xC3, 0xA9], spelling + "\u00e9"
        return Text(points, quote == "'", quote + spelling + quote)

    def points(self):
        if self.chance(0.01 if self.options.empty == "error" else 0.04):
            return Points([], False, "[]")
        if self.chance(0.02):
            return Points([], True, "[^]")
        plain = "".join(chr(letter) for letter in range(0x20, 0x7F) if chr(letter) not in "]\\-^")
        ranges, spelling = [], ""
        for _ in range(self.rng.randint(1, 4)):
            low = self.point()
            high = self.other_bound(low) if self.chance(0.4) else low
            spelling += self.spelled(low, plain) + ("-" + self.spelled(high, plain) if high != low else "")
            ranges.append((min(low, high), max(low, high)))
        if self.chance(0.1):
            ranges, spelling = ranges + [(45, 45)], self.rng.choice(["-" + spelling, spelling + "-"])
        negated = self.chance(0.25)
        return Points(ranges, negated, "[" + ("^" if negated else "") + spelling + "]")

    def name(self, definitions):
        if not definitions or self.chance(0.008):
            return Name("nothing", None)
        definition = self.rng.choice(definitions)
        return Name(definition.name, definition)

    def class_form(self, depth):
        choice = self.rng.random()
        classes = [one for one in self.known if isinstance(one.expression, (Points, Dot, Difference))]
        if choice < 0.5:
            return self.points()
        if choice < 0.6:
            return Dot()
        if choice < 0.75:
            return self.text([1])
        if choice < 0.85 and classes:
            return self.name(classes)
        if depth > 0 and (not self.options.captures or self.chance(0.02)):
            inner = [self.class_form(depth - 1) for _ in range(self.rng.randint(1, 3))]
            if len(inner) == 2 and self.chance(0.5):
                return Enclosed(Difference(*inner))
            return Enclosed(Choice(inner) if len(inner) > 1 else inner[0])
        return self.points()

    def tag(self):
        names = ["t", "u", "v", "w", "key", "end_1"]
        free = [name for name in names if name not in self.tags]
        if not free or not self.options.tags and not self.chance(0.004):
            return self.text([1, 2, 3])
        name = self.rng.choice(names if self.chance(0.01) else free)
        name = "yyt3" if self.chance(0.005) else name
        self.tags.append(name)
        return Tag(self.rng.choice("@@#"), name)

    def atom(self, depth):
        choice = self.rng.random()
        if choice < 0.35:
            return self.text([0] + [1, 2, 3] * 5)
        if choice < 0.55:
            return self.points()
        if choice < 0.6:
            return Dot()
        if choice < 0.7 and self.known:
            return self.fresh_name()
        if choice < 0.8:
            return self.tag()
        return Enclosed(self.choice(depth - 1)) if depth > 0 else self.text([1, 2])

    def fresh_name(self):
        """A name whose tags do not stand before, mostly."""
        taken = [one for one in self.known if not set(self.tags_of(one)) & set(self.tags)]
        name = self.name(self.known if self.chance(0.01) or not taken else taken)
        if name.definition:
            self.tags += self.tags_of(name.definition)
        return name

    def tags_of(self, definition):
        return definition.made_tags

    def postfix(self, depth):
        form = self.atom(depth)
        while self.chance(0.25):
            sign, low, high = self.bounds()
            form = Repeated(form, sign, low, high)
        return form

    def bounds(self):
        rng = self.rng
        if self.chance(0.6):
            return rng.choice([("*", 0, None), ("+", 1, None), ("?", 0, 1)])
        low, more = rng.randint(0, 5), rng.randint(0, 4)
        if self.chance(0.02):
            low = rng.choice([1000, 4096, 4097])
        if self.chance(0.01):
            more = -1
        return rng.choice(
            [("{%d}" % low, low, low), ("{%d,}" % low, low, None), ("{%d,%d}" % (low, max(0, low + more)), low, max(0, low + more))]
        )

    def sequence(self, depth):
        parts = [self.postfix(depth) for _ in range(self.rng.choice([1, 1, 2, 2, 3, 4]))]
        return Sequence(parts) if len(parts) > 1 else parts[0]

    def difference(self, depth):
        if not self.chance(0.15):
            return self.sequence(depth)
        form = self.class_form(depth)
        for _ in range(self.rng.choice([1, 1, 1, 2])):
            form = Difference(form, self.class_form(depth) if self.chance(0.99) else self.sequence(depth))
        return form

    def choice(self, depth):
        parts = [self.difference(depth) for _ in range(self.rng.choice([1, 1, 1, 2, 3]))]
        return Choice(parts) if len(parts) > 1 else parts[0]

    def definition(self, kind):
        self.count += 1
        self.tags = []
        name = "%s%d" % (self.rng.choice(["name", "x", "Part_"]), self.count)
        if self.known and self.chance(0.02):
            name = self.rng.choice(self.known).name
        elif self.kept and kind != "use" and self.chance(0.2):
            name = self.rng.choice(self.kept).name
        definition = Definition(name, self.choice(2))
        definition.made_tags = self.tags
        self.known = self.known + [definition]
        return definition

    def setting(self):
        rng = self.rng
        if self.chance(0.3):
            value = rng.choice([0, 1])
            return Setting("re2c:yyfill:enable", str(value), "fill", value)
        if self.chance(0.03):
            return Setting("re2c:eof", str(GREATEST_UNIT[self.options.encoding] + 1), None, None)
        name = rng.choice(NAMES + ["YYCURSOR", "YYLIMIT"] * 3)
        word = rng.choice(["cur", "pos_1", "p9", "lim", "unit"]) + str(self.count)
        if self.chance(0.05):
            word = rng.choice(["yyt5", "YYMARKER", "YYSTAGP", "cur"])
        self.count += 1
        spelling = rng.choice([word, '"%s"' % word, "'%s'" % word])
        key = PREFIXES.get(name) or ("re2c:variable:" if name[0] == "y" else "re2c:define:") + name
        return Setting(key, spelling, name, word)

    def eof(self):
        unit = self.rng.choice([-1, 0, 0, 0, 10, GREATEST_UNIT[self.options.encoding]])
        return Setting("re2c:eof", str(unit), "eof", None if unit < 0 else unit)

    def listed(self):
        if self.options.conditions == self.chance(0.004):
            return None
        if self.chance(0.1):
            return ["*"]
        return [self.rng.choice(["a", "b", "c", "Long_1"]) for _ in range(self.rng.choice([1, 1, 2, 3]))]

    def rule(self, head):
        rng = self.rng
        self.tags, context = [], None
        if head is None:
            head = self.choice(3)
            context = self.choice(2) if self.chance(0.15) else None
        conditions, sign, target = self.listed(), None, None
        if self.chance(0.1 if self.options.conditions else 0.003):
            own = [one for one in conditions or [] if one != "*"]
            sign, target = rng.choice(["=>", ":=>"]), rng.choice(own * 6 + ["a", "b"])
        actions = ["{ }", "{ return 1; }", '{ "}" \'{\' }', "{\n  n += 1; // }\n}", "{{ }}", "{ /* { */ \\ }", "{}"]
        return Rule(conditions, head, context, sign, target, None if sign == ":=>" else rng.choice(actions))

    def items_of(self, kind):
        """The items of a block of this kind, by what the blocks before it define."""
        outer = self.known
        if kind == "use":
            hidden = [one.name for one in self.kept]
            self.known = self.kept + [one for one in outer if one.name not in hidden]
        items = self.items(kind)
        if kind == "rules":
            self.kept = self.known[len(outer) :]
        self.known = self.known if kind == "code" else outer
        return items

    def items(self, kind):
        """The items of a block of this kind."""
        rng = self.rng
        items = [self.definition(kind) for _ in range(rng.choice([0, 1, 1, 2, 3]))]
        items += [self.setting() for _ in range(rng.choice([0, 0, 0, 1, 2]))]
        if self.chance(0.04 if kind == "use" else 0.15):
            items.append(self.eof())
            items += [self.rule("$") for _ in range(rng.choice([1, 1, 2]) if self.options.conditions else 1)]
        items += [self.rule(None) for _ in range(rng.choice([0, 1, 2, 2, 3, 4]) + (kind == "rules"))]
        if self.chance(0.05 if kind == "use" else 0.3):
            items.insert(rng.randint(0, len(items)), self.rule("*"))
        return items


def quoted(lines):
    """Lines of text as a file of cases has them."""
    return ["| " + line if line else "|" for line in lines]


def case_lines(rng, number):
    """A case with its blocks, up to the first that has a fault."""
    options = Options(rng)
    maker, environment = Maker(rng, options), Environment()
    lines = ["case random %d" % number]
    lines += ["options " + options.words()] if options.words() else []
    for file, kind in enumerate(rng.choice(BLOCKS).split()):
        items = maker.items_of(kind)
        source = Source(rng, kind, file)
        for item in items:
            item.show(source)
        lines += [kind] + quoted(source.lines()) + ["wants"]
        try:
            lines += quoted(resolve(kind, items, environment, options, file))
        except Fault as fault:
            return lines + quoted(fault.lines()) + [""]
    return lines + [""]


def main():
    seed, count = int(sys.argv[1]), int(sys.argv[2])
    rng = random.Random(seed)
    print("# Written by tests/blocks.py %d %d." % (seed, count))
    print()
    for number in range(1, count + 1):
        print("\n".join(case_lines(rng, number)))


main()
