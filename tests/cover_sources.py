"""Sources of scanners as trees, which print themselves: fixed ones and random ones (cover.py)."""

import random
import string

PLAIN = set(string.ascii_letters + string.digits)
SIGNS = {(0, None): "*", (1, None): "+", (0, 1): "?"}


# ---- expressions


class Term:
    """An expression: its sort, what stands in it, and how it binds as text (0 alternatives, 1 a sequence, 2 an atom or one with a sign)."""

    sort, members, binds = "empty", (), 2

    def tags(self):
        """The names of the tags in it; those of a group's ends are pairs."""
        return [name for member in self.members for name in member.tags()]

    def show(self, binds):
        """The text, where nothing may bind less than this."""
        assert self.binds >= binds, self.text()
        return self.text()


def escaped(point):
    """A code point of a class or a string."""
    if chr(point) in PLAIN:
        return chr(point)
    return "\\x%02X" % point if point <= 0xFF else "\\u%04X" % point if point <= 0xFFFF else "\\U%08X" % point


class Text(Term):
    """A string; of one character it is a class."""

    def __init__(self, text):
        self.points = tuple(map(ord, text))
        self.sort = "empty" if not text else "class" if len(text) == 1 else "cat"
        self.members = tuple(map(Text, text)) if len(text) > 1 else ()

    def text(self):
        return '"%s"' % "".join(map(escaped, self.points))


class Class(Term):
    """A class of code points."""

    sort = "class"

    def __init__(self, *ranges):
        self.ranges = ranges
        self.points = tuple(sorted({point for low, high in ranges for point in range(low, high + 1)}))

    def text(self):
        return "[%s]" % "".join(escaped(low) if low == high else escaped(low) + "-" + escaped(high) for low, high in self.ranges)


def letters(text):
    """The class of some characters."""
    return Class(*((ord(letter), ord(letter)) for letter in text))


class Any(Term):
    """Any one code unit, which the head `*` stands for."""

    sort = "any"

    def text(self):
        return "*"


class Tag(Term):
    """An s-tag or an m-tag."""

    sort = "tag"

    def __init__(self, name, is_many=False):
        self.name, self.is_many = name, is_many

    def tags(self):
        return [self.name]

    def text(self):
        return ("#" if self.is_many else "@") + self.name


class Cat(Term):
    """A sequence."""

    sort, binds = "cat", 1

    def __init__(self, *members):
        self.members = members

    def text(self):
        return " ".join(member.show(2) for member in self.members)


class Or(Term):
    """Alternatives."""

    sort, binds = "or", 0

    def __init__(self, *members):
        self.members = members

    def text(self):
        return " | ".join(member.show(1) for member in self.members)


class Repeat(Term):
    """A repetition."""

    sort = "repeat"

    def __init__(self, body, least, most=None):
        self.body, self.least, self.most, self.members = body, least, most, (body,)

    def text(self):
        bounds = "{%d%s}" % (self.least, "" if self.most == self.least else "," + ("" if self.most is None else str(self.most)))
        return self.body.show(2) + SIGNS.get((self.least, self.most), bounds)


class Enclosed(Term):
    """Parentheses; where captures are asked for they are a group, and get its number."""

    sort = "cat"

    def __init__(self, body):
        self.body, self.members = body, (body,)

    def number(self, number):
        self.members = (Tag((number, "open")), self.body, Tag((number, "close")))

    def text(self):
        return "(%s)" % self.body.show(0)


def each_term(term):
    """A term and all in it, from left to right, each before what stands in it."""
    return [term] + [inner for member in term.members for inner in each_term(member)]


# ---- rules and sources


class Rule:
    """A rule: its kind is empty for one with an expression, `*` or `$`; its conditions are names, among them `*`."""

    def __init__(self, term=None, kind="", context=None, conditions=(), target=None, is_jump=False):
        self.term, self.kind, self.context, self.conditions = term, kind, context, conditions
        self.target, self.is_jump, self.number, self.enclosed = target, is_jump, 0, None

    def terms(self):
        return [term for term in (self.term, self.context) if term is not None]

    def count_groups(self):
        """Makes the parentheses groups, numbered by the opening ones."""
        self.enclosed = [inner for term in self.terms() for inner in each_term(term) if isinstance(inner, Enclosed)]
        for number, enclosed in enumerate(self.enclosed, 1):
            enclosed.number(number)

    def groups(self):
        """How many groups it has beside group 0."""
        return len(self.enclosed)

    def whole_term(self):
        """The expression, in group 0 where captures are asked for, and behind it the tag `/` and the context."""
        term = self.term or Any()
        if self.enclosed is not None:
            term = Enclosed(term)
            term.number(0)
        return term if self.context is None else Cat(term, Tag("/"), self.context)

    def named_tags(self):
        """The tags that have a name, in the order of the text."""
        found = [inner for term in self.terms() for inner in each_term(term) if isinstance(inner, Tag)]
        return [(tag.name, tag.is_many) for tag in found if isinstance(tag.name, str)]

    def text(self):
        words = ["<%s>" % ",".join(self.conditions)] if self.conditions else []
        words += [self.kind or self.term.show(0)]
        words += ["/ " + self.context.show(0)] if self.context is not None else []
        words += [":=> " + self.target] if self.is_jump else ["=> " + self.target, "{ }"] if self.target else ["{ }"]
        return " ".join(words)


class Scanner:
    """The rules of a scanner, in order, and its condition if it has one."""

    def __init__(self, condition, rules):
        self.condition = condition
        self.rules = sorted(rules, key=lambda rule: rule.kind == "*")


class Source:
    """A file of blocks."""

    def __init__(self, name, *blocks, encoding="", tags=False, captures=False, conditions=False, eof=None, is_none=False):
        self.name, self.blocks, self.encoding, self.tags, self.captures = name, blocks, encoding, tags, captures
        self.conditions, self.eof, self.is_none = conditions, eof, is_none
        for block in blocks:
            for number, rule in enumerate(block, 1):
                rule.number = number
                if captures:
                    rule.count_groups()

    def options(self):
        words = [self.encoding, "-T" if self.tags else "", "--captures" if self.captures else "", "-c" if self.conditions else ""]
        return [word for word in words if word] + (["--empty-class=match-none"] if self.is_none else [])

    def text(self):
        first = ["re2c:yyfill:enable = 0;"] + (["re2c:eof = %d;" % self.eof] if self.eof is not None else [])
        text = []
        for block in self.blocks:
            text += ["/*!re2c"] + first + [rule.text() for rule in block] + ["*/"]
            first = []
        return "\n".join(text) + "\n"

    def scanners(self):
        """The scanners with the numbers of their pieces."""
        found = []
        for number, block in enumerate(self.blocks, 1):
            names = dict.fromkeys(name for rule in block for name in rule.conditions if name != "*") if self.conditions else [None]
            found += [(number, Scanner(name, rules_of(block, name))) for name in names if block]
        return found


def rules_of(block, condition):
    """The rules of a condition: its own, and then those of all conditions; of these `*` and `$` where it has none of its own."""
    if condition is None:
        return block
    own = [rule for rule in block if condition in rule.conditions]
    kinds = {rule.kind for rule in own} - {""}
    return own + [rule for rule in block if "*" in rule.conditions and rule.kind not in kinds]


# ---- fixed sources


def many(term):
    return Repeat(term, 0)


def some(term):
    return Repeat(term, 1)


def maybe(term):
    return Repeat(term, 0, 1)


def rule(term, **others):
    return Rule(term, **others)


def other(**others):
    return Rule(kind="*", **others)


def at_end(**others):
    return Rule(kind="$", **others)


FIXED = [
    Source("words of one letter", [rule(Text("a")), other()]),
    Source("a match falls back behind two units", [rule(Text("a")), rule(Text("abc")), other()]),
    Source("words that no rule takes", [rule(Text("ab"))]),
    Source("a loop beside a rule of one unit", [rule(Cat(many(Text("a")), Text("b"))), other()]),
    Source("copies of a body are places of their own", [rule(Repeat(letters("ab"), 2, 3))]),
    Source("an empty match", [rule(maybe(Text("a")))]),
    Source("the first and the last unit", [rule(Class((0, 0), (0xFF, 0xFF))), rule(Class((0, 0xFE))), other()]),
    Source("kernels of several places", [rule(Cat(many(letters("ab")), Text("a"), letters("ab")))]),
    Source("two rules for one word", [rule(Text("a")), rule(some(Text("a")))]),
    Source("two scanners", [rule(Text("a"))], [rule(Text("b")), other()]),
    Source(
        "conditions",
        [
            rule(Text("x"), conditions=("one",), target="two"),
            rule(Text("y"), conditions=("two",), target="one", is_jump=True),
            rule(Text("z"), conditions=("two", "one")),
            rule(Text("z"), conditions=("*",)),
            other(conditions=("*",)),
        ],
        conditions=True,
    ),
    Source("the rule for the end takes the empty word", [at_end(), rule(some(Text("a"))), other()], eof=0),
    Source("the rule for the end comes before an empty match", [at_end(), rule(many(Text("a")))], eof=0),
    Source("a trailing context is given back", [rule(Text("a"), context=some(Text("b"))), rule(Text("bb")), other()]),
    Source("tags", [rule(Cat(Tag("p"), many(Text("a")), Tag("q"), maybe(Text("b"))))], tags=True),
    Source("an alternative unsets a tag", [rule(many(Enclosed(Or(Cat(Text("a"), Tag("t")), Text("b")))))], tags=True),
    Source("history tags", [rule(many(Enclosed(Or(Cat(Tag("m", True), Text("x")), Text("y")))))], tags=True),
    Source("tags, a context and a jump", [
        rule(Cat(Tag("t"), Text("a")), context=Cat(Tag("u"), Text("b")), conditions=("c",), target="c", is_jump=True),
    ], tags=True, conditions=True),
    Source("groups", [rule(many(Enclosed(Cat(Enclosed(maybe(Text("x"))), Enclosed(Or(Text(""), Text("y")))))))], captures=True),
    Source("groups beside a context", [
        rule(maybe(Enclosed(Text("a"))), context=Enclosed(Text("b"))), other()
    ], captures=True),
    Source("groups and the rule for the end", [rule(some(Enclosed(Text("a")))), other(), at_end()], captures=True, eof=0),
    Source("code points of two and three units in UTF-8", [rule(letters("\u00E9\u20AC")), other()], encoding="-8"),
    Source("units of UTF-8 in which code points differ", [
        rule(Cat(letters("\u00E9\u00EA\u012A"), Tag("t"), Text("a")))
    ], encoding="-8", tags=True),
    Source("pairs of units in UTF-16", [rule(letters("\u00E9\U0001F600")), other()], encoding="-x"),
    Source("a pair comes before two surrogates", [
        rule(Cat(letters("\uD800\uDC00\U00010000"), Tag("t"), maybe(letters("\uDC00")))),
    ], encoding="-x", tags=True),
    Source("units of four bytes", [rule(letters("\U0001F600")), other()], encoding="-u"),
    Source("units of two bytes", [rule(Class((0x100, 0x102), (0xFFFF, 0xFFFF)))], encoding="-w"),
]

# The longest word of one letter that is not refused, and one more letter; each has one block, as refusals stand at the first.
LONG = [Source("%d letters" % count, [rule(Repeat(Text("a"), count, count))]) for count in (835, 836)]


# ---- random sources


LETTERS = {"": "abc\xFF", "-w": "ab\u0100\uFFFF", "-8": "ab\u00E9\u00EA\u20AC\U0001F600", "-u": "ab\u20AC\U0010FFFF"}
LETTERS["-x"] = "ab\uD800\uDC00\U00010000\U00010001\U00010400"


BOUNDS = [(0, None), (0, None), (1, None), (0, 1), (0, 1), (2, 2), (1, 2), (0, 2), (2, None), (0, 0)]


class Maker:
    """Makes random rules of one source."""

    def __init__(self, rng, encoding, tags):
        self.rng, self.letters, self.with_tags, self.count = rng, LETTERS[encoding], tags, 0

    def leaf(self):
        rng, count = self.rng, self.rng.choice([1, 1, 1, 2, 3])
        if self.with_tags and rng.random() < 0.3:
            self.count += 1
            return Tag("t%d" % self.count, rng.random() < 0.4)
        if rng.random() < 0.1:
            return rng.choice([Text(""), Class(), Class((0x61, 0x63))])
        chosen = [rng.choice(self.letters) for _ in range(count)]
        return letters(sorted(set(chosen))) if rng.random() < 0.5 or max(chosen) > "\x7F" else Text("".join(chosen))

    def term(self, depth):
        """A term of this depth at most."""
        rng = self.rng
        sort = rng.choice(["cat", "cat", "or", "repeat", "repeat", "leaf"]) if depth else "leaf"
        if sort == "leaf":
            return self.leaf()
        if sort == "repeat":
            return Repeat(self.inner(depth, 2), *rng.choice(BOUNDS))
        members = [self.inner(depth, 2 if sort == "cat" else 1) for _ in range(rng.choice([2, 2, 3]))]
        return Cat(*members) if sort == "cat" else Or(*members)

    def inner(self, depth, binds):
        """A term in another one, in parentheses where these are needed, and sometimes where not."""
        term = self.term(depth - 1)
        return Enclosed(term) if term.binds < binds or self.rng.random() < 0.1 else term

    def rule(self):
        context = self.term(1) if self.rng.random() < 0.2 else None
        return Rule(self.term(self.rng.choice([1, 2, 2, 3])), context=context)


def placed(rng, rules):
    """Gives rules conditions and targets."""
    names = ["one", "two"]
    for number, made in enumerate(rules):
        others = rng.choice([names, names[:1], names[1:], ["*"]])
        made.conditions = tuple(names[number : number + 1] or others)
        made.target = rng.choice([None, None] + names)
        made.is_jump = made.target is not None and rng.random() < 0.4


def random_source(seed, number):
    """A source by its seed and number."""
    rng = random.Random("%d %d" % (seed, number))
    encoding, tags, captures = rng.choice(["", "", "", "-8", "-x", "-u", "-w"]), rng.random() < 0.5, rng.random() < 0.3
    maker, blocks, has_conditions, eof = Maker(rng, encoding, tags), [], rng.random() < 0.25, rng.choice([None, None, 0])
    for _ in range(rng.choice([1, 1, 2])):
        rules = [maker.rule() for _ in range(rng.choice([2, 3] if has_conditions else [1, 1, 2, 3]))]
        if has_conditions:
            placed(rng, rules)
        everywhere = ("*",) if has_conditions else ()
        rules += [other(conditions=everywhere)] if rng.random() < 0.5 else []
        rules += [at_end(conditions=everywhere)] if eof is not None else []
        blocks.append(rules)
    name = "random %d %d" % (seed, number)
    is_none = rng.random() < 0.3
    for term in [inner for block in blocks for made in block for whole in made.terms() for inner in each_term(whole)]:
        if isinstance(term, Class) and not term.points and not is_none:
            term.sort = "empty"
    return Source(name, *blocks, encoding=encoding, tags=tags, captures=captures, conditions=has_conditions, eof=eof, is_none=is_none)
