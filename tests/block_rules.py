"""What blocks resolve to, by the rules of docs/LANGUAGE.md: for tests/blocks.py, which makes random ones.

A block is a list of items, whose expressions are trees. Each knows how to show itself in a source, which gives the places of its
tokens, and what it means. Faults are told in the order in which items and expressions are read, from left to right.
"""

SURROGATES = (0xD800, 0xDFFF)
VARIABLES = ["YYCURSOR", "YYLIMIT", "YYMARKER", "YYCTXMARKER", "yych", "yyaccept"]
CALLS = ["YYFILL", "YYGETSTATE", "YYSETSTATE", "YYGETCONDITION", "YYSETCONDITION", "YYMTAGP", "YYMTAGN"]
NAMES = (
    ["YYCTYPE", "YYCURSOR", "YYLIMIT", "YYMARKER", "YYCTXMARKER"] + CALLS + ["yych", "yyaccept", "yyt", "yyc_", "yyc"]
)


class Fault(Exception):
    """The first fault: its place, its message, and what else it says."""

    def __init__(self, place, message, detail=None):
        super().__init__(message)
        self.place, self.message, self.detail = place, message, detail

    def lines(self):
        return ["%d:%d:%d: error: %s" % (self.place + (self.message,))] + ([self.detail] if self.detail else [])


# ---- sets of points: sorted ranges, no two of which touch


def union(ranges):
    """The sorted ranges of the points of some ranges."""
    merged = []
    for low, high in sorted(ranges):
        if merged and low <= merged[-1][1] + 1:
            merged[-1] = (merged[-1][0], max(merged[-1][1], high))
        else:
            merged.append((low, high))
    return merged


def minus(left, right):
    """The points of the left that the right does not have."""
    rest = list(left)
    for low, high in right:
        below = [(first, min(last, low - 1)) for first, last in rest if first < low]
        above = [(max(first, high + 1), last) for first, last in rest if last > high]
        rest = sorted(below + above)
    return rest


def encoded(options):
    """The code points of the encoding: without surrogates, unless the policy ignores these."""
    points = [(0, options.greatest)]
    return points if options.policy == "ignore" else minus(points, [SURROGATES])


def after_policy(options, ranges):
    """The points for which points of the source stand."""
    if options.policy != "substitute":
        return union(ranges)
    rest = minus(union(ranges), [SURROGATES])
    has_surrogate = any(low <= SURROGATES[1] and high >= SURROGATES[0] for low, high in ranges)
    return union(rest + ([(0xFFFD, 0xFFFD)] if has_surrogate else []))


def check_points(options, place, ranges):
    """Tells the least point that the encoding does not have, or else the least surrogate where these are refused."""
    large = [max(low, options.greatest + 1) for low, high in ranges if high > options.greatest]
    if large:
        raise Fault(place, "code point too large", "point 0x%X" % min(large))
    refused = [max(low, SURROGATES[0]) for low, high in ranges if low <= SURROGATES[1] and high >= SURROGATES[0]]
    if refused and options.policy == "fail":
        raise Fault(place, "surrogate", "point 0x%X" % min(refused))


def both_cases(point):
    letter = chr(point) if point < 128 else ""
    return [ord(letter.upper()), ord(letter.lower())] if letter.isalpha() else [point]


# ---- what expressions mean: terms, and how these are written


def written_point(point, escaped):
    if 0x20 <= point <= 0x7E:
        return ("\\" if chr(point) in escaped else "") + chr(point)
    if point <= 0xFF:
        return "\\x%02X" % point
    return "\\u%04X" % point if point <= 0xFFFF else "\\U%08X" % point


def written_set(ranges):
    def one(low, high):
        first = written_point(low, "]\\-^")
        return first if low == high else first + "-" + written_point(high, "]\\-^")

    return "[" + "".join(one(low, high) for low, high in ranges) + "]"


def members(term):
    """The members of a term as a sequence: each a point or a text."""
    sort = term[0]
    if sort == "set" and len(term[1]) == 1 and term[1][0][0] == term[1][0][1]:
        return [term[1][0][0]]
    if sort == "set":
        return [written_set(term[1])]
    if sort == "cat":
        return [member for part in term[1] for member in members(part)]
    if sort == "rep":
        return [repeated_text(term)]
    if sort == "alt":
        return ["(" + written(term) + ")"]
    if sort == "group":
        return ["(%d: %s)" % (term[1], written(term[2]))]
    return [{"empty": '""', "any": "any"}.get(sort) or "%s%d" % (term[1], term[2])]


def repeated_text(term):
    _, body, low, high = term
    parts = members(body)
    text = joined(parts)
    if len(parts) > 1 and not all(isinstance(part, int) for part in parts):
        text = "(" + text + ")"
    if (low, high) in [(0, None), (1, None), (0, 1)]:
        return text + {(0, None): "*", (1, None): "+", (0, 1): "?"}[(low, high)]
    if high is None:
        return text + "{%d,}" % low
    return text + ("{%d}" % low if low == high else "{%d,%d}" % (low, high))


def joined(parts):
    """Members with blanks between them, where neighbours that are points make a string."""
    texts, string = [], ""
    for part in parts + [None]:
        if isinstance(part, int):
            string += written_point(part, '"\\')
            continue
        texts += ['"' + string + '"'] if string else []
        texts += [part] if part is not None else []
        string = ""
    return " ".join(texts)


def written(term):
    if term[0] == "alt":
        return " | ".join(written(member) for member in term[1])
    return joined(members(term))


def class_of(term):
    """The points of a term that is a class or alternatives that are classes, or none."""
    if term[0] == "set":
        return term[1]
    if term[0] != "alt":
        return None
    sets = [class_of(member) for member in term[1]]
    return None if None in sets else union([one for points in sets for one in points])


class Meaning:
    """A term, its size and its nesting, and its points as an operand of a difference, if it is one."""

    def __init__(self, term, size, nesting, points=None):
        self.term, self.size, self.nesting, self.points = term, size, nesting, points


class Reading:
    """What was read of a rule or a definition: its tags, and how many groups."""

    def __init__(self, options):
        self.options, self.tags, self.groups = options, [], 0

    def check_tag(self, place, name):
        if name in [tag for _, tag in self.tags]:
            raise Fault(place, "tag '%s' used twice" % name)

    def class_meaning(self, points, is_operand, place, nesting):
        if not points and not is_operand:
            if self.options.empty == "error":
                raise Fault(place, "empty class")
            if self.options.empty == "match-empty":
                return Meaning(("empty",), 1, nesting, points)
        return Meaning(("set", points), 1, nesting, points)


# ---- expressions of a source


class Text:
    """A string: its points, and whether it is in single quotes."""

    def __init__(self, points, caseless, spelling):
        self.points, self.caseless, self.spelling = points, caseless, spelling

    def show(self, source):
        self.place = source.put(self.spelling)

    def read(self, reading, is_operand):
        options = reading.options
        check_points(options, self.place, [(point, point) for point in self.points])
        sets = []
        for point in self.points:
            points = both_cases(point) if self.caseless else [point]
            sets.append(after_policy(options, [(one, one) for one in points]))
        terms = [("set", points) for points in sets]
        term = ("empty",) if not terms else terms[0] if len(terms) == 1 else ("cat", terms)
        return Meaning(term, max(1, len(terms)), 0, sets[0] if len(sets) == 1 else None)


class Points:
    """A class in brackets."""

    def __init__(self, ranges, negated, spelling):
        self.ranges, self.negated, self.spelling = ranges, negated, spelling

    def show(self, source):
        self.place = source.put(self.spelling)

    def read(self, reading, is_operand):
        options = reading.options
        check_points(options, self.place, self.ranges)
        points = after_policy(options, self.ranges)
        if self.negated:
            points = minus(encoded(options), points)
        return reading.class_meaning(points, is_operand, self.place, 0)


class Dot:
    def show(self, source):
        self.place = source.put(".")

    def read(self, reading, is_operand):
        points = minus(encoded(reading.options), [(10, 10)])
        return Meaning(("set", points), 1, 0, points)


class Name:
    """A name, with its definition, if it has one."""

    def __init__(self, name, definition):
        self.name, self.definition = name, definition

    def show(self, source):
        self.place = source.put(self.name)

    def read(self, reading, is_operand):
        if self.definition is None:
            raise Fault(self.place, "unknown name '%s'" % self.name)
        for _, tag in self.definition.tags:
            reading.check_tag(self.place, tag)
        inner = self.definition.expression.read(reading, False)
        return Meaning(inner.term, inner.size, inner.nesting + 1, class_of(inner.term))


class Tag:
    def __init__(self, mark, name):
        self.mark, self.name = mark, name

    def show(self, source):
        self.place = source.put(self.mark + self.name)

    def read(self, reading, is_operand):
        if not reading.options.tags:
            raise Fault(self.place, "tags need an option")
        reading.check_tag(self.place, self.name)
        reading.tags.append((self.mark, self.name))
        return Meaning(("tag", self.mark, len(reading.tags) - 1), 1, 0)


class Enclosed:
    """Parentheses."""

    def __init__(self, inner):
        self.inner = inner

    def show(self, source):
        self.place = source.put("(")
        self.inner.show(source)
        source.put(")")

    def read(self, reading, is_operand):
        if not reading.options.captures:
            inner = self.inner.read(reading, is_operand)
            return Meaning(inner.term, inner.size, inner.nesting + 1, inner.points)
        reading.groups += 1
        number = reading.groups
        inner = self.inner.read(reading, False)
        return Meaning(("group", number, inner.term), inner.size + 2, inner.nesting + 1)


class Repeated:
    def __init__(self, inner, sign, low, high):
        self.inner, self.sign, self.low, self.high = inner, sign, low, high

    def show(self, source):
        self.inner.show(source)
        self.place = source.put(self.sign)

    def read(self, reading, is_operand):
        inner = self.inner.read(reading, False)
        low, high = self.low, self.high
        if max(low, high or 0) > 4096 or (high is not None and high < low):
            raise Fault(self.place, "wrong bounds", "bounds %d" % low + ("" if high is None else " %d" % high))
        return Meaning(("rep", inner.term, low, high), inner.size * max(1, low, high or 0) + 1, inner.nesting + 1)


class Sequence:
    def __init__(self, parts):
        self.parts = parts

    def show(self, source):
        for part in self.parts:
            part.show(source)
        self.place = self.parts[0].place

    def read(self, reading, is_operand):
        parts = [part.read(reading, False) for part in self.parts]
        return Meaning(("cat", [part.term for part in parts]), sum(part.size for part in parts), max(part.nesting for part in parts))


class Difference:
    def __init__(self, left, right):
        self.left, self.right = left, right

    def show(self, source):
        self.left.show(source)
        self.place = source.put("\\")
        self.right.show(source)

    def read(self, reading, is_operand):
        left = self.left.read(reading, True)
        right = self.right.read(reading, True)
        if left.points is None or right.points is None:
            raise Fault(self.place, "not a class")
        nesting = max(left.nesting, right.nesting)
        return reading.class_meaning(minus(left.points, right.points), is_operand, self.place, nesting)


class Choice:
    def __init__(self, parts):
        self.parts = parts

    def show(self, source):
        self.parts[0].show(source)
        for part in self.parts[1:]:
            source.put("|")
            part.show(source)
        self.place = self.parts[0].place

    def read(self, reading, is_operand):
        parts = [part.read(reading, is_operand) for part in self.parts]
        sets = [part.points for part in parts]
        points = None if None in sets else union([one for ranges in sets for one in ranges])
        size = sum(part.size for part in parts) + 1
        return Meaning(("alt", [part.term for part in parts]), size, max(part.nesting for part in parts), points)


# ---- items of a source


class Definition:
    def __init__(self, name, expression):
        self.name, self.expression = name, expression

    def show(self, source):
        self.place = source.put(self.name)
        source.put("=")
        self.expression.show(source)
        source.put(";")

    def take(self, state):
        for other in state.definitions:
            if other.name == self.name:
                raise Fault(self.place, "defined twice", "first %d:%d:%d" % other.place)
        reading = Reading(state.options)
        self.expression.read(reading, False)
        self.tags = reading.tags
        state.definitions.append(self)


class Setting:
    """A configuration: its word, its value as it is written, and what it sets; nothing where the value is refused."""

    def __init__(self, word, spelling, name, value):
        self.word, self.spelling, self.name, self.value = word, spelling, name, value

    def show(self, source):
        source.put(self.word)
        source.put("=")
        self.place = source.put(self.spelling)
        source.put(";")

    def take(self, state):
        if self.name is None:
            raise Fault(self.place, "wrong value")
        state.settings[self.name] = self.value


class Rule:
    def __init__(self, conditions, head, context, sign, target, action):
        self.conditions, self.head, self.context = conditions, head, context
        self.sign, self.target, self.action = sign, target, action

    def show(self, source):
        self.place = None
        if self.conditions:
            self.place = source.put("<")
            for place, condition in enumerate(self.conditions):
                if place:
                    source.put(",")
                source.put(condition)
            source.put(">")
        if self.head in ("*", "$"):
            self.head_place = source.put(self.head)
        else:
            self.head_place = source.show(self.head)
        self.place = self.place or self.head_place
        if self.context:
            source.put("/")
            self.context.show(source)
        if self.target:
            self.sign_place = source.put(self.sign)
            self.target_place = source.put(self.target)
        self.act_place = source.put(self.action) if self.action else self.sign_place

    def take(self, state):
        options = state.options
        if bool(self.conditions) != options.conditions:
            raise Fault(self.place, "wrong use of conditions")
        if self.head in ("*", "$"):
            self.take_single(state)
        else:
            self.take_expression(state)
        if self.target and not options.conditions:
            raise Fault(self.sign_place, "wrong use of conditions")
        self.number = len(state.rules) + 1
        state.rules.append(self)

    def take_single(self, state):
        for other in state.rules:
            if other.head == self.head and set(other.listed()) & set(self.listed()):
                raise Fault(self.head_place, "defined twice", "first %d:%d:%d" % other.head_place)
        self.term, self.size, self.nesting = ("any",), 1, 0
        self.tags, self.groups, self.slash = [], 0, None
        if state.options.captures:
            self.term, self.groups = ("group", 0, self.term), 1

    def take_expression(self, state):
        options = state.options
        reading = Reading(options)
        front = self.head.read(reading, False)
        self.term, self.size, self.nesting, self.slash = front.term, front.size, front.nesting, None
        if options.captures:
            self.term = ("group", 0, self.term)
        if self.context:
            self.slash = len(reading.tags)
            reading.tags.append(("@", ""))
            back = self.context.read(reading, False)
            self.term = ("cat", [self.term, ("tag", "@", self.slash), back.term])
            self.size, self.nesting = front.size + 1 + back.size, max(front.nesting, back.nesting)
        self.tags, self.groups = reading.tags, reading.groups + 1 if options.captures else 0

    def listed(self):
        return self.conditions or [""]

    def count(self):
        """How many tags it has, two for each group but group 0."""
        return len(self.tags) + 2 * max(0, self.groups - 1)

    def line(self):
        if self.head == "$":
            return "end %d" % self.number
        text = "%s %d %s" % ("default" if self.head == "*" else "rule", self.number, written(self.term))
        text += "".join([" tags"] + [" " + mark + name for mark, name in self.tags]) if self.tags else ""
        text += " slash %d" % self.slash if self.slash is not None else ""
        return text + (" groups %d" % self.groups if self.groups else "")

    def act_line(self):
        text = "act %d" % self.number + (" => " + self.target if self.target else "")
        return text + " at %d:%d:%d " % self.act_place + (escaped(self.action) if self.action else "-")


def escaped(text):
    return "".join("\\n" if letter == 10 else written_point(letter, "\\") for letter in text.encode())


# ---- blocks


class State:
    """What is known behind some items of a block."""

    def __init__(self, options, definitions, settings, rules):
        self.options, self.definitions, self.settings, self.rules = options, definitions, settings, rules

    def names(self):
        return {name: self.settings.get(name, name) for name in NAMES}


class Environment:
    """What holds from block to block."""

    def __init__(self):
        self.definitions, self.settings, self.kept = [], {}, None

    def open(self, kind, options):
        if kind == "rules":
            return State(options, list(self.definitions), {}, [])
        if kind == "use":
            kept = self.kept
            return State(options, kept.definitions + self.definitions, {**self.settings, **kept.settings}, list(kept.rules))
        return State(options, list(self.definitions), dict(self.settings), [])

    def leave(self, kind, state):
        if kind == "rules":
            own = state.definitions[len(self.definitions) :]
            self.kept = State(state.options, own, state.settings, state.rules)
        elif kind == "code":
            self.definitions, self.settings = state.definitions, state.settings


def is_register(prefix, word):
    rest = word[len(prefix) :]
    return word.startswith(prefix) and (rest.isdigit() or rest[:1] == "m" and rest[1:].isdigit())


def clash(options, names, rules):
    """Whether spellings clash, or tags with them."""
    variables, calls = [names[name] for name in VARIABLES], [names[name] for name in CALLS]
    if len(set(variables)) < len(variables) or len(set(calls)) < len(calls):
        return True
    for word in variables:
        if word in ("NULL", "yynmatch", "yypmatch") or word.startswith("yypmatch[") or is_register(names["yyt"], word):
            return True
    if options.custom:
        for name in ("YYSETSTATE", "YYSETCONDITION", "YYMTAGP", "YYMTAGN"):
            if names[name].split("(")[0] in ("YYSTAGP", "YYSTAGN", "YYRESTORETAG"):
                return True
    tags = [name for rule in rules for _, name in rule.tags if name]
    return any(tag in variables + ["yynmatch", "yypmatch"] or is_register(names["yyt"], tag) for tag in tags)


def conditions_of(rules):
    seen = []
    for rule in rules:
        seen += [one for one in dict.fromkeys(rule.listed()) if one != "*" and one not in seen]
    return seen


def scanner_rules(rules, condition):
    """The rules of a scanner in their order."""
    own = [rule for rule in rules if condition in rule.listed()]
    shared = [rule for rule in rules if "*" in rule.listed()]
    if any(rule.head == "$" for rule in own):
        shared = [rule for rule in shared if rule.head != "$"]
    if any(rule.head == "*" for rule in own):
        shared = [rule for rule in shared if rule.head != "*"]
    every = own + shared
    return [rule for rule in every if rule.head != "*"] + [rule for rule in every if rule.head == "*"]


def check_scanner(at, eof, rules):
    others = [rule for rule in rules if rule.head != "$"]
    if not others:
        raise Fault(at, "no rules")
    if (eof is not None) != (len(others) < len(rules)):
        raise Fault(at, "end rule and re2c:eof go together")
    size, nesting = sum(rule.size for rule in others), max(rule.nesting for rule in others)
    tags = sum(rule.count() for rule in others)
    if size > 4096 or nesting > 256 or tags > 128:
        raise Fault(at, "scanner too large", "size %d nesting %d tags %d" % (size, nesting, tags))


def check_whole(at, state):
    """The checks of a block as a whole."""
    options, rules = state.options, state.rules
    if clash(options, state.names(), rules):
        raise Fault(at, "wrong value")
    conditions = conditions_of(rules)
    if rules and not conditions:
        raise Fault(at, "wrong use of conditions")
    for rule in rules:
        if rule.target and rule.target not in conditions:
            raise Fault(rule.target_place, "wrong use of conditions")
    for condition in conditions:
        check_scanner(at, state.settings.get("eof"), scanner_rules(rules, condition))


def resolved_lines(kind, state):
    lines = ["config %s=%s" % (name, word) for name, word in state.names().items() if name != word]
    if state.settings.get("eof") is not None:
        lines.append("config eof=0x%X" % state.settings["eof"])
    if state.settings.get("fill") == 0:
        lines.append("config fill=0")
    if kind == "rules":
        return lines
    for condition in conditions_of(state.rules):
        lines.append(("scanner " + condition).rstrip())
        lines += [rule.line() for rule in scanner_rules(state.rules, condition)]
    return lines + [rule.act_line() for rule in state.rules]


def resolve(kind, items, environment, options, file):
    """What a block resolves to; it changes the environment."""
    at = (file, 1, 1)
    if kind == "use" and environment.kept is None:
        raise Fault(at, "no rules block to use")
    state = environment.open(kind, options)
    for item in items:
        item.take(state)
    if kind == "rules" and not state.rules:
        raise Fault(at, "no rules")
    if kind != "rules":
        check_whole(at, state)
    environment.leave(kind, state)
    return resolved_lines(kind, state)
