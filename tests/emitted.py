"""Reads pieces of emitted text as docs/OUTPUT.md tells, for tests/simulate.py: leniently, then checked, then printed and compared."""
import re

BEGIN = re.compile(rb"/\*!begin:re2c (0|[1-9][0-9]*)\*/")
END = "/*!end:re2c*/"
MOST = (1 << 32) - 1
SPELLED = (
    "type cursor limit marker context fill getstate setstate getcond setcond mtagp mtagn yych yyaccept prefix condprefix condnumber".split()
)
SIZES = {"byte": 1, "ucs2": 2, "utf8": 1, "utf16": 2, "utf32": 4}
TYPES = {1: "char", 2: "short", 4: "int"}
MODES = {"plain": (False, False, False), "count": (False, True, False), "eoffixed": (True, False, False), "eof": (True, False, True)}
HEAD = re.compile(r"/\*!head:re2c (\d+) (custom )?(kept )?(\w+) (\w+) (\d+) (\d+) (\d+)\*/")
CODE = re.compile(r"\t/\*!code:re2c (\d+) (\d+)\*/")
LINE = re.compile(r'#line (\d+) "((?:[^"\\]|\\.)*)"')
BLOCK = r"yy\d+_(\d+)"
ENDS = ("goto", "leave", "code", "jump", "switch")
# how many of the numbers behind the kind of a statement are registers or histories, and which are a block
REGISTERS = {"set": (0,), "unset": (0,), "copy": (0, 1), "back": (0,), "end": (1,), "tag": (1,)}
HISTORIES = {"mset": (0,), "munset": (0,), "mcopy": (0, 1), "mtag": (1,)}
TARGETS = {"ifunit": 1, "ifis": 1, "ifset": 1, "ifaccept": 1, "ifend": 0, "try": 0, "goto": 0}


class NotEmitted(Exception):
    """No piece stands there."""


class Piece:
    """A piece, as it was read."""

    def __init__(self, number):
        self.number = number
        self.format = 1
        self.custom = self.kept = False
        self.head = None
        self.names = {}
        self.unit, self.eof = 1, None
        self.declares = False
        self.states = None
        self.conds = []
        self.table = b""
        self.blocks = []
        # the line and the file that stand behind it, and of format 3 the line of its brace and the output's name
        self.line = None
        self.place, self.out = None, None
        self.context = False
        # the kinds of its statements, once all are read
        self.kinds = None

    # ---- what is known of it

    def statements(self):
        return [one for code in self.blocks for one in code]

    def has(self, *kinds):
        if self.kinds is None:
            self.kinds = {one[0] for one in self.statements()}
        return not self.kinds.isdisjoint(kinds)

    def stores(self):
        return self.has("state")

    def mode_of_run(self):
        if self.head:
            return self.head[1]
        if self.has("need"):
            return "count"
        if self.has("try"):
            return "eof"
        return "plain" if self.eof is None else "eoffixed"

    def find_places(self):
        """Where a scanner goes on that stored a state."""
        self.places = {}
        for number, code in enumerate(self.blocks):
            for at, one in enumerate(code):
                if one[0] == "state":
                    asks = code[at + 1][0] if at + 1 < len(code) else None
                    self.places[one[1]] = number if asks == "need" else number + 1

    def greatest(self, kinds):
        return max((one[1:][at] for one in self.statements() if one[0] in kinds for at in kinds[one[0]]), default=None)

    def targets(self):
        """The blocks to which something goes."""
        targets = set()
        for one in self.statements():
            if one[0] in TARGETS:
                targets.add(one[1:][TARGETS[one[0]]])
            elif one[0] == "switch":
                targets |= {block for _, block in one[1]} | {one[2]}
        return targets

    # ---- its text

    def register(self, number):
        return self.names["context"] if self.context and number == 1 else "%s%d" % (self.names["prefix"], number)

    def history(self, number):
        return "%sm%d" % (self.names["prefix"], number)

    def text_of(self, one):
        """The text of a statement, without its tab and what ends the line."""
        kind, *of = one
        own = self.custom_texts(of) if self.custom else self.usual_texts(of)
        return {**self.other_texts(of), **own}[kind]()

    def block(self, number):
        return "yy%d_%d" % (self.number, number)

    def usual_texts(self, of):
        n, reg = self.names, self.register
        return {
            "peek": lambda: "%s = *%s;" % (n["yych"], n["cursor"]),
            "skip": lambda: "++%s;" % n["cursor"],
            "backup": lambda: "%s = %s;" % (n["marker"], n["cursor"]),
            "restore": lambda: "%s = %s;" % (n["cursor"], n["marker"]),
            "set": lambda: "%s = %s;" % (reg(of[0]), n["cursor"]),
            "unset": lambda: "%s = NULL;" % reg(of[0]),
            "back": lambda: "%s = %s;" % (n["cursor"], reg(of[0])),
            "need": lambda: "if ((%s - %s) < %d) %s(%d);" % (n["limit"], n["cursor"], of[0], n["fill"], of[0]),
            "ifend": lambda: "if (%s >= %s) goto %s;" % (n["cursor"], n["limit"], self.block(of[0])),
        }

    def custom_texts(self, of):
        n, reg = self.names, self.register
        return {
            "peek": lambda: "%s = YYPEEK();" % n["yych"],
            "skip": lambda: "YYSKIP();",
            "backup": lambda: "YYBACKUP();",
            "restore": lambda: "YYRESTORE();",
            "set": lambda: "YYSTAGP(%s);" % reg(of[0]),
            "unset": lambda: "YYSTAGN(%s);" % reg(of[0]),
            "back": lambda: "YYRESTORETAG(%s);" % reg(of[0]),
            "need": lambda: "if (YYLESSTHAN(%d)) %s(%d);" % (of[0], n["fill"], of[0]),
            "ifend": lambda: "if (YYLESSTHAN(1)) goto %s;" % self.block(of[0]),
        }

    def other_texts(self, of):
        n, reg, his, block = self.names, self.register, self.history, self.block
        return {
            "accept": lambda: "%s = %d;" % (n["yyaccept"], of[0]),
            "copy": lambda: "%s = %s;" % (reg(of[0]), reg(of[1])),
            "mset": lambda: "%s(%s);" % (n["mtagp"], his(of[0])),
            "munset": lambda: "%s(%s);" % (n["mtagn"], his(of[0])),
            "mcopy": lambda: "%s = %s;" % (his(of[0]), his(of[1])),
            "ifunit": lambda: "if (%s <= 0x%02X) goto %s;" % (n["yych"], of[0], block(of[1])),
            "ifis": lambda: "if (%s == 0x%02X) goto %s;" % (n["yych"], of[0], block(of[1])),
            "ifset": lambda: self.set_text(of[0], block(of[1])),
            "ifaccept": lambda: "if (%s == %d) goto %s;" % (n["yyaccept"], of[0], block(of[1])),
            "state": lambda: "%s(%d);" % (n["setstate"], of[0]),
            "try": lambda: "if (%s() == 0) goto %s;" % (n["fill"], block(of[0])),
            "cond": lambda: "%s(%s%s);" % (n["setcond"], n["condnumber"], of[0]),
            "tag": lambda: "%s = %s;" % (of[0], reg(of[1])),
            "mtag": lambda: "%s = %s;" % (of[0], his(of[1])),
            "count": lambda: "yynmatch = %d;" % of[0],
            "end": lambda: "yypmatch[%d] = %s;" % (of[0], reg(of[1])),
            "goto": lambda: "goto %s;" % block(of[0]),
            "leave": lambda: "goto yy%d_none;" % self.number,
            "jump": lambda: "goto %s%s; /* %d */" % (n["condprefix"], of[1], of[0]),
        }

    def set_text(self, number, label):
        yych = self.names["yych"]
        page = "0x%d00 + " % (number // 8) if number >= 8 else ""
        test = "yybm[%s%s] & 0x%02X" % (page, yych, 1 << number % 8)
        return ("if (%s) goto %s;" if self.unit == 1 else "if (" + yych + " <= 0xFF && (%s)) goto %s;") % (test, label)

    def print(self):
        """The text of the piece."""
        return Printer(self).print()


class Printer:
    """Prints a piece. The lines of format 3 count from that of its brace, which the text tells."""

    def __init__(self, piece):
        self.piece = piece
        self.parts = []
        self.lines = None

    def put(self, text):
        self.parts.append(text + "\n")
        if self.lines is not None:
            self.lines += text.count("\n") + 1

    def put_place(self):
        """In format 3 the line of the output that stands behind this one, where lines are told."""
        if self.piece.place is not None:
            if self.lines is None:
                self.lines = self.piece.place - 1
            self.put('#line %d "%s"' % (min(self.lines + 1, MOST), self.piece.out))

    def print(self):
        p = self.piece
        self.put("/*!begin:re2c %d*/" % p.number)
        if p.head:
            encoding, mode, regs, hists, states = p.head
            marks = ("custom " if p.custom else "") + ("kept " if p.kept else "")
            self.put("/*!head:re2c %d %s%s %s %d %d %d*/" % (p.format, marks, encoding, mode, regs, hists, states))
        eof = "-" if p.eof is None else "%d" % p.eof
        self.put("/*!names:re2c %d %s%s*/" % (p.unit, eof, "".join(" %d:%s" % (len(p.names[one]), p.names[one]) for one in SPELLED)))
        self.put_place()
        self.put("{")
        self.put_declarations()
        self.put_switches()
        for number, code in enumerate(p.blocks):
            self.put_block(number, code)
        if p.format < 3 or p.has("leave"):
            self.put("yy%d_none:;" % p.number)
        self.put("}")
        if p.line is not None:
            self.put('#line %d "%s"' % p.line)
        return "".join(self.parts) + END

    def put_declarations(self):
        p, n = self.piece, self.piece.names
        if p.format < 3:
            if p.declares:
                self.put("\t%s %s;" % (n["type"], n["yych"]))
                self.put("\tunsigned int %s = 0;" % n["yyaccept"])
            return
        if p.has("ifset"):
            self.put("\tstatic const unsigned char yybm[%d] = {" % len(p.table))
            for row in range(0, len(p.table), 16):
                self.put("\t" + "".join("0x%02X," % byte for byte in p.table[row:row + 16]))
            self.put("\t};")
        if not p.kept and p.has("peek", "ifunit", "ifis", "ifset", "switch"):
            self.put("\tunsigned %s %s;" % (TYPES[p.unit], n["yych"]))
        if not p.kept and p.has("accept", "ifaccept"):
            self.put("\tunsigned int %s = 0;" % n["yyaccept"])

    def put_switches(self):
        p, n = self.piece, self.piece.names
        if p.states is not None:
            self.put("\tswitch (%s()) {" % n["getstate"])
            for state, block in p.states:
                self.put("\tcase %d: goto yy%d_%d;" % (state, p.number, block))
            self.put("\tdefault: goto yy%d_%s;" % (p.number, "cond" if p.conds else "0"))
            self.put("\t}")
        if p.conds:
            if p.format < 3 or p.kept or p.states is not None:
                self.put("yy%d_cond:" % p.number)
            self.put("\tswitch (%s()) {" % n["getcond"])
            for name, block in p.conds:
                to = n["condprefix"] + name if p.format == 3 else "yy%d_%d" % (p.number, block)
                self.put("\tcase %s%s: goto %s;" % (n["condnumber"], name, to))
            self.put("\t}")
        if p.format == 3:
            self.put("")

    def has_label(self, number):
        p = self.piece
        if p.format < 3:
            return True
        if number == 0 and not p.conds and (p.kept or p.states is not None):
            return True
        return number in self.targets

    def put_block(self, number, code):
        p = self.piece
        if number == 0:
            self.targets = p.targets() | set(p.places.values())
        for name, block in p.conds:
            if block == number:
                self.put("%s%s:" % (p.names["condprefix"], name))
        if self.has_label(number):
            self.put("yy%d_%d:" % (p.number, number))
        for one in code:
            self.put_statement(one)

    def put_statement(self, one):
        if one[0] == "code":
            if one[3] is not None:
                self.put('#line %d "%s"' % one[3])
            self.put("\t/*!code:re2c %d %d*/%s" % (one[1], len(one[2]), one[2]))
            self.put_place()
        elif one[0] == "switch":
            goes = " goto yy%d_%%d;" % self.piece.number
            self.put("\tswitch (%s) {" % self.piece.names["yych"])
            for units, block in one[1]:
                self.put("\t" + " ".join("case 0x%02X:" % unit for unit in units) + goes % block)
            self.put("\tdefault:" + goes % one[2])
            self.put("\t}")
        else:
            self.put("\t" + self.piece.text_of(one))


class Reader:
    """Reads the piece that begins at a place of a text."""

    def __init__(self, text, at):
        self.text = text
        self.at = at

    def line(self):
        end = self.text.find("\n", self.at)
        if end < 0:
            raise NotEmitted
        line, self.at = self.text[self.at:end], end + 1
        return line

    def bytes(self, at, length):
        """So many bytes from a place on, which are then read."""
        if length > len(self.text) - at:
            raise NotEmitted
        self.at = at + length
        return self.text[at:self.at]

    def next(self):
        end = self.text.find("\n", self.at)
        return self.text[self.at:end] if end >= 0 else ""

    def found(self, pattern):
        """The match of a pattern with the next line, which is then read."""
        match = re.fullmatch(pattern, self.next(), re.DOTALL)
        if match:
            self.line()
        return match

    def piece(self):
        first = self.found(r"/\*!begin:re2c (\d+)\*/")
        if not first:
            raise NotEmitted
        self.p = Piece(int(first[1]))
        self.read_head()
        self.read_names()
        self.patterns = self.statement_patterns()
        place = self.found(LINE.pattern) if self.p.format == 3 else None
        self.p.place, self.p.out = (int(place[1]), place[2]) if place else (None, None)
        if self.line() != "{":
            raise NotEmitted
        self.read_declarations()
        self.read_states()
        self.read_conds()
        self.read_blocks()
        found = self.found(LINE.pattern)
        if found:
            self.p.line = (int(found[1]), found[2])
        self.p.find_places()
        return self.p

    def read_head(self):
        found = self.found(HEAD.pattern)
        if found:
            self.p.format = int(found[1])
            self.p.custom, self.p.kept = bool(found[2]), bool(found[3])
            self.p.head = (found[4], found[5], int(found[6]), int(found[7]), int(found[8]))

    def read_names(self):
        begin = re.compile(r"/\*!names:re2c (\d+) (\d+|-)").match(self.text, self.at)
        if not begin:
            raise NotEmitted
        self.p.unit, self.p.eof = int(begin[1]), None if begin[2] == "-" else int(begin[2])
        self.at = begin.end()
        for name in SPELLED:
            length = re.compile(r" (\d+):").match(self.text, self.at)
            if not length:
                raise NotEmitted
            self.p.names[name] = self.bytes(length.end(), int(length[1]))
        if self.line() != "*/":
            raise NotEmitted

    def read_declarations(self):
        n = {name: re.escape(text) for name, text in self.p.names.items()}
        if self.p.format < 3:
            self.p.declares = bool(self.found("\t%s %s;" % (n["type"], n["yych"])))
            self.found("\tunsigned int %s = 0;" % n["yyaccept"])
            return
        if self.found(r"\tstatic const unsigned char yybm\[\d+\] = \{"):
            while not self.found("\t};"):
                row = self.line()
                if not re.fullmatch(r"\t(0x[0-9A-F]{2},){16}", row):
                    raise NotEmitted
                self.p.table += bytes(int(one[2:], 16) for one in row[1:-1].split(","))
        self.found(r"\tunsigned \w+ %s;" % n["yych"])
        self.found("\tunsigned int %s = 0;" % n["yyaccept"])

    def read_states(self):
        if not self.found(r"\tswitch \(%s\(\)\) \{" % re.escape(self.p.names["getstate"])):
            return
        self.p.states = []
        while found := self.found(r"\tcase (\d+): goto yy\d+_(\d+);"):
            self.p.states.append((int(found[1]), int(found[2])))
        self.line()
        self.line()

    def read_conds(self):
        n = {name: re.escape(text) for name, text in self.p.names.items()}
        self.found(r"yy\d+_cond:")
        if self.found(r"\tswitch \(%s\(\)\) \{" % n["getcond"]):
            to = n["condprefix"] + r"(?P<to>\w+)" if self.p.format == 3 else r"yy\d+_(?P<to>\d+)"
            pattern = r"\tcase %s(\w+): goto %s;" % (n["condnumber"], to)
            while found := self.found(pattern):
                self.p.conds.append((found[1], -1 if self.p.format == 3 else int(found["to"])))
            self.line()
        if self.p.format == 3 and self.line():
            raise NotEmitted

    def read_blocks(self):
        while not self.found(r"\}"):
            if self.found(r"yy\d+_none:;"):
                continue
            self.read_labels()
            code = []
            while not code or code[-1][0] not in ENDS:
                code.append(self.read_statement())
            self.p.blocks.append(code)

    def read_labels(self):
        number = len(self.p.blocks)
        while found := self.found(r"%s(\w+):" % re.escape(self.p.names["condprefix"])):
            self.p.conds = [(name, number if name == found[1] else block) for name, block in self.p.conds]
        self.found(r"yy%d_%d:" % (self.p.number, number))

    def read_statement(self):
        line = self.found(LINE.pattern)
        code = CODE.match(self.text, self.at)
        if code:
            action = self.bytes(code.end(), int(code[2]))
            if self.line():
                raise NotEmitted
            if self.p.format == 3:
                self.found(LINE.pattern)
            return ("code", int(code[1]), action, (int(line[1]), line[2]) if line else None)
        text = self.line()
        if text == "\tswitch (%s) {" % self.p.names["yych"]:
            return self.read_switch()
        for kind, pattern, values in self.patterns:
            found = pattern.fullmatch(text)
            if found:
                return (kind,) + values(found.groups())
        raise NotEmitted

    def read_switch(self):
        cases = []
        while found := self.found(r"\t((?:case 0x[0-9A-F]+: )+)goto yy\d+_(\d+);"):
            cases.append(([int(one, 16) for one in re.findall(r"0x([0-9A-F]+)", found[1])], int(found[2])))
        default = self.found(r"\tdefault: goto yy\d+_(\d+);")
        if not default or not self.found(r"\t\}"):
            raise NotEmitted
        return ("switch", cases, int(default[1]))

    # ---- statements

    def reg(self, text):
        prefix = self.p.names["prefix"]
        if re.fullmatch(re.escape(prefix) + r"\d+", text):
            return int(text[len(prefix):])
        self.p.context = True
        return 1

    def statement_patterns(self):
        n = {name: re.escape(text) for name, text in self.p.names.items()}
        reg = r"(%s\d+|%s)" % (n["prefix"], n["context"])
        own = self.custom_patterns(n, reg) if self.p.custom else self.usual_patterns(n, reg)
        both = own + self.other_patterns(n, reg)
        made = [(kind, re.compile("\t" + pattern, re.DOTALL), self.taken(of)) for kind, pattern, *of in both]
        jump = re.compile("\t" + r"goto %s(\w+); /\* (\d+) \*/" % n["condprefix"])
        made.append(("jump", jump, lambda groups: (int(groups[1]), groups[0])))
        tests = r"\tif \((?:%s <= 0xFF && \()?yybm\[(0x[1-7]00 \+ )?%s\] & 0x([0-9A-F]+)\)+ goto %s;" % (n["yych"], n["yych"], BLOCK)
        made.append(("ifset", re.compile(tests), self.set_of))
        return made

    def usual_patterns(self, n, reg):
        r = self.reg
        return [
            ("peek", r"%s = \*%s;" % (n["yych"], n["cursor"])), ("skip", r"\+\+%s;" % n["cursor"]),
            ("backup", "%s = %s;" % (n["marker"], n["cursor"])), ("restore", "%s = %s;" % (n["cursor"], n["marker"])),
            ("set", "%s = %s;" % (reg, n["cursor"]), r), ("unset", "%s = NULL;" % reg, r), ("back", "%s = %s;" % (n["cursor"], reg), r),
            ("need", r"if \(\(%s - %s\) < (\d+)\) %s\(\d+\);" % (n["limit"], n["cursor"], n["fill"]), int),
            ("ifend", r"if \(%s >= %s\) goto %s;" % (n["cursor"], n["limit"], BLOCK), int),
        ]

    def custom_patterns(self, n, reg):
        r = self.reg
        return [
            ("peek", r"%s = YYPEEK\(\);" % n["yych"]), ("skip", r"YYSKIP\(\);"), ("backup", r"YYBACKUP\(\);"),
            ("restore", r"YYRESTORE\(\);"), ("set", r"YYSTAGP\(%s\);" % reg, r), ("unset", r"YYSTAGN\(%s\);" % reg, r),
            ("back", r"YYRESTORETAG\(%s\);" % reg, r), ("need", r"if \(YYLESSTHAN\((\d+)\)\) %s\(\d+\);" % n["fill"], int),
            ("ifend", r"if \(YYLESSTHAN\(1\)\) goto %s;" % BLOCK, int),
        ]

    def other_patterns(self, n, reg):
        his = r"%sm(\d+)" % n["prefix"]
        r, i, h = self.reg, int, lambda text: int(text, 16)
        return [
            ("accept", r"%s = (\d+);" % n["yyaccept"], i), ("copy", "%s = %s;" % (reg, reg), r, r),
            ("mset", r"%s\(%s\);" % (n["mtagp"], his), i), ("munset", r"%s\(%s\);" % (n["mtagn"], his), i),
            ("mcopy", "%s = %s;" % (his, his), i, i), ("ifunit", r"if \(%s <= 0x([0-9A-F]+)\) goto %s;" % (n["yych"], BLOCK), h, i),
            ("ifis", r"if \(%s == 0x([0-9A-F]+)\) goto %s;" % (n["yych"], BLOCK), h, i),
            ("ifaccept", r"if \(%s == (\d+)\) goto %s;" % (n["yyaccept"], BLOCK), i, i),
            ("state", r"%s\((\d+)\);" % n["setstate"], i), ("try", r"if \(%s\(\) == 0\) goto %s;" % (n["fill"], BLOCK), i),
            ("cond", r"%s\(%s(\w+)\);" % (n["setcond"], n["condnumber"]), str), ("count", r"yynmatch = (\d+);", i),
            ("end", r"yypmatch\[(\d+)\] = %s;" % reg, i, r), ("tag", r"(\w+) = %s;" % reg, str, r),
            ("mtag", r"(\w+) = %s;" % his, str, i), ("goto", "goto %s;" % BLOCK, i), ("leave", r"goto yy\d+_none;"),
        ]

    @staticmethod
    def taken(of):
        return lambda groups: tuple(take(group) for take, group in zip(of, groups))

    @staticmethod
    def set_of(groups):
        return (8 * int(groups[0][2:3] if groups[0] else 0) + max(int(groups[1], 16).bit_length() - 1, 0), int(groups[2]))


IDENTIFIER = re.compile(r"[A-Za-z_]\w*", re.ASCII)
SPELLING = re.compile(r"[\w.\->\[\]()&*]+", re.ASCII)
WORDS = re.compile(r"\w+( \w+)*", re.ASCII)
VARIABLES = "cursor limit marker context yych yyaccept".split()
CALLS = "fill getstate setstate getcond setcond mtagp mtagn".split()


def check(piece):
    """The rules of a valid piece."""
    rules = [has_range, has_blocks, has_targets, has_refills, has_states, has_conds, has_values, has_names, has_sets, has_head]
    if not all(rule(piece) for rule in rules):
        raise NotEmitted


def has_range(piece):
    short = [piece.number, *([piece.line[0]] if piece.line else []), *([piece.place] if piece.place else [])]
    long = [number for case in piece.states or [] for number in case]
    for kind, *of in piece.statements():
        if kind == "code":
            short += [of[0], len(of[1]), *(of[2][:1] if of[2] else [])]
        elif kind == "state":
            long.append(of[0])
        elif kind != "switch":
            short += [number for number in of if isinstance(number, int)]
    return all(number <= MOST for number in short) and all(number < 1 << 64 for number in long)


def has_blocks(piece):
    ends = all(one[0] not in ENDS for code in piece.blocks for one in code[:-1]) and all(code[-1][0] in ENDS for code in piece.blocks)
    return bool(piece.blocks) and ends and piece.unit in SIZES.values() and (piece.eof is None or piece.eof < 256 ** piece.unit)


def has_targets(piece):
    return all(block < len(piece.blocks) for block in piece.targets())


def has_refills(piece):
    """Refills are asked for in one way, and each behind a state, where there is one."""
    for code in piece.blocks:
        for before, one in zip([("none",)] + code, code):
            asks, behind_state = one[0] in ("need", "try"), before[0] == "state"
            if (behind_state and not asks) or (piece.stores() and asks and not behind_state):
                return False
    tries = any(one[0] == "state" and two[0] == "try" for one, two in zip(piece.blocks[-1], piece.blocks[-1][1:]))
    return not (piece.has("need") and piece.has("try")) and not tries


def has_states(piece):
    stored = [one[1] for one in piece.statements() if one[0] == "state"]
    return len(set(stored)) == len(stored) and piece.states in (None, sorted(piece.places.items()))


def has_conds(piece):
    names, blocks = [name for name, _ in piece.conds], [block for _, block in piece.conds]
    label = piece.names["condprefix"] + "%s"
    alike = piece.format == 3 and any((label % name).startswith("yy%d_" % piece.number) for name in names)
    if alike or not all(IDENTIFIER.fullmatch(name) for name in names) or len(set(names)) != len(names):
        return False
    if blocks != sorted(set(blocks)) or not all(0 <= block < len(piece.blocks) for block in blocks):
        return False
    return all(one[1 if one[0] == "cond" else 2] in names for one in piece.statements() if one[0] in ("cond", "jump"))


def has_values(piece):
    """Registers count from 1, groups are few, and a tag is no other variable."""
    taken = [piece.names[one] for one in VARIABLES] + ["yynmatch", "yypmatch"]
    register = re.compile(re.escape(piece.names["prefix"]) + r"m?\d+", re.ASCII)
    for kind, *of in piece.statements():
        if any(of[at] < 1 for at in REGISTERS.get(kind, ())):
            return False
        if (kind == "count" and of[0] > 65) or (kind == "end" and of[0] > 129):
            return False
        if kind in ("tag", "mtag") and (not IDENTIFIER.fullmatch(of[0]) or of[0] in taken or register.fullmatch(of[0])):
            return False
        if kind in ("tag", "mtag") and piece.format == 3 and of[0] == "yybm":
            return False
    return True


def has_names(piece):
    names = piece.names
    variables, calls = [names[one] for one in VARIABLES], [names[one] for one in CALLS]
    if not WORDS.fullmatch(names["type"]) or not all(SPELLING.fullmatch(one) for one in variables + calls):
        return False
    if not all(IDENTIFIER.fullmatch(names[one]) for one in ("yych", "yyaccept", "prefix", "condprefix", "condnumber")):
        return False
    if len(set(variables)) < len(variables) or len(set(calls)) < len(calls):
        return False
    register = re.compile(re.escape(names["prefix"]) + r"m?\d+", re.ASCII)
    for one in variables:
        if one in ("NULL", "yynmatch", "yypmatch") or one.startswith("yypmatch[") or register.fullmatch(one):
            return False
        if piece.format == 3 and re.match(r"\w*", one, re.ASCII)[0] == "yybm":
            return False
    primitive = re.compile(r"(YYSTAGP|YYSTAGN|YYRESTORETAG)(\(.*)?", re.DOTALL)
    return not (piece.custom and any(primitive.fullmatch(names[one]) for one in ("setstate", "setcond", "mtagp", "mtagn")))


def has_sets(piece):
    """What format 3 has alone, and a table of just the sets that are asked for."""
    if piece.format < 3 and piece.has("ifis", "ifset", "switch"):
        return False
    sets = max((one[1] // 8 + 1 for one in piece.statements() if one[0] == "ifset"), default=0)
    for one in piece.statements():
        if one[0] == "switch":
            units = [unit for case in one[1] for unit in case[0]]
            if piece.unit != 1 or not units or len(set(units)) < len(units) or max(units) > 255:
                return False
    return len(piece.table) == 256 * sets and (piece.place is not None) == (piece.format == 3 and piece.line is not None)


def has_head(piece):
    if piece.head is None:
        return piece.format == 1
    encoding, mode, regs, hists, states = piece.head
    if piece.format not in (2, 3) or (piece.kept and piece.format == 2) or SIZES.get(encoding) != piece.unit or mode not in MODES:
        return False
    has_eof, needs, tries = MODES[mode]
    if has_eof != (piece.eof is not None) or piece.has("need") and not needs or piece.has("try") and not tries:
        return False
    if piece.has("peek") and (needs and not piece.has("need") or tries and not piece.has("try")):
        return False
    histories = piece.greatest(HISTORIES)
    if regs != (piece.greatest(REGISTERS) or 0) or hists != (0 if histories is None else histories + 1):
        return False
    return states == sum(one[0] == "state" for one in piece.statements())


def read_at(text, at):
    """The piece of a scanner that begins there, or nothing where the mark has none behind it."""
    reader = Reader(text, at)
    piece = reader.piece()
    check(piece)
    if not text.startswith(piece.print(), at):
        raise NotEmitted
    return piece


def piece_of(data, block=None):
    """The piece of this number in an emitted file, or its first scanner."""
    text = data.decode("latin-1")
    for mark in BEGIN.finditer(data):
        is_scanner = text.startswith(("\n/*!head:re2c ", "\n/*!names:re2c "), mark.end())
        if int(mark[1]) > MOST or (not is_scanner if block is None else int(mark[1]) != block):
            continue
        try:
            return read_at(text, mark.start())
        except NotEmitted:
            line = text.count("\n", 0, mark.start()) + 1
            raise NotEmitted("%d:%d" % (line, mark.start() - text.rfind("\n", 0, mark.start()))) from None
    raise NotEmitted("1:1")
