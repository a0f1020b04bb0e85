#!/usr/bin/env python3
"""Changes bytes, tokens and lines of the examples, of the blocks of crates/block_cases and of the outputs of both, and runs the program
on what becomes of them.

Usage: tests/fuzz.py COUNT SEED, from anywhere; RE2C names the program (where it is unset, bin/re2c builds it). COUNT is how many cases
are made, and SEED a number: with the same seed and the same program they are the same.

A case is a compilation of a changed source, or a run of a changed output over a small input with a small window and pieces. What is
accepted is compiled again, and its output is run unchanged. Each of these is a finding:

- a status over 4, or a signal; status 4, since nothing here may ask for so much memory; status 3, but where the output has no name;
- more than 10 s of processor time, or more than 1 GiB of memory;
- at the standard error: anything beside status 0; beside another status, anything that is not its message; a message with a text that
  docs/COMMAND.md and docs/LANGUAGE.md do not have, or at a place that its file does not have;
- at the standard output beside a refusal: anything, but the lines of a run before a full window;
- beside a refusal or a run: a file that is new, gone or changed; beside a compilation that is done: the same, but the named output;
- a line of a run that is none of those of docs/COMMAND.md, or that stands where none may stand;
- a compilation that gives other bytes when it is made again;
- an output that does not run, or is in a loop, or runs otherwise through a small window than through one that holds all.

Each finding is told in a line, and kept in a folder of its own with its files, the words (`words`), what was put (`out`, `err`) and
what is wrong (`why`). The last line tells how many cases there were, and how many processes ended with each status. The status is 1
where there is a finding.
"""
import collections
import glob
import os
import random
import re
import resource
import shlex
import shutil
import signal
import subprocess
import sys
import tempfile

ROOT = os.path.dirname(os.path.dirname(os.path.abspath(__file__)))
SECONDS, MEMORY = 10, 1 << 30
# how many findings end the script
MOST = 40

PLACE = re.compile(rb"(.*):([1-9][0-9]*):([1-9][0-9]*): error: (.*)\n", re.DOTALL)
PLAIN = {2: b"re2c: error: read failed\n", 3: b"re2c: error: write failed\n", 4: b"re2c: error: out of memory\n"}
USAGE = b"re2c: error: usage\n"
FULL = rb"window full: \d+ kept, \d+ needed, \d+ in all"
RUN_TEXTS = re.compile(rb"no such file|not emitted text|input is no whole number of units|" + FULL)
TEXTS = re.compile(
    rb"no such file|includes nested too deeply|source too long|emitted mark in source|unknown directive or option missing|"
    rb"block not closed|no token here|syntax error|unknown name '\w+'|defined twice|code point too large|surrogate|empty class|"
    rb"not a class|wrong bounds|tags need an option|tag '\w+' used twice|wrong use of conditions|no rules block to use|"
    rb"unknown configuration '[^'\n]+'|wrong value|no rules|end rule and re2c:eof go together|scanner too large|too many states"
)

OFFSET = rb"(?:-|\d+)"
VALUE = rb" [^ =]+=(?:" + OFFSET + rb"|\[(?:" + OFFSET + rb"(?:," + OFFSET + rb")*)?\])"
MATCH = re.compile(rb"(?:rule|jump) \d+ (\d+) (\d+)(?:" + VALUE + rb")*(?: \(" + OFFSET + rb"," + OFFSET + rb"\))*(?: => [^ ]+)?")
LAST = re.compile(rb"(?:none|end|stuck|loop) \d+ \d+|stop \d+")

TOKENS = re.compile(
    rb"/\*![a-z:0-9]*|\*/|/\*|re2c:[a-z:A-Z]+|[A-Za-z_]\w*|0x[0-9A-Fa-f]+|\d+|\"(?:[^\"\\\n]|\\.)*\"|'(?:[^'\\\n]|\\.)*'|"
    rb"\[(?:[^\]\\\n]|\\.)*\]|\{[0-9,]+\}|:?=>|\\x..|\S"
)
BLOCK = re.compile(rb"/\*![a-z:]*re2c.*?\*/", re.DOTALL)
STATEMENT = re.compile(rb"^\t(?!goto |/\*|case |default|\}|YYCTYPE|unsigned)[^\n]*\n", re.MULTILINE)
PIECE = re.compile(rb"/\*!begin:re2c.*?/\*!end:re2c\*/", re.DOTALL)
NUMBERS = [0, 1, 2, 3, 7, 9, 10, 127, 128, 129, 200, 255, 256, 257, 4095, 4096, 4097, 65535, 65536, 0x10FFFF, 0x110000, 1048576, 1048577]
NUMBERS += [(1 << 31) - 1, 1 << 31, (1 << 32) - 2, (1 << 32) - 1, 1 << 32, 9999999999, 10000000000, (1 << 63) - 1, 1 << 63]
NUMBERS += [(1 << 64) - 1, 1 << 64, 10**30]

# tokens that the examples do not have, for sources and for emitted text
SOURCE_TOKENS = rb"""/*!re2c */ /*!rules:re2c /*!use:re2c /*!ignore:re2c /*!max:re2c*/ /*!maxnmatch:re2c*/ /*!types:re2c*/
/*!getstate:re2c*/ /*!stags:re2c*/ /*!include:re2c "b.re" */ /*!include:re2c "a.re" */ /*!begin:re2c /*!local:re2c /*!re2c:x
/* // " ' [ ] ( ) { } | \ / ; = * + ? . , $ ^ - < > => :=> := <*> <> <!a> <a,b> {0} {1} {2,} {1,3} {3,1} {0,0} {64} {200}
{4096} {4097} {,} { } {x} [] [^] [^a-z] [z-a] [-] [a-] [\x00-\xff] [\u0100-\U0010FFFF] "" '' "a" 'a' "\x00" "\377" "\400"
"\u0100" "\uD800" "\uDFFF" "\uFFFD" "\U0010FFFF" "\U00110000" "\" @t #t @ # @yych #yyt1 re2c:eof re2c:eof=0; re2c:eof=-1;
re2c:eof=255; re2c:eof=256; re2c:yyfill:enable=0; re2c:yyfill:enable=1; re2c:define:YYFILL re2c:define:YYCURSOR="p";
re2c:tags:prefix="yyt1"; re2c:condprefix re2c:indent:top re2c:x re2c: NULL yyt1 yych yynmatch yypmatch""".split()
EMITTED_TOKENS = rb"""/*!begin:re2c /*!end:re2c*/ /*!head:re2c /*!names:re2c /*!code:re2c #line "x" byte ucs2 utf8 utf16 utf32
plain count eof eoffixed custom ++YYCURSOR; yych=*YYCURSOR; YYMARKER=YYCURSOR; YYCURSOR=YYMARKER; YYCURSOR=yyt1;
yyt1=YYCURSOR; yyt1=NULL; yyt2=yyt1; YYMTAGP(yytm1); YYMTAGN(yytm0); yytm1=yytm0; goto yy1_0; goto yy1_1; goto yy1_none;
yyaccept=1; YYSETSTATE(0); YYSETCONDITION(yycx); yynmatch=1; yypmatch[0]=yyt1; YYFILL(1); YYPEEK() YYSKIP(); 0x00 0xFF 0x100
yyt4294967295 yyt1000000 yyt0 yytm1000000 { } */""".split()
STATEMENTS = [
    b"\tyych = *YYCURSOR;\n", b"\t++YYCURSOR;\n", b"\tYYMARKER = YYCURSOR;\n", b"\tYYCURSOR = YYMARKER;\n", b"\tyyaccept = 1;\n",
    b"\tyyt1 = YYCURSOR;\n", b"\tyyt1 = NULL;\n", b"\tyyt2 = yyt1;\n", b"\tYYMTAGP(yytm1);\n", b"\tYYMTAGN(yytm1);\n",
    b"\tyytm1 = yytm0;\n", b"\tif (yych <= 0x61) goto yy1_1;\n", b"\tif (yyaccept == 1) goto yy1_0;\n",
    b"\tif (YYCURSOR >= YYLIMIT) goto yy1_0;\n", b"\tYYSETSTATE(0);\n", b"\tif ((YYLIMIT - YYCURSOR) < 1) YYFILL(1);\n",
    b"\tif (YYFILL() == 0) goto yy1_0;\n", b"\tt = yyt1;\n", b"\tyynmatch = 1;\n", b"\typmatch[0] = yyt1;\n",
    b"\tYYCURSOR = yyt1;\n", b"\tgoto yy1_0;\n", b"\tgoto yy1_none;\n", b"\t/*!code:re2c 1 3*/{ }\n", b"yy1_1:\n",
    b"#line 1 \"a.re\"\n", b"/*!end:re2c*/\n", b"yyc_a:\n",
]  # fmt: skip
LINES = [
    b"re2c:yyfill:enable = 0;\n", b"re2c:yyfill:enable = 1;\n", b"re2c:eof = 0;\n", b"$ { }\n", b"* { }\n", b"[^] { }\n",
    b"\"\" { }\n", b"d = \"ab\" | [x-z]{1,3};\n", b"d+ / \"a\" { }\n", b"<*> * { }\n", b"<a> \"b\" => b { }\n",
    b"<a, b> [a-z] :=> b\n", b"*/\n", b"/*!re2c\n", b"@x \"a\" (#y \"b\")* { }\n", b"(\"a\" | (\"b\")?){2,5} \"c\" { }\n",
    b"c = [^a] \\ [x];\n", b"/*!use:re2c */\n", b"/*!rules:re2c\n", b"/*!include:re2c \"b.re\" */\n",
    b"/*!stags:re2c format = '@@'; separator = ','; */\n", b"/*!mtags:re2c format = \"@@;\"; */\n", b"/*!types:re2c*/\n",
    b"/*!getstate:re2c*/\n", b"/*!max:re2c*/\n", b"/*!maxnmatch:re2c*/\n",
]  # fmt: skip
OPENERS = {b"code": b"/*!re2c", b"rules": b"/*!rules:re2c", b"use": b"/*!use:re2c"}
OPTIONS = ["-i", "-s", "-8", "-x", "-u", "-w", "-T", "--captures", "-P", "-c", "-f", "-r", "--utf-8", "--input=custom"]
OPTIONS += ["--empty-class=match-none", "--empty-class=error", "--empty-class=match-empty"]
OPTIONS += ["--encoding-policy=fail", "--encoding-policy=substitute"]
OPTIONS += ["--encoding-policy=ignore", "-I.", "-Isub", "--tags", "--conditions", "--storable-state", "--nested-ifs", "--no-debug-info"]
OPTIONS += ["--x-block=1", "--x-window=3", "--", "-", "", "--help", "-V", "-o", "-isT", "--x-source=2", "--x-run=in.txt"]
WINDOWS = [1, 2, 3, 4, 5, 6, 7, 8, 10, 13, 16, 24, 32, 64, 4096]

Text = collections.namedtuple("Text", "name options data")
Ending = collections.namedtuple("Ending", "words status out err seconds memory")


class Finding(Exception):
    """What is wrong with a case."""


# ---- changes


def change_byte(rng, text, _pool):
    """Another byte, one more, or one less, in one place."""
    at = rng.randrange(len(text) + 1)
    byte = bytes([rng.choice([rng.randrange(256), rng.randrange(32, 127), 0, 9, 10, 13, 34, 39, 42, 47, 92, 255])])
    return text[:at] + (b"" if rng.random() < 0.3 else byte) + text[at + rng.randrange(2) :]


def change_span(rng, text, _pool):
    """A part of the text less, once more, or many times."""
    first = rng.randrange(len(text) + 1)
    last = min(len(text), first + rng.choice([1, 2, 3, 8, 20, 60, 300]))
    times = rng.choice([0, 0, 0, 2, 2, 3, 3, rng.randrange(4, 200)])
    return (text[:first] + text[first:last] * times + text[last:])[:40_000]


def change_end(rng, text, _pool):
    """The text up to some place."""
    return text[: rng.randrange(len(text) + 1)]


def change_token(rng, text, pool):
    """Another token, one more, one less, or two that changed their places."""
    spans = [it.span() for it in TOKENS.finditer(text)]
    if not spans:
        return rng.choice(pool.tokens)
    first, last = rng.choice(spans)
    way = rng.random()
    if way < 0.15:
        return text[:first] + text[last:]
    if way < 0.3:
        begin, end = rng.choice(spans)
        begin, end, first, last = (begin, end, first, last) if begin < first else (first, last, begin, end)
        return text[:begin] + text[first:last] + text[end:first] + text[begin:end] + text[last:] if end <= first else text
    token = rng.choice(pool.tokens)
    return text[:first] + (token if way < 0.65 else token + b" " + text[first:last]) + text[last:]


def change_number(rng, text, _pool):
    """Another number."""
    spans = [it.span() for it in re.finditer(rb"(?<=0x)[0-9A-F]+|\d+", text)]
    if not spans:
        return text
    first, last = rng.choice(spans)
    old = text[first:last]
    if text[first - 2 : first] == b"0x":
        return text[:first] + b"%02X" % rng.choice(NUMBERS[:24]) + text[last:]
    near = int(old[:12]) + rng.choice([-1, 1, 1, 2])
    new = b"%d" % max(near, 0) if rng.random() < 0.4 else rng.choice([b"%d" % rng.choice(NUMBERS), b"%d" % rng.randrange(12), b"0" + old])
    return text[:first] + new + text[last:]


def change_line(rng, text, pool):
    """A line less, once more, elsewhere, or one of another text."""
    lines = text.splitlines(True) or [b"\n"]
    at, to = rng.randrange(len(lines)), rng.randrange(len(lines))
    way = rng.random()
    if way < 0.2:
        del lines[at]
    elif way < 0.4:
        lines[at], lines[to] = lines[to], lines[at]
    elif way < 0.55:
        lines.insert(to, lines[at])
    else:
        lines.insert(at, rng.choice(pool.lines))
    return b"".join(lines)


def change_target(rng, text, _pool):
    """Another target of a jump of emitted text."""
    spans, labels = [it.span(1) for it in re.finditer(rb"goto (\w+);", text)], re.findall(rb"^(yy\w+):", text, re.MULTILINE)
    if not spans or not labels:
        return text
    first, last = rng.choice(spans)
    return text[:first] + rng.choice(labels) + text[last:]


def change_statement(rng, text, _pool):
    """A statement of emitted text less, or one more that stands elsewhere; none of those that end a block."""
    spans = [it.span() for it in STATEMENT.finditer(text)]
    if not spans:
        return text
    first, last = rng.choice(spans)
    if rng.random() < 0.4:
        return text[:first] + text[last:]
    begin, end = rng.choice(spans)
    return text[:first] + text[begin:end] + text[first:]


COARSE = [change_byte, change_byte, change_span, change_token, change_token, change_token, change_number, change_line, change_line]
FINE = [change_target, change_target, change_statement, change_statement, change_number]
INNER = {"source": re.compile(rb"(?<=re2c)\s.*?(?=\*/)", re.DOTALL), "emitted": re.compile(rb"(?<=\{\n)\t.*?(?=\n\}\n/\*!end)", re.DOTALL)}


def changed(rng, text, pool, kind):
    """The text, changed some times: mostly inside of its blocks, or of its pieces."""
    ways = FINE if kind == "emitted" and rng.random() < 0.6 else COARSE
    for _ in range(rng.choice([1, 1, 1, 1, 2, 2, 3, 5, 9])):
        spans = [it.span() for it in INNER[kind].finditer(text)]
        first, last = rng.choice(spans) if spans and rng.random() < 0.8 else (0, len(text))
        text = text[:first] + rng.choice(ways)(rng, text[first:last], pool) + text[last:]
    return change_end(rng, text, pool) if rng.random() < 0.03 else text


# ---- texts


class Pool:
    """Texts of which cases are made, with their tokens and lines."""

    def __init__(self, tokens, lines):
        self.texts, self.weights, self.added, self.tokens, self.lines = [], [], 0, list(tokens) * 3, list(lines) * 3

    def add(self, text):
        """Adds a text, which is chosen the less the longer it is; the oldest leaves where there are many."""
        if len(self.texts) >= 1000:
            at = self.added % 1000
            self.texts[at], self.weights[at] = text, 1 / (1000 + len(text.data))
        else:
            self.texts.append(text)
            self.weights.append(1 / (1000 + len(text.data)))
        self.added += 1

    def learn(self, data):
        """Takes the tokens and lines of a text, those of a part of it where it is long."""
        self.tokens += [it[0] for it in TOKENS.finditer(data[:6000])]
        self.lines += data[:6000].splitlines(True)

    def choose(self, rng):
        return rng.choices(self.texts, self.weights)[0]


def options_of(data):
    """The options with which an example is compiled: those that its first line tells, and its encoding."""
    told = re.search(rb"with (-.*?)\. ", data[:200].splitlines()[0] + b" ")
    return shlex.split(told[1].decode()) if told else []


def examples():
    """The pool of the examples, each as it is, and each with what stands in blocks alone."""
    pool = Pool(SOURCE_TOKENS, LINES)
    for path in sorted(glob.glob(f"{ROOT}/examples/*.re") + glob.glob(f"{ROOT}/examples/*.c")):
        with open(path, "rb") as given:
            data = given.read()
        name = os.path.basename(path)
        options = {"utf_8.re": ["-8"], "utf_16.re": ["-x"], "utf_32.re": ["-u"], "unicode_letters.re": ["-8"]}.get(name) or options_of(data)
        pool.add(Text(name, options, data))
        pool.learn(data)
        if BLOCK.search(data):
            blocks = b"\n".join(it[0] for it in BLOCK.finditer(data)) + b"\n"
            pool.add(Text(name, options, blocks))
    return pool


def of_cases():
    """The pool of the blocks of crates/block_cases, but those at the limits."""
    pool = Pool(SOURCE_TOKENS, LINES)
    for path in sorted(glob.glob(f"{ROOT}/crates/block_cases/data/*.txt")):
        if path.endswith("limits.txt"):
            continue
        with open(path, "rb") as given:
            cases = re.split(rb"(?m)^case .*\n", given.read())[1:]
        for case in cases:
            options = re.search(rb"(?m)^options (.*)", case)
            options = [it for it in options[1].decode().split() if it != "-P"] if options else []
            blocks = re.findall(rb"(?m)^(code|rules|use)\n((?:\|.*\n)*)", case)
            data = b"".join(OPENERS[kind] + re.sub(rb"(?m)^\| ?", b"", body) + b"*/\n" for kind, body in blocks)
            pool.add(Text("", options, data))
            pool.learn(data)
    return pool


# ---- the program


class Program:
    """The program, run in a folder where it finds its files."""

    def __init__(self, path):
        self.path, self.statuses, self.child = path, collections.Counter(), 0
        flags = os.O_WRONLY | os.O_CREAT | os.O_TRUNC
        self.files = [
            (os.POSIX_SPAWN_OPEN, 0, "/dev/null", os.O_RDONLY, 0),
            (os.POSIX_SPAWN_OPEN, 1, "../out", flags, 0o644),
            (os.POSIX_SPAWN_OPEN, 2, "../err", flags, 0o644),
        ]
        signal.signal(signal.SIGALRM, lambda *_: os.kill(self.child, signal.SIGKILL))

    def run(self, words):
        """Runs it with some words, and gives how it ended."""
        self.child = os.posix_spawn(self.path, [b"re2c"] + words, {}, file_actions=self.files)
        resource.prlimit(self.child, resource.RLIMIT_CPU, (SECONDS, SECONDS + 1))
        signal.alarm(12 * SECONDS)
        _, status, usage = os.wait4(self.child, 0)
        signal.alarm(0)
        status = os.waitstatus_to_exitcode(status)
        self.statuses[status] += 1
        return Ending(words, status, read("../out"), read("../err"), usage.ru_utime + usage.ru_stime, usage.ru_maxrss << 10)


def read(name):
    with open(name, "rb") as given:
        return given.read()


def write(name, data):
    with open(name, "wb") as given:
        given.write(data)


# ---- checks


def check_costs(it):
    if it.status not in range(5):
        raise Finding(f"status {it.status}")
    if it.status == 4:
        raise Finding("out of memory")
    if it.seconds > SECONDS or it.memory > MEMORY:
        raise Finding(f"{it.seconds:.1f} s and {it.memory >> 20} MiB")


def check_place(message, files):
    """A place stands in its file, or right behind its end."""
    name, line, column = message[1].decode("utf-8", "surrogateescape"), int(message[2]), int(message[3])
    data = files.get(os.path.normpath(name))
    if data is None:
        if message[4] == b"no such file" and line == column == 1:
            return
        raise Finding("a message about another file")
    lines = data.split(b"\n")
    if line > len(lines) or column > len(lines[line - 1]) + 1:
        raise Finding("a message at a place that its file does not have")


def check_message(it, files, texts):
    """What stands at the standard error is the message of the status."""
    if it.status == 0:
        if it.err:
            raise Finding("a message beside status 0")
        return
    if it.status in PLAIN:
        if it.err != PLAIN[it.status]:
            raise Finding("another message than that of its status")
        return
    if it.err == USAGE:
        return
    message = PLACE.fullmatch(it.err)
    if not message or b"\n" in message[1] or b"\n" in message[4]:
        raise Finding("no message of the form")
    if not texts.fullmatch(message[4]):
        raise Finding("an unknown message")
    check_place(message, files)


def check_files(files, but=None):
    """The files of the folder are those that were given, but for one."""
    found = {os.path.join(folder, name)[2:] for folder, _, names in os.walk(".") for name in names}
    for name in sorted((found | set(files)) - {but}):
        if name not in found or name not in files or read(name) != files[name]:
            raise Finding(f"the file {name} is new, gone or changed")


def check_lines(it):
    """The lines of a run: those of matches, and an end where it was done."""
    if it.out and not it.out.endswith(b"\n"):
        raise Finding("a line without its end")
    lines = it.out.split(b"\n")[:-1]
    if it.status == 0 and not (lines and LAST.fullmatch(lines.pop())):
        raise Finding("no end of the run")
    at = 0
    for line in lines:
        match = MATCH.fullmatch(line)
        if not match or int(match[1]) != at:
            raise Finding("a line of no form, or not where the last match ended")
        at = int(match[2])


def is_full(it):
    return it.status == 1 and b": error: window full: " in it.err


# ---- cases


class Fuzzer:
    """Makes cases, and keeps those in which something is wrong."""

    def __init__(self, seed, program, work):
        self.rng, self.program, self.work, self.seed = random.Random(seed), program, work, seed
        self.sources, self.blocks, self.emitted, self.found, self.case = examples(), of_cases(), Pool(EMITTED_TOKENS, STATEMENTS), 0, 0
        self.shared = next(it.data for it in self.sources.texts if it.name == "shared_rules.re")
        self.files, self.inputs, self.last = {}, [b"", b"a", b"ab 12\n"], None

    def chance(self, part):
        return self.rng.random() < part

    def give(self, files):
        """Puts files in the folder, and takes away those of the last case."""
        for name in set(os.listdir(".")) - set(files) - {"sub"}:
            os.remove(name)
        for name, data in files.items():
            write(name, data)
        self.files = files

    def run(self, words):
        self.last = self.program.run([os.fsencode(it) for it in words])
        check_costs(self.last)
        return self.last

    # -- compilations

    def options(self, text):
        """The options of a compilation: mostly those of the example, and some others."""
        rng = self.rng
        words = list(text.options) if self.chance(0.8) else []
        words += rng.sample(OPTIONS[:27], rng.choice([0, 0, 0, 0, 1, 1, 2, 4]))
        if self.chance(0.03):
            words += rng.choices(OPTIONS, k=2)
        return words if self.chance(0.3) else ["-i"] + words

    def compilation(self):
        """Compiles a changed source, and what is accepted once more."""
        rng, pool = self.rng, self.sources if self.chance(0.6) else self.blocks
        text = pool.choose(rng)
        source = text.data if self.chance(0.02) else changed(rng, text.data, pool, "source")
        shared = changed(rng, self.shared, self.sources, "source") if self.chance(0.05) else self.shared
        files = {"a.re": source, "b.re": self.sources.choose(rng).data if self.chance(0.1) else b"/*!re2c d = [0-9]; */\n"}
        files |= {"shared_rules.re": shared, "old.c": b"old\n", "sub/c.re": b"/*!include:re2c \"b.re\" */"}
        options, output = self.options(text), rng.choice([None, None, None, "old.c", "new.c"])
        if self.chance(0.01):
            output = "a.re"
        if self.chance(0.02):
            self.compile(files, self.mangled(options + ["-o", "new.c", "a.re"]))
        else:
            self.compile_twice(files, options, output)

    def mangled(self, words):
        """Words with a byte changed, or in another order; none leads out of the folder."""
        words = list(words)
        at = self.rng.randrange(len(words))
        if self.chance(0.5):
            self.rng.shuffle(words)
        else:
            words[at] = os.fsdecode(change_byte(self.rng, os.fsencode(words[at]), None).replace(b"\0", b"0"))
        return [it for it in words if "/" not in it]

    def compile(self, files, words):
        """Compiles a source, or does what else the words say."""
        self.give(files)
        it = self.run(words)
        check_message(it, files, RUN_TEXTS if any(word.startswith("--x-run") for word in words) else TEXTS)
        if it.status == 3 and not {"", ".", "-o."} & set(words):
            raise Finding("a write failed")
        if it.status != 0:
            check_files(files)
            if it.out:
                raise Finding("an output beside a refusal")
        return it

    def compile_twice(self, files, options, output):
        """Compiles a source to a file or to the standard output, and to the other of these where it is accepted."""
        to = ["-o", output] if output else []
        it = self.compile(files, to + options + ["a.re"])
        if it.status != 0 or any(word.startswith("--x-") for word in options):
            return
        if it.out and (output or "-o" in options):
            raise Finding("an output at the standard output beside -o")
        if "-o" in options:
            return
        check_files(files, output)
        made = read(output) if output else it.out
        it = self.compile(files, ([] if output else ["-o", "new.c"]) + options + ["a.re"])
        if it.status != 0 or made != (it.out if output else read("new.c")):
            raise Finding("other bytes when it is compiled again")
        self.run_made(made)

    def run_made(self, made):
        """Runs an output as it is, and keeps it for later cases."""
        self.look_at_run(made, self.input(), True)
        if b"/*!head:re2c " in made and len(made) < 12_000:
            if self.chance(0.3) and PIECE.search(made):
                made = b"\n".join(it[0] for it in PIECE.finditer(made)) + b"\n"
            self.emitted.add(Text("", [], made))
            if len(self.emitted.tokens) < 20_000:
                self.emitted.learn(made)

    # -- runs

    def input(self):
        """A small input: some bytes of an example, or of few letters."""
        rng = self.rng
        length = rng.choice([0, 1, 2, 4, 8, 16, 32, 64])
        if self.chance(0.5):
            data = self.sources.choose(rng).data
            at = rng.randrange(len(data) + 1)
            return data[at : at + length]
        letters = rng.choice([b"ab", b"ab1 \n", b"if else while", b"\0a", b"0x1f.", bytes(range(256))])
        return bytes(rng.choice(letters) for _ in range(length))

    def run_emitted(self):
        """Runs a changed output."""
        rng = self.rng
        if not self.emitted.texts:
            return self.compilation()
        text = self.emitted.choose(rng).data
        alike = self.chance(0.05)
        return self.look_at_run(text if alike else changed(rng, text, self.emitted, "emitted"), self.input(), alike)

    def look_at_run(self, emitted, given, alike):
        """Runs emitted text over an input, and where it is as it was made, through a great window as well."""
        rng = self.rng
        files = {"e.c": emitted, "in.txt": given, "old.c": b"old\n", "sub/c.re": b"/*!include:re2c \"b.re\" */"}
        numbers = [int(it) for it in re.findall(rb"/\*!begin:re2c (\d{1,9})\*/", emitted)]
        block = rng.choice(numbers + [1]) if self.chance(0.5) else None
        block = rng.choice(NUMBERS) if self.chance(0.02) else block
        words = ["--x-run", "in.txt"] + (["--x-block", str(block)] if block is not None else [])
        sizes = [f"--x-window={rng.choice(WINDOWS)}", f"--x-piece={rng.choice(WINDOWS)}"]
        words, small = words + ["e.c"], words + [it for it in sizes if self.chance(0.85)] + ["e.c"]
        self.give(files)
        it = self.run_once(small)
        if alike:
            self.check_made(it, words, emitted, block)

    def run_once(self, words):
        it = self.run(words)
        check_message(it, self.files, RUN_TEXTS)
        check_files(self.files)
        if it.status == 1 and it.out and not is_full(it):
            raise Finding("lines beside a refusal")
        check_lines(it)
        return it

    def check_made(self, small, words, emitted, block):
        """An output runs where it has such a scanner, and in the same way through windows of all sizes."""
        mark = rb"/\*!begin:re2c %s\*/\n/\*!head:re2c " % (b"%d" % block if block is not None else rb"\d+")
        refused = b"not emitted text" in small.err or small.err == USAGE
        if bool(re.search(mark, emitted)) == refused:
            raise Finding("an output that does not run, or what is none that does")
        if small.out.startswith(b"loop ") or b"\nloop " in small.out:
            raise Finding("an output in a loop")
        great = self.run_once(words)
        if is_full(great) or (small.status == great.status and small.out == great.out and small.err == great.err):
            return
        if not (is_full(small) and great.out.startswith(small.out)):
            raise Finding("a run that depends on its window")

    # -- all of them

    def step(self):
        self.case += 1
        try:
            if self.chance(0.5):
                self.compilation()
            else:
                self.run_emitted()
        except Finding as why:
            self.keep(str(why))

    def keep(self, why):
        """Keeps a case with its words."""
        self.found += 1
        folder = f"{self.work}/seed{self.seed}-case{self.case}"
        shutil.copytree(".", folder)
        words = " ".join(shlex.quote(os.fsdecode(word)) for word in self.last.words)
        for name, data in self.files.items():
            write(f"{folder}/{name}", data)
        told = {"words": os.fsencode(words + "\n"), "out": self.last.out, "err": self.last.err, "why": why.encode() + b"\n"}
        for name, data in told.items():
            write(f"{folder}/{name}", data)
        print(f"fuzz: {why}: {folder}", flush=True)


def program():
    """The path of the program, which is built where none is named."""
    if os.environ.get("RE2C"):
        return os.path.abspath(os.environ["RE2C"])
    subprocess.check_call([f"{ROOT}/bin/re2c", "-i", f"{ROOT}/examples/quoted.re"], stdout=subprocess.DEVNULL)
    return f"{ROOT}/crates/re2c/out/re2c"


def main(words):
    count, seed = int(words[1]), int(words[2])
    work = tempfile.mkdtemp(prefix="fuzz-", dir="/dev/shm" if os.path.isdir("/dev/shm") else None)
    fuzzer = Fuzzer(seed, Program(program()), work)
    os.makedirs(f"{work}/case/sub")
    os.chdir(f"{work}/case")
    while fuzzer.case < count and fuzzer.found < MOST:
        fuzzer.step()
    os.chdir(ROOT)
    statuses = ", ".join(f"{number} of status {status}" for status, number in sorted(fuzzer.program.statuses.items()))
    processes = sum(fuzzer.program.statuses.values())
    print(f"fuzz: {fuzzer.case} cases with the seed {seed}, {fuzzer.found} findings; {processes} processes: {statuses}")
    if not fuzzer.found:
        shutil.rmtree(work)
    return fuzzer.found > 0


if __name__ == "__main__":
    sys.exit(main(sys.argv))
