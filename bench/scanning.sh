#!/bin/sh
# Measures how fast the lexer of 40 rules (tests/c/lexer.rules) scans, in both formats of emitted text, beside scanners of the same rules by the
# original re2c: as it works without options but `-i -T`, with `-s` (nested tests), with `-b` (nested tests and tables of bits), and with `-g`
# (tables of bits and of addresses). Where no original is there, only ours are measured.
# The texts are C headers and C sources of this machine, and JSON and the log of a web server, which are made with a seed. Where the
# machine has under 1 MiB of C sources, C++ headers stand for them. Each text is repeated up to its size.
#
# The actions count matches by their rule, and add up the lengths between the two tags. Each scanner is compiled twice by each compiler:
# with a cursor that is a local variable of one call for the whole text, and with a cursor that is a global variable and a call for each
# match. Compilers are `gcc -O2` and `clang -O2` where they are there; each has 60 s and 4 GiB. All scanners of a compiler and a cursor stand in
# one program, each at four places of a line of 64 bytes (bench/places.py), and take turns. At each place the best turn counts, in seconds of
# the processor, and of the places the mean. The rules and ends of all matches have to be the same for all scanners.
#
# A ratio is the speed of a scanner of format 3 by that of another one. It fails where one of these goals is not met:
# - at least 0.95 of the best of the original without options, with -s and with -b, on every text, with every compiler and cursor, and
#   1.04 in the mean of these;
# - at least 1.00 of the original with -s, on every text, with every compiler and cursor;
# - on C headers at least 0.85 of the original without options with gcc, and at least 0.90 with clang.
#
# Then it shows the tests of a unit for each state: the greatest number of tests that a unit may need, and on each text the mean number
# of those that were made, behind the share of the text's reads that the state has. A switch counts as one test.
#
# Usage: bench/scanning.sh [MEGABYTES [TURNS [PICTURE]]], from anywhere; a text has MEGABYTES MiB (64 where the word is left out), and each
# scanner TURNS turns at each place (7). The ratios are drawn into the file PICTURE, an SVG, where it is named. RE2C names the program (that of bin/re2c
# where it is unset), and ORIGINAL the original (re2c where it is unset).
from=$(pwd)
cd "$(dirname "$0")/.." || exit 1
work=$(mktemp -d) || exit 1
trap 'rm -rf "$work"' EXIT
program=${RE2C:-}
if [ -z "$program" ]; then
    bin/re2c -i examples/quoted.re > /dev/null || { echo "scanning: no program" >&2; exit 1; }
    program=$(find crates/re2c/out -maxdepth 1 -type f -name re2c | head -1)
fi
picture=${3:-}
case $picture in
    '' | /*) ;;
    *) picture=$from/$picture ;;
esac

cat > "$work/scanning.h" <<'C'
#include <stddef.h>
#define YYCTYPE unsigned char

extern unsigned long counts[41]; /* matches by their rule */
extern unsigned long spans; /* what lies between tags, in all */
#ifdef CHECKED
extern const YYCTYPE *text;
extern unsigned long ends; /* a sum of the ends and rules of all matches */
#define NOTE(rule) (ends = ends * 31 + (unsigned long)(YYCURSOR - text) * 41 + rule)
#else
#define NOTE(rule) (void)0
#endif
#ifdef STATES
extern unsigned long units[STATES][256]; /* reads by state and unit */
#endif

#ifdef GLOBAL
extern const YYCTYPE *YYCURSOR;
#define DECLARED const YYCTYPE *YYCURSOR; int lex(void)
#define MATCHED(rule) { NOTE(rule); ++counts[rule]; return rule; }
int lex(void);
#else
#define DECLARED int lex(const YYCTYPE *YYCURSOR)
#define MATCHED(rule) { NOTE(rule); ++counts[rule]; continue; }
int lex(const YYCTYPE *YYCURSOR);
#endif
C
cat > "$work/main.c" <<'C'
#include <stdio.h>
#include <stdlib.h>
#include <time.h>
#include "scanning.h"
unsigned long counts[41], spans;
#ifdef CHECKED
const YYCTYPE *text;
unsigned long ends;
#endif
#ifdef STATES
unsigned long units[STATES][256];
#endif

static YYCTYPE *whole_of(const char *name)
{
    FILE *file = fopen(name, "rb");
    long size;
    YYCTYPE *whole;

    if (!file || fseek(file, 0, SEEK_END) || (size = ftell(file)) < 0 || !(whole = calloc((size_t)size + 1, 1)))
        exit(1);
    rewind(file);
    if (fread(whole, 1, (size_t)size, file) != (size_t)size)
        exit(1);
    return whole;
}

int main(int count, char **words)
{
    YYCTYPE *whole = whole_of(words[count - 1]);
    unsigned long sum = 0;
    clock_t begun;

#ifdef CHECKED
    text = whole;
#endif
    begun = clock();
#ifdef GLOBAL
    YYCURSOR = whole;
    while (lex())
        ;
#else
    lex(whole);
#endif
    printf("%f ", (double)(clock() - begun) / CLOCKS_PER_SEC);
    for (int rule = 0; rule < 41; ++rule)
        sum = sum * 31 + counts[rule];
    printf("%lx", sum * 31 + spans);
#ifdef CHECKED
    printf(" %lx", ends);
#endif
#ifdef STATES
    for (int state = 0; state < STATES; ++state)
        for (int unit = 0; unit < 256; ++unit)
            if (units[state][unit])
                printf("\n%d %d %lu", state, unit, units[state][unit]);
#endif
    puts("");
    return 0;
}
C
# what a turn begins with, and what it gave
cat > "$work/front.h" <<'C'
#include <string.h>
unsigned long counts[41], spans;

static void begin(void)
{
    memset(counts, 0, sizeof counts);
    spans = 0;
}

static unsigned long result(void)
{
    unsigned long sum = 0;

    for (int rule = 0; rule < 41; ++rule)
        sum = sum * 31 + counts[rule];
    return sum * 31 + spans;
}
C
PYTHONPATH=bench PYTHONDONTWRITEBYTECODE=1 python3 - "$work" "$program" "${ORIGINAL:-re2c}" "${1:-64}" "${2:-7}" "$picture" <<'PYTHON'
import json, os, random, re, resource, shutil, subprocess, sys
from places import WHOLE, Timed
work, program, original, megabytes, turns, picture = sys.argv[1:]
SIZE = int(megabytes) << 20
TURNS = int(turns)
MADE = min(SIZE, 16 << 20)
TEXTS = ('C headers', 'C sources', 'JSON', 'logs')
OURS, TWO, DEFAULT, NESTED, BITS, GOTOS = 'format 3', 'format 2', 'default', '-s', '-b', '-g'
CURSORS = {'local': [], 'global': ['-DGLOBAL']}
LEAST = {'gcc': 0.85, 'clang': 0.9}
# of the best of these, in each cell and in the mean
BEST_OF = DEFAULT, NESTED, BITS
CELL, MEAN = 0.95, 1.04
LABEL = re.compile(r'(yy[0-9]+_[0-9]+):')
TEST = re.compile(r'\tif \((?:yych (<=|==) 0x([0-9A-F]+)|yybm\[(?:0x([0-9A-F]+) \+ )?yych\] & 0x([0-9A-F]+))\) goto (yy[0-9]+_[0-9]+);')
CASES = re.compile(r'\t(case .*|default: )goto (yy[0-9]+_[0-9]+);')
ROW = re.compile(r'\t((?:0x[0-9A-F]{2},){16})')
GOTO = re.compile(r'\tgoto (yy[0-9]+_[0-9]+);')
PEEK = '\tyych = *YYCURSOR;'
PIECE = 'piece'


def source():
    """Returns a source with the rules of the lexer, whose actions count."""
    rules = open('tests/c/lexer.rules').read()
    rules = re.sub(r'\{ return 1; \}', '{ return 0; }', rules, count=1)
    rules = re.sub(r'\{ return 17; \}', '{ spans += (unsigned long)(dot - whole); MATCHED(17) }', rules)
    rules = re.sub(r'\{ return ([1-9][0-9]*); \}', r'{ MATCHED(\1) }', rules)
    return ('#include "scanning.h"\n\nDECLARED\n{\n\tconst YYCTYPE *YYMARKER, *whole, *dot;\n'
            '\t/*!stags:re2c format = "const YYCTYPE *@@;"; separator = "\\n\\t"; */\n\n'
            f'\tfor (;;) {{\n/*!re2c\nre2c:yyfill:enable = 0;\n{rules}*/\n\t}}\n}}\n')


def files(folders, wanted):
    """Returns what the files with a wanted name hold, in the order of their paths, up to the size of a text."""
    paths = []
    for folder in folders:
        for place, _, names in os.walk(folder):
            paths += [os.path.join(place, name) for name in names if wanted(os.path.join(place, name))]
    parts, length = [], 0
    for path in sorted(paths):
        if length >= SIZE or os.path.islink(path) or not os.path.isfile(path):
            continue
        with open(path, 'rb') as file:
            parts.append(file.read().replace(b'\0', b''))
        length += len(parts[-1])
    return b''.join(parts)


def headers():
    return files(('/usr/include', '/usr/lib/gcc'), lambda path: path.endswith('.h'))


def c_sources():
    found = files(('/usr', '/opt', '/home', '/root'), lambda path: path.endswith('.c'))
    if len(found) >= 1 << 20:
        return found
    return files(('/usr/include', '/usr/lib'), lambda path: '/c++/' in path or path.endswith('.hpp'))


def word(rng, least=1, most=10):
    return ''.join(rng.choices('abcdefghijklmnopqrstuvwxyz0123456789-_', k=rng.randrange(least, most)))


def words(rng, most):
    return ' '.join(word(rng) for _ in range(rng.randrange(1, most)))


def value(rng, depth):
    """Returns a value of JSON."""
    kind = rng.random()
    if kind < 0.35:
        return words(rng, 6) + rng.choice(('', '', '', '\n', '"', '\\', '\u00e9'))
    if kind < 0.55:
        return rng.randrange(10 ** rng.randrange(1, 10))
    if kind < 0.7:
        return round(rng.uniform(-1000, 1000), rng.randrange(1, 7))
    if kind < 0.8:
        return rng.choice((True, False, None))
    if depth == 0:
        return rng.random() * 10.0 ** rng.randrange(-20, 20)
    if kind < 0.9:
        return [value(rng, depth - 1) for _ in range(rng.randrange(8))]
    return {word(rng, 2, 12): value(rng, depth - 1) for _ in range(rng.randrange(8))}


def record(rng):
    """Returns a line or a few of JSON: an object, half of them with indentation."""
    given = {'id': rng.randrange(1 << 32), 'name': words(rng, 4)}
    given |= {word(rng, 3, 12): value(rng, 3) for _ in range(rng.randrange(2, 10))}
    return json.dumps(given, indent=rng.choice((None, 2))) + ',\n'


def path(rng):
    return ''.join('/' + word(rng) for _ in range(rng.randrange(1, 6))) + ('/' if rng.random() < 0.3 else '')


def log_line(rng):
    """Returns a line of a web server's log."""
    query = '&'.join(f'{word(rng, 1, 5)}={word(rng)}%2{rng.randrange(10)}' for _ in range(rng.randrange(1, 4)))
    target = path(rng) + ('?' + query if rng.random() < 0.3 else '')
    return (f'{".".join(str(rng.randrange(256)) for _ in range(4))} - {word(rng) if rng.random() < 0.2 else "-"} '
            f'[{rng.randrange(1, 32):02}/{rng.choice(("Jan", "May", "Oct"))}/{rng.randrange(2000, 2030)}:{rng.randrange(24):02}:'
            f'{rng.randrange(60):02}:{rng.randrange(60):02} +0{rng.randrange(10)}00] "{rng.choice(("GET", "GET", "POST", "HEAD"))} '
            f'{target} HTTP/1.{rng.randrange(2)}" {rng.choice((200, 200, 304, 404))} {rng.randrange(100000)} '
            f'"{"https://" + word(rng) + path(rng) if rng.random() < 0.6 else "-"}" "{words(rng, 12)} ({word(rng)}; {word(rng)})"\n')


def made(part):
    """Returns a text of parts that are made with a seed."""
    rng, parts, length = random.Random(1), [], 0
    while length < MADE:
        parts.append(part(rng))
        length += len(parts[-1])
    return ''.join(parts).encode()


def file_of(text):
    return f'{work}/{text.replace(" ", "_")}.text'


def write_texts():
    """Writes each text, and prints how much of it is not repeated."""
    makers = (headers, c_sources, lambda: made(record), lambda: made(log_line))
    for text, maker in zip(TEXTS, makers):
        found = maker()[:SIZE]
        if not found:
            raise SystemExit(f'scanning: there are no {text}')
        with open(file_of(text), 'wb') as file:
            file.write((found * (SIZE // len(found) + 1))[:SIZE])
        print(f'{text}: {SIZE >> 20} MiB, of which {len(found) / (1 << 20):.1f} MiB are not repeated')
    print(flush=True)


def limited():
    for what, most in ((resource.RLIMIT_CORE, 0), (resource.RLIMIT_CPU, 60), (resource.RLIMIT_AS, 4 << 30)):
        resource.setrlimit(what, (most, most))


def compiled(compiler, options, made, to):
    """Compiles a scanner within limits, and returns its file."""
    command = [compiler, '-O2', '-w', '-I', work, *options, '-o', to, made, f'{work}/main.c']
    if subprocess.run(command, preexec_fn=limited).returncode != 0:
        raise SystemExit(f'scanning: {compiler} fails on {made}')
    return to


def lines_of(scanner, text):
    return subprocess.run([scanner, file_of(text)], stdout=subprocess.PIPE, check=True, text=True).stdout.splitlines()


def check(compiler, scanners):
    """Fails where two scanners do not match the same on a text."""
    for cursor, options in CURSORS.items():
        checked = {maker: compiled(compiler, options + ['-DCHECKED'], made, f'{made}.{cursor}.checked') for maker, made in scanners.items()}
        for text in TEXTS:
            if len({tuple(lines_of(scanner, text)[0].split()[1:]) for scanner in checked.values()}) > 1:
                raise SystemExit(f'scanning: the scanners differ on {text}')


def timed(compiler, cursor, scanners):
    """Returns a program with all scanners by a compiler, with a cursor."""
    folder = f'{work}/{compiler}_{cursor}'
    os.mkdir(folder)
    shutil.copy(f'{work}/front.h', folder)
    program = Timed(folder, compiler, WHOLE + '#include "front.h"', limited)
    for maker, made in scanners.items():
        more = lambda named: [f'-DYYCURSOR=cursor_{named}'] if cursor == 'global' else []
        words = lambda named: [compiler, '-O2', '-w', '-I', work, *CURSORS[cursor], *more(named), f'-Dlex=lex_{named}', made]
        if not program.add(maker, words, RUNS[cursor]):
            raise SystemExit(f'scanning: {compiler} fails on {made}')
    return program


RUNS = {
    'local': lambda named: (f'int lex_{named}(const unsigned char *);\n'
                            f'static void run_{named}(void) {{ lex_{named}(whole); }}'),
    'global': lambda named: (f'extern const unsigned char *cursor_{named};\nint lex_{named}(void);\n'
                             f'static void run_{named}(void) {{ cursor_{named} = whole; while (lex_{named}()) ; }}'),
}


def blocks(made):
    """Returns the statements of each block of this re2c's scanner, and its table of sets. The first block may have no label: it is called `start`."""
    found, label, table = {}, None, []
    for line in open(made).read().splitlines():
        begun, row = LABEL.fullmatch(line), ROW.fullmatch(line)
        if row:
            table += [int(byte, 16) for byte in row[1].rstrip(',').split(',')]
        elif begun or (line == '' and PIECE in found and label == PIECE):
            label = begun[1] if begun else 'start'
            found[label] = []
        elif line.startswith('/*!names:re2c'):
            label = PIECE
            found[label] = []
        elif label:
            found[label].append(line)
    del found[PIECE]
    return found, table


def holds(test, table, unit):
    """Returns whether a test of a unit holds."""
    if test[1]:
        return unit <= int(test[2], 16) if test[1] == '<=' else unit == int(test[2], 16)
    return bool(table[int(test[3] or '0', 16) + unit] & int(test[4], 16))


def tests(found, table, label, unit):
    """Returns how many tests a unit has behind the read of a block."""
    count, left = 0, found[label][found[label].index(PEEK) + 1:]
    while left:
        test, jump, cases = TEST.fullmatch(left[0]), GOTO.fullmatch(left[0]), CASES.fullmatch(left[0])
        count += test is not None or left[0] == '\tswitch (yych) {'
        if test and holds(test, table, unit):
            left = found[test[5]]
        elif cases and (cases[1] == 'default: ' or f'case 0x{unit:02X}: ' in cases[1]):
            left = found[cases[2]]
        elif test or cases or left[0] == '\tswitch (yych) {':
            left = left[1:]
        else:
            left = found[jump[1]] if jump else []
    return count


def reads(compiler, made, states):
    """Returns how often each state of this re2c's scanner reads each unit of each text."""
    counting, label = f'{made[:-2]}_reads.c', None
    with open(counting, 'w') as file:
        for line in open(made).read().splitlines():
            begun = LABEL.fullmatch(line)
            label = begun[1] if begun else 'start' if line == '' and label == PIECE else PIECE if line.startswith('/*!names:re2c') else label
            file.write(line + (f' ++units[{states.index(label)}][yych];' if line == PEEK else '') + '\n')
    scanner = compiled(compiler, [f'-DSTATES={len(states)}'], counting, counting[:-2])
    found = {}
    for text in TEXTS:
        rows = [list(map(int, line.split())) for line in lines_of(scanner, text)[1:]]
        found[text] = {(state, unit): count for state, unit, count in rows}
    return found


def mean(counted, needed, state=None):
    """Returns how many reads a state has, or all states have, and the mean number of their tests."""
    of = [(count, needed[key]) for key, count in counted.items() if state in (None, key[0])]
    total = sum(count for count, _ in of)
    return total, sum(count * many for count, many in of) / max(total, 1)


def show_tests(compiler, maker, made):
    """Prints the tests of each state that is read."""
    found, rows = blocks(made)
    states = [label for label, lines in found.items() if PEEK in lines]
    needed = {(state, unit): tests(found, rows, label, unit) for state, label in enumerate(states) for unit in range(256)}
    counted = reads(compiler, made, states)
    print(f'{maker}: tests of a unit in the {len(states)} states, of which the greatest number is {max(needed.values())}')
    print(f'{"state":10}{"greatest":>9}' + ''.join(f'{text:>20}' for text in TEXTS))
    totals = {text: mean(counted[text], needed) for text in TEXTS}
    for state, label in enumerate(states):
        row = f'{label:10}{max(needed[state, unit] for unit in range(256)):9}'
        for text in TEXTS:
            total, many = mean(counted[text], needed, state)
            share = f'{100 * total / max(totals[text][0], 1):.2f}%' if total else ''
            row += f'{share:>13}{many:7.2f}' if total else f'{"-":>20}'
        print(row)
    print(f'{"all":10}{max(needed.values()):9}' + ''.join(f'{many:20.2f}' for _, many in totals.values()) + '\n', flush=True)


def table(rows, makers):
    """Prints speeds in MiB a second, and the ratios."""
    others = [maker for maker in makers if maker != OURS]
    print(f'{"text":12}{"compiler":>9}{"cursor":>8}' + ''.join(f'{maker + " MiB/s":>17}' for maker in makers)
          + ''.join(f'{"ratio " + maker:>15}' for maker in others))
    for (text, compiler, cursor), speed in rows.items():
        print(f'{text:12}{compiler:>9}{cursor:>8}' + ''.join(f'{speed[maker]:17.0f}' for maker in makers)
              + ''.join(f'{speed[OURS] / speed[maker]:15.2f}' for maker in others), flush=True)
    print()


def goals(rows):
    """Returns the goals, each with whether it is met."""
    found = []
    for (text, compiler, cursor), speed in rows.items():
        for maker in (DEFAULT, NESTED):
            least = 1 if maker == NESTED else LEAST[compiler] if text == TEXTS[0] else None
            if least:
                ratio = speed[OURS] / speed[maker]
                found.append((ratio >= least, f'{text}, {compiler}, {cursor} cursor: {ratio:.3f} of {maker}, at least {least:.2f}'))
    ratios = []
    for (text, compiler, cursor), speed in rows.items():
        ratios.append(speed[OURS] / max(speed[maker] for maker in BEST_OF))
        found.append((ratios[-1] >= CELL, f'{text}, {compiler}, {cursor} cursor: {ratios[-1]:.3f} of the best, at least {CELL:.2f}'))
    mean_of = sum(ratios) / len(ratios)
    found.append((mean_of >= MEAN, f'{mean_of:.3f} of the best in the mean, at least {MEAN:.2f}'))
    return found


def bars(rows, makers, compiler, cursor, left, top):
    """Returns the bars of a compiler and a cursor, in a frame of 400 by 190."""
    high = lambda ratio: top + 150 - 80 * min(ratio, 1.8)
    parts = [f'<text x="{left}" y="{top - 4}" class="t">{compiler} -O2, {cursor} cursor</text>']
    parts += [f'<path d="M{left} {high(at):.1f}h390" class="{"one" if at == 1 else "line"}"/>'
              f'<text x="{left - 4}" y="{high(at) + 4:.1f}" class="e">{at:.1f}</text>' for at in (0, 0.5, 1, 1.5)]
    for group, text in enumerate(TEXTS):
        at = left + 8 + 97 * group
        parts.append(f'<text x="{at + 40}" y="{top + 164}" class="m">{text}</text>')
        for place, maker in enumerate(makers):
            ratio = rows[text, compiler, cursor][OURS] / rows[text, compiler, cursor][maker]
            x, y = at + 28 * place, high(ratio)
            parts.append(f'<rect x="{x}" y="{y:.1f}" width="24" height="{top + 150 - y:.1f}" class="b{place}"/>'
                         f'<text x="{x + 12}" y="{y - 2:.1f}" class="m">{ratio:.2f}</text>')
    return parts


def draw(rows, compilers):
    """Writes the picture of the ratios."""
    makers, parts = (DEFAULT, NESTED, BITS), []
    for row, compiler in enumerate(compilers):
        for column, cursor in enumerate(CURSORS):
            parts += bars(rows, makers, compiler, cursor, 40 + 440 * column, 70 + 200 * row)
    keys = ''.join(f'<rect x="{40 + 170 * place}" y="30" width="12" height="12" class="b{place}"/><text x="{56 + 170 * place}" y="40">'
                   f'beside the original, {maker}</text>' for place, maker in enumerate(makers))
    height = 60 + 200 * len(compilers)
    with open(picture, 'w') as file:
        file.write(f'<svg xmlns="http://www.w3.org/2000/svg" viewBox="0 0 890 {height}" font-family="sans-serif" font-size="10">\n'
                   '<style>.t{font-size:12px}.m{text-anchor:middle}.e{text-anchor:end}.line{stroke:#ddd}.one{stroke:#000}'
                   '.b0{fill:#4878a8}.b1{fill:#e0a040}.b2{fill:#70a870}</style>\n'
                   f'<rect width="890" height="{height}" fill="#fff"/>\n'
                   '<text x="40" y="20" font-size="14">Speed of the lexer of 40 rules as a multiple of the original\'s</text>\n'
                   + keys + '\n' + '\n'.join(parts) + '\n</svg>\n')


def scanners():
    """Returns the emitted scanners by their makers."""
    options = {OURS: [program, '-i', '-T', '--x-format', '3'], TWO: [program, '-i', '-T']}
    if shutil.which(original):
        version = subprocess.run([original, '--version'], stdout=subprocess.PIPE, check=True, text=True).stdout.strip()
        print(f'the original is {version}')
        theirs = [original, '-i', '-T', '--no-version', '--no-generation-date']
        options |= {DEFAULT: theirs, NESTED: theirs + ['-s'], BITS: theirs + ['-b'], GOTOS: theirs + ['-g']}
    else:
        print('the original is not installed: only ours are measured')
    with open(f'{work}/lexer.re', 'w') as file:
        file.write(source())
    found = {maker: f'{work}/lexer_{place}.c' for place, maker in enumerate(options)}
    for maker, emitted in found.items():
        subprocess.run(options[maker] + ['-o', emitted, f'{work}/lexer.re'], check=True)
    return found


def main():
    compilers = [compiler for compiler in ('gcc', 'clang') if shutil.which(compiler)]
    if not compilers:
        raise SystemExit('scanning: there is neither gcc nor clang')
    for compiler in compilers:
        print(subprocess.run([compiler, '--version'], stdout=subprocess.PIPE, check=True, text=True).stdout.splitlines()[0])
    found, rows = scanners(), {}
    write_texts()
    check(compilers[0], found)
    for compiler in compilers:
        for cursor in CURSORS:
            program = timed(compiler, cursor, found)
            for text in TEXTS:
                taken = program.run(TURNS, file_of(text))
                rows[text, compiler, cursor] = {maker: SIZE / (1 << 20) / max(mean_of, 1e-6) for maker, (mean_of, _, _) in taken.items()}
                spread = max(most / max(least, 1e-9) for _, least, most in taken.values())
                print(f'{text}, {compiler}, {cursor} cursor: the places of one scanner are apart by up to {spread - 1:.2f}', flush=True)
    print()
    for maker in (OURS, TWO):
        show_tests(compilers[0], maker, found[maker])
    table(rows, found)
    if picture and DEFAULT in found:
        draw(rows, compilers)
    reached = goals(rows) if DEFAULT in found else []
    for met, goal in reached:
        print(('met      ' if met else 'not met  ') + goal)
    print(f'{sum(met for met, _ in reached)} of {len(reached)} goals are met')
    return not all(met for met, _ in reached)


sys.exit(main())
PYTHON
