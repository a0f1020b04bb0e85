#!/bin/sh
# Measures how fast names of all letters of Unicode are scanned in UTF-8 (examples/unicode_letters.re), in both formats of emitted text,
# beside scanners of the same rules by the original re2c: as it works without options but `-i -8`, with `-s`, `-b` and `-g`. Where no original
# is there, only ours are measured.
# The text has names of Latin, Greek, Cyrillic, Chinese and Korean letters, made with a seed, with spaces and signs between them.
#
# All scanners of a compiler stand in one program, each at four places of a line of 64 bytes (bench/places.py), and take turns. At each place
# the best turn counts, in seconds of the processor, and of the places the mean. What all scanners count has to be the same.
#
# A ratio is the speed of a scanner of format 3 by that of another one. It fails where one of these goals is not met, with each compiler:
# at least 1.00 of the original with -b, and 0.80 of the original with -g.
#
# Usage: bench/names.sh [MEGABYTES [TURNS]], from anywhere; the text has MEGABYTES MiB (16 where the word is left out), and each scanner
# TURNS turns at each place (7). RE2C names the program (that of bin/re2c where it is unset), and ORIGINAL the original (re2c where it is
# unset).
cd "$(dirname "$0")/.." || exit 1
work=$(mktemp -d) || exit 1
trap 'rm -rf "$work"' EXIT
program=${RE2C:-}
if [ -z "$program" ]; then
    bin/re2c -i examples/quoted.re > /dev/null || { echo "names: no program" >&2; exit 1; }
    program=$(find crates/re2c/out -maxdepth 1 -type f -name re2c | head -1)
fi
cat > "$work/front.h" <<'C'
#include <string.h>
unsigned long counts[3];

static void begin(void)
{
    memset(counts, 0, sizeof counts);
}

static unsigned long result(void)
{
    return (counts[0] * 31 + counts[1]) * 31 + counts[2];
}
C
PYTHONPATH=bench PYTHONDONTWRITEBYTECODE=1 python3 - "$work" "$program" "${ORIGINAL:-re2c}" "${1:-16}" "${2:-7}" <<'PYTHON'
import os, random, shutil, subprocess, sys
from places import WHOLE, Timed
work, program, original, megabytes, turns = sys.argv[1:]
SIZE, TURNS = int(megabytes) << 20, int(turns)
OURS, TWO, DEFAULT, NESTED, BITS, GOTOS = 'format 3', 'format 2', 'default', '-s', '-b', '-g'
LEAST = {BITS: 1.0, GOTOS: 0.8}
# the first and the last letter of some scripts, and how often a name is of one
SCRIPTS = ((0x61, 0x7A, 6), (0xE0, 0xF6, 2), (0x3B1, 0x3C9, 2), (0x430, 0x44F, 4), (0x4E00, 0x9FFF, 4), (0xAC00, 0xD7A3, 2))
RULES = '''
int lex(const unsigned char *YYCURSOR)
{
    const unsigned char *YYMARKER;

    for (;;) {
/*!re2c
re2c:yyfill:enable = 0;
re2c:define:YYCTYPE = "unsigned char";
(xid_start | "_") xid_continue* { ++counts[0]; continue; }
"\\x00" { return 0; }
[^] { ++counts[1]; continue; }
* { ++counts[2]; continue; }
*/
    }
}
'''


def write_text():
    """Writes the text."""
    chosen, made, size = random.Random(1), [], 0
    weights = [often for _, _, often in SCRIPTS]
    while size < SIZE:
        low, high, _ = chosen.choices(SCRIPTS, weights)[0]
        name = ''.join(chr(chosen.randint(low, high)) for _ in range(chosen.randint(1, 10)))
        made.append((name + chosen.choice((' ', '\n', ', ', ' = '))).encode())
        size += len(made[-1])
    with open(f'{work}/names.text', 'wb') as file:
        file.write(b''.join(made)[:SIZE].decode('utf-8', 'ignore').encode())


def scanners():
    """Returns the emitted scanners by their makers."""
    options = {OURS: [program, '-i', '-8', '--x-format', '3'], TWO: [program, '-i', '-8']}
    if shutil.which(original):
        version = subprocess.run([original, '--version'], stdout=subprocess.PIPE, check=True, text=True).stdout.strip()
        print(f'the original is {version}')
        theirs = [original, '-i', '-8', '--no-version', '--no-generation-date']
        options |= {DEFAULT: theirs, NESTED: theirs + ['-s'], BITS: theirs + ['-b'], GOTOS: theirs + ['-g']}
    else:
        print('the original is not installed: only ours are measured')
    with open(f'{work}/names.re', 'w') as file:
        file.write('extern unsigned long counts[3];\n' + open('examples/unicode_letters.re').read() + RULES)
    found = {maker: f'{work}/names_{place}.c' for place, maker in enumerate(options)}
    for maker, command in options.items():
        subprocess.run([*command, '-o', found[maker], f'{work}/names.re'], check=True, stderr=subprocess.DEVNULL)
    return found


def timed(compiler, found):
    """Returns a program with all scanners by a compiler."""
    folder = f'{work}/{compiler}'
    os.mkdir(folder)
    shutil.copy(f'{work}/front.h', folder)
    made = Timed(folder, compiler, WHOLE + '#include "front.h"')
    for maker, emitted in found.items():
        words = lambda named, emitted=emitted: [compiler, '-O2', '-w', f'-Dlex=lex_{named}', emitted]
        run = lambda named: f'int lex_{named}(const unsigned char *);\nstatic void run_{named}(void) {{ lex_{named}(whole); }}'
        if not made.add(maker, words, run):
            raise SystemExit(f'names: {compiler} fails on {emitted}')
    return made


def main():
    write_text()
    found, failed = scanners(), 0
    print(f'{"compiler":10}' + ''.join(f'{maker + " MiB/s":>17}' for maker in found))
    for compiler in ('gcc', 'clang'):
        if not shutil.which(compiler):
            continue
        taken = timed(compiler, found).run(TURNS, f'{work}/names.text')
        speed = {maker: SIZE / (1 << 20) / max(mean_of, 1e-9) for maker, (mean_of, _, _) in taken.items()}
        print(f'{compiler:10}' + ''.join(f'{speed[maker]:17.0f}' for maker in found), flush=True)
        for maker, least in LEAST.items():
            if maker in speed:
                ratio = speed[OURS] / speed[maker]
                failed += ratio < least
                print(f'{"met" if ratio >= least else "not met":9}{compiler}: {ratio:.3f} of {maker}, at least {least:.2f}')
    return failed > 0


sys.exit(main())
PYTHON
