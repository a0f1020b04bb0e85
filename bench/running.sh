#!/bin/sh
# Measures runs of emitted scanners through a window of 4,096 units, over an input of 64 MiB: the statements a second, which are to be
# 20 million or more, and the memory above the input's bytes, which is to stay under 32 MiB. The lines go to /dev/null.
#
# One scanner asks for units by checks, one by refills at the end of its window, and one stores states, so that it is left at each refill, and
# comes back. Statements are counted on the first units, which repeat, by a reading of the emitted text. Seconds are those of the
# processor, with those that the system takes for the lines.
#
# Two scanners of keywords store states too. Their pieces have about 1,000 and 8,000 lines, and they are run with refills of one unit. The
# time of a refill is that of such a run, less that of one with refills of 4,096 units, by the refills that it has more. The two take 15
# turns over the same input. The median of each counts, and is told with the least and the greatest, since others may use the same
# processors. Where valgrind is there, its instructions are counted instead, over one input. It is to be at most 1.5 times as much with the
# longer piece.
#
# Usage: bench/running.sh [refills], from anywhere: with the word the scanners of keywords alone. RE2C names the program (that of bin/re2c
# where it is unset).
cd "$(dirname "$0")/.." || exit 1
program=${RE2C:-}
if [ -z "$program" ]; then
    bin/re2c -i examples/quoted.re > /dev/null || { echo "running: no program" >&2; exit 1; }
    program=$(find crates/re2c/out -maxdepth 1 -type f -name re2c | head -1)
fi
work=$(mktemp -d) || exit 1
trap 'rm -rf "$work"' EXIT
python3 - "$program" "$work" "${1:-}" <<'PYTHON'
import os, re, shutil, statistics, subprocess, sys
MEASURE = """
import os, sys
child = os.posix_spawn(sys.argv[1], sys.argv[1:], os.environ, file_actions=[(os.POSIX_SPAWN_OPEN, 1, os.devnull, os.O_WRONLY, 0)])
_, status, usage = os.wait4(child, 0)
print(status, usage.ru_utime, usage.ru_stime, usage.ru_maxrss)
"""

program, work, word = os.path.abspath(sys.argv[1]), sys.argv[2], sys.argv[3]
if word not in ('', 'refills'):
    sys.exit(f'running: {word}: only "refills" is known')
os.chdir(work)
RULES = '" " { }\n[a-z]+ { }\n[0-9]+ { }\n* { }\n'
SCANNERS = {
    'checks': ([], ''),
    'end of the window': ([], 're2c:eof = 0;\n$ { }\n'),
    'stored states': (['-f'], 're2c:eof = 0;\n$ { }\n'),
}
WORDS = b'the 25 quick brown foxes jump over 1 lazy dog '
SIZE = 64 << 20
# how many keywords make pieces of about 1,000 and 8,000 lines, and the most by which a refill may take longer with the longer one
KEYWORDS, MOST_GROWTH = (6, 50), 1.5
# how long the refills of a turn take at least with the shorter one, in seconds, and how many turns there are
LONG_ENOUGH, TURNS = 0.5, 15

def statements(text):
    """The statements behind each label of an emitted text, in order, as they are spelled."""
    code, where = [], {}
    for line in text.split('{\n', 1)[1].splitlines():
        line = line.strip()
        label = re.fullmatch(r'(yy\w+):;?', line)
        if label:
            where[label.group(1)] = len(code)
        elif line and not re.match(r'YYCTYPE|unsigned|\}|/\*!end|switch|case|default', line):
            code.append(line)
    return code, where

def count(text, stream):
    """How many statements a run makes over a stream, which goes on behind what is asked for here."""
    code, where = statements(text)
    made, cursor, marker, unit, accept, match = 0, 0, 0, 0, 0, 0
    at = where['yy1_0']
    while cursor + 64 < len(stream):
        line = code[at]
        made, at = made + 1, at + 1
        if line == '++YYCURSOR;':
            cursor += 1
        elif line == 'yych = *YYCURSOR;':
            unit = stream[cursor]
        elif line == 'YYMARKER = YYCURSOR;':
            marker = cursor
        elif line == 'YYCURSOR = YYMARKER;':
            cursor = marker
        elif line.startswith('/*!code'):
            at = where['yy1_0']
        elif line.startswith('goto '):
            at = where[line[5:-1]]
        elif line.startswith('if (yych <='):
            test = re.match(r'if \(yych <= 0x(\w+)\) goto (\w+);', line)
            at = where[test.group(2)] if unit <= int(test.group(1), 16) else at
    return made, cursor

def compiled(options, rules, output='s.c'):
    """The emitted text of a scanner, which stands in the output."""
    with open('s.re', 'w') as file:
        file.write('/*!re2c\n' + rules + '*/\n')
    subprocess.run([program, '-i', *options, '-o', output, 's.re'], check=True)
    return open(output).read()

def measured(name, piece, source='s.c'):
    """The seconds of a scanner's run over in.txt, those of the system among them, and its peak, with refills of so many units."""
    # (the peak of a process counts that of the one that began it, so a small one begins it)
    words = [program, '--x-run', 'in.txt', '--x-window', '4096', '--x-piece', str(piece), source]
    ran = subprocess.run([sys.executable, '-c', MEASURE, *words], stdout=subprocess.PIPE, check=True, text=True)
    status, user, system, peak = map(float, ran.stdout.split())
    if status:
        sys.exit(f'running: {name}: status {status:.0f}')
    return user + system, system, peak

def write_input(size):
    with open('in.txt', 'wb') as file:
        file.write((WORDS * (size // len(WORDS) + 1))[:size])

def keywords(count):
    """So many words of six letters, the same in each run."""
    words, number = [], 1
    while len(words) < count:
        number = (number * 1103515245 + 12345) % (1 << 31)
        word = ''.join(chr(97 + (number >> 4) // 26 ** place % 26) for place in range(6))
        if word not in words:
            words.append(word)
    return words

def keyword_scanner(count):
    """The file of a scanner of so many keywords, which stores states, and its lines."""
    rules = 're2c:eof = 0;\n$ { }\n' + ''.join(f'"{word}" {{ }}\n' for word in keywords(count)) + RULES
    source = f'keywords{count}.c'
    return source, compiled(['-f'], rules, source).count('\n')

def refill_seconds(source):
    """What a run over in.txt takes more with refills of one unit."""
    return measured(source, 1, source)[0] - measured(source, 4096, source)[0]

def refill_instructions(source):
    """The instructions that a run over in.txt takes more with refills of one unit."""
    counts = []
    for piece in 1, 4096:
        words = [program, '--x-run', 'in.txt', '--x-window', '4096', '--x-piece', str(piece), source]
        ran = subprocess.run(['valgrind', '--tool=callgrind', '--callgrind-out-file=/dev/null', *words], stdout=subprocess.DEVNULL,
                             stderr=subprocess.PIPE, check=True, text=True)
        counts.append(int(re.search(r'Collected : (\d+)', ran.stderr).group(1)))
    return counts[0] - counts[1]

def refills():
    """Whether a refill takes about as much with a long piece as with a short one."""
    scanners = [keyword_scanner(count) for count in KEYWORDS]
    if shutil.which('valgrind'):
        size = 1 << 11
        write_input(size)
        few, many = (refill_instructions(source) / (size - size / 4096) for source, _ in scanners)
        print(f'refills of one unit with stored states: {few:.0f} instructions each with {scanners[0][1]} lines, {many:.0f} with {scanners[1][1]}: '
              f'{many / few:.2f} times as many (at most {MOST_GROWTH})')
        return many <= MOST_GROWTH * few
    size = 1 << 6
    write_input(size)
    while refill_seconds(scanners[0][0]) < LONG_ENOUGH:
        size *= 2
        write_input(size)
    turns = [[refill_seconds(source) / (size - size / 4096) * 1e6 for source, _ in scanners] for _ in range(TURNS)]
    medians = []
    for (_, lines), times in zip(scanners, zip(*turns)):
        medians.append(statistics.median(times))
        print(f'refills of one unit with stored states, {lines} lines: {medians[-1]:.3g} us each ({min(times):.3g} to {max(times):.3g})')
    growth = medians[1] / medians[0]
    print(f'a refill takes {growth:.2f} times as long in the longer piece (at most {MOST_GROWTH}), over {size} units')
    return growth <= MOST_GROWTH

def run(name, options, rules):
    text = compiled(options, rules + RULES)
    made, units = count(text, WORDS * 2000)
    seconds, system, peak = measured(name, 4096)
    speed, above = made / units * SIZE / seconds, peak / 1024 - SIZE / (1 << 20)
    print(f'{name}: {made / units:.2f} statements a unit, {seconds:.1f} s ({system:.1f} of the system), '
          f'{speed / 1e6:.1f} million statements a second, {above:.1f} MiB above the input')
    return speed >= 20e6 and above < 32

met = []
if not word:
    write_input(SIZE)
    met = [run(name, *scanner) for name, scanner in SCANNERS.items()]
    print(f'{sum(met)} of {len(met)} are met (20 million statements a second, 32 MiB)')
met.append(refills())
sys.exit(not all(met))
PYTHON
