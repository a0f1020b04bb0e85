#!/bin/sh
# Measures whole compilations by the program, in both formats of emitted text, beside the original re2c where that is installed, in three tables.
# It fails where a limit or a goal is not met, in either format. Where no original is there, only ours are measured, and the script says so.
#
# The first table has sources with limits on the seconds: 200 blocks with 9,800 rules of strings (2 s), 16 MiB of outside text with one
# block (0.5 s), and a scanner of 4,096 kernels (1 s).
#
# The second has sources that a user could write, and one at each limit of a scanner: names of all letters of Unicode in UTF-8, UTF-16 and
# UTF-32, 10,000 keywords in 200 blocks, the lexer of 40 rules, 4,096 kernels, 1,048,576 places, 4,096 rules, 128 tags, 64 groups and 256
# parentheses in one another. For each it has the seconds of the processor (the best of five runs), the peak of memory, the instructions
# that valgrind counts where it is there, and the bytes of the output. Goals: at most as long as the original, and at most 0.7 times as
# many instructions, as the original without options. It has 60 s and 4 GiB, and stands in the table with -b and -g, too; `-` stands where that is not enough, or where it refuses the source.
#
# The third has the seconds that `clang -O1` takes for the scanners of names. Goal: in UTF-32 at most as long as the original's.
#
# Usage: bench/compiling.sh, from anywhere; RE2C names the program (that of bin/re2c where it is unset), and ORIGINAL the original (re2c
# where it is unset).
cd "$(dirname "$0")/.." || exit 1
work=$(mktemp -d) || exit 1
trap 'rm -rf "$work"' EXIT
program=${RE2C:-}
if [ -z "$program" ]; then
    bin/re2c -i examples/quoted.re > /dev/null || { echo "compiling: no program" >&2; exit 1; }
    program=$(find crates/re2c/out -maxdepth 1 -type f -name re2c | head -1)
fi
python3 - "$work" "$(realpath "$program")" "${ORIGINAL:-re2c}" <<'PYTHON'
import os, re, shutil, subprocess, sys
work, program, original = sys.argv[1:]
SECONDS, MEMORY, RUNS = 60, 4 << 30, 5
PLAIN = 're2c:yyfill:enable = 0;\n'
LETTERS = open('examples/unicode_letters.re').read()
OURS, TWO, THEIRS, BITS, GOTOS = 'format 3', 'format 2', 'the original', 'its -b', 'its -g'
FORMATS = {OURS: ['--x-format', '3'], TWO: []}


def block(lines):
    return '/*!re2c\n' + PLAIN + lines + '*/\n'


def keywords(number, count):
    return ''.join(f'"word{number}x{k}y{k * 7919 % 1000}" {{ return {k}; }}\n' for k in range(count)) + '* { }\n'


def blocks(count):
    return ''.join('int f(void) {\n' + block(keywords(number, count)) + '}\n' for number in range(200))


def names():
    rules = '(xid_start | "_") xid_continue* { return 1; }\n[^] { return 0; }\n* { return 0; }\n'
    return LETTERS + '\nint name(const YYCTYPE *YYCURSOR)\n{\n\tconst YYCTYPE *YYMARKER;\n' + block(rules) + '}\n'


def lexer():
    return block(open('tests/c/lexer.rules').read())


LIMITED = {
    '9,800 rules in 200 blocks': (blocks(49), 2.0),
    '16 MiB of outside text': ('// a line of outside text\n' * (16 * 1024 * 1024 // 26 - 100) + block('"a" { }\n* { }\n'), 0.5),
    '4,096 kernels': (block('"' + 'a' * 4095 + '" { }\n'), 1.0),
}
# the source, our options, and the original's
COMPARED = {
    'names in UTF-8': (names(), ['-8'], ['-8']),
    'names in UTF-16': (names(), ['-x'], ['-x']),
    'names in UTF-32': (names(), ['-u'], ['-u']),
    '10,000 keywords': (blocks(50), [], []),
    '40 rules': (lexer(), ['-T'], ['-T']),
    '4,096 kernels': (block('"' + 'a' * 4095 + '" { }\n'), [], []),
    '1,048,576 places': (block('("a" | "aa"){1,835} { }\n'), [], []),
    '4,096 rules': (block('[^] { }\n' * 4096), [], []),
    '128 tags': (block(''.join(f'("a" @t{k})? ' for k in range(128)) + '{ }\n'), ['-T'], ['-T']),
    '64 groups': (block('("a" | "aa")' * 64 + ' { }\n'), ['--captures'], ['-P']),
    '64 groups under -P': (block('("a" | "aa")' * 64 + ' { }\n'), ['-P'], ['-P']),
    '256 parentheses': (block('(' * 256 + '"a"' + ')' * 256 + ' { }\n'), [], []),
}
failed = []


# The peak of a process counts that of the one that began it, so a small one begins it.
BEGUN = """
import os, resource, sys
seconds, memory = map(int, sys.argv[1:3])
files = [(os.POSIX_SPAWN_OPEN, number, os.devnull, os.O_WRONLY, 0) for number in (1, 2)]
for what, most in ((resource.RLIMIT_CORE, 0), (resource.RLIMIT_CPU, seconds), (resource.RLIMIT_AS, memory)):
    resource.setrlimit(what, (most, most))
child = os.posix_spawnp(sys.argv[3], sys.argv[3:], os.environ, file_actions=files)
_, status, usage = os.wait4(child, 0)
print(status, usage.ru_utime + usage.ru_stime, usage.ru_maxrss)
"""


def measured(words):
    """The seconds of the processor and the bytes of memory that a command takes, or None where it fails."""
    ran = subprocess.run([sys.executable, '-c', BEGUN, str(SECONDS), str(MEMORY), *words], stdout=subprocess.PIPE, check=True, text=True)
    status, seconds, peak = ran.stdout.split()
    return None if int(status) else (float(seconds), 1024 * int(peak))


def instructions(words):
    """How many instructions a command takes, by valgrind, or None where that cannot count them."""
    if not shutil.which('valgrind'):
        return None
    counted = subprocess.run(['valgrind', '--tool=callgrind', f'--callgrind-out-file={work}/counts', *words], stdout=subprocess.DEVNULL,
                             stderr=subprocess.PIPE, text=True)
    found = re.search(r'Collected : (\d+)', counted.stderr)
    return int(found[1]) if found and counted.returncode == 0 else None


def missed(name, what, got, most):
    if got is not None and most is not None and got > most:
        failed.append(f'{name}: {what} {got:.2f}, at most {most:.2f}')


def shown(value, form):
    return '-' if value is None else form.format(value)


print(f'{"source":28}{"bytes":>12}{"by":>10}{"seconds":>10}{"limit":>8}')
for name, (text, most) in LIMITED.items():
    with open(f'{work}/a.re', 'w') as file:
        file.write(text)
    for maker, words in FORMATS.items():
        took = measured([program, '-i', *words, '-o', f'{work}/made.c', f'{work}/a.re'])
        print(f'{name:28}{len(text):>12,}{maker:>10}{shown(took and took[0], "{:.2f}"):>10}{most:>8}', flush=True)
        missed(f'{name}, {maker}', 'seconds', took[0] if took else 1e9, most)

makers = {maker: [program, '-i', *words] for maker, words in FORMATS.items()}
if shutil.which(original):
    makers |= {THEIRS: [original, '-i'], BITS: [original, '-i', '-b'], GOTOS: [original, '-i', '-g']}
else:
    print('\nthe original is not installed: only ours are measured')
print(f'\n{"source":20}{"by":16}{"seconds":>10}{"memory MB":>12}{"instructions":>18}{"bytes":>12}')
objects = {}
for name, (text, ours, theirs) in COMPARED.items():
    with open(f'{work}/a.re', 'w') as file:
        file.write(text)
    rows = {}
    for maker, command in makers.items():
        made = f'{work}/{name.replace(" ", "_")}_{len(rows)}.c'
        words = [*command, *(ours if maker in FORMATS else theirs), '-o', made, f'{work}/a.re']
        runs = [took for took in (measured(words) for _ in range(RUNS)) if took]
        best = min(runs) if runs else (None, None)
        rows[maker] = best[0], best[1], instructions(words) if runs and best[0] < 3 else None
        size = os.path.getsize(made) if runs else None
        if runs and name.startswith('names'):
            objects[name, maker] = made
        print(f'{name:20}{maker:16}{shown(best[0], "{:.3f}"):>10}{shown(best[1] and best[1] / 1e6, "{:.1f}"):>12}'
              f'{shown(rows[maker][2], "{:,}"):>18}{shown(size, "{:,}"):>12}', flush=True)
    if THEIRS in rows:
        for maker in FORMATS:
            missed(f'{name}, {maker}', 'seconds', rows[maker][0], rows[THEIRS][0])
            missed(f'{name}, {maker}', 'instructions', rows[maker][2], rows[THEIRS][2] and 0.7 * rows[THEIRS][2])

if shutil.which('clang'):
    print(f'\n{"source":20}' + ''.join(f'{maker:>16}' for maker in makers))
    units = {'names in UTF-8': 'unsigned char', 'names in UTF-16': 'unsigned short', 'names in UTF-32': 'unsigned int'}
    for name, unit in units.items():
        took = {maker: measured(['clang', '-O1', '-w', f'-DYYCTYPE={unit}', '-c', '-o', f'{work}/made.o', made])
                for (given, maker), made in objects.items() if given == name}
        print(f'{name:20}' + ''.join(f'{shown(took.get(maker) and took[maker][0], "{:.2f}"):>16}' for maker in makers), flush=True)
        if name == 'names in UTF-32' and took.get(THEIRS):
            for maker in FORMATS:
                missed(f'{name}, {maker}', 'seconds of clang -O1', took[maker][0] if took.get(maker) else 1e9, took[THEIRS][0])

print(f'\ncompiling: {len(failed)} not met' + ''.join(f'\n- {line}' for line in failed))
sys.exit(bool(failed))
PYTHON
