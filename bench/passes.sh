#!/bin/sh
# Measures what passes over registers and states cost and give, beside the original re2c where that is installed. For each source it prints
# the instructions of a compilation that valgrind counts, in millions, the seconds of the processor and the peak of memory, and the registers,
# the operations and the bytes of the output, in format 2. Operations are statements that set, empty or copy a register or a history; those
# of the original are counted as ours are: each `yytN = ` is one, also where several stand in a line.
#
# The sources: 64 groups, 128 tags, a scanner at the limit on places of which all states but the first accept, the example uris by its tags
# and by its groups, the grammar of uri.rules in Plain mode, the lexer of 40 rules, sixteen tags before 300 and before 600 letters, eight tags
# at the limit on places, and repetitions in one another under -P. Instructions are counted where a compilation takes under 3 s.
#
# Usage: bench/passes.sh [WORD ..], from anywhere: sources that have one of the words in their names, or all. RE2C names the program (that of
# bin/re2c where it is unset), and ORIGINAL the original (re2c where it is unset).
cd "$(dirname "$0")/.." || exit 1
work=$(mktemp -d) || exit 1
trap 'rm -rf "$work"' EXIT
program=${RE2C:-}
if [ -z "$program" ]; then
    bin/re2c -i examples/quoted.re > /dev/null || { echo "passes: no program" >&2; exit 1; }
    program=$(find crates/re2c/out -maxdepth 1 -type f -name re2c | head -1)
fi
python3 - "$work" "$(realpath "$program")" "${ORIGINAL:-re2c}" "$@" <<'PYTHON'
import os, re, resource, shutil, subprocess, sys
work, program, original = sys.argv[1:4]
words = sys.argv[4:]


def block(lines):
    return '/*!re2c\nre2c:yyfill:enable = 0;\n' + lines + '*/\n'


def tags_before(tags, letters):
    return block('[ab]* ' + ' '.join(f'@t{k}' for k in range(tags)) + f' [ab]{{{letters}}} {{ }}\n')


URIS = open('examples/uris.re').read()
# the source, our options, and the original's, or None where it has nothing like that
SOURCES = {
    '64 groups': (block('("a" | "aa")' * 64 + ' { }\n'), ['--captures'], ['-P']),
    '128 tags': (block(''.join(f'("a" @t{k})? ' for k in range(128)) + '{ }\n'), ['-T'], ['-T']),
    '1,048,576 places': (block('("a" | "aa"){1,835} { }\n'), [], []),
    'uris by tags': (URIS, ['-T'], ['-T']),
    'uris by groups': (re.sub(r'@[a-z][a-z0-9_]* ?', '', URIS), ['--captures'], None),
    'uri': (block(open('bench/uri.rules').read()), ['-T'], ['-T']),
    '40 rules': (block(open('tests/c/lexer.rules').read()), ['-T'], ['-T']),
    '16 tags, 300 letters': (tags_before(16, 300), ['-T'], None),
    '16 tags, 600 letters': (tags_before(16, 600), ['-T'], None),
    '8 tags at the limit': (tags_before(8, 1446), ['-T'], None),
    'repetitions under -P': (block('(("a"?){0,30}){0,30} { }\n'), ['-P'], ['-P']),
}


def measured(command):
    """The seconds of the processor and the peak of memory in MB, or None where the command fails."""
    before = resource.getrusage(resource.RUSAGE_CHILDREN)
    child = subprocess.Popen(command, stdout=subprocess.DEVNULL, stderr=subprocess.DEVNULL)
    _, status, usage = os.wait4(child.pid, 0)
    return None if status else (usage.ru_utime + usage.ru_stime, usage.ru_maxrss * 1024 / 1e6)


def millions(command):
    """How many million instructions a command takes, by valgrind, or None where that cannot count them."""
    if not shutil.which('valgrind'):
        return None
    counted = subprocess.run(['valgrind', '--tool=callgrind', f'--callgrind-out-file={work}/counts', *command], stdout=subprocess.DEVNULL,
                             stderr=subprocess.PIPE, text=True)
    found = re.search(r'Collected : (\d+)', counted.stderr)
    return int(found[1]) / 1e6 if found and counted.returncode == 0 else None


def shown(value, form):
    return '-' if value is None else form.format(value)


makers = {'this re2c': program}
if shutil.which(original):
    makers['the original'] = original
print(f'{"source":22}{"by":14}{"millions":>10}{"seconds":>9}{"MB":>7}{"registers":>11}{"operations":>12}{"bytes":>11}')
for name, (text, ours, theirs) in SOURCES.items():
    if words and not any(word in name for word in words):
        continue
    with open(f'{work}/a.re', 'w') as file:
        file.write(text)
    for maker, command in makers.items():
        options = ours if maker == 'this re2c' else theirs
        if options is None:
            continue
        made = f'{work}/made.c'
        command = [command, '-i', *options, '-o', made, f'{work}/a.re']
        took = measured(command)
        if not took:
            print(f'{name:22}{maker:14}{"-":>10}', flush=True)
            continue
        counted = millions(command) if took[0] < 3 else None
        text_made = open(made).read()
        operations = len(re.findall(r'\byyt(?:m_)?\d+ \+?= ', text_made))
        registers = len(set(re.findall(r'\byyt(?:m_)?\d+\b', text_made)))
        print(f'{name:22}{maker:14}{shown(counted, "{:,.0f}"):>10}{took[0]:>9.2f}{took[1]:>7.0f}{registers:>11,}{operations:>12,}'
              f'{os.path.getsize(made):>11,}', flush=True)
PYTHON
