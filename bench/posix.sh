#!/bin/sh
# Measures what captures by the POSIX order cost: the seconds of the processor that a compilation takes without groups, with `--captures`
# and with `-P`, for the examples (uris has the grammar of RFC 3986), for a lexer of 40 rules and for sources that have many groups or
# large kernels. Each is measured five times, or once where it takes 2 s or more, and the least counts; `-` stands where the source is
# refused. The ratios are those of `-P` to the compilation without groups, and to that with `--captures`.
#
# It fails where a source that is compiled with `--captures` is neither compiled with `-P` nor refused for its states, and where
# `(("a"?){0,20}){0,20}` takes 10 s or more under `-P`.
#
# Usage: bench/posix.sh, from anywhere; RE2C names the program (that of bin/re2c where it is unset).
cd "$(dirname "$0")/.." || exit 1
work=$(mktemp -d) || exit 1
trap 'rm -rf "$work"' EXIT
program=${RE2C:-}
if [ -z "$program" ]; then
    bin/re2c -i examples/quoted.re > /dev/null || { echo "posix: no program" >&2; exit 1; }
    program=$(find crates/re2c/out -maxdepth 1 -type f -name re2c | head -1)
fi
python3 - "$work" "$(realpath "$program")" <<'PYTHON'
import glob, os, re, resource, subprocess, sys
work, program = sys.argv[1:]
RUNS, SECONDS, MEMORY = 5, 120, 4 << 30
BOUNDED, MOST = 'bounds in bounds', 10.0
WAYS = ('', '--captures', '-P')
ENCODINGS = {'utf_8': ['-8'], 'utf_16': ['-x'], 'utf_32': ['-u']}


def block(rules):
    return '/*!re2c\nre2c:yyfill:enable = 0;\n' + ''.join(rule + ' { }\n' for rule in rules) + '*/\n'


GENERATED = {
    '40 rules': (block([]).replace('*/', open('tests/c/lexer.rules').read() + '*/'), ['-T']),
    '64 groups': (block(['("a" | "aa")' * 64]), []),
    'a star of alternatives': (block(['("a" | "b" | "ab" | "ba" | "aba" | "bab")*']), []),
    'stars in stars': (block(['((((("a"*)*)* "b")*)* "c")*']), []),
    'four letters before the end': (block(['("a" | "b")* ("a") ("a" | "b"){4}']), []),
    'eight letters before the end': (block(['("a" | "b")* ("a") ("a" | "b"){8}']), []),
    '50 copies of alternatives': (block(['("a" | "ab" | "b"){0,50}']), []),
    '400 copies of alternatives': (block(['("a" | "aa"){1,400}']), []),
    '400 copies that may be missing': (block(['("a"?){0,400}']), []),
    '800 copies that may be missing': (block(['("a"?){0,800}']), []),
    BOUNDED: (block(['(("a"?){0,20}){0,20}']), []),
}


def examples():
    """Returns the path and the options of each example that has scanners: those that its first line names, or its encoding."""
    found = {}
    for path in sorted(glob.glob('examples/*.re')):
        name = os.path.basename(path)[:-3]
        if name == 'unicode_letters':
            continue
        with open(path) as file:
            named = re.search(r'Compile it with (-[^.]*)\.', file.read(2000))
        options = named[1].split() if named else ENCODINGS.get(name, [])
        found[name] = path, [option for option in options if option not in ('--captures', '-P')]
    return found


def limited():
    resource.setrlimit(resource.RLIMIT_CPU, (SECONDS, SECONDS))
    resource.setrlimit(resource.RLIMIT_AS, (MEMORY, MEMORY))


def once(words):
    """Returns the seconds of the processor that a compilation takes, its status, and what it tells."""
    with open(f'{work}/told', 'w+') as told:
        child = subprocess.Popen(words, stdout=subprocess.DEVNULL, stderr=told, preexec_fn=limited)
        _, status, usage = os.wait4(child.pid, 0)
        child.returncode = status
        told.seek(0)
        return usage.ru_utime + usage.ru_stime, status, told.read().strip()


def measured(path, options, way):
    """Returns the least seconds of some compilations, with what is told where the source is refused."""
    words = [program, '-i', *options, *filter(None, [way]), '-I', 'examples', '-o', f'{work}/made.c', path]
    seconds, status, told = once(words)
    for _ in range(RUNS - 1 if seconds < 2 else 0):
        seconds = min(seconds, once(words)[0])
    return seconds, (told or f'ended by {status}') if status else None


def shown(taken):
    return '-' if taken[1] else f'{taken[0]:.4f}'


def ratio(one, other):
    return '-' if one[1] or other[1] else f'{one[0] / other[0]:.2f}'


def main():
    sources, failed = examples(), []
    for number, (name, (text, options)) in enumerate(GENERATED.items()):
        path = f'{work}/{number}.re'
        with open(path, 'w') as file:
            file.write(text)
        sources[name] = path, options
    print(f'{"source":32}{"without":>10}{"--captures":>12}{"-P":>10}{"ratio":>8}{"beside --captures":>20}')
    for name, (path, options) in sources.items():
        plain, greedy, posix = (measured(path, options, way) for way in WAYS)
        told = '  ' + posix[1].rsplit(': ', 1)[-1] if posix[1] else ''
        print(f'{name:32}{shown(plain):>10}{shown(greedy):>12}{shown(posix):>10}'
              f'{ratio(posix, plain):>8}{ratio(posix, greedy):>20}{told}', flush=True)
        refused = posix[1] and posix[1].endswith('too many states')
        if posix[1] and not refused and not greedy[1]:
            failed.append(f'{name}: {posix[1]}')
        if name == BOUNDED and posix[0] >= MOST:
            failed.append(f'{name}: {posix[0]:.1f} s, under {MOST:.0f}')
    print(f'{len(failed)} not met' + ''.join(f'\n- {line}' for line in failed))
    return bool(failed)


sys.exit(main())
PYTHON
