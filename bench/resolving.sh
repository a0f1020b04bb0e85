#!/bin/sh
# Measures how long blocks take to be resolved that are one form repeated, at 4 MiB and at 16 MiB each: it fails where one of 16 MiB
# takes 10 s or longer, more than six times as long as one of 4 MiB, or more than 4 GB. The program `block_cases` reads and resolves
# the blocks and writes down what they resolve to, so its reading and its writing count too.
#
# Usage: bench/resolving.sh [NAME..], from anywhere: with names, these forms alone.
cd "$(dirname "$0")/.." || exit 1
work=$(mktemp -d) || exit 1
trap 'rm -rf "$work"' EXIT
program=${PROGRAM:-}
if [ -z "$program" ]; then
    (cd crates/block_cases && rt run -- data/conditions.txt) > /dev/null || { echo "resolving: no program" >&2; exit 1; }
    program=crates/block_cases/out/block_cases
fi
python3 - "$work" "$program" "$@" <<'PYTHON'
import itertools, os, subprocess, sys, time
work, program, *only = sys.argv[1:]
# a little less, so that a block is no longer than a source may be
SMALL, LARGE = (4 << 20) - 1024, (16 << 20) - 4096
GROWTH, LIMIT, MOST = 6.0, 10.0, 4096
# a time below which growth says nothing, in seconds
LEAST = 0.2

def repeated(line, size):
    """Lines by their number, of so many bytes in all."""
    lines, length = [], 0
    for number in itertools.count():
        text = line(number)
        length += len(text) + 1
        if length > size:
            return '\n'.join(lines) + '\n'
        lines.append(text)

def lines(line):
    return lambda size: repeated(line, size)

def within(front, item, back, separator='\n'):
    """One item of many parts."""
    def make(size):
        parts, length = [], len(front) + len(back) + 1
        for number in itertools.count():
            part = item(number)
            length += len(part) + len(separator)
            if length > size:
                return front + separator.join(parts) + back + '\n'
            parts.append(part)
    return make

# blocks of a case
COUNT = 900

def blocks(size):
    """Blocks of definitions, one behind another."""
    made = []
    for block in range(COUNT):
        body = repeated(lambda k: f'| d{block}_{k} = "x";', size // COUNT)
        made.append(f'code\n|\n{body}wants\n')
    return ''.join(made)

def uses(size):
    """Blocks that use a rules block of many definitions, of which each names the one before."""
    body = repeated(lambda k: '| d0 = "x";' if k == 0 else f'| d{k} = d{k - 1};', size)
    last = 1 + body.count('\n') + 1
    used = f'use\n| e = d1;\nwants\n| scanner\n| rule 1 "x"\n| act 1 at 0:{last}:5 {{ }}\n'
    return f'rules\n|\n{body}| "x" {{ }}\nwants\n' + used * COUNT

def nested(opening, inner, closing, wide=64):
    """One item in many pairs of signs."""
    def make(size):
        count = size // (len(opening) + len(closing) + 1)
        fold = lambda sign: '\n'.join(sign * min(wide, count - at) for at in range(0, count, wide))
        return fold(opening) + '\n' + inner + '\n' + fold(closing) + ' { }\n'
    return make

# the options of a block, and the maker of its body
FORMS = {
    'rules': ('', lines(lambda k: f'"{k}" {{ }}')),
    'definitions': ('', lines(lambda k: f'd{k} = "x";')),
    'definitions that name the one before': ('', lines(lambda k: 'd0 = "x";' if k == 0 else f'd{k} = d{k - 1};')),
    'definitions that name the one before twice': ('', lines(lambda k: 'd0 = "x";' if k == 0 else f'd{k} = d{k - 1} d{k - 1};')),
    'a string': ('', within('"', lambda k: 'x' * 1000, '" { }', '')),
    'a class': ('', within('[', lambda k: chr(97 + k % 26) * 500, '] { }', '')),
    'a sequence': ('', within('', lambda k: '"x"', ' { }')),
    'a sequence of names': ('', within('d = "x";\n', lambda k: 'd', ' { }')),
    'alternatives': ('', within('', lambda k: '"x"', ' { }', ' |\n')),
    'alternatives that are classes': ('-8', within('', lambda k: f'[\\u{k % 0xD000:04X}]', ' { }', ' |\n')),
    'differences': ('', within('', lambda k: '[a-z]', ' { }', ' \\\n')),
    'repetitions': ('', within('"x"\n', lambda k: '*', ' { }')),
    'bounds': ('', within('"x"\n', lambda k: '{1,2}', ' { }')),
    'parentheses': ('', nested('(', '"x"', ')')),
    'groups': ('--captures', nested('(', '"x"', ')')),
    'groups one behind another': ('--captures', within('', lambda k: '("x")', ' { }')),
    'tags': ('-T', within('', lambda k: f'@t{k}', ' "x" { }')),
    'tags with all their values': ('-T', within('', lambda k: f'#t{k}', ' "x" { }')),
    'trailing contexts': ('', lines(lambda k: f'"{k}" / "x" {{ }}')),
    'an action': ('', within('"x" {', lambda k: '{ "}" }', '}')),
    'configurations': ('', lines(lambda k: f're2c:define:YYCURSOR = c{k};')),
    'a long spelling': ('', within('re2c:define:YYCURSOR = "', lambda k: 'x' * 1000, '";', '')),
    'conditions': ('-c', lines(lambda k: f'<c{k}> "x" {{ }}')),
    'a list of conditions': ('-c', within('<', lambda k: f'c{k}', '> "x" { }', ',\n')),
    'one condition in a list': ('-c', within('<', lambda k: 'c', '> "x" { }', ',\n')),
    'rules of one condition': ('-c', lines(lambda k: '<c> "x" { }')),
    'rules of all conditions': ('-c', lines(lambda k: '<c> "x" { }' if k == 0 else '<*> "x" { }')),
    'targets': ('-c', lines(lambda k: f'<c{k}> "x" => c{k // 2} {{ }}')),
    'targets without actions': ('-c', lines(lambda k: f'<c{k}> "x" :=> c0')),
}

# the makers of many blocks
BLOCKS = {'blocks': blocks, 'blocks that use a rules block': uses}

def block(options, body):
    """A case of one block."""
    return (f'options {options}\n' if options else '') + 'code\n|\n' + ''.join(f'| {line}\n' for line in body.split('\n')) + 'wants\n|\n'

def measured(make, size):
    path = os.path.join(work, 'case.txt')
    # in a process of its own, since the memory of this one counts for those that it starts
    maker = os.fork()
    if maker == 0:
        with open(path, 'w') as text:
            text.write('case one\n' + make(size))
        os._exit(0)
    os.waitpid(maker, 0)
    begun = time.monotonic()
    child = subprocess.Popen([program, path], stdout=subprocess.PIPE, stderr=subprocess.DEVNULL)
    text = child.stdout.read()
    _, status, usage = os.wait4(child.pid, 0)
    taken = time.monotonic() - begun
    if not text.split(b'\n')[-2].startswith(b'1 cases, ') or b'too long' in text:
        raise SystemExit(f'status {os.waitstatus_to_exitcode(status)}: {text[:200]}')
    return taken, usage.ru_maxrss / 1024

FORMS = {name: lambda size, options=options, make=make: block(options, make(size)) for name, (options, make) in FORMS.items()}
failed = 0
for name, make in (FORMS | BLOCKS).items():
    if only and name not in only:
        continue
    small, _ = measured(make, SMALL)
    large, memory = measured(make, LARGE)
    bad = large >= LIMIT or (large > LEAST and large > GROWTH * small) or memory > MOST
    print(f'{name}: 4 MiB in {small:.2f} s, 16 MiB in {large:.2f} s and {memory:.0f} MB' + (' FAILED' if bad else ''), flush=True)
    failed |= bad
sys.exit(failed)
PYTHON
