#!/bin/sh
# Measures inputs that are made to take long, or much memory, in three tables, and fails where one takes more than it may, or ends with
# another status than it should. RE2C names the program (that of bin/re2c where it is unset).
#
# The first table has small inputs, each at two sizes, and the shortest of three runs of each. One fails, too, where four times the size
# takes more than six times as long:
# - 4,000 rules, each of a class of its own of all letters but one, in UTF-8 (10 s);
# - 20,000 tags in one definition, and 20,000 definitions that stand on it (5 s, 200 MB); and 20,000 definitions that have one tag
#   more each (5 s, 200 MB);
# - a class of 20,000 alternatives, past the limits of a scanner (2 s), and one of 20,000 differences (2 s);
# - 20,000 conditions, each with a rule of its own, and in one list (5 s);
# - an emitted file with a great register (0.1 s), one with 20,000 tags in one rule (1 s a match), and one with 60,000
#   conditions (2 s).
#
# The second has for each limit a source that has as much as is accepted, which is done, and one that has one more, which is refused.
# Each may take 10 s and 1 GiB. Behind it stand sources that meet two limits at once. They are run with 1 GiB of memory and no more, and
# are done or end for want of it, within 10 s.
# The third has sources of 16 MiB of one form repeated, which are refused or done. Each may take 10 s, and so may those that are a quarter
# as long, which show how it grows. What memory they take is told.
#
# A run that takes 10 s or more is made up to twice again, and the shortest counts: on a machine that others share, the same run may take
# twice the time a minute later. The line tells how many runs there were.
cd "$(dirname "$0")/.." || exit 1
work=$(mktemp -d) || exit 1
trap 'rm -rf "$work"' EXIT
program=${RE2C:-}
if [ -z "$program" ]; then
    bin/re2c -i examples/quoted.re > /dev/null || { echo "hostile: no program" >&2; exit 1; }
    program=$(find crates/re2c/out -maxdepth 1 -type f -name re2c | head -1)
fi
python3 - "$work" "$(realpath "$program")" <<'PYTHON'
import os, subprocess, sys, unicodedata
work, program = sys.argv[1:]
os.chdir(work)
GROWTH = 6.0
# a time below which growth says nothing, in seconds
LEAST = 0.05
# the limits on processor time in seconds, and on memory in MiB
SECONDS, MEMORY = 10.0, 1024
# how often a run that takes longer is made, and one of a small input, since others may use the same processors
RUNS = 3
MIB = 1 << 20
BEGIN = '/*!re2c\nre2c:yyfill:enable = 0;\n'
NAMES = ('YYCTYPE YYCURSOR YYLIMIT YYMARKER YYCTXMARKER YYFILL YYGETSTATE YYSETSTATE YYGETCONDITION YYSETCONDITION '
         'YYMTAGP YYMTAGN yych yyaccept yyt yyc_ yyc').split()

def piece(body):
    names = ' '.join(f'{len(name)}:{name}' for name in NAMES)
    return (f'/*!begin:re2c 1*/\n/*!names:re2c 1 - {names}*/\n{{\n\tYYCTYPE yych;\n\tunsigned int yyaccept = 0;\n'
            + body + 'yy1_none:;\n}\n/*!end:re2c*/')

def matching(statements):
    return piece('yy1_0:\n\tyych = *YYCURSOR;\n\tif (yych <= 0x60) goto yy1_2;\n\tif (yych <= 0x61) goto yy1_1;\n\tgoto yy1_2;\n'
                 'yy1_1:\n\t++YYCURSOR;\n' + statements + '\t/*!code:re2c 1 3*/{ }\nyy1_2:\n\tgoto yy1_none;\n')

def register(number):
    return matching(f'\tyyt{number} = YYCURSOR;\n\tt = yyt{number};\n')

def tags(count):
    return matching(''.join(f'\tt{k} = yyt1;\n' for k in range(count)))

def conditions(count):
    cases = ''.join(f'\tcase yycc{k}: goto yy1_{k};\n' for k in range(count))
    blocks = ''.join(f'yyc_c{k}:\nyy1_{k}:\n\tYYSETCONDITION(yycc{k});\n\tgoto yy1_none;\n' for k in range(count))
    return piece('yy1_cond:\n\tswitch (YYGETCONDITION()) {\n' + cases + '\t}\n' + blocks)

def letters():
    points = [point for point in range(0x110000) if unicodedata.category(chr(point)).startswith('L')]
    spell = lambda point: f'\\U{point:08X}'
    ranges, first = [], points[0]
    for point, following in zip(points, points[1:] + [0]):
        if following != point + 1:
            ranges.append(spell(first) + '-' + spell(point))
            first = following
    return points, '[' + ''.join(ranges) + ']'

def classes(count):
    points, every = letters()
    lines = ''.join(f'letter \\ [\\U{point:08X}] {{ }}\n' for point in points[:count])
    return f'{BEGIN}letter = {every};\n{lines}*/\n'

def definitions(count):
    tags = ' '.join(f'@t{k}' for k in range(count))
    lines = ''.join(f'd{k + 1} = d{k};\n' for k in range(count))
    return f'{BEGIN}d0 = "a" {tags};\n{lines}*/\n'

def chain(count):
    lines = ''.join(f'd{k + 1} = d{k} @x{k};\n' for k in range(count))
    return f'{BEGIN}d0 = "a";\n{lines}*/\n'

def alternatives(count):
    points, _ = letters()
    return BEGIN + 'e = ' + ' | '.join(f'[\\U{point:08X}]' for point in points[::2][:count]) + ';\n*/\n'

def differences(count):
    points, _ = letters()
    return BEGIN + 'e = [^] \\ ' + ' \\ '.join(f'[\\U{point:08X}]' for point in points[::2][:count]) + ';\n*/\n'

def condition_rules(count):
    return BEGIN + ''.join(f'<c{k}> "a" {{ }}\n' for k in range(count)) + '*/\n'

def condition_list(count):
    return BEGIN + '<' + ', '.join(f'c{k}' for k in range(count)) + '> "a" { }\n*/\n'

# ---- the program

# The peak of a process counts that of the one that began it, so a small one begins it.
BEGUN = """
import os, resource, sys
seconds, memory = map(int, sys.argv[1:3])
files = [(os.POSIX_SPAWN_OPEN, 1, os.devnull, os.O_WRONLY, 0),
         (os.POSIX_SPAWN_OPEN, 2, 'err', os.O_WRONLY | os.O_CREAT | os.O_TRUNC, 0o644)]
resource.setrlimit(resource.RLIMIT_CPU, (seconds, seconds))
resource.setrlimit(resource.RLIMIT_AS, (memory, memory))
child = os.posix_spawn(sys.argv[3], sys.argv[3:], {}, file_actions=files)
_, status, usage = os.wait4(child, 0)
print(os.waitstatus_to_exitcode(status), usage.ru_utime + usage.ru_stime, usage.ru_maxrss)
"""

def once(words, memory):
    """The status, the seconds of processor time, the MiB and the message with which it ends; a run much past its limits is ended, and one
    gets no more MiB than that."""
    limits = [str(6 * int(SECONDS)), str(memory * MIB)]
    ran = subprocess.run([sys.executable, '-c', BEGUN, *limits, program, *words], stdout=subprocess.PIPE, check=True, text=True)
    status, seconds, peak = ran.stdout.split()
    with open('err', errors='replace') as told:
        return int(status), float(seconds), int(peak) / 1024, told.read().strip().rpartition('error: ')[2]

def measured(words, memory=16 * MEMORY):
    """The same of the shortest of up to RUNS runs, which are made while one takes longer than it may."""
    results = [once(words, memory)]
    while results[-1][1] >= SECONDS and len(results) < RUNS:
        results.append(once(words, memory))
    status, seconds, peak, message = min(results, key=lambda result: result[1])
    return status, seconds, peak, message + (f' (the best of {len(results)} runs)' if len(results) > 1 else '')

def file(name, text):
    with open(name, 'w') as given:
        given.write(text)
    return name

def repeated(name, head, form, foot, size):
    """A file of so many bytes, or a few less, with a form again and again. %d in a form is the number of its place."""
    left, count, many = size - len(head) - len(foot), 0, 4096
    with open(name, 'w') as given:
        given.write(head)
        while left >= len(form):
            many = min(many, left // len(form))
            chunk = ''.join(form.replace('%d', str(count + k)) for k in range(many)) if '%d' in form else form * many
            if len(chunk) > left:
                break
            given.write(chunk)
            left, count = left - len(chunk), count + many
        given.write(foot)
    return name

def run(given):
    return lambda text: measured(['--x-run', file('in.txt', given), file('q.c', text)])

def compile_with(*options):
    return lambda text: measured(['-i', *options, '-o', 'made.c', file('a.re', text)])

failed = []

def tell(name, results, wrong):
    """A line of a table."""
    print(f'{name:36}' + '  '.join(f'{seconds:7.3f} s {memory:5.0f} MiB' for _, seconds, memory, _ in results)
          + f'  {results[-1][0]} {results[-1][3]}' + (f'  FAILED: {wrong}' if wrong else ''), flush=True)
    if wrong:
        failed.append(name)

def excess(result, seconds=SECONDS, memory=MEMORY):
    """What is wrong with a result, where something is."""
    if result[1] >= seconds:
        return 'time'
    return 'memory' if result[2] > memory else '' if result[0] in (0, 1) else f'status {result[0]}'

def late(result):
    """The same where memory is not limited."""
    return excess(result, memory=result[2])

# ---- small inputs

# the maker of an input, how it is given to the program, the greater size, and the limits on time and memory there
INPUTS = {
    'classes': (classes, compile_with('-8'), 4_000, 10.0, MEMORY),
    'tags of definitions': (definitions, compile_with('-T'), 20_000, 5.0, 200),
    'one tag more in each definition': (chain, compile_with('-T'), 20_000, 5.0, 200),
    'alternatives of a class': (alternatives, compile_with('-8'), 20_000, 2.0, MEMORY),
    'differences of a class': (differences, compile_with('-8'), 20_000, 2.0, MEMORY),
    'rules of conditions': (condition_rules, compile_with('-c'), 20_000, 5.0, MEMORY),
    'a list of conditions': (condition_list, compile_with('-c'), 20_000, 5.0, MEMORY),
    'a great register': (register, run('aa'), 100_000_000, 0.1, MEMORY),
    'tags in one rule': (tags, run('aa'), 20_000, 2.0, MEMORY),
    'conditions of emitted text': (conditions, run('a'), 60_000, 2.0, MEMORY),
}
def shortest(measure, text):
    return min((measure(text) for _ in range(RUNS)), key=lambda result: result[1])

print('small inputs: a quarter, and the whole, with the status at its end')
for name, (make, measure, size, limit, most) in INPUTS.items():
    small, large = shortest(measure, make(size // 4)), shortest(measure, make(size))
    slow = large[1] > LEAST and large[1] > GROWTH * small[1]
    tell(f'{name}, {size}', [small, large], excess(large, limit, most) or ('growth' if slow else ''))

# ---- limits

def rules(text, *options, head=BEGIN):
    return ['-i', *options, '-o', 'made.c', file('a.re', head + text + '*/\n')]

def each(count, form):
    return ''.join(form.replace('%d', str(k)) for k in range(count))

def enclosed(count, sign=''):
    return '(' * count + '"a"' + (')' + sign) * count + ' { }\n'

def included(depth):
    for k in range(depth):
        file(f'd{k}.re', f'/*!include:re2c "d{k + 1}.re" */')
    return ['-i', '-o', 'made.c', file(f'd{depth}.re', '') and 'd0.re']

def windows(size, piece, length):
    """The run of a scanner over a token of some length, through a window of some size, by refills of some size."""
    measured(rules('re2c:eof = 0; [a]+ { } $ { }\n', head='/*!re2c\n'))
    return ['--x-run', repeated('in.txt', '', 'a', '', length), '--x-window', str(size), '--x-piece', str(piece), 'made.c']

# what makes the words for a number, the greatest number that is accepted, and the message for one more
LIMITS = {
    'bytes of a source': (lambda n: ['-i', '-o', 'made.c', repeated('a.re', '', 'x', '', n)], 16 * MIB, 'source too long'),
    'depth of includes': (included, 32, 'includes nested too deeply'),
    'bounds': (lambda n: rules(f'd = "" {{{n}}};\n'), 4096, 'wrong bounds'),
    'size, by rules': (lambda n: rules('[^] { }\n' * n), 4096, 'scanner too large'),
    'size, by rules of two letters': (lambda n: rules(''.join(f'"\\x{k % 256:02x}\\x{k // 256:02x}" {{ }}\n' for k in range(n))), 2048,
        'scanner too large'),
    'size, by a repetition': (lambda n: rules(f'[a-z]{{0,{n}}} {{ }}\n'), 4095, 'scanner too large'),
    'size, by alternatives': (lambda n: rules('"b"' + '|"a"' * n + ' { }\n'), 4094, 'scanner too large'),
    'nesting, by parentheses': (lambda n: rules(enclosed(n)), 256, 'scanner too large'),
    'nesting, by parentheses and *': (lambda n: rules(enclosed(n, '*')), 128, 'scanner too large'),
    'nesting, by *': (lambda n: rules('"a"' + '*' * n + ' { }\n'), 256, 'scanner too large'),
    'nesting, by names': (lambda n: rules('n0 = "a";\n' + ''.join(f'n{k + 1} = n{k};\n' for k in range(n)) + f'n{n} {{ }}\n'), 255,
        'scanner too large'),
    'tags': (lambda n: rules(each(n, '("a" @t%d)? ') + '{ }\n', '-T'), 128, 'scanner too large'),
    'tags with all offsets': (lambda n: rules('(' + each(n, '"a" #t%d ') + ')* "b" { }\n', '-T'), 128, 'scanner too large'),
    'groups': (lambda n: rules('("a" | "aa")' * n + ' { }\n', '--captures'), 64, 'scanner too large'),
    'groups, one in another': (lambda n: rules(enclosed(n, '*'), '--captures'), 64, 'scanner too large'),
    'kernels, one for each letter': (lambda n: rules('"' + 'a' * n + '" { }\n'), 4095, 'too many states'),
    'kernels, one for each rule': (lambda n: rules(''.join(f'[\\U{0x10000 + 2 * k:08X}] {{ }}\n' for k in range(n)), '-8'), 3968,
        'too many states'),
    'kernels, by choices': (lambda n: rules(f'[ab]* "a" [ab]{{{n}}} {{ }}\n'), 10, 'too many states'),
    'places': (lambda n: rules(f'("a" | "aa"){{1,{n}}} {{ }}\n'), 835, 'too many states'),
    'places, by letters': (lambda n: rules('"a"? ' * n + '{ }\n'), 1447, 'too many states'),
    'places, with one tag': (lambda n: rules(f'@t ("a" | "aa"){{1,{n}}} {{ }}\n', '-T'), 835, 'too many states'),
    'places of a trailing context': (lambda n: rules(f'[a-z]{{0,{n}}} / [a-z]{{0,{n}}} "!" {{ }}\n'), 1022, 'too many states'),
    'code points': (lambda n: rules(f'[\\U{n:08X}] {{ }}\n', '-8'), 0x10FFFF, 'code point too large'),
    'units at the end': (lambda n: rules(f're2c:eof = {n}; [a] {{ }} $ {{ }}\n', '-u', head='/*!re2c\n'), 0xFFFFFFFF, 'wrong value'),
    'rules of a generated source': (lambda n: ['--x-source', str(n), '-o', 'made.c'], 200, 'usage'),
    'units of a window': (lambda n: windows(n, MIB, MIB - 1), MIB, 'usage'),
    'units of a piece': (lambda n: windows(MIB, n, MIB - 1), MIB, 'usage'),
    'units of a token': (lambda n: windows(MIB, 4096, n), MIB - 1, 'window full: 1048576 kept, 1 needed, 1048576 in all'),
    'units of a token, one by one': (lambda n: windows(MIB, 1, n), MIB - 1, 'window full: 1048576 kept, 1 needed, 1048576 in all'),
}
print('\nlimits: the greatest number, and one more, with the status of this')
for name, (make, most, message) in LIMITS.items():
    taken, refused = measured(make(most)), measured(make(most + 1))
    told = 'refused' if taken[0] else '' if refused[0] == 1 and refused[3].startswith(message) else 'not refused'
    wrong = excess(taken) or excess(refused) or told
    tell(f'{name}, {most}', [taken, refused], wrong)

# ---- two limits at once

def tagged(count):
    return rules(each(count, '@t%d ') + '("a" | "aa"){1,835} { }\n', '-T')

print('\ntwo limits at once: with 1 GiB of memory, and the status')
for count in (16, 128):
    result = measured(tagged(count), MEMORY)
    wrong = 'time' if result[1] >= SECONDS else '' if result[0] in (0, 4) else f'status {result[0]}'
    tell(f'places, with {count} tags', [result], wrong)

# ---- sources of one form

END = '\n*/\n'
RULE = ' { }' + END
# the options, what stands before, the form, and what stands behind
FORMS = {
    'text': ('', '', '// a line of outside text\n', ''),
    'openers of no block': ('', '', '/*!', ''),
    'quotes': ('', BEGIN, '"', END),
    'empty strings': ('', BEGIN, '""', RULE),
    'strings without case': ('', BEGIN, "'a' ", RULE),
    'letters of a string': ('', BEGIN + '"', 'a', '"' + RULE),
    'escapes of a string': ('', BEGIN + '"', '\\x41', '"' + RULE),
    'braces': ('', BEGIN + '"a" ', '{', END),
    'braces that close': ('', BEGIN, '}', END),
    'braces of an action': ('', BEGIN + '"a" {', '{}', '}' + END),
    'bounds': ('', BEGIN + '"a"', '{1}', RULE),
    'rules': ('', BEGIN, '"a"{}\n', END),
    'rules of other words': ('', BEGIN, '"w%d"{}\n', END),
    'rules with a trailing context': ('', BEGIN, '"a"/"b"{}\n', END),
    'parentheses': ('', BEGIN, '(', END),
    'parentheses that close': ('', BEGIN, ')', END),
    'expressions in parentheses': ('', BEGIN, '("a")', RULE),
    'groups': ('--captures', BEGIN, '("a")', RULE),
    'alternatives': ('', BEGIN + '"b"', '|"a"', RULE),
    'alternatives of a definition': ('', BEGIN + 'd = "b"', '|"a"', ';' + END),
    'differences': ('', BEGIN + 'd = [^]', '\\[a]', ';' + END),
    'repetitions': ('', BEGIN + '"a"', '*', RULE),
    'classes': ('', BEGIN, '[^a]', RULE),
    'ranges of a class': ('', BEGIN + '[', 'a-z', ']' + RULE),
    'dots': ('-8', BEGIN, '.', RULE),
    'tags': ('-T', BEGIN, '@t%d ', RULE),
    'tags of one name': ('-T', BEGIN, '#t ', RULE),
    'tags of a definition': ('-T', BEGIN + 'd = ', '@t%d ', ';' + END),
    'a list of conditions': ('-c', BEGIN + '<c', ',c%d', '> "a"' + RULE),
    'a list of one condition': ('-c', BEGIN + '<c', ',c', '> "a"' + RULE),
    'rules of conditions': ('-c', BEGIN, '<c%d>"a"{}\n', END),
    'jumps of conditions': ('-c', BEGIN, '<c%d>"a":=>c%d\n', END),
    'rules of one condition': ('-c', BEGIN, '<c>"a"{}\n', END),
    'names': ('', BEGIN + 'n = "a";\n', 'n ', RULE),
    'unknown names': ('', BEGIN, 'n ', RULE),
    'letters of a name': ('', BEGIN, 'n', ' = "a";' + END),
    'definitions': ('', BEGIN, 'n%d = "a";\n', END),
    'configurations': ('', BEGIN, 're2c:indent:top = 1;\n', '"a"' + RULE),
    'comments': ('', BEGIN, '/**/', '"a"' + RULE),
    'blocks': ('', '', '/*!re2c*/', ''),
    'blocks of a definition': ('', '', '/*!re2c n%d = "a";*/', ''),
    'blocks of a rule': ('', '', '/*!re2c re2c:yyfill:enable = 0; "a" { }*/', ''),
    'rules blocks': ('', '', '/*!rules:re2c "a"{}*/', ''),
    'use blocks': ('', '/*!rules:re2c re2c:yyfill:enable = 0; "a" { }*/', '/*!use:re2c*/', ''),
    'ignored blocks': ('', '', '/*!ignore:re2c*/', ''),
    'directives': ('', '', '/*!max:re2c*/', ''),
    'lists of registers': ('', '', '/*!stags:re2c format = "@@";*/', ''),
    'includes of an empty file': ('', '', '/*!include:re2c "empty.re" */', ''),
    'includes of a missing file': ('', '', '/*!include:re2c "none.re" */', ''),
}
file('empty.re', '')
print('\nsources of one form: 4 MiB, and 16 MiB, with the status of this')
for name, (options, head, form, foot) in FORMS.items():
    results = [measured(['-i', *options.split(), '-o', 'made.c', repeated('a.re', head, form, foot, size * MIB)]) for size in (4, 16)]
    tell(name, results, late(results[0]) or late(results[1]))
for size in (4_000, 16_000):
    repeated(f'{size}.re', '', '// a line of an included text\n', '', size)
    file(f'a{size}.re', f'/*!include:re2c "{size}.re" */' * 1000)
results = [measured(['-i', '-o', 'made.c', f'a{size}.re']) for size in (4_000, 16_000)]
tell('1000 includes of one file', results, late(results[0]) or late(results[1]))

print(f'\nhostile: {len(failed)} failed' + ''.join(f'\n- {name}' for name in failed))
sys.exit(bool(failed))
PYTHON
