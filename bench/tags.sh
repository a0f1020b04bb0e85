#!/bin/sh
# Measures what tags cost, in both formats of emitted text, beside the original re2c where that is installed, and fails where one of these limits
# is not met. Where no original is there, only ours are measured.
# For each of the examples dates, log_lines, http_messages and uris, in format 3, beside the original as it works without options but `-i -T`:
# - registers: at most as many;
# - operations, which are statements that set, empty or copy a register or a history: at most 1.3 times as many;
# - bytes of all that stands in the places of the blocks: at most 1.5 times as many;
# - speed on a generated text of 16 MiB, compiled by `gcc -O2`, and by `clang -O2` where it is there: at least the same.
# For two generated scanners, in both formats, with the original or without it:
# - sixteen tags before 600 letters (`[ab]* @t0 .. @t15 [ab]{600}`): under 3 s, and under 4,000,000 bytes;
# - eight tags before 1,446 letters, with 1,047,629 of the 1,048,576 places that a scanner may have: under 60 s and 2 GiB of memory.
#
# The operations and registers of the original are counted as ours are: each `yytN = ` is one, also where several stand in a line. Its
# tags at a fixed distance from others take no register; a row tells what it has without that. Seconds are those of the processor, and
# memory is the peak that is resident. The bytes under a compiler's name are those that `size` calls text. A compiler has 60 s and 4 GiB,
# and the original 120 s; `-` stands where that is not enough. For the speed all scanners of a source by a compiler stand in one program, each
# at four places of a line of 64 bytes (bench/places.py), and take turns, seven at each place. At each place the best turn counts, and of the
# places the mean. What all scanners of a source give has to be the same. The original stands there with -b and -g, too.
#
# Usage: bench/tags.sh, from anywhere; RE2C names the program (that of bin/re2c where it is unset), and ORIGINAL the original (re2c where
# it is unset).
cd "$(dirname "$0")/.." || exit 1
work=$(mktemp -d) || exit 1
trap 'rm -rf "$work"' EXIT
program=${RE2C:-}
if [ -z "$program" ]; then
    bin/re2c -i examples/quoted.re > /dev/null || { echo "tags: no program" >&2; exit 1; }
    program=$(find crates/re2c/out -maxdepth 1 -type f -name re2c | head -1)
fi

# runs a command within limits, and prints its seconds of the processor, its peak memory in KiB and its status
cat > "$work/within.c" <<'C'
#include <stdio.h>
#include <stdlib.h>
#include <sys/resource.h>
#include <sys/types.h>
#include <sys/wait.h>
#include <unistd.h>

static void limit(int what, rlim_t most)
{
    struct rlimit limits = { most, most };

    setrlimit(what, &limits);
}

int main(int count, char **words)
{
    struct rusage usage;
    int status = 0;
    pid_t child = fork();

    if (count < 3 || child < 0)
        return 1;
    if (child == 0) {
        limit(RLIMIT_CORE, 0);
        limit(RLIMIT_CPU, (rlim_t)atol(words[1]));
        limit(RLIMIT_AS, (rlim_t)4 << 30);
        dup2(2, 1);
        execvp(words[2], words + 2);
        _exit(127);
    }
    if (wait4(child, &status, 0, &usage) != child)
        return 1;
    printf("%f %ld %d\n", (double)(usage.ru_utime.tv_sec + usage.ru_stime.tv_sec)
        + (double)(usage.ru_utime.tv_usec + usage.ru_stime.tv_usec) / 1e6, usage.ru_maxrss, status);
    return 0;
}
C

# scans a text with the scanner of an example, by a function scan_ID that adds up what it gives
cat > "$work/scan.c" <<'C'
#include <stdio.h>
#include <stdlib.h>
#include <string.h>

extern unsigned char *whole; /* the text */
extern unsigned long sum;

static void add(const void *place)
{
    sum = sum * 31 + (place ? (unsigned long)((const unsigned char *)place - whole) : 7);
}

#define JOINED(one, other) one##other
#define NAMED(one, other) JOINED(one, other)
#define main NAMED(example_main_, ID)
#ifdef DATES
#define printf(format, one, two, three) (add(one), add(two), add(three))
#endif
#include PIECE
#undef main
#undef printf

void NAMED(scan_, ID)(const unsigned char *end, int all);

void NAMED(scan_, ID)(const unsigned char *end, int all)
{
#ifdef DATES
    (void)all;
    for (next = whole; next != end;)
        date();
#else
    const unsigned char *at = whole;
    enum kind kind;

    (void)end;
    while ((kind = SCANNER(&at)) != END) {
        sum += (unsigned long)kind;
        if (all && kind != FAULT) {
            const unsigned char *tags[] = { TAGS };

            for (size_t tag = 0; tag < sizeof tags / sizeof *tags; ++tag)
                add(tags[tag]);
        }
    }
    add(at);
#endif
}
C

# what a turn begins with, and what it gave; with CHECKED in the environment that is all that the matches gave
cat > "$work/front.h" <<'C'
unsigned char *whole;
unsigned long sum;
static size_t length;
static int all_given;

static void take(const char *name)
{
    size_t size = (size_t)17 << 20;
    FILE *file = fopen(name, "rb");

    all_given = getenv("CHECKED") != NULL;
    whole = calloc(size, 1);
    if (!whole || !file || (length = fread(whole, 1, size - 1, file)) == 0)
        exit(1);
    fclose(file);
}

static void begin(void)
{
    sum = 0;
}

static unsigned long result(void)
{
    return sum;
}
C
PYTHONPATH=bench PYTHONDONTWRITEBYTECODE=1 python3 - "$work" "$program" "${ORIGINAL:-re2c}" <<'PYTHON'
import os, random, re, resource, shutil, subprocess, sys
from places import Timed
work, program, original = sys.argv[1:]
SIZE = 16 << 20
TURNS = 7
EXAMPLES = ('dates', 'log_lines', 'http_messages', 'uris')
OPERATION = re.compile(rb'\b(yytm?[0-9]+) = |\bYYMTAG[PN] ?\((yytm[0-9]+)\)')
BLOCK = re.compile(rb'/\*![a-z]*:?re2c\b.*?\*/', re.DOTALL)
OURS, TWO, THEIRS, BITS, GOTOS = 'this re2c, format 3', 'this re2c, format 2', 'the original', 'the original with -b', 'the original with -g'
PLAIN, LOOSE = 'the same with --no-optimize-tags', 'the same with --fixed-tags none'


def sources():
    """Returns the sources by their names, with the number of the tags of those that are generated."""
    given = {name: open(f'examples/{name}.re').read() for name in EXAMPLES}
    for name, tags, letters in (('sixteen', 16, 600), ('limit', 8, 1446)):
        names = [f't{k}' for k in range(tags)]
        given[name] = (
            '#define YYCTYPE unsigned char\n\nint scan(const unsigned char *YYCURSOR, const unsigned char **to)\n{\n'
            f'\tconst unsigned char *YYMARKER, *{", *".join(names)};\n'
            '\t/*!stags:re2c format = "const unsigned char *@@;"; separator = "\\n\\t"; */\n\n\t/*!re2c\n\tre2c:yyfill:enable = 0;\n'
            f'\t[ab]* @{" @".join(names)} [ab]{{{letters}}} '
            f'{{ {" ".join(f"to[{k}] = {tag};" for k, tag in enumerate(names))} return 1; }}\n'
            '\t* { return 0; }\n\t*/\n\treturn 0;\n}\n')
    return given


def dates(rng):
    kind = rng.random()
    if kind < 0.4:
        return f'{rng.randrange(1900, 2100)}-{rng.randrange(1, 13):02}-{rng.randrange(1, 32):02} '
    if kind < 0.5:
        return f'{rng.randrange(1900, 2100)}-{rng.randrange(1, 13)}-{rng.randrange(1, 32)}, '
    return ''.join(rng.choices('abcdefghijklmnopqrstuvwxyz', k=rng.randrange(1, 12))) + ' '


def word(rng, least=1, most=10):
    return ''.join(rng.choices('abcdefghijklmnopqrstuvwxyz0123456789-_', k=rng.randrange(least, most)))


def numbers(rng):
    return '.'.join(str(rng.randrange(256)) for _ in range(4))


def path(rng):
    return ''.join('/' + word(rng) for _ in range(rng.randrange(5))) + ('/' if rng.random() < 0.3 else '')


def query(rng):
    return '&'.join(f'{word(rng, 1, 5)}={word(rng)}%2{rng.randrange(10)}' for _ in range(rng.randrange(1, 4)))


def log_lines(rng):
    if rng.random() < 0.01:
        return word(rng, 1, 80) + '\n'
    address = numbers(rng) if rng.random() < 0.8 else ':'.join(f'{rng.randrange(65536):x}' for _ in range(8))
    target = (path(rng) or '/') + ('?' + query(rng) if rng.random() < 0.3 else '')
    line = (f'{address} - {word(rng) if rng.random() < 0.2 else "-"} [{rng.randrange(1, 32):02}/{rng.choice(("Jan", "May", "Oct"))}/'
            f'{rng.randrange(2000, 2030)}:{rng.randrange(24):02}:{rng.randrange(60):02}:{rng.randrange(60):02} +0{rng.randrange(10)}00] '
            f'"{rng.choice(("GET", "GET", "POST", "HEAD"))} {target} HTTP/1.{rng.randrange(2)}" {rng.choice((200, 200, 304, 404))} '
            f'{rng.randrange(100000) if rng.random() < 0.9 else "-"}')
    if rng.random() < 0.7:
        agent = ' '.join(word(rng) for _ in range(rng.randrange(1, 12)))
        line += f' "{"https://" + word(rng) + path(rng) if rng.random() < 0.6 else "-"}" "{agent} ({word(rng)}; \\"{word(rng)}\\")"'
    return line + '\n'


def field(rng):
    blanks = ' ' * (rng.random() < 0.9)
    return f'{word(rng, 3, 16).title()}:{blanks}{" ".join(word(rng) for _ in range(rng.randrange(8)))}\r\n'


def http_messages(rng):
    if rng.random() < 0.5:
        target = (path(rng) or '/') + ('?' + query(rng) if rng.random() < 0.3 else '')
        line = f'{rng.choice(("GET", "GET", "POST", "HEAD"))} {target} HTTP/1.1\r\n'
    else:
        line = f'HTTP/1.1 {rng.choice(("200 OK", "304 Not Modified", "404 Not Found"))}\r\n'
    return line + ''.join(field(rng) for _ in range(rng.randrange(2, 16))) + '\r\n'


def uris(rng):
    kind = rng.random()
    if kind < 0.05:
        return f'{word(rng)} {word(rng)}\n'
    tail = ('?' + query(rng) if rng.random() < 0.4 else '') + ('#' + word(rng) if rng.random() < 0.2 else '') + '\n'
    if kind < 0.15:
        return f'mailto:{word(rng)}@{word(rng)}.example' + tail
    if kind < 0.2:
        return f'urn:{":".join(word(rng) for _ in range(rng.randrange(1, 6)))}' + tail
    if kind < 0.25:
        return 'file:/' + word(rng) + path(rng) + tail
    host = rng.random()
    if host < 0.15:
        host = '[' + ':'.join(f'{rng.randrange(65536):x}' for _ in range(rng.randrange(1, 7))) + f'::{rng.randrange(65536):x}]'
    elif host < 0.35:
        host = numbers(rng)
    else:
        host = '.'.join(word(rng) for _ in range(rng.randrange(1, 4))) + '.example'
    user = f'{word(rng)}:%4{rng.randrange(10)}{word(rng)}@' if rng.random() < 0.15 else ''
    port = f':{rng.randrange(65536)}' if rng.random() < 0.3 else ''
    return f'{rng.choice(("http", "https", "https", "ftp", "ldap"))}://{user}{host}{port}{path(rng)}' + tail


def write_text(name):
    """Writes the text for an example, of whole parts of at most SIZE bytes in all."""
    rng, part, parts, length = random.Random(1), globals()[name], [], 0
    while True:
        parts.append(part(rng))
        length += len(parts[-1])
        if length > SIZE:
            break
    with open(f'{work}/{name}.text', 'w') as file:
        file.write(''.join(parts[:-1]))


def within(seconds, words):
    """Runs a command, and returns its seconds and its memory in bytes, or None where it fails or the limits are not enough."""
    ran = subprocess.run([f'{work}/within', str(seconds)] + words, stdout=subprocess.PIPE, stderr=subprocess.PIPE, check=True, text=True)
    taken, memory, status = ran.stdout.split()
    if status != '0':
        return None
    return float(taken), 1024 * int(memory)


def counted(source, made):
    """Returns the registers, the histories, the operations and the bytes of a scanner."""
    outside = BLOCK.split(source.encode())
    size, names, operations = os.path.getsize(made), set(), 0
    with open(made, 'rb') as file:
        for line in file:
            for found in OPERATION.finditer(line):
                names.add(found[1] or found[2])
                operations += 1
    histories = sum(name.startswith(b'yytm') for name in names)
    return len(names) - histories, histories, operations, size - sum(map(len, outside))


def compiled(compiler, made):
    """Returns the bytes of a compiled scanner, or None where the limits are not enough."""
    if within(60, [compiler, '-O2', '-w', '-c', '-o', f'{work}/made.o', made]) is None:
        return None
    return int(subprocess.run(['size', f'{work}/made.o'], stdout=subprocess.PIPE, check=True, text=True).stdout.split('\n')[1].split()[0])


def macros(name, made):
    """Returns what an example is compiled with to be measured."""
    if name == 'dates':
        return [f'-DPIECE="{made}"', '-DDATES']
    scanner = 'uri' if name == 'uris' else 'line'
    text = open(f'examples/{name}.re').read()
    tags = dict.fromkeys(re.findall(r'@([a-z]\w*)', text))
    return [f'-DPIECE="{made}"', f'-DSCANNER={scanner}', '-DTAGS=' + ','.join(tags)]


def limited():
    for what, most in ((resource.RLIMIT_CORE, 0), (resource.RLIMIT_CPU, 60), (resource.RLIMIT_AS, 4 << 30)):
        resource.setrlimit(what, (most, most))


def speeds(name, compiler, makers):
    """Returns the speed of each maker's scanner in MiB a second, where the compiler's limits are enough."""
    folder = f'{work}/{name}_{compiler}'
    os.mkdir(folder)
    shutil.copy(f'{work}/front.h', folder)
    program = Timed(folder, compiler, '#include "front.h"', limited)
    for maker, made in makers.items():
        words = lambda named: [compiler, '-O2', '-w', *macros(name, made), f'-DID={named}', f'{work}/scan.c']
        program.add(maker, words, lambda named: f'void scan_{named}(const unsigned char *, int);\n'
                                                f'static void run_{named}(void) {{ scan_{named}(whole + length, all_given); }}')
    os.environ['CHECKED'] = 'yes'
    program.run(1, f'{work}/{name}.text')
    del os.environ['CHECKED']
    taken = program.run(TURNS, f'{work}/{name}.text')
    return {maker: os.path.getsize(f'{work}/{name}.text') / (1 << 20) / mean for maker, (mean, _, _) in taken.items()}


def shown(value, form='{:,}'):
    return '-' if value is None else form.format(value)


def table(name, rows, compilers):
    """Prints the rows of a source."""
    heads = ['registers', 'histories', 'operations', 'bytes', 'seconds', 'memory MB'] + [f'{compiler} bytes' for compiler in compilers]
    heads += [f'{compiler} MiB/s' for compiler in compilers] if name in EXAMPLES else []
    print(f'{name:34}' + ''.join(f'{head:>14}' for head in heads))
    for maker, row in rows.items():
        cells = [shown(cell) for cell in row['counts']] + [shown(row['seconds'], '{:.2f}'), shown(row['memory'], '{:.1f}')]
        cells += [shown(row['objects'].get(compiler)) for compiler in compilers]
        cells += [shown(row['speeds'].get(compiler), '{:.0f}') for compiler in compilers] if name in EXAMPLES else []
        print(f'  {maker:32}' + ''.join(f'{cell:>14}' for cell in cells))
    for compiler, speed in rows[THEIRS]['speeds'].items() if THEIRS in rows else ():
        if compiler in rows[OURS]['speeds']:
            print(f'  speed of format 3 beside the original, {compiler}: {rows[OURS]["speeds"][compiler] / speed:.2f}')
    print(flush=True)


def measured(name, source, makers, compilers):
    """Returns what there is to tell of a source, for each maker."""
    rows, done = {}, {}
    with open(f'{work}/{name}.re', 'w') as file:
        file.write(source)
    for number, (maker, (seconds, words)) in enumerate(makers.items()):
        made = f'{work}/{name}_{number}.c'
        taken = within(seconds, words + ['-o', made, f'{work}/{name}.re'])
        if taken is None:
            rows[maker] = {'counts': [None] * 4, 'seconds': None, 'memory': None, 'objects': {}, 'speeds': {}}
            continue
        objects = {compiler: compiled(compiler, made) for compiler in compilers}
        rows[maker] = {'counts': counted(source, made), 'seconds': taken[0], 'memory': taken[1] / 1e6, 'objects': objects, 'speeds': {}}
        done[maker] = made
    if name in EXAMPLES:
        write_text(name)
        for compiler in compilers:
            for maker, speed in speeds(name, compiler, done).items():
                rows[maker]['speeds'][compiler] = speed
    for made in done.values():
        os.remove(made)
    return rows


def compared(name, rows):
    """Returns the limits of an example beside the original, each with whether it is met."""
    ours, theirs, limits = rows[OURS], rows[THEIRS], []
    for place, what, times in ((0, 'registers', 1), (2, 'operations', 1.3), (3, 'bytes', 1.5)):
        got, most = ours['counts'][place], theirs['counts'][place]
        limits.append((got <= times * most, f'{name}: {got:,} {what}, at most {int(times * most):,}'))
    for compiler, speed in theirs['speeds'].items():
        ratio = ours['speeds'].get(compiler, 0) / speed
        limits.append((ratio >= 1, f'{name}: {ratio:.2f} of the speed with {compiler}, at least 1.00'))
    return limits


def alone(name, row):
    """Returns the limits of a generated scanner, each with whether it is met."""
    if row['seconds'] is None:
        return [(False, f'{name}: not compiled')]
    seconds, size, memory = row['seconds'], row['counts'][3], row['memory'] * 1e6
    if name.startswith('sixteen'):
        return [(seconds < 3, f'{name}: {seconds:.2f} s, under 3'), (size < 4_000_000, f'{name}: {size:,} bytes, under 4,000,000')]
    return [(seconds < 60, f'{name}: {seconds:.2f} s, under 60'),
            (memory < 2 ** 31, f'{name}: {memory / 2 ** 30:.2f} GiB of memory, under 2')]


def main():
    compilers = [compiler for compiler in ('gcc', 'clang') if shutil.which(compiler)]
    subprocess.run([(compilers or ['cc'])[0], '-O2', '-w', '-o', f'{work}/within', f'{work}/within.c'], check=True)
    makers, limits = {OURS: (300, [program, '-i', '-T', '--x-format', '3']), TWO: (300, [program, '-i', '-T'])}, []
    if shutil.which(original):
        version = subprocess.run([original, '--version'], stdout=subprocess.PIPE, check=True, text=True).stdout.strip()
        print(f'the original is {version}\n')
        words = [original, '-i', '-T', '--no-version', '--no-generation-date']
        makers |= {THEIRS: (120, words), BITS: (120, words + ['-b']), GOTOS: (120, words + ['-g']), PLAIN: (120, words + ['--no-optimize-tags']), LOOSE: (120, words + ['--fixed-tags', 'none'])}
    else:
        print('the original is not installed: only ours are measured\n')
    for name, source in sources().items():
        rows = measured(name, source, makers, compilers)
        table(name, rows, compilers)
        if name not in EXAMPLES:
            limits += alone(f'{name}, format 3', rows[OURS]) + alone(f'{name}, format 2', rows[TWO])
        elif rows[OURS]['seconds'] is None:
            limits.append((False, f'{name}: not compiled'))
        elif THEIRS in rows and rows[THEIRS]['seconds'] is not None:
            limits += compared(name, rows)
    for met, text in limits:
        print(('met      ' if met else 'not met  ') + text)
    print(f'{sum(met for met, _ in limits)} of {len(limits)} limits are met')
    return not all(met for met, _ in limits)


sys.exit(main())
PYTHON
