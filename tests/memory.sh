#!/bin/sh
# Runs the program on five worked inputs, and refuses each of its requests for memory in turn: once alone, and once with all that come
# behind it. The requests are those to the C library, in whose place a small library in C counts them.
#
# Each run is to end with status 4, with the text of want of memory at the standard error or a front of it, or as it ends without a
# refusal. What it gives to the standard output is to be a front of what is given without a refusal, and all of that where it does not
# end with status 4. The file that it writes is to have its whole bytes, or what stood there; the standard output is to have nothing
# where the file was not written; and all other files are to be as they were.
#
# The table has a line for each run and each way to refuse: the requests, how many runs ended with which status, and how many of those
# with status 4 told of it by the whole text. What is not as it should be stands below, and then the status is 1.
#
# Usage: tests/memory.sh, from anywhere; RE2C names the program itself and no script that runs it (that of bin/re2c where it is unset), and
# CC the compiler (cc where it is unset). It takes about a minute.
set -eu
root=$(cd "$(dirname "$0")/.." && pwd)
program=${RE2C:-}
if [ -z "$program" ]; then
	"$root/bin/re2c" -i "$root/examples/plain.c" > /dev/null
	program=$root/crates/re2c/out/re2c
fi
work=$(mktemp -d)
trap 'rm -rf "$work"' EXIT
cat > "$work/refusing.c" <<'C'
/* Takes the place of the C library's requests for memory: counts them, and refuses those between two numbers. */
#include <errno.h>
#include <fcntl.h>
#include <stdio.h>
#include <stdlib.h>
#include <unistd.h>

void *__libc_malloc(size_t);
void *__libc_calloc(size_t, size_t);
void *__libc_realloc(void *, size_t);
void *__libc_memalign(size_t, size_t);

static long made, first, last;
static int counts;

static int is_refused(void)
{
	if (!counts || ++made < first || made > last) return 0;
	errno = ENOMEM;
	return 1;
}

void *malloc(size_t size) { return is_refused() ? NULL : __libc_malloc(size); }
void *calloc(size_t count, size_t size) { return is_refused() ? NULL : __libc_calloc(count, size); }
void *realloc(void *from, size_t size) { return is_refused() ? NULL : __libc_realloc(from, size); }
void *aligned_alloc(size_t align, size_t size) { return is_refused() ? NULL : __libc_memalign(align, size); }

__attribute__((constructor)) static void begin(void)
{
	first = atol(getenv("REFUSED_FROM"));
	last = atol(getenv("REFUSED_TO"));
	counts = 1;
}

__attribute__((destructor)) static void end(void)
{
	char text[32];
	int to = open(getenv("REQUESTS"), O_WRONLY | O_CREAT | O_TRUNC, 0666);
	counts = 0;
	if (to < 0 || write(to, text, (size_t)snprintf(text, sizeof text, "%ld", made)) < 0) _exit(99);
}
C
"${CC:-cc}" -O2 -Wall -Wextra -shared -fPIC -o "$work/refusing.so" "$work/refusing.c"
python3 - "$program" "$work" <<'PYTHON'
import collections, os, subprocess, sys

program, work = os.path.abspath(sys.argv[1]), sys.argv[2]
folder, requests = os.path.join(work, 'folder'), os.path.join(work, 'requests')
OUT_OF_MEMORY = 4
TEXT = b're2c: error: out of memory\n'
SECONDS = 10
ALL = 10 ** 9

Run = collections.namedtuple('Run', 'title words files written')
End = collections.namedtuple('End', 'status out err left requests')

def block(lines, kind=''):
    return f'/*!{kind}re2c\n{lines}*/\n'.encode()

def held():
    """The files of the folder."""
    files = {}
    for name in os.listdir(folder):
        with open(os.path.join(folder, name), 'rb') as file:
            files[name] = file.read()
    return files

def restore(files):
    """Makes these the files of the folder."""
    there = held()
    for name in there.keys() | files.keys():
        if name not in files:
            os.remove(os.path.join(folder, name))
        elif there.get(name) != files[name]:
            with open(os.path.join(folder, name), 'wb') as file:
                file.write(files[name])

def ends(run, first=0, last=0):
    """How the run ends where the requests between two numbers are refused; the status is None where it goes on for too long."""
    restore(run.files)
    if os.path.exists(requests):
        os.remove(requests)
    told = {'LD_PRELOAD': os.path.join(work, 'refusing.so'), 'REFUSED_FROM': str(first), 'REFUSED_TO': str(last), 'REQUESTS': requests}
    try:
        found = subprocess.run([program] + run.words, cwd=folder, env=told, stdin=subprocess.DEVNULL, capture_output=True, timeout=SECONDS)
        status, out, err = found.returncode, found.stdout, found.stderr
    except subprocess.TimeoutExpired:
        status, out, err = None, b'', b''
    made = 0
    if os.path.exists(requests):
        with open(requests) as file:
            made = int(file.read())
    return End(status, out, err, held(), made)

def faults(run, whole, number, end):
    """What is not as it should be where the request of this number was refused."""
    if end.status is None:
        return ['it goes on for too long']
    if end.status not in (whole.status, OUT_OF_MEMORY):
        return [f'status {end.status}']
    found = []
    if end.requests < number:
        found.append('the request was not made')
    if end.status == OUT_OF_MEMORY:
        told, left = TEXT.startswith(end.err), [run.files, whole.left]
    else:
        told, left = end.err == whole.err, [whole.left]
        if end.out != whole.out:
            found.append('the standard output has other bytes')
    if not told:
        found.append(f'the standard error has {end.err!r}')
    if end.left not in left:
        found.append('the files are others')
    if not whole.out.startswith(end.out):
        found.append('what the standard output has is no front')
    if end.out and end.left != whole.left:
        found.append('the standard output has bytes, and the file was not written')
    return found

def tries(run, whole, way):
    """Prints the row of a run, and gives what is not as it should be."""
    statuses, told, found = collections.Counter(), 0, []
    for number in range(1, whole.requests + 1):
        end = ends(run, number, number if way == 'alone' else ALL)
        statuses[end.status] += 1
        told += end.status == OUT_OF_MEMORY and end.err == TEXT
        found += [f'{run.title}: request {number}, refused {way}: {fault}' for fault in faults(run, whole, number, end)]
    others = sum(count for status, count in statuses.items() if status not in (0, OUT_OF_MEMORY))
    print(f'{run.title:34} {way:14} {whole.requests:8} {statuses[0]:8} {statuses[OUT_OF_MEMORY]:8} {told:8} {others:6}   '
          f'{"no" if found else "yes"}', flush=True)
    return found

PLAIN = 're2c:yyfill:enable = 0;\n'
STORED = block('re2c:eof = 0;\n$ { }\n@t [^\\x00-\\x7f] (@u "x")? { }\n* { }\n')
INCLUDING = (b'A\n/*!include:re2c "i.h" */\n' + block(PLAIN + 'digit = [0-9];\ndigit+ { }\n* { }\n', 'rules:') + block('"x" { }\n', 'use:')
             + block('"abc" { }\n* { }\n') + b'/*!max:re2c*/\n/*!stags:re2c format = "@@"; separator = ","; */\n/*!ignore:re2c x */\nB\n')

def runs():
    yield Run('keywords', ['-i', 'k.re'], {'k.re': block(PLAIN + '"if" { }\n"ifx" { }\n* { }\n')}, None)
    yield Run('tags', ['-i', '-T', 't.re'], {'t.re': block(PLAIN + '("a" @t | "b")* { }\n')}, None)
    stored = Run('stored states', ['-i', '-f', '-8', '-T', '-o', 's.c', 's.re'], {'s.re': STORED}, 's.c')
    yield stored
    emitted = ends(stored).left['s.c']
    yield Run('stored states, a run', ['--x-run', 'in.txt', '--x-piece', '1', 's.c'], {'in.txt': b'\xe2\x82\xac', 's.c': emitted}, None)
    yield Run('includes, rules and directives', ['m.re'], {'m.re': INCLUDING, 'i.h': b'X\n'}, None)
    yield Run('a generated source', ['--x-source', '2', '-o', 'g.c'], {'g.c': b'int x;\n'}, 'g.c')

os.mkdir(folder)
print(f'{"run":34} {"refused":14} {"requests":>8} {"status 0":>8} {"status 4":>8} {"told":>8} {"others":>6}   as it should be')
found = []
for run in runs():
    whole = ends(run)
    names = set(run.files) | ({run.written} if run.written else set())
    if whole.status != 0 or whole.err or not (whole.out or run.written) or set(whole.left) != names or not whole.requests:
        sys.exit(f'memory: {run.title} ends with status {whole.status} without a refusal: {whole.err!r}')
    for way in ('alone', 'with all behind'):
        found += tries(run, whole, way)
for line in found:
    print(line)
sys.exit(1 if found else 0)
PYTHON
