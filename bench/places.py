"""Times functions of C that stand in one program, in turns, each at four places of a line of 64 bytes.

Where code stands in a line moves the speed of a scanner by up to a fifth. So each function is compiled four times, and each copy stands
behind so many bytes that it begins at another quarter of a line. At each place the best of some turns counts, and of the places the mean.
`bench/scanning.sh`, `bench/names.sh` and `bench/tags.sh` use it.
"""
import subprocess

PLACES = (0, 16, 32, 48)
PAD = '.text\n.p2align 6\n.skip {}\n.section .note.GNU-stack,"",@progbits\n'
# for a front: what reads a file, behind which a 0 stands
WHOLE = r'''
#include <stdio.h>
#include <stdlib.h>
static unsigned char *whole;

static void take(const char *name)
{
    FILE *file = fopen(name, "rb");
    long size;

    if (!file || fseek(file, 0, SEEK_END) || (size = ftell(file)) < 0 || !(whole = calloc((size_t)size + 1, 1)))
        exit(1);
    rewind(file);
    if (fread(whole, 1, (size_t)size, file) != (size_t)size)
        exit(1);
    fclose(file);
}
'''
DRIVER = r'''
#include <stdio.h>
#include <stdlib.h>
#include <time.h>
%(front)s
%(declared)s

static const struct { int key, place; void (*run)(void); } all[] = { %(table)s };
enum { COUNT = sizeof all / sizeof *all };

static double now(void)
{
    struct timespec at;

    clock_gettime(CLOCK_PROCESS_CPUTIME_ID, &at);
    return (double)at.tv_sec + (double)at.tv_nsec * 1e-9;
}

int main(int count, char **words)
{
    static double best[COUNT];
    static unsigned long sums[COUNT];
    int turns = atoi(words[1]);

    (void)count;
    take(words[2]);
    for (int turn = 0; turn < turns; ++turn)
        for (int at = 0; at < COUNT; ++at) {
            double begun, seconds;

            begin();
            begun = now();
            all[at].run();
            seconds = now() - begun;
            sums[at] = result();
            if (turn == 0 || seconds < best[at])
                best[at] = seconds;
        }
    for (int at = 0; at < COUNT; ++at)
        printf("%%d %%d %%.9f %%lx\n", all[at].key, all[at].place, best[at], sums[at]);
    return 0;
}
'''


class Timed:
    """A program of functions that are timed.

    The text `front` of C defines `take`, which reads a file by its name, `begin`, which comes before each turn, and `result`, which is a sum of
    what a turn gave. `limited` is called in each compiler that is run.
    """

    def __init__(self, folder, compiler, front, limited=None):
        self.folder, self.compiler, self.front, self.limited = folder, compiler, front, limited
        self.keys, self.objects, self.declared, self.table = [], [], [], []

    def add(self, key, words, declared):
        """Adds a function: `words(ID)` compile a copy of it, but for `-c` and `-o`, and `declared(ID)` is C that defines `run_ID`, which calls it.
        Nothing is added where a compiler fails, and False is returned."""
        made = []
        number = len(self.keys)
        for place in PLACES:
            named = f'{number}_{place}'
            made.append((place, named, f'{self.folder}/at_{named}'))
            if subprocess.run(words(named) + ['-c', '-o', made[-1][2] + '.o'], preexec_fn=self.limited).returncode != 0:
                return False
        self.keys.append(key)
        for place, named, file in made:
            self.pad(place, file)
            self.objects += [file + '_pad.o', file + '.o']
            self.declared.append(declared(named))
            self.table.append(f'{{ {number}, {place}, run_{named} }}')
        return True

    def pad(self, place, file):
        with open(file + '_pad.s', 'w') as text:
            text.write(PAD.format(place or 64))
        subprocess.run([self.compiler, '-c', '-o', file + '_pad.o', file + '_pad.s'], check=True)

    def run(self, turns, file):
        """Returns for each key its mean seconds, its least and its greatest, and fails where two results differ."""
        made = f'{self.folder}/timed'
        with open(made + '.c', 'w') as text:
            text.write(DRIVER % {'front': self.front, 'declared': '\n'.join(self.declared), 'table': ', '.join(self.table)})
        subprocess.run([self.compiler, '-O2', '-w', '-I', self.folder, '-o', made, made + '.c', *self.objects], check=True)
        lines = subprocess.run([made, str(turns), file], stdout=subprocess.PIPE, check=True, text=True).stdout.splitlines()
        seconds, results = {key: [] for key in self.keys}, set()
        for line in lines:
            number, _, taken, result = line.split()
            seconds[self.keys[int(number)]].append(float(taken))
            results.add(result)
        if len(results) > 1:
            raise SystemExit(f'the scanners differ on {file}')
        return {key: (sum(each) / len(each), min(each), max(each)) for key, each in seconds.items()}
