#!/bin/sh
# Measures the lexer of 40 rules (tests/c/lexer.rules) on 64 MiB of C text, compiled by `cc -O2`, beside a scanner of the same rules by
# the original re2c where that is installed, and fails where it has less than 0.9 of that one's speed. The text is that of the
# headers of this machine, or of the file that is named, over and over; a few lines over and over would be learned by heart by a
# processor's branch predictor.
#
# Usage: bench/lexing.sh [FILE]
set -eu
root=$(cd "$(dirname "$0")/.." && pwd)
work=$(mktemp -d)
trap 'rm -rf "$work"' EXIT

if [ $# -gt 0 ]; then
    cat "$1"
else
    find /usr/include /usr/lib/gcc -name '*.h' 2> /dev/null | LC_ALL=C sort | tr '\n' '\0' | xargs -0 cat 2> /dev/null
fi | tr -d '\000' | head -c 67108864 > "$work/text"
if [ ! -s "$work/text" ]; then
    echo "there is no text to measure on" >&2
    exit 1
fi

# source_of NAME: a source with the rules, which declares the registers in NAME.registers.h
source_of() {
    printf '#include "lexing.h"\nint lex(void)\n{\n\tconst YYCTYPE *YYMARKER = YYCURSOR, *whole, *dot;\n#include "%s.registers.h"\n' "$1"
    printf '/*!re2c\nre2c:yyfill:enable = 0;\n'
    cat "$root/tests/c/lexer.rules"
    printf '*/\n\treturn 0;\n}\n'
}

cat > "$work/lexing.h" <<'C'
#include <stddef.h>
#define YYCTYPE unsigned char
extern const YYCTYPE *YYCURSOR;
int lex(void);
C
cat > "$work/main.c" <<'C'
#include <stdio.h>
#include <stdlib.h>
#include <time.h>
#include "lexing.h"
const YYCTYPE *YYCURSOR;

int main(int count, char **words)
{
    size_t size = (size_t)64 << 20, length, at;
    YYCTYPE *text = malloc(size + 1);
    FILE *file = fopen(words[count - 1], "rb");
    double best = 1e9;
    unsigned long sum = 0;

    if (text == NULL || file == NULL || (length = fread(text, 1, size, file)) == 0)
        return 1;
    for (at = length; at < size; ++at)
        text[at] = text[at - length];
    text[size] = 0;
    for (int turn = 0; turn < 5; ++turn) {
        clock_t begun = clock();
        int rule;

        sum = 0;
        YYCURSOR = text;
        while ((rule = lex()) > 1)
            sum = sum * 31 + (unsigned long)rule;
        double seconds = (double)(clock() - begun) / CLOCKS_PER_SEC;
        if (seconds < best)
            best = seconds;
    }
    printf("%.3f %lx\n", best, sum);
    return 0;
}
C

# measured NAME COMMAND ..: the seconds of the scanner that the command writes, and the sum of its rules
measured() {
    name=$1
    shift
    : > "$work/$name.registers.h"
    source_of "$name" > "$work/$name.re"
    "$@" -o "$work/$name.c" "$work/$name.re"
    grep -o 'yyt[0-9][0-9]*' "$work/$name.c" | sort -u | sed 's/.*/const YYCTYPE *&;/' > "$work/$name.registers.h" || true
    cc -O2 -w "$work/$name.c" "$work/main.c" -o "$work/$name"
    "$work/$name" "$work/text"
}

ours=$(measured ours "$root/bin/re2c" -i -T)
echo "this re2c: $ours (seconds, sum of the rules)"
if command -v re2c > /dev/null; then
    theirs=$(measured theirs re2c -i -T)
    echo "the original: $theirs"
    test "${ours#* }" = "${theirs#* }"
    echo "$ours $theirs" | awk '{ ratio = $3 / $1; printf "ratio: %.2f (least 0.9)\n", ratio; exit ratio < 0.9 }'
fi
