#!/bin/sh
# Tests a scanner by its covering words: it makes the words, compiles the scanner, and feeds it each of them.
#
# Usage: examples/covering.sh, from anywhere; RE2C names the program (bin/re2c where it is unset), and CC the compiler (cc where it is
# unset).
set -eu

here=$(cd "$(dirname "$0")" && pwd)
program=${RE2C:-$here/../bin/re2c}
work=$(mktemp -d)
trap 'rm -rf "$work"' EXIT

"$program" -T --x-cover -o "$work/words.txt" "$here/covered.re"
"$program" -T -i --x-format 3 -o "$work/covered.c" "$here/covered.re"
"${CC:-cc}" -std=c99 -Wall -Wextra -Werror "$work/covered.c" -o "$work/covered"
"$work/covered" < "$work/words.txt"
