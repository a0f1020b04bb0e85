#!/bin/sh
# Runs the program where it ends with the statuses 0 to 4, and compares what it puts to the standard output and to the
# standard error. A read fails on a folder, and a write or a put on a full device.
#
# Usage: tests/statuses.sh, from anywhere; RE2C names the program (bin/re2c where it is unset).
set -eu
root=$(cd "$(dirname "$0")/.." && pwd)
program=${RE2C:-$root/bin/re2c}
work=$(mktemp -d)
trap 'rm -rf "$work"' EXIT
cd "$work"
printf 'int x;\n' > plain.c
printf 'int x; /*!rules:re2c */\n' > rules.re
mkdir folder

# ends STATUS OUT ERR WORD ..: the program with these words, whose texts are printed by printf
ends() {
	status=$1
	out=$2
	err=$3
	shift 3
	got=0
	"$program" "$@" > out.txt 2> err.txt || got=$?
	# shellcheck disable=SC2059
	printf "$out" | cmp - out.txt
	# shellcheck disable=SC2059
	printf "$err" | cmp - err.txt
	test "$got" = "$status"
	echo "status $status: $*"
}

ends 0 'int x;\n' '' -i plain.c
ends 0 '' '' -i -o made.c plain.c
cmp plain.c made.c
ends 1 '' 're2c: error: usage\n'
ends 1 '' 're2c: error: usage\n' -i "$(printf 'a\377.c')"
ends 1 '' 'none.re:1:1: error: no such file\n' -i none.re
ends 1 '' 'rules.re:1:8: error: no rules\n' -i -o made.c rules.re
cmp plain.c made.c
ends 2 '' 're2c: error: read failed\n' -i folder
# no source that can be generated has a fault, and the scanner of each matches once by each of its rules
count=1
while [ "$count" -le 200 ]; do
	"$program" --x-source "$count" -o source.c > out.txt
	sed -n 2p out.txt | grep -qx "matches $count"
	sed -n 3p out.txt | grep -q "^rule $count "
	count=$((count + 1))
done
echo "status 0: generated sources of 1 to 200 rules"
# a file that does not fit in the memory that there may be
head -c 12000000 /dev/zero | tr '\0' 'x' > long.c
(
	ulimit -v 16384
	ends 4 '' 're2c: error: out of memory\n' -i long.c
)
if [ -c /dev/full ]; then
	ends 3 '' 're2c: error: write failed\n' -i -o /dev/full plain.c
	got=0
	"$program" -i plain.c > /dev/full 2> err.txt || got=$?
	printf 're2c: error: write failed\n' | cmp - err.txt
	test "$got" = 3
	echo "status 3: -i plain.c, to a full device"
fi
