#!/bin/sh
# Compares what bin/try gives with what the proved program gives, on three examples: a source that includes a file, one whose output is
# written to a file by -o, and the run of an emitted scanner. The standard output, the file, the status and the standard error are to be
# the same, but for the line that says that nothing is proved.
#
# Each of the three builds the program anew, by `rt try`, which takes some three minutes. So this script does not stand behind the gate.
#
# Usage: tests/try.sh, from anywhere; RE2C names the program (bin/re2c where it is unset).
set -eu
root=$(cd "$(dirname "$0")/.." && pwd)
program=${RE2C:-$root/bin/re2c}
work=$(mktemp -d)
trap 'rm -rf "$work"' EXIT

# compares FOLDER WRITTEN WORD ..: the runs with these words in the folder, which write a file, if `WRITTEN` is not empty
compares() {
	cd "$1"
	written=$2
	shift 2
	status=0
	"$program" "$@" > "$work/out" 2> "$work/err" || status=$?
	if [ -n "$written" ]; then
		mv "$written" "$work/written"
	fi
	begin=$(date +%s)
	tried=0
	"$root/bin/try" "$@" > "$work/tried" 2> "$work/told" || tried=$?
	end=$(date +%s)
	test "$status" = "$tried" || { cat "$work/told" >&2; exit 1; }
	cmp "$work/out" "$work/tried"
	sed -n 1p "$work/told" | grep -q '^re2c: nothing is proved of this run'
	sed 1d "$work/told" | cmp "$work/err" -
	if [ -n "$written" ]; then
		cmp "$work/written" "$written"
	fi
	echo "the same, status $status, $((end - begin)) s: $*"
}

mkdir "$work/folder"
"$program" -i "$root/examples/quoted.re" > "$work/folder/quoted.c"
printf 'ifx if' > "$work/folder/input.txt"
cp "$root/examples/dates.re" "$work/folder"
compares "$root/examples" "" -8 names_in_utf_8.re
compares "$work" folder/dates.c -T -W -o folder/dates.c folder/dates.re
compares "$work/folder" "" --x-run input.txt --x-piece 1 quoted.c
