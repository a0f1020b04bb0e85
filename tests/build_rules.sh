#!/bin/sh
# Builds the project of examples/build by make, by CMake and by meson, each where it is there, and runs what was built. Then nothing is made
# again; a source that was changed makes the scanner again, and so does the file that it includes. One that is refused fails the build.
#
# Usage: tests/build_rules.sh, from anywhere; RE2C names the program (bin/re2c where it is unset), and CC the compiler (cc where it is unset).
set -eu
root=$(cd "$(dirname "$0")/.." && pwd)
program=${RE2C:-$root/bin/re2c}
case $program in
*/*) program=$(cd "$(dirname "$program")" && pwd)/$(basename "$program") ;;
*) program=$(command -v "$program") ;;
esac
CC=${CC:-cc}
export CC
if ! command -v "$CC" > /dev/null; then
	echo "$0: there is no C compiler $CC, so nothing is built; CC names another one" >&2
	exit 1
fi
work=$(mktemp -d)
trap 'rm -rf "$work"' EXIT
source=$work/tree/examples/build
built=$work/built

# A program that counts its runs, where the project looks for one, and a second one elsewhere.
mkdir -p "$work/tree/bin" "$work/elsewhere" "$work/tree/examples"
for place in tree/bin elsewhere; do
	printf '#!/bin/sh\necho run >> "%s/%s/runs"\nexec "%s" "$@"\n' "$work" "$place" "$program" > "$work/$place/re2c"
	chmod +x "$work/$place/re2c"
done

# has_run PLACE COUNT: the program in this folder was run so many times since this was asked last
has_run() {
	touch "$work/$1/runs"
	test "$(wc -l < "$work/$1/runs")" -eq "$2"
	rm "$work/$1/runs"
}

# counts LINES: what the program that was built prints of two texts
counts() {
	test "$("$built/count" "if x 12 else while y" "x1 7x")" = "$1"
}

# changed EDIT FILE: a file of the project is edited by sed, later than what was built of it, also where times count seconds
changed() {
	sleep 1
	sed "$1" "$source/$2" > "$work/next"
	cat "$work/next" > "$source/$2"
}

# anew: the project as it is in the repository, and nothing built
anew() {
	rm -rf "$source" "$built"
	cp -r "$root/examples/build" "$source"
	mkdir "$built"
}

# refused: the build fails
refused() {
	if build elsewhere; then return 1; fi
}

# steps: builds by the functions begin and build, which are given the folder of a program or none, and looks what came of it
steps() {
	anew
	begin
	build
	counts "$(printf '3 2 1\n0 2 1')"
	has_run tree/bin 1
	anew
	begin elsewhere
	build elsewhere
	counts "$(printf '3 2 1\n0 2 1')"
	has_run elsewhere 1
	build elsewhere
	has_run elsewhere 0
	changed 's/ | "while"//' words.re
	build elsewhere
	counts "$(printf '2 3 1\n0 2 1')"
	has_run elsewhere 1
	changed 's/^number = .*/number = [0-9] name?;/' forms.re
	build elsewhere
	counts "$(printf '2 3 2\n0 1 1')"
	has_run elsewhere 1
	changed 's/^name = /name = = /' forms.re
	refused
	has_run elsewhere 1
	refused
	has_run elsewhere 1
	has_run tree/bin 0
}

# tried NAME: all that
tried() {
	set +e
	(
		set -e
		steps
	) > "$work/$1.log" 2>&1
	status=$?
	set -e
	if [ "$status" -ne 0 ]; then
		cat "$work/$1.log"
		echo "$1: failed" >&2
		exit 1
	fi
	echo "$1: built, and again after each change"
}

if command -v make > "$work/log"; then
	begin() { :; }
	build() { make -C "$built" -f "$source/Makefile" CC="$CC" ${1:+RE2C="$work/$1/re2c"}; }
	tried make
else
	echo "make: not there"
fi
if command -v cmake > "$work/log"; then
	begin() { cmake -S "$source" -B "$built" ${1:+-DRE2C="$work/$1/re2c"}; }
	build() { cmake --build "$built"; }
	tried cmake
else
	echo "cmake: not there"
fi
if command -v meson > "$work/log" && command -v ninja > "$work/log"; then
	begin() { meson setup "$built" "$source" ${1:+-Dre2c="$work/$1/re2c"}; }
	build() { ninja -C "$built"; }
	tried meson
else
	echo "meson: not there"
fi
