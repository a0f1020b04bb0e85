#!/bin/sh
# Compiles scanners of format 3 as C and as C++, with all warnings and none left out, and runs them over a buffer of plain char, or of
# units of two or four bytes, that is made anew at each refill, with one unit more; those that store their state are left at each refill, too.
# The scanners were written by hand and stand in the cases of crates/cases/data that run them, from which format3.py takes them. What a
# program prints is compared with the program's own run of the emitted text, line by line. Where the compiler has an address sanitizer it
# is used.
#
# Usage: tests/c/format3.sh, from anywhere; RE2C names the program (bin/re2c where it is unset). CC names the compiler of C; where it is
# unset gcc and clang are tried, each with its compiler of C++, and cc where neither is there. It wants python.
. "$(dirname "$0")/setup.sh"

warnings='-Wall -Wextra -Werror -pedantic'
if [ -n "${CC:-}" ]; then
	compilers=$CC
else
	compilers=
	for name in gcc g++ clang clang++; do
		! command -v "$name" > "$work/log" || compilers="$compilers $name"
	done
fi
compilers=${compilers:-cc}

# language NAME: the language that the compiler takes
language() {
	case $1 in
	*++) echo '-x c++ -std=c++98' ;;
	*) echo '-x c -std=c99' ;;
	esac
}

printf 'int main(void) { return 0; }\n' > "$work/empty.c"
for name in $compilers; do
	# shellcheck disable=SC2046
	if "$name" $(language "$name") -fsanitize=address,undefined "$work/empty.c" -o "$work/empty" 2> "$work/log" && "$work/empty"; then
		sanitized="${sanitized:-} $name"
	fi
done

# compile NUMBER: the scanner's program, by each compiler
compile() {
	for one in $compilers; do
		case " ${sanitized:-} " in *" $one "*) sanitize='-g -fsanitize=address,undefined -fno-sanitize-recover' ;; *) sanitize= ;; esac
		# shellcheck disable=SC2046,SC2086
		"$one" $(language "$one") $warnings -isystem "$root/tests/c" $sanitize "$work/$1.c" -o "$work/$1.$one"
	done
}

# compare NUMBER NAME: what the scanner's programs print over each of its inputs
compare() {
	for input in "$work/$1".*.in; do
		"$program" --x-run "$input" "$work/$1.emitted" > "$work/wanted"
		for one in $compilers; do
			"$work/$1.$one" "$input" > "$work/found"
			diff "$work/wanted" "$work/found" || { echo "$2 by $one differs over $(od -A n -c "$input")" >&2; exit 1; }
		done
		told=$((told + $(wc -l < "$work/wanted")))
	done
}

python3 "$root/tests/c/format3.py" "$work" > "$work/names"
while read -r number name; do
	told=0
	compile "$number"
	compare "$number" "$name"
	echo "$name: $told lines by$(echo "$compilers" | sed 's/^ */ /')"
done < "$work/names"
