#!/bin/sh
# Compiles scanners with classes, repetitions and tags, as C in format 2 and as C and C++ in format 3, some of them as custom ones, and runs
# each beside the program's own run of the emitted text: both print the same lines.
#
# Usage: tests/c/rows.sh, from anywhere; RE2C names the program (bin/re2c where it is unset). setup.sh says which compilers are used.
. "$(dirname "$0")/setup.sh"

# same NAME UNIT RULE TAGS INPUT [OPTION ..]: the rules stand in the file NAME.rules, each with an action that returns its number;
# UNIT is the type of a code unit, RULE the one rule with tags, or 0, TAGS are the tags' names, and INPUT is a format of printf.
same() {
	name=$1 unit=$2 rule=$3 tags=$4 input=$5
	shift 5
	{
		printf '#define YYCTYPE %s\n#define RULE %s\n#define TAGS %s\n' "$unit" "$rule" "$(for tag in $tags; do printf 'TAG(%s) ' "$tag"; done)"
		for tag in $tags; do printf 'static const YYCTYPE *%s;\n' "$tag"; done
		printf '#include <run.h>\nstatic int match(void)\n{\n\tconst YYCTYPE *YYMARKER = YYCURSOR;\n#include <registers.h>\n\t(void)YYMARKER;\n'
		printf '/*!re2c\nre2c:yyfill:enable = 0;\n'
		cat "$work/$name.rules"
		printf '*/\n\treturn 0;\n}\n#include <main.h>\n'
	} > "$work/$name.re"
	cp "$root/tests/c/run.h" "$root/tests/c/custom.h" "$root/tests/c/main.h" "$work"
	# shellcheck disable=SC2059
	printf "$input" > "$work/$name.in"
	for format in $formats; do
		run_same "$format" "$@"
	done
	echo "$name: $(wc -l < "$work/$name.wanted") lines"
}

# run_same FORMAT [OPTION ..]: the scanner in one format
run_same() {
	format=$1
	shift
	# shellcheck disable=SC2046
	"$program" -i $(words_of "$format") "$@" -o "$work/$name.c" "$work/$name.re"
	grep -o 'yyt[0-9][0-9]*' "$work/$name.c" | sort -u | sed 's/.*/static const YYCTYPE *&;/' > "$work/registers.h" || true
	compile "$format" "$name"
	"$program" --x-run "$work/$name.in" "$work/$name.c" > "$work/$name.wanted"
	for one in $made; do
		"$one" "$work/$name.in" > "$work/$name.found"
		diff "$work/$name.wanted" "$work/$name.found" || { echo "$one differs" >&2; exit 1; }
	done
}

# rules NAME: the rules of a scanner, from the standard input
rules() {
	cat > "$work/$1.rules"
}

rules longest <<'RULES'
"a" { return 1; }
[a-z]{2,4}"!" { return 2; }
* { return 3; }
RULES
same longest 'unsigned char' 0 '' 'abcd'
same longest 'unsigned char' 0 '' 'abcd!'
same longest 'unsigned char' 0 '' 'abcd' --input custom

rules offsets <<'RULES'
@p "a"* @q "b"? { return 1; }
RULES
same offsets 'unsigned char' 1 'p q' 'aabc' -T
same offsets 'unsigned char' 1 'p q' 'aabc' -T --input custom

rules unset <<'RULES'
("a" @t | "b")* { return 1; }
RULES
same unset 'unsigned char' 1 't' 'ab' -T
same unset 'unsigned char' 1 't' 'ba' -T
same unset 'unsigned char' 1 't' 'c' -T
same unset 'unsigned char' 1 't' 'ba' -T --input custom

rules empty <<'RULES'
(@t "x"?)* { return 1; }
RULES
same empty 'unsigned char' 1 't' 'x' -T
same empty 'unsigned char' 1 't' 'y' -T

rules points <<'RULES'
[^] { return 1; }
* { return 2; }
RULES
same points 'unsigned char' 0 '' '\364\217\277\277\364\217' -8

rules pairs <<'RULES'
[^\x00] @t [^\x00]? { return 1; }
* { return 2; }
RULES
same pairs 'unsigned short' 1 't' '\000\330\000\334' -x -T
same pairs 'unsigned short' 1 't' '\000\330\000\334' -x -T --input custom

rules lexer < "$root/tests/c/lexer.rules"
same lexer 'unsigned char' 17 'whole dot' 'if (x1 <= 0x1F) y = 3.14; // ok' -T
same lexer 'unsigned char' 17 'whole dot' 'while (a[10] >>= 1.5) { /* x ** */ s = "a\\"b"; } else .5 007 0x 1. \\"' -T
