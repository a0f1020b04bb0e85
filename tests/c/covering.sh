#!/bin/sh
# Compares what scanners do on their covering words with what is told of these, in format 2 and in format 3: scanners that are compiled, and
# the program's own runs of the examples.
#
# Usage: tests/c/covering.sh, from anywhere; RE2C names the program (bin/re2c where it is unset). setup.sh says which compilers are used.
. "$(dirname "$0")/setup.sh"

# covered NAME UNIT RULE TAGS [OPTION ..]: the rules stand in the file NAME.rules, each with an action that returns its number, among them
# one for the end; UNIT is the type of a code unit, RULE the one rule with tags, or 0, and TAGS are the tags' names.
covered() {
	name=$1 unit=$2 rule=$3 tags=$4
	shift 4
	{
		printf '#define YYCTYPE %s\n#define RULE %s\n#define TAGS %s\n' "$unit" "$rule" "$(for tag in $tags; do printf 'TAG(%s) ' "$tag"; done)"
		for tag in $tags; do printf 'static const YYCTYPE *%s;\n' "$tag"; done
		printf '#include <run.h>\nstatic const YYCTYPE *YYLIMIT;\nstatic int match(void)\n{\n\tconst YYCTYPE *YYMARKER = YYCURSOR;\n'
		printf '#include <registers.h>\n\t(void)YYMARKER;\n/*!re2c\nre2c:eof = 0;\nre2c:yyfill:enable = 0;\n'
		cat "$work/$name.rules"
		printf '*/\n\treturn 0;\n}\n#include <cover.h>\n'
	} > "$work/$name.re"
	cp "$root/tests/c/run.h" "$root/tests/c/custom.h" "$root/tests/c/cover.h" "$work"
	for format in $formats; do
		run_covered "$format" "$@"
	done
	echo "$name $*: $(wc -l < "$work/$name.found") words"
}

# run_covered FORMAT [OPTION ..]: the scanner in one format; the words are the same in all
run_covered() {
	format=$1
	shift
	# shellcheck disable=SC2046
	"$program" -i $(words_of "$format") "$@" -o "$work/$name.c" "$work/$name.re"
	# shellcheck disable=SC2046
	"$program" --x-cover $(words_of "$format") "$@" -o "$work/$name.words" "$work/$name.re"
	grep -o 'yyt[0-9][0-9]*' "$work/$name.c" | sort -u | sed 's/.*/static const YYCTYPE *&;/' > "$work/registers.h" || true
	compile "$format" "$name"
	for one in $made; do
		"$one" < "$work/$name.words" > "$work/$name.found"
		grep -v '^scanner ' "$work/$name.words" | diff - "$work/$name.found" || { echo "$one differs" >&2; exit 1; }
	done
}

# rules NAME: the rules of a scanner, from the standard input
rules() {
	cat > "$work/$1.rules"
}

# with_end: the source of the standard input, but its scanners test for the end: each has a rule for it, if need be one behind all others.
# A block of rules is taken to end where a line begins with its end.
with_end() {
	awk '
		/\/\*!(use:)?re2c/ && !/\*\/.*$/ { inside = 1; ended = 0 }
		inside && /re2c:eof/ { ended = 1 }
		inside && /^[ \t]*\*\// { if (!ended) print "re2c:eof = 0;\n$ { }"; inside = 0 }
		{ print }
	'
}

# as_bytes SIZE UNIT ..: units as printf reads them by %b, each of so many bytes, the least one first
as_bytes() {
	size=$1
	shift
	for unit in "$@"; do
		left=$((unit)) count=$size
		while test "$count" -gt 0; do
			printf '\\0%03o' $((left % 256))
			left=$((left / 256)) count=$((count - 1))
		done
	done
}

# ran SIZE: reads covering words, and runs each in the piece that its scanner has in ended.c, but the empty word: there the rule for the
# end matches. Of the scanners of a piece the first one is run.
ran() {
	bytes=$1 words=0 block=0 is_first=no
	while read -r line; do
		case $line in
		"scanner "*)
			before=$block
			block=$(echo "$line" | cut -d ' ' -f 2)
			if test "$block" = "$before"; then is_first=no; else is_first=yes; fi
			;;
		"- : "*) ;;
		*)
			test $is_first = yes || continue
			# shellcheck disable=SC2086
			printf '%b' "$(as_bytes "$bytes" ${line%% : *})" > "$work/word"
			"$program" --x-run "$work/word" --x-block "$block" "$work/ended.c" > "$work/run"
			found=$(head -n 1 "$work/run")
			if test "$found" != "${line##* : }"; then
				echo "$line, but $found"
				return 1
			fi
			words=$((words + 1))
			;;
		esac
	done
	echo "$words"
}

# example NAME SIZE [OPTION ..]: runs the covering words of an example with units of so many bytes; of many, some that stand at equal
# distances
example() {
	name=$1 size=$2
	shift 2
	"$program" --x-cover "$@" -o "$work/words" "$root/examples/$name.re"
	with_end < "$root/examples/$name.re" > "$work/ended.re"
	all=$(grep -c ' : ' "$work/words")
	awk -v step=$((all / 200 + 1)) '/^scanner / || NR % step == 0' "$work/words" > "$work/some"
	for format in $formats; do
		# shellcheck disable=SC2046
		"$program" -i $(words_of "$format") "$@" -I "$root/examples" -o "$work/ended.c" "$work/ended.re"
		words=$(ran "$size" < "$work/some") || { echo "$name: $words"; exit 1; }
	done
	echo "$name: $words of $all words"
}

"$root/examples/covering.sh"

rules longest <<'RULES'
$ { return 1; }
"a" { return 2; }
[a-z]{2,4}"!" { return 3; }
* { return 4; }
RULES
covered longest 'unsigned char' 0 ''
covered longest 'unsigned char' 0 '' -8

rules falls <<'RULES'
$ { return 1; }
"a" { return 2; }
"abcd" { return 3; }
"b" [^b]* "b" { return 4; }
RULES
covered falls 'unsigned char' 0 ''

rules offsets <<'RULES'
@p "a"* @q "b"? { return 1; }
$ { return 2; }
RULES
covered offsets 'unsigned char' 1 'p q' -T

rules unset <<'RULES'
("a" @t | "b")* { return 1; }
$ { return 2; }
RULES
covered unset 'unsigned char' 1 't' -T

rules values <<'RULES'
[ab]* @t [ab]{3} { return 1; }
$ { return 2; }
* { return 3; }
RULES
covered values 'unsigned char' 1 't' -T

rules context <<'RULES'
[a-c]* @t "a" / [bc]+ "a" { return 1; }
$ { return 2; }
* { return 3; }
RULES
covered context 'unsigned char' 1 't' -T

rules points <<'RULES'
$ { return 1; }
[^] @t [\u00E9\u20AC]? { return 2; }
* { return 3; }
RULES
covered points 'unsigned char' 2 't' -8 -T
covered points 'unsigned short' 2 't' -x -T
covered points 'unsigned int' 2 't' -u -T

{ cat "$root/tests/c/lexer.rules" && echo '$ { return 41; }'; } | rules lexer
covered lexer 'unsigned char' 17 'whole dot' -T

example quoted 1
example keywords 1
example two_scanners 1
example signs 1
example dates 1 -T
example utf_8 1 -8
example utf_16 2 -x
example utf_32 4 -u
example ranges 1
example addresses 1 --captures
example sizes 1 -P
example options 1 -T
example words_of_file 1
example settings 1 -T
example padded 1
example strings_and_comments 1 -c
example pushed 1 -f
example numbers 1
example names_in_utf_8 1 -8
example without_buffer 1 --input custom
example log_lines 1 -T
example http_messages 1 -T
example uris 1 -T
