#!/bin/sh
# Compiles scanners whose rules jump from condition to condition, as C in format 2 and as C and C++ in format 3, and runs them over a buffer that is made anew at each refill, with one
# unit more; those that store their state are left at each refill, too. Matches follow one another by jumps, some end by no rule, and some fall
# back. What a program prints is compared with the program's own run of the emitted text, line by line, jumps and tags included. Where the
# compiler has an address sanitizer it is used.
#
# Usage: tests/c/jumps.sh, from anywhere; RE2C names the program (bin/re2c where it is unset). setup.sh says which compilers are used.
. "$(dirname "$0")/setup.sh"
set -f

# What a scanner of each mode is given.
plain='re2c:yyfill:enable = 0;'
fixed='re2c:yyfill:enable = 0; re2c:eof = 0;'
ended='re2c:eof = 0;'
counted=

# write_source NAME MODE NAMES RULE TAGS OPTIONS FORMAT: the source of a scanner on the standard output, with the rules of NAME.rules in this
# mode. For format 3 it declares no variable that the piece declares.
write_source() {
	counts=1 whole=0
	case $2 in *eof*) counts=0 ;; esac
	case $2 in *enable*) whole=1 ;; esac
	printf '#define YYCTYPE unsigned char\n#define COUNTS %s\n#define WHOLE %s\n#define REFILL 1\n' "$counts" "$whole"
	printf '#define NAMES %s\nenum { %s };\n' "$(for cond in $3; do printf '"%s", ' "$cond"; done)" "$(for cond in $3; do printf 'yyc%s, ' "$cond"; done)"
	printf '#define TELL(rule) if (rule == %s) { %s }\n#include <lines.h>\n' "$4" \
		"$(for tag in $5; do case $tag in '#'*) printf 'HISTORY(%s) ' "${tag#?}" ;; *) printf 'TAG(%s) ' "$tag" ;; esac; done)"
	for tag in $5; do
		case $tag in
		'#'*) printf 'static int %s;\n' "${tag#?}" ;;
		*) printf 'static const YYCTYPE *%s;\n' "$tag" ;;
		esac
	done
	case $7$6 in
	2*) printf '#include <jumps.h>\n' ;;
	*' -f '*) printf '#define KEPT 1\n#include <format3.h>\nstatic unsigned char yych;\n' ;;
	*) printf '#define KEPT 0\n#include <format3.h>\n' ;;
	esac
	case $6$counts in
	*' -f '*1) printf '#define YYFILL(units) wait_for_units()\n' ;;
	*' -f '*) printf '#define YYFILL() wait_for_units()\n' ;;
	*1) printf '#define YYFILL(units) do { if (fill_to(units)) return -1; } while (0)\n' ;;
	*) printf '#define YYFILL() fill()\n' ;;
	esac
	printf 'static int match(void)\n{\n/*!re2c\n%s\n' "$2"
	cat "$work/$1.rules"
	# a unit at the end goes with a rule for it
	case $2 in *eof*) grep -q '> \$' "$work/$1.rules" || printf '<*> $ { return %s; }\n' "$(($(wc -l < "$work/$1.rules") + 1))" ;; esac
	printf '*/\n\treturn 0;\n}\n'
}

# lines NAME: what the C program has to know of the emitted text of NAME.c: the first condition, the greatest check, the registers and histories,
# and the lines in which a condition is set before a jump, each with its rule.
lines() {
	awk '
		match($0, /YYFILL\([0-9]+\)/) { units = substr($0, RSTART + 7, RLENGTH - 8) + 0; if (units > padding) padding = units }
		/case yyc.*: goto/ && !first { first = $2; sub(/:.*/, "", first) }
		/YYSETCONDITION\(yyc/ { line = NR }
		match($0, /goto yyc_[A-Za-z0-9_]+; \/\* [0-9]+ \*\//) {
			rule = $0; sub(/.*\/\* /, "", rule); sub(/ \*\/.*/, "", rule); jumps = jumps "{ " line ", " rule " }, "
		}
		{
			text = $0
			while (match(text, /yytm?[0-9]+/)) {
				name = substr(text, RSTART, RLENGTH); text = substr(text, RSTART + RLENGTH)
				if (!(name in seen)) { seen[name]; if (name ~ /yytm/) histories = histories "static int " name "; "; else registers = registers " DO(" name ")" }
			}
		}
		END {
			if (!padding) padding = plain
			printf "#define FIRST %s\n#define PADDING %d\n#define JUMPS %s\n#define REGISTERS(DO)%s\n%s\n", first, padding, jumps, registers, histories
		}
	' "plain=$2" "$work/$1.c"
}

# jumped NAME NAMES RULE TAGS INPUTS [OPTION ..]: the scanner of NAME.rules in each mode, with and without stored states, over each of the INPUTS,
# of which - is the empty one. NAMES are its conditions, in order, RULE is the one rule with tags, or 0, and TAGS are their names, those of
# histories with a #.
jumped() {
	name=$1 names=$2 rule=$3 tags=$4 inputs=$5
	shift 5
	told=0
	for way in plain plain.custom fixed ended ended.-f counted counted.-f; do
		case $way in
		plain*) mode=$plain padding=1 ;;
		fixed) mode=$fixed padding=0 ;;
		ended*) mode=$ended padding=0 ;;
		*) mode=$counted padding=0 ;;
		esac
		# a rule at the end of the input needs a unit there
		case $mode in *eof*) ;; *) ! grep -q '> \$' "$work/$name.rules" || continue ;; esac
		case $way in *.-f) stored=-f ;; *.custom) stored='--input custom' ;; *) stored= ;; esac
		for format in $formats; do
			run_jumped "$@" $stored
		done
	done
	echo "$name $*: $told lines"
}

# run_jumped [OPTION ..]: the scanner in this format, with its mode and its inputs
run_jumped() {
	write_source "$name" "$mode" "$names" "$rule" "$tags" " $* " "$format" > "$work/$name.re"
	# shellcheck disable=SC2046
	"$program" -i -c $(words_of "$format") "$@" -o "$work/$name.c" "$work/$name.re"
	lines "$name" "$padding" > "$work/lines.h"
	cp "$root/tests/c/custom.h" "$root/tests/c/jumps.h" "$root/tests/c/format3.h" "$work"
	compile "$format" "$name" sanitized
	for input in $inputs; do
		printf '%s' "${input#-}" > "$work/$name.in"
		"$program" --x-run "$work/$name.in" "$work/$name.c" > "$work/$name.wanted"
		for one in $made; do
			"$one" "$work/$name.in" > "$work/$name.found"
			diff "$work/$name.wanted" "$work/$name.found" || { echo "$one $way $* differs over $input" >&2; exit 1; }
		done
		told=$((told + $(wc -l < "$work/$name.wanted")))
	done
}

# rules NAME: the rules of a scanner, from the standard input
rules() {
	cat > "$work/$1.rules"
}

# no rule takes all input of B, and a match that kept a number goes on there
rules forgotten <<'RULES'
<A> "a" { return 1; }
<A> "abc" :=> B
<B> "xy" { return 3; }
<B> "xyzw" { return 4; }
RULES
jumped forgotten 'A B' 0 '' 'abcxq abcxy abcxyz abcxyzw abcxyxyzxq aabcxyzabc abc abcx'

# the same to the condition of the rule itself
rules itself <<'RULES'
<A> "a" :=> A
<A> "abcd" :=> A
<A> "x" { return 3; }
<A> "xyz" { return 4; }
RULES
jumped itself A 0 '' 'aabcdq aabcabx xyaabcd xyzabcdxyq aaaaxyza abcdabcdabc'

# each condition has a rule for any unit
rules any <<'RULES'
<A> "x" => B { return 1; }
<A> "xyxyx" :=> B
<B> "y" :=> A
<B> "yzzzz" :=> B
<*> "z" { return 5; }
<*> * { return 6; }
RULES
jumped any 'A B' 0 '' 'xzyz? xyxyxyzzzyz xyxyyzzzzzy? yyxyxyxxyxyxyzzzz zyzyz'

# three conditions, one of which has no rule for any unit
rules three <<'RULES'
<A,B> "ab" :=> C
<A> "abab" :=> B
<B> "b" => A { return 3; }
<C> "c" :=> A
<C> "cdd" :=> B
<C> "e" { return 6; }
<B,C> * { return 7; }
RULES
jumped three 'A B C' 0 '' 'abcabedab ababcabcdb ababbabcddbabc abeeecddababab abcdabab'

# tags and histories of a match that ends by a jump
rules tagged <<'RULES'
<A> @t "a" (@u "b")? (#m "c")* :=> B
<A> "abccd" { return 2; }
<B> "d" { return 3; }
<B> "dabc" :=> A
<B> "e" :=> A
RULES
jumped tagged 'A B' 1 't u #m' 'abcccdabccacq abccda abccdabcabccq adaeabeacce abccdd' -T

# histories that are copied, of a rule that jumps to its own condition
rules histories <<'RULES'
<A> ((#m "a") | (#n "b"))+ "." :=> A
<A> ("a" | "b")+ ";" { return 2; }
<A> "ab" { return 3; }
RULES
jumped histories A 1 '#m #n' 'ab.ba.aab.b abab.ab;ba.a aab.bab;abb.ab ab.abab' -T

# trailing contexts
rules contexts <<'RULES'
<c> @t "a" / @u "b" :=> c
<c> "b" / "a"+ "b" :=> d
<d> "a" { return 3; }
<d> "ab" :=> c
RULES
jumped contexts 'c d' 1 't u' 'ababab abaabab aba abaaabb bab' -T

# a rule at the end of the input, with jumps up to there
rules ends <<'RULES'
<A> $ { return 1; }
<A> "a" :=> B
<A> "aab" { return 3; }
<B> $ { return 4; }
<B> "a" :=> A
<B> "abb" { return 6; }
RULES
jumped ends 'A B' 0 '' 'aaa aaaa aab aabbaab aabaabb -'
