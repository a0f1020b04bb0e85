#!/bin/sh
# Compiles scanners of each mode, as C in format 2 and as C and C++ in format 3, and runs them over a buffer that is made anew at each refill, with one unit more; those that store
# their state are left at each refill, too. What they print is compared with lines that were worked out by hand, and with the program's own
# run of the emitted text. Where the compiler has an address sanitizer it is used.
#
# Usage: tests/c/modes.sh, from anywhere; RE2C names the program (bin/re2c where it is unset). setup.sh says which compilers are used.
. "$(dirname "$0")/setup.sh"

# What a scanner of each mode is given.
plain='re2c:yyfill:enable = 0;'
fixed='re2c:yyfill:enable = 0; re2c:eof = 0;'
ended='re2c:eof = 0;'
counted=

# refilled NAME MODE PADDING RULE TAGS INPUT LINES [OPTION ..]: the rules stand in the file NAME.rules, each with an action that returns its
# number; MODE is one of those above, PADDING how many units of zero stand behind the input, RULE the one rule with tags, or 0, and TAGS are
# their names. INPUT is a format of printf, and LINES are those that are wanted, with | for line feeds.
refilled() {
	name=$1 mode=$2 padding=$3 rule=$4 tags=$5 input=$6 lines=$7
	shift 7
	counts=1 whole=0
	case $mode in *eof*) counts=0 ;; esac
	case $mode in *enable*) whole=1 ;; esac
	{
		printf '#define YYCTYPE unsigned char\n#define RULE %s\n#define PADDING %s\n#define COUNTS %s\n#define WHOLE %s\n' "$rule" "$padding" "$counts" "$whole"
		printf '#define TAGS %s\n' "$(for tag in $tags; do printf 'TAG(%s) ' "$tag"; done)"
		printf '#include <registers.h>\n#include <refill.h>\n'
		for tag in $tags; do printf 'static const YYCTYPE *%s;\n' "$tag"; done
		case " $* " in
		*" -f "*)
			printf 'static YYCTYPE yych;\n#define YYGETSTATE() state\n#define YYSETSTATE(number) state = number\n'
			if [ "$counts" = 1 ]; then printf '#define YYFILL(units) wait_for_units()\n'; else printf '#define YYFILL() wait_for_units()\n'; fi
			;;
		*)
			if [ "$counts" = 1 ]; then
				printf '#define YYFILL(units) do { if (fill_to(units)) return 0; } while (0)\n'
			else
				printf '#define YYFILL() fill()\n'
			fi
			;;
		esac
		case " $* " in
		*" -c "*) printf 'enum { yycA, yycB };\n#define YYGETCONDITION() cond\n#define YYSETCONDITION(number) cond = number\n' ;;
		esac
		printf 'static int match(void)\n{\n/*!re2c\n%s\n' "$mode"
		cat "$work/$name.rules"
		printf '*/\n\treturn 0;\n}\n#include <refilled.h>\n'
	} > "$work/$name.re"
	cp "$root/tests/c/refill.h" "$root/tests/c/refilled.h" "$work"
	# shellcheck disable=SC2059
	printf "$input" > "$work/$name.in"
	echo "$lines" | tr '|' '\n' > "$work/$name.wanted"
	for format in $formats; do
		run_refilled "$format" "$@"
	done
	echo "$name $*: $(wc -l < "$work/$name.wanted") lines"
}

# run_refilled FORMAT [OPTION ..]: the scanner in one format
run_refilled() {
	format=$1
	shift
	# shellcheck disable=SC2046
	"$program" -i $(words_of "$format") "$@" -o "$work/$name.c" "$work/$name.re"
	{
		printf '#define REGISTERS(DO)'
		grep -o 'yyt[0-9][0-9]*' "$work/$name.c" | sort -u | sed 's/.*/ DO(&)/' | tr -d '\n' || true
		printf '\n'
	} > "$work/registers.h"
	"$program" --x-run "$work/$name.in" "$work/$name.c" > "$work/$name.told"
	sed 's/ => .*//; s/^jump /rule /' "$work/$name.told" > "$work/$name.run"
	diff "$work/$name.wanted" "$work/$name.run"
	compile "$format" "$name" sanitized
	for one in $made; do
		"$one" "$work/$name.in" > "$work/$name.found"
		diff "$work/$name.wanted" "$work/$name.found" || { echo "$one differs" >&2; exit 1; }
	done
}

# rules NAME: the rules of a scanner, from the standard input
rules() {
	cat > "$work/$1.rules"
}

rules words <<'RULES'
"abc" { return 1; }
* { return 2; }
RULES
refilled words "$counted" 3 0 '' 'ab' 'rule 2 0 1|rule 2 1 2|end 2 2'
refilled words "$counted" 3 0 '' 'abcab' 'rule 1 0 3|rule 2 3 4|rule 2 4 5|end 5 5'
refilled words "$counted" 3 0 '' 'abcab' 'rule 1 0 3|rule 2 3 4|rule 2 4 5|end 5 5' -f

rules letters <<'RULES'
[a-z]+ { return 1; }
* { return 2; }
RULES
refilled letters "$plain" 1 0 '' 'abcd e' 'rule 1 0 4|rule 2 4 5|rule 1 5 6|end 6 6'
refilled letters "$counted" 1 0 '' 'abcd e' 'rule 1 0 4|rule 2 4 5|rule 1 5 6|end 6 6'
refilled letters "$counted" 1 0 '' 'abcd e' 'rule 1 0 4|rule 2 4 5|rule 1 5 6|end 6 6' -f

rules ends <<'RULES'
$ { return 1; }
"a"+ { return 2; }
* { return 3; }
RULES
refilled ends "$ended" 0 0 '' 'a\0a' 'rule 2 0 1|rule 3 1 2|rule 2 2 3|rule 1 3 3|stop 3'
refilled ends "$ended" 0 0 '' '' 'rule 1 0 0|stop 0'
refilled ends "$fixed" 0 0 '' 'a\0a' 'rule 2 0 1|rule 3 1 2|rule 2 2 3|rule 1 3 3|stop 3'
refilled ends "$fixed" 0 0 '' '' 'rule 1 0 0|stop 0'
refilled ends "$ended" 0 0 '' 'a\0aa' 'rule 2 0 1|rule 3 1 2|rule 2 2 4|rule 1 4 4|stop 4' -f

rules many <<'RULES'
$ { return 1; }
"a"* { return 2; }
RULES
refilled many "$ended" 0 0 '' 'a' 'rule 2 0 1|rule 1 1 1|stop 1'
refilled many "$ended" 0 0 '' 'aaa' 'rule 2 0 3|rule 1 3 3|stop 3' -f

rules falls <<'RULES'
$ { return 1; }
"a" { return 2; }
"abcd" { return 3; }
[^] { return 4; }
RULES
refilled falls "$ended" 0 0 '' 'abcabcd' 'rule 2 0 1|rule 4 1 2|rule 4 2 3|rule 3 3 7|rule 1 7 7|stop 7'
refilled falls "$ended" 0 0 '' 'abcabcdab' 'rule 2 0 1|rule 4 1 2|rule 4 2 3|rule 3 3 7|rule 2 7 8|rule 4 8 9|rule 1 9 9|stop 9' -f

rules points <<'RULES'
$ { return 1; }
@t [^\x00-\x7f] (@u "x")? { return 2; }
* { return 3; }
RULES
refilled points "$ended" 0 2 't u' '\342\202\254' 'rule 2 0 3 t=0 u=-|rule 1 3 3|stop 3' -8 -T
refilled points "$ended" 0 2 't u' '\342\202\254' 'rule 2 0 3 t=0 u=-|rule 1 3 3|stop 3' -8 -T -f
refilled points "$ended" 0 2 't u' '\342\202\254x' 'rule 2 0 4 t=0 u=3|rule 1 4 4|stop 4' -8 -T -f

rules behind <<'RULES'
"a" / "b"+ { return 1; }
"bb" { return 2; }
* { return 3; }
RULES
refilled behind "$counted" 3 0 '' 'abbb' 'rule 1 0 1|rule 2 1 3|rule 3 3 4|end 4 4'
refilled behind "$counted" 3 0 '' 'abbb' 'rule 1 0 1|rule 2 1 3|rule 3 3 4|end 4 4' -f

rules conditions <<'RULES'
<A> "x" => B { return 1; }
<B> "y" => A { return 2; }
<B> "z" { return 3; }
<*> "z" { return 4; }
<*> * { return 5; }
RULES
refilled conditions "$plain" 1 0 '' 'xzyz?' 'rule 1 0 1|rule 3 1 2|rule 2 2 3|rule 4 3 4|rule 5 4 5|end 5 5' -c
refilled conditions "$counted" 1 0 '' 'xzyz?' 'rule 1 0 1|rule 3 1 2|rule 2 2 3|rule 4 3 4|rule 5 4 5|end 5 5' -c
refilled conditions "$counted" 1 0 '' 'xzyz?' 'rule 1 0 1|rule 3 1 2|rule 2 2 3|rule 4 3 4|rule 5 4 5|end 5 5' -c -f
