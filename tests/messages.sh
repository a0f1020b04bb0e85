#!/bin/sh
# Gives the program what the table of messages in docs/LANGUAGE.md and the tables of docs/MOVING.md speak of, and compares its messages with
# those that the pages tell. Where the original is installed, it is told what of docs/MOVING.md it does not take either; that is no failure.
#
# Usage: tests/messages.sh, from anywhere; RE2C names the program (bin/re2c where it is unset), and ORIGINAL the original (re2c where it is
# unset).
set -eu
root=$(cd "$(dirname "$0")/.." && pwd)
program=${RE2C:-$root/bin/re2c}
case $program in
*/*) program=$(cd "$(dirname "$program")" && pwd)/$(basename "$program") ;;
*) program=$(command -v "$program") ;;
esac
original=${ORIGINAL:-re2c}
work=$(mktemp -d)
trap 'rm -rf "$work"' EXIT
cd "$work"
asked=0
case $("$original" --version 2> log || true) in
"re2c "[0-9]*) theirs=1 ;;
*) theirs=0 ;;
esac

# told MESSAGE FORMAT [OPTION ..]: the message of a source, with its place, or nothing where it is taken. FORMAT is one of printf. MESSAGE
# begins with `=` where the original refuses the source too, or is not asked.
told() {
	wanted=${1#=} format=$2
	case $1 in =*) alike=1 ;; *) alike=0 ;; esac
	shift 2
	# shellcheck disable=SC2059
	printf "$format" > a.re
	got=0
	"$program" -i "$@" -o a.c a.re 2> found || got=$?
	if [ -n "$wanted" ]; then expected=1; else expected=0; fi
	if [ "$(cat found)" != "${wanted:+a.re:$wanted}" ] || [ "$got" != "$expected" ]; then
		echo "messages: wanted ${wanted:-none}, found status $got and $(cat found) of:" >&2
		cat a.re >&2
		exit 1
	fi
	asked=$((asked + 1))
	if [ "$theirs" = 1 ] && [ "$alike" = 0 ] && ! "$original" -i "$@" -o b.c a.re > log 2>&1; then
		echo "the original refuses too: $(head -n 1 log)"
	fi
}

# block MESSAGE LINE [OPTION ..]: the same of a block with this line, which is its third one, between others
block() {
	message=$1 line=$2
	shift 2
	told "$message" "/*!re2c\nre2c:yyfill:enable = 0;\n$line\n* { }\n*/\n" "$@"
}

# conditions MESSAGE LINE [OPTION ..]: the same with conditions
conditions() {
	message=$1 line=$2
	shift 2
	told "$message" "/*!re2c\nre2c:yyfill:enable = 0;\n<a> * { }\n$line\n*/\n" -c "$@"
}

# usage WORD ..: the words are refused
usage() {
	got=0
	"$program" "$@" > log 2> found || got=$?
	if [ "$got" != 1 ] || [ "$(cat found)" != "re2c: error: usage" ]; then
		echo "messages: wanted usage, found status $got and $(cat found) of: $*" >&2
		exit 1
	fi
	asked=$((asked + 1))
}

# The messages of docs/LANGUAGE.md, in the order of its table.
got=0
"$program" none.re 2> found || got=$?
test "$got" = 1 && test "$(cat found)" = "none.re:1:1: error: no such file"
"$program" - 2> found < log || true
test "$(cat found)" = "-:1:1: error: no such file"
printf '* { }\n' > log
told '=2:1: error: no such file' '\n/*!include:re2c "none.re" */\n'
told '=1:1: error: includes nested too deeply' '/*!include:re2c "a.re" */\n'
head -c 16777217 /dev/zero | tr '\0' ' ' > long.re
told '=1:1: error: source too long' '/*!include:re2c "long.re" */\n'
rm long.re
for word in begin end code names head; do told '=1:2: error: emitted mark in source' " /*!$word:re2c"; done
told '=1:1: error: emitted mark in source' '*!end:re2c*/'
told '=1:2: error: unknown directive or option missing' ' /*!foo:re2c*/'
told '=1:1: error: unknown directive or option missing' '/*!types:re2c*/'
told '=1:1: error: unknown directive or option missing' '/*!getstate:re2c*/'
told '=2:1: error: block not closed' '\n/*!re2c\n"a" { }\n'
told '=1:1: error: block not closed' '/*!re2c\n"a" { if (x) { }\n*/\nvoid f(void) { }\n'
told '=1:1: error: block not closed' '/*!re2c\n"a" { }\n/* no end\n'
for letter in '!' '%%' '&' '^' '~' '`' ']' '}' ':' '-' '@' '#' '\303\251' '\f'; do block '=3:1: error: no token here' "$letter"; done
block '=3:23: error: no token here' 're2c:define:YYCTYPE = -x;'
block '=3:1: error: no token here' '"a'
block '=3:1: error: no token here' '[a'
block '=3:1: error: no token here' '"a\\\n" { }'
for escape in '\\0' '\\x4' '\\u20' '\\U0000' '\\400'; do block '=3:1: error: no token here' "\"$escape\" { }"; done
block '=3:1: error: no token here' '[\\0-9] { }'
block '=3:5: error: no token here' 're2c: eof = 0;'
block '=4:3: error: syntax error' 'a = "a"\nb = "b";'
block '=4:1: error: syntax error' 're2c:eof = -1'
block '=3:5: error: syntax error' '"a" ;'
told '=2:5: error: syntax error' '/*!re2c\n"a" */'
block '=3:23: error: syntax error' 're2c:yyfill:enable = 0x0;'
block '=3:26: error: syntax error' 're2c:define:YYCURSOR = in.cur;'
block '=3:32: error: syntax error' 're2c:define:YYCTYPE = unsigned char;'
block '=3:3: error: syntax error' '( { }'
block '=3:7: error: syntax error' '"a" | { }'
block '=3:7: error: syntax error' '"a" / { }'
block '=3:7: error: syntax error' '"a" \\ { }'
block '=3:6: error: syntax error' '("a" { }'
block '=3:11: error: syntax error' '"a" / "b" / "c" { }'
block '=3:3: error: syntax error' '* / "a" { }'
block '=3:1: error: syntax error' '{name} { }'
block '=3:9: error: syntax error' '"a"{,3} { }'
told '=1:13: error: syntax error' '/*!max:re2c format = "@@"; */'
told '=1:14: error: syntax error' '/*!stags:re2c*/'
told '=1:15: error: syntax error' '/*!stags:re2c separator = "a"; format = "@@"; */'
for name in '' 'a.h' '"a" "b"' '"a\rb"' '"\377"' '"*!"' '"a/*!"' '""'; do told '=1:1: error: syntax error' "/*!include:re2c $name */"; done
block "=3:1: error: unknown name 'b'" 'b { }\nb = "b";'
told "=4:1: error: unknown name 'b'" '/*!rules:re2c b = "b"; b { } */\n/*!re2c\nre2c:yyfill:enable = 0;\nb { }\n*/'
block '=4:1: error: defined twice' 'b = "b";\nb = "c";'
told '=2:9: error: defined twice' '/*!re2c b = "b"; */\n/*!re2c b = "c"; */'
told '=2:13: error: defined twice' '/*!rules:re2c b = "b"; b { } */\n/*!use:re2c b = "c"; */'
block '=4:1: error: defined twice' '* { }'
conditions '=4:7: error: defined twice' '<b,a> * { }'
told '=2:12: error: defined twice' '/*!rules:re2c * { } */\n/*!use:re2c* { } */'
block '=3:1: error: code point too large' '"\\u0100" { }'
block '=3:1: error: code point too large' '[\\u0100] { }'
block '=3:1: error: surrogate' '"\\uD800" { }' -8 --encoding-policy fail
block '=3:1: error: empty class' '[] { }' --empty-class error
block '=3:5: error: empty class' '[a] \\ [a] { }' --empty-class error
block '=3:6: error: not a class' '"ab" \\ [a] { }'
block '=3:4: error: not a class' '"" \\ [a] { }'
block '=3:6: error: not a class' '[a]* \\ [a] { }'
block '=3:8: error: not a class' '[a][b] \\ [a] { }'
block '=4:3: error: not a class' 'n = [a][b];\nn \\ [a] { }'
block '=3:4: error: not a class' '@t \\ [a] { }' -T
block '=3:7: error: not a class' '([a]) \\ [b] { }' --captures
block '=4:3: error: not a class' 'n = [];\nn \\ [b] { }'
block '=3:9: error: not a class' '"q" [a] \\ [b] { }'
told '' '/*!re2c re2c:yyfill:enable = 0; "q" ([a] \\ [b]) { } * { } */'
block '=3:4: error: wrong bounds' '"a"{2,1} { }'
block '=3:4: error: wrong bounds' '"a"{4097} { }'
block '=3:1: error: tags need an option' '@t "a" { }'
block "=3:8: error: tag 't' used twice" '@t "a" @t { }' -T
block "=3:14: error: tag 't' used twice" '@t "a" / "b" #t { }' -T
block "=4:3: error: tag 't' used twice" 'n = @t "a";\nn n { }' -T
block '=3:1: error: wrong use of conditions' '<a> "a" { }'
conditions '=4:1: error: wrong use of conditions' '"a" { }'
block '=3:5: error: wrong use of conditions' '"a" => a { }'
block '=3:5: error: wrong use of conditions' '"a" :=> a'
conditions '=4:12: error: wrong use of conditions' '<a> "a" => b { }'
conditions '=4:12: error: wrong use of conditions' '<*> "a" => b { }'
told '=1:1: error: wrong use of conditions' '/*!re2c re2c:yyfill:enable = 0; <*> "a" { } */' -c
told '=1:1: error: wrong use of conditions' '/*!types:re2c*/' -c
told '=1:1: error: no rules block to use' '/*!use:re2c "a" { } */'
block "=3:1: error: unknown configuration 're2c:foo'" 're2c:foo = 1;'
block '=3:12: error: wrong value' 're2c:eof = 256;'
block '=3:12: error: wrong value' 're2c:eof = "0";'
block '=1:1: error: wrong value' 're2c:define:YYCURSOR = YYLIMIT;'
for name in yyt1 yych yynmatch; do block '=1:1: error: wrong value' "\"a\" @$name { }" -T; done
told '=1:1: error: wrong value' '/*!stags:re2c format = "/*!"; */'
told '=1:1: error: wrong value' '/*!mtags:re2c format = "\\u0100"; */'
told '=1:1: error: no rules' '/*!re2c re2c:eof = 0; $ { } */'
told '=1:1: error: no rules' '/*!rules:re2c a = "a"; */'
told '=1:1: error: no rules' '/*!getstate:re2c*/' -f
block '=1:1: error: end rule and re2c:eof go together' '$ { }'
block '=1:1: error: end rule and re2c:eof go together' 're2c:eof = 0;'
block '=1:1: error: scanner too large' '"a"{4096} { }'
block '=1:1: error: too many states' '[ab]* "a" [ab]{13} { }'
block '=1:1: error: too many cover words' '"a"{836} { }' --x-cover

# The words of docs/MOVING.md.
printf '/*!re2c re2c:yyfill:enable = 0; * { } */\n' > a.re
for word in -b -g -d -D -S -e -F -1 -v -V -h --help --version --bit-vectors --computed-gotos --debug-output --emit-dot --skeleton --ebcdic \
	--flex-syntax --single-pass --vernum --case-ranges --loop-switch --verbose --no-generation-date --no-version --no-lookahead -Wall -Werror \
	-Wunreachable-rules --utf8 --utf16 --utf32 --unicode --ucs2 --wide-chars --start-conditions --posix-captures --leftmost-captures --reusable \
	--case-insensitive --case-inverted; do usage "$word" a.re; done
usage --depfile d a.re
usage -t h a.re
usage --header h a.re
usage --type-header h a.re
usage --location-format gnu a.re
usage --lang c a.re
usage -I a -I b a.re
usage --api custom a.re
usage --input default a.re
usage --input-encoding utf8 a.re
for word in -s -r -W -8 -x -u -w --utf-8 --utf-16 -P -T; do told '' '/*!re2c re2c:yyfill:enable = 0; * { } */\n' "$word"; done
for word in --captures '--input=custom' '--encoding-policy=fail' '--empty-class=match-none'; do
	told '=' '/*!re2c re2c:yyfill:enable = 0; * { } */\n' "$word"
done
"$program" -i -o a.c /dev/stdin < a.re

# The configurations of docs/MOVING.md: those that there are none of, and others.
for name in tags flags:tags flags:T flags:8 flags:utf-8 flags:u flags:x flags:w flags:e posix-captures flags:P encoding:utf8 encoding:utf16 encoding:utf32 \
	encoding:ucs2 encoding:ebcdic encoding-policy api api:sigil define:YYFILL:naked define:YYGETSTATE:naked define:YYSETSTATE:naked \
	define:YYGETCONDITION:naked define:YYSETCONDITION:naked define:YYPEEK define:YYSKIP define:YYBACKUP define:YYRESTORE define:YYBACKUPCTX \
	define:YYRESTORECTX define:YYRESTORETAG define:YYSTAGP define:YYSTAGN define:YYLESSTHAN define:YYSHIFT define:YYSHIFTSTAG define:YYSHIFTMTAG \
	define:YYCONDTYPE define:YYDEBUG tags:expression cond:prefix cond:enumprefix cond:goto cond:divider label:start startlabel label:prefix labelprefix \
	label:yyFillLabel label:yyNext label:yyloop state:abort state:nextlabel yyfill:check yyfill:parameter sentinel variable:yybm variable:yystate \
	variable:yych:emit yych:emit yych:conversion yybm:hex header case-insensitive case-inverted case-ranges nested-ifs bit-vectors computed-gotos \
	cgoto:threshold debug-output lookahead unsafe; do
	block "=3:1: error: unknown configuration 're2c:$name'" "re2c:$name = 1;"
done
block '3:25: error: no token here' 're2c:empty-class = match-none;'
block "3:1: error: unknown configuration 're2c:encoding-policy'" 're2c:encoding-policy = fail;'
block '3:22: error: no token here' 're2c:api:style = free-form;'
block '3:22: error: wrong value' 're2c:define:YYFILL = "fill(in) == 0";'
block '3:22: error: wrong value' 're2c:define:YYFILL = "if (fill(in, @@)) return 2;";'
block '3:19: error: syntax error' 're2c:define:YYFILL@len = "#";'
block '3:23: error: syntax error' 're2c:define:YYSETSTATE@state = "#";'
block '3:27: error: syntax error' 're2c:define:YYSETCONDITION@cond = "#";'
for name in YYSETSTATE YYSETCONDITION YYMTAGP YYMTAGN; do
	block "3:$((${#name} + 16)): error: wrong value" "re2c:define:$name = \"in->state = @@;\";"
done
told '' '/*!re2c re2c:yyfill:enable = 0; re2c:define:YYGETCONDITION = "c"; <a> * { } */\n' -c
grep -q 'switch (c()) {' a.c
block '' 're2c:define:YYCTYPE = char;'
block '' 're2c:define:YYCTYPE = "unsigned char";'
block '3:26: error: syntax error' 're2c:define:YYCURSOR = in.cur;'
block '3:26: error: no token here' 're2c:define:YYCURSOR = in->cur;'
block '' 're2c:define:YYCURSOR = s;'
block '' 're2c:define:YYCURSOR = "in->cur";'
block '3:24: error: wrong value' 're2c:define:YYCURSOR = "a + b";'
block '3:23: error: wrong value' 're2c:define:YYCTYPE = "std::uint8_t";'
block '3:20: error: wrong value' 're2c:tags:prefix = "in->yyt";'
block '' 're2c:tags:prefix = yyt;'
block '' 're2c:condprefix = p;\nre2c:condenumprefix = p;'
block '3:22: error: wrong value' 're2c:yyfill:enable = 2;'
block '=3:13: error: syntax error' 're2c:eof = 0x0;'
block '' 're2c:indent:top = 2;\nre2c:indent:string = "  ";'

# The blocks, directives and rules of docs/MOVING.md.
for word in conditions:re2c local:re2c global:re2c header:re2c:on header:re2c:off re2c:name rules:re2c:name use:re2c:name max:re2c:name svars:re2c mvars:re2c; do
	told '=1:1: error: unknown directive or option missing' "/*!$word \"a\" { } */" -c
done
told '1:15: error: syntax error' '/*!types:re2c format = "@@"; */' -c
told '' '/*!stags:re2c format = "int @@{tag};"; */\n/*!re2c re2c:yyfill:enable = 0; [ab]* @t "b" { } * { } */\n' -T
grep -q '^int yyt1{tag};' a.c
told '' '/*!rules:re2c re2c:yyfill:enable = 0; * { } */ /*!use:re2c*/'
block '=3:1: error: no token here' '!use:name;'
block '=3:1: error: no token here' '!include "rules.re";'
told '' '%%{\n"a" { }\n%%}\n'
block '3:5: error: no token here' '"a" := return 1;'
conditions '4:2: error: syntax error' '<> { }'
conditions '4:2: error: syntax error' '<> => a { }'
conditions '5:2: error: no token here' '<a> "a" { }\n<!a> { }'
block '=3:2: error: no token here' '(! "a") { }' -P
block "=3:1: error: unknown name 'name'" 'name "a" "b"'
told '=2:12: error: defined twice' '/*!rules:re2c * { } */\n/*!use:re2c* { } */'
block '3:4: error: wrong bounds' '"a"{5000} { }'

echo "messages: $asked sources and lines of words"
