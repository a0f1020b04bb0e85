#!/bin/sh
# Counts the states of the scanners of the examples, and of a lexer of 40 rules, beside the original re2c where that is installed, and
# fails where one has more. A state is a place that reads a unit: each has one `yych = `, in both.
#
# Usage: bench/states.sh, from anywhere; RE2C names the program (bin/re2c where it is unset), and ORIGINAL the original (re2c where it is
# unset).
root=$(cd "$(dirname "$0")/.." && pwd)
program=${RE2C:-$root/bin/re2c}
original=${ORIGINAL:-re2c}
work=$(mktemp -d) || exit 1
trap 'rm -rf "$work"' EXIT
status=0
if ! "$original" --version > "$work/version" 2> "$work/log"; then
	echo "states: the original is not installed" >&2
	exit 1
fi
echo "the original is $(cat "$work/version")"

# reads SOURCE PROGRAM [OPTION ..]: how many places of a scanner read a unit
reads() {
	source=$1 by=$2
	shift 2
	"$by" -i "$@" -I "$root/examples" -o "$work/made.c" "$source" > "$work/log" 2>&1 || { cat "$work/log" >&2; return; }
	grep -c 'yych = ' "$work/made.c"
}

# compare SOURCE OURS THEIRS: the states of a source by both programs, each with its options
compare() {
	# shellcheck disable=SC2086
	ours=$(reads "$1" "$program" $2)
	# shellcheck disable=SC2086
	theirs=$(reads "$1" "$original" $3)
	printf '%-24s%6s%6s\n' "$(basename "$1" .re)" "$ours" "$theirs"
	[ "${ours:-9999999}" -le "${theirs:-0}" ] || status=1
}

# The definitions that a program of today has, and those of the original.
sed 's/^#define YYSETSTATE.*/#define YYSETSTATE(number) lexer->state = number/' "$root/examples/pushed.re" > "$work/pushed.re"
cat > "$work/lexer.re" <<'RE'
/*!re2c
re2c:define:YYCTYPE = "unsigned char";
re2c:yyfill:enable = 0;

end = "\x00";
digit = [0-9];
id = [A-Za-z_][A-Za-z0-9_]*;
dec = "0" | [1-9] digit*;
hex = '0x' [0-9a-fA-F]+;
end { return 0; }
[ \t\r\n]+ { goto loop; }
"//" [^\n\x00]* { goto loop; }
"/*" ([^*\x00] | "*"+ [^*/\x00])* "*"+ "/" { goto loop; }
"if" { return 5; }
"else" { return 6; }
"while" { return 7; }
"for" { return 8; }
"return" { return 9; }
"int" { return 10; }
"char" { return 11; }
"struct" { return 12; }
"break" { return 13; }
"continue" { return 14; }
id { return 15; }
dec | hex { return 16; }
@whole digit+ @dot "." digit+ { return 17; }
["] ([^"\\\n\x00] | "\\" [^\n\x00])* ["] { return 18; }
"<<=" { return 19; }
"<<" { return 20; }
"<=" { return 21; }
"<" { return 22; }
">>=" { return 23; }
">>" { return 24; }
">=" { return 25; }
">" { return 26; }
"==" { return 27; }
"=" { return 28; }
"&&" { return 29; }
"&" { return 30; }
"||" { return 31; }
"|" { return 32; }
"++" { return 33; }
"+" { return 34; }
"->" { return 35; }
"--" { return 36; }
"-" { return 37; }
[(){}\[\];,.*!?:~%^] { return 38; }
"/" { return 39; }
* { return 40; }
*/
RE
for name in quoted keywords two_scanners signs ranges words_of_file padded; do
	compare "$root/examples/$name.re" '' ''
done
for name in dates options settings log_lines http_messages uris; do
	compare "$root/examples/$name.re" -T -T
done
compare "$work/lexer.re" -T -T
compare "$root/examples/utf_8.re" -8 -8
compare "$root/examples/names_in_utf_8.re" -8 -8
compare "$root/examples/utf_16.re" -x -x
compare "$root/examples/utf_32.re" -u -u
compare "$root/examples/strings_and_comments.re" -c -c
compare "$work/pushed.re" -f -f
compare "$root/examples/numbers.re" '' -r
compare "$root/examples/without_buffer.re" '--input custom' '--input custom'
compare "$root/examples/addresses.re" --captures -P
compare "$root/examples/addresses.re" -P -P
exit "$status"
