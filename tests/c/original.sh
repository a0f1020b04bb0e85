#!/bin/sh
# Compares the examples with what the original re2c makes of them, where it is installed: each is compiled by both and run. A difference is
# told and is no failure: the original is no part of the tests, and has other versions.
#
# Usage: tests/c/original.sh, from anywhere; RE2C names the program (bin/re2c where it is unset), ORIGINAL the original (re2c where it is
# unset), and CC the compiler (cc where it is unset).
. "$(dirname "$0")/setup.sh"

original=${ORIGINAL:-re2c}
version=$("$original" --version 2> "$work/log" || true)
case $version in
"re2c "[0-9]*) echo "the original is $version" ;;
*)
	echo "the original is not installed"
	exit 0
	;;
esac

# made NAME SOURCE PROGRAM [OPTION ..]: what the scanners of a source print where a program compiles them, in a file NAME.out
made() {
	name=$1 source=$2 by=$3
	shift 3
	# shellcheck disable=SC2086
	"$by" -i "$@" -I "$root/examples" -o "$work/$name.c" "$source" > "$work/$name.log" 2>&1 \
		&& "$compiler" $options -Wno-error "$work/$name.c" -o "$work/$name" >> "$work/$name.log" 2>&1 \
		&& "$work/$name" > "$work/$name.out"
}

# compare NAME OURS THEIRS [EDIT]: an example, the options of both, and an edit by sed for the original
compare() {
	sed "${4:-}" "$root/examples/$1.re" > "$work/$1.re"
	# shellcheck disable=SC2086
	if ! made ours "$root/examples/$1.re" "$program" $2; then
		echo "$1: ours fails"
		cat "$work/ours.log"
	elif ! made theirs "$work/$1.re" "$original" $3; then
		echo "$1: theirs fails"
		cat "$work/theirs.log"
	elif diff "$work/ours.out" "$work/theirs.out" > "$work/log"; then
		echo "$1: the same $(wc -l < "$work/ours.out") lines"
	else
		echo "$1: differs (< ours, > theirs)"
		cat "$work/log"
	fi
}

# Leftmost greedy captures are younger than POSIX ones; the groups of the example are the same in both.
captures=-P
if "$original" --help | grep -q -e --leftmost-captures; then
	captures=--leftmost-captures
fi

compare quoted '' ''
compare keywords '' ''
compare two_scanners '' ''
compare signs '' ''
compare dates -T -T
compare utf_8 -8 -8
compare utf_16 -x -x
# The last class of the original takes units over 0x10FFFF, too.
compare utf_32 -u -u
compare ranges '' ''
compare addresses --captures "$captures"
compare addresses -P -P
compare sizes -P -P
compare options -T -T
compare words_of_file '' ''
compare settings -T -T
compare padded '' ''
compare strings_and_comments -c -c
# The original writes a refill as a statement that leaves, and stores the state -1 before each action.
compare pushed -f -f 's/^#define YYSETSTATE.*/#define YYSETSTATE(number) lexer->state = number/; s/^#define YYFILL.*/#define YYFILL() return WAITING/'
# Rules blocks need an option there.
compare numbers '' -r
compare names_in_utf_8 -8 -8
compare without_buffer '--input custom' '--input custom'
compare log_lines -T -T
compare http_messages -T -T
compare uris -T -T
compare everywhere -c -c
compare rulers '' ''
compare queries '' ''
compare ignored '' ''
compare ucs_2 -w -w
compare warned '' ''
compare empty_classes '--empty-class match-none' '--empty-class match-none'
compare surrogates '-8 --encoding-policy substitute' '-8 --encoding-policy substitute'
compare own_type '' ''
compare own_refill '' ''
compare own_variables '' ''
# The original declares the number of an accepting state where a scanner keeps one, and only there.
compare own_prefixes '-c -T' '-c -T' 's/yyaccept = 0; //'
compare two_at_once -T -T
