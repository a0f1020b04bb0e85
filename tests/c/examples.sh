#!/bin/sh
# Compiles the scanners of the examples, as C in format 2 and as C and C++ in format 3, there with and without lines of the source, and runs
# each: it prints lines that were worked out by hand, and ends with status 0.
#
# Usage: tests/c/examples.sh, from anywhere; RE2C names the program (bin/re2c where it is unset). setup.sh says which compilers are used.
. "$(dirname "$0")/setup.sh"

# prints NAME EXPECTED [OPTION ..]: what the example prints, with blanks for line feeds, where it is compiled with these options
prints() {
	name=$1
	expected=$2
	shift 2
	count=0
	for format in $formats; do
		printed "$format" "$name" "$expected" -i "$@"
		test "$format" = 2 || printed "$format" "$name" "$expected" "$@"
	done
	echo "$name by $count programs: $expected"
}

# printed FORMAT NAME EXPECTED [OPTION ..]: the same in one format
printed() {
	format=$1 name=$2 expected=$3
	shift 3
	# shellcheck disable=SC2046
	"$program" $(words_of "$format") "$@" -o "$work/$name.c" "$root/examples/$name.re"
	compile "$format" "$name"
	for one in $made; do
		"$one" > "$work/$name.out"
		test "$(tr '\n' ' ' < "$work/$name.out")" = "$expected " || { echo "$one: $(cat "$work/$name.out")" >&2; exit 1; }
		count=$((count + 1))
	done
}

# warns NAME LINES: what is told of the example with -W, without the name of its file
warns() {
	"$program" -i -W -o "$work/$1.c" "$root/examples/$1.re" 2> "$work/$1.told"
	test "$(sed "s|^$root/examples/||" "$work/$1.told")" = "$2"
	echo "$1: $(wc -l < "$work/$1.told") warnings"
}

# refused NAME MESSAGE [OPTION ..]: the message of the example with these options, without the name of its file
refused() {
	name=$1
	message=$2
	shift 2
	got=0
	"$program" -i "$@" -o "$work/$name.c" "$root/examples/$name.re" 2> "$work/$name.told" || got=$?
	test "$got" = 1
	test "$(sed "s|^$root/examples/||" "$work/$name.told")" = "$message"
	echo "$message"
}

prints quoted "2 3 1"
prints keywords "1 3 2 4 5 d o"
prints two_scanners "2 2 1 0 2 5 2 2 0 0"
prints signs "L s s ?"
prints dates "24.12.2024 31.01.2025" -T
prints utf_8 "dollar pound . . euro money bag . ." -8
prints utf_16 "1 0 3 2 0 2" -x
prints utf_32 "a e e f ? l ? ?" -u
prints ranges "number:0-1 range:1-3 number:3-5 fraction:6-9 fraction:10-12 call:13-14 name:15-16 call:18-19 name:22-23 end:24-25"
prints addresses "9 3-30 3-7 - - 10-21 - - 21-30 23-30 9 34-56 34-37 40-43 40-42 43-51 51-56 52-56 56-56 -" --captures
prints sizes "512 - b 4 ki b 16 m b 3 mi b" -P
prints options "build 8=13 17 25=30 clean" -T
prints words_of_file "word:0-1 word:2-12 string:13-19 word:20-23 word:24-28 word:29-33 word:34-37 other:37-38 other:38-39 other:39-40 \
word:40-46 end:46-46"
prints settings "15-20=23-25 36-42=- 45-50=57-60 fault:61" -T
prints padded "number:0-4 word:5-8 number:9-10 word:10-12 word:13-16 number:17-20 other:20-21 number:22-30 word:31-32 other:32-33 \
word:33-34 number:35-36 word:36-37 end:37-38"
prints strings_and_comments "word:0-3 text:23-29 escape:29-31 sign:32-33 word:39-43 text:45-47 unclosed:47-48 unclosed:48-50 end:50-50" -c
prints pushed "word:0-2 word:3-5 fraction:6-13 other:13-14 word:15-17 fraction:18-25 other:25-26 number:27-28 other:28-29 word:30-33 \
fraction:34-37 word:37-38 other:38-39 end:39-39" -f
prints numbers "decimal:0-1 comma:1-3 hexadecimal:3-7 comma:7-8 octal:8-11 comma:11-12 fraction:12-16 comma:16-18 other:18-19 end:19-20 \
name:0-2 sign:2-3 fraction:3-6 sign:6-7 hexadecimal:7-11 sign:11-12 octal:12-13 decimal:13-14 end:14-15"
prints names_in_utf_8 "0-9 14-19 20-24 33-37" -8
prints without_buffer "word:0-4 fraction:5-8 word:9-11 number:12-14 other:14-15 end:15-15" --input custom
prints log_lines "address:0-9 identity:10-11 user:12-15 day:17-19 month:20-23 year:24-28 time:29-37 zone:38-43 method:46-49 path:50-56 \
query:- version:62-65 status:67-70 size:71-75 referrer:- agent:- address:76-79 identity:80-81 user:82-83 day:85-87 month:88-91 \
year:92-96 time:97-105 zone:106-111 method:114-117 path:118-123 query:124-135 version:141-144 status:146-149 size:- referrer:153-172 \
agent:175-185 fault:187-229" -T
prints http_messages "method:0-3 target:4-10 version:16-19 name:21-25 value:27-38 name:40-46 value:47-62 name:66-72 value:75-75 \
head:77-79 version:84-87 status:88-91 reason:92-101 version:107-110 status:111-114 reason:115-115 fault:116-129 head:129-130" -T
prints uris "scheme:0-3 authority:6-22 name:6-17 port:18-22 path:22-33 query:34-45 fragment:46-50 scheme:51-55 authority:58-71 \
literal:58-71 path:71-76 query:77-84 scheme:85-91 authority:94-112 userinfo:94-100 ipv4:101-111 port:112-112 path:112-113 \
scheme:114-117 authority:120-131 name:120-131 path:131-131 scheme:132-136 absolute:137-147 fragment:148-148 scheme:149-152 \
rootless:153-166 scheme:167-172 query:174-174 fault:175-191" -T
prints everywhere "word:1:0-3 word:3:20-24 word:5:36-39 end:6:43-43" -c
prints rulers "heading:7 line:10 ruler:14 ruler:28 line:32 line:46 fence:51 line:54 line:55 end:56"
prints queries "select:0-6 name:7-8 from:9-13 name:14-22 where:23-28 name:29-30 other:30-31 mark:31-33 name:33-34 other:34-35 name:36-37 \
other:37-38 end:38-39"
prints ignored "number:0-2 sign:2-3 number:3-6 sign:6-7 other:7-8 end:8-9"
prints ucs_2 "latin:0-4 blank:4-5 greek:5-10 cyrillic:10-12 surrogate:12-13 surrogate:13-14 other:14-15 end:15-16" -w
prints warned "if:0-2 number:2-4 word:4-8 number:8-11 word:11-12 number:12-12"
warns warned "warned.re:18:13: warning: rule 3 is never chosen
warned.re:13:2: warning: no rule after 0x00
warned.re:28:13: warning: rule 1 matches the empty string"
prints empty_classes "number:0-1 other:1-2 number:2-5 other:5-6 number:6-11 end:11-12" --empty-class match-none
refused empty_classes "empty_classes.re:17:14: error: empty class" --empty-class error
prints surrogates "small:0-1 replaced:1-4 letter:4-7 wrong:7-8 wrong:8-9 wrong:9-10 small:10-11 end:11-12" -8 --encoding-policy substitute
refused surrogates "surrogates.re:19:2: error: surrogate" -8 --encoding-policy fail
prints own_type "word:0-5 other:5-6 word:6-10 end:10-11"
prints own_refill "a bird sings oneword"
prints own_variables "shift:0-3 shift:3-4 shift:4-6 error:6-6 accept:9"
prints own_prefixes "width 80 ratio 1.5 colour red width" -c -T
prints two_at_once "width=80 depth=12 colour=- x=y title=a-b shape=round fault last=1 end end" -T
