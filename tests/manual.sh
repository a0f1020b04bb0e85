#!/bin/sh
# Compares the page of the manual, docs/re2c.1, with docs/COMMAND.md: both have the same options with the same values, and the same
# statuses. The options are those of the command that reads the words, too, each with its two spellings. `groff` and `man` take the page
# without a warning, where they are there.
#
# Then it installs a built program below a temporary folder, and runs it without an environment on the example of the page, which is to
# print what the page says. Where no program is built, that is left out.
#
# Usage: tests/manual.sh, from anywhere; RE2C names the program itself and no script that runs it (that of bin/re2c where it is unset).
set -eu
root=$(cd "$(dirname "$0")/.." && pwd)
program=${RE2C:-$root/crates/re2c/out/re2c}
page=$root/docs/re2c.1
work=$(mktemp -d)
trap 'rm -rf "$work"' EXIT
export LC_ALL=C

# the options that a text names, each with its value
options() {
	grep -oE -e '(^|[^A-Za-z0-9-])--?[A-Za-z0-9][a-z0-9-]*( [A-Z]+| custom)?' | sed 's/^[^-]*//' | sort -u
}

# the lines of a section of the page, without requests for fonts
section() {
	sed -n "/^\\.SH $1\$/,/^\\.SH/p" "$page" | sed 's/\\f[BIR]//g; s/\\-/-/g'
}

section OPTIONS | sed -n '/^\.TP$/{n;p;}' > "$work/tags"
options < "$work/tags" > "$work/of_page"
sed -n '/^| Words | Meaning |$/,/^$/s/^| \([^|]*\)|.*/\1/p' "$root/docs/COMMAND.md" | tr -d '`' | options > "$work/of_pages"
cmp "$work/of_page" "$work/of_pages" || { diff "$work/of_page" "$work/of_pages"; exit 1; }
echo "options of docs/COMMAND.md: $(wc -l < "$work/of_page" | tr -d ' ')"

# each option of the command: its letter, its long spelling and whether it has a value, with - for what is not there
awk '/_option \(codes/ {
	short = long = "-"
	if (match($0, /\(Some [0-9]+\)/)) short = sprintf("%c", substr($0, RSTART + 6, RLENGTH - 7) + 0)
	if (match($0, /\(Some \(codes "[^"]*"\)\)/)) long = substr($0, RSTART + 14, RLENGTH - 17)
	if (short long != "--") print short, long, /value_option/ ? "value" : "flag"
}' "$root/crates/lx_words/specs/Command.antt" | sort > "$work/of_command"
awk '{
	short = long = "-"
	count = split($0, spellings, ", ")
	for (place = 1; place <= count; place++) {
		split(spellings[place], words, " ")
		if (words[1] ~ /^--/) long = substr(words[1], 3)
		else short = substr(words[1], 2)
	}
	print short, long, words[2] == "" ? "flag" : "value"
}' "$work/tags" | sort > "$work/of_tags"
cmp "$work/of_command" "$work/of_tags" || { diff "$work/of_command" "$work/of_tags"; exit 1; }
echo "options of the command: $(wc -l < "$work/of_command" | tr -d ' ')"

section "EXIT STATUS" | sed -n 's/^\.B \([0-9]*\)$/\1/p' > "$work/of_page"
sed -n 's/^| \([0-9]*\) |.*/\1/p' "$root/docs/COMMAND.md" > "$work/of_pages"
cmp "$work/of_page" "$work/of_pages"
echo "statuses: $(wc -l < "$work/of_page" | tr -d ' ')"

if command -v groff > /dev/null; then
	groff -ww -man -Tascii "$page" 2> "$work/warnings" > "$work/text"
	test ! -s "$work/warnings" || { cat "$work/warnings"; exit 1; }
	echo "groff takes the page"
fi
if command -v man > /dev/null && man --warnings -l "$page" > "$work/text" 2> "$work/warnings"; then
	test ! -s "$work/warnings" || { cat "$work/warnings"; exit 1; }
	echo "man takes the page"
fi

if [ ! -x "$program" ]; then
	echo "no program is built, so none is installed"
	exit
fi
# a copy of what bin/install takes, whose program is this one, and for which there is nothing to build
mkdir -p "$work/copy/bin" "$work/copy/docs" "$work/copy/crates/re2c/out" "$work/run"
cp "$root/bin/install" "$work/copy/bin"
printf '#!/bin/sh\n' > "$work/copy/bin/build"
chmod +x "$work/copy/bin/build"
cp "$page" "$work/copy/docs"
cp "$program" "$work/copy/crates/re2c/out/re2c"
DESTDIR="$work/system" "$work/copy/bin/install" > "$work/out"
printf '%s\n' "$work/system/usr/local/bin/re2c" "$work/system/usr/local/share/man/man1/re2c.1" | cmp - "$work/out"
DESTDIR="$work/system" "$work/copy/bin/install" "/a prefix" > "$work/out"
(cd "$work" && ./copy/bin/install relative) > /dev/null
for to in "$work/system/usr/local" "$work/system/a prefix" "$work/relative"; do
	cmp "$program" "$to/bin/re2c"
	cmp "$page" "$to/share/man/man1/re2c.1"
	test -x "$to/bin/re2c"
done
for words in --help "a b"; do
	status=0
	# shellcheck disable=SC2086
	"$work/copy/bin/install" $words > "$work/out" 2>&1 || status=$?
	test "$status" = 1
	grep -qx 'usage: bin/install \[PREFIX\]' "$work/out"
done
printf '#!/bin/sh\nexit 126\n' > "$work/copy/bin/build"
status=0
DESTDIR="$work/none" "$work/copy/bin/install" || status=$?
test "$status" = 126
test ! -e "$work/none"
echo "installed: bin/re2c and share/man/man1/re2c.1"

# the program alone, without what it was installed from
rm -r "$work/copy"
cd "$work/run"
section EXAMPLE | sed -n '/^int kind_of/,/^}$/p' > digits.re
section EXAMPLE | sed -n '/^rule /,/^end /p' > expected
printf 12a > input.txt
env -i "$work/system/usr/local/bin/re2c" -i -o digits.c digits.re
env -i "$work/system/usr/local/bin/re2c" --x-run input.txt digits.c | cmp - expected
test "$(wc -l < expected)" -eq 3
status=0
env -i "$work/system/usr/local/bin/re2c" > out 2> err || status=$?
test "$status" = 1
echo "re2c: error: usage" | cmp - err
echo "the installed program runs without an environment"
