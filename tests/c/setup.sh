# What the scripts of this folder begin with: the repository, the program, the compilers and their options, and a folder that is removed at
# the end. RE2C names the program. CC names the compiler: where it is unset, outputs of format 2 are compiled by cc, and those of format 3 by
# each of gcc, clang, g++ and clang++ that is there, or by cc where none is. FORMATS names the formats that are tried, 2 and 3 where it is unset.
#
# A piece of format 2 has a label for each block and for its end, whether a jump reaches it or not, and it declares its variables whether it
# needs them or not: so three warnings are left out there. Of format 3 none is left out.
set -eu

# shellcheck disable=SC2034
root=$(cd "$(dirname "$0")/../.." && pwd)
# shellcheck disable=SC2034
program=${RE2C:-$root/bin/re2c}
compiler=${CC:-cc}
# shellcheck disable=SC2034
formats=${FORMATS:-2 3}
options="-std=c99 -Wall -Wextra -Werror -Wno-unused-label -Wno-unused-variable -Wno-unused-but-set-variable"
strict='-Wall -Wextra -Werror -pedantic'
if ! command -v "$compiler" > /dev/null; then
	echo "$0: there is no C compiler $compiler, so nothing is compiled; CC names another one" >&2
	exit 1
fi
work=$(mktemp -d)
trap 'rm -rf "$work"' EXIT

# How an output of format 3 is compiled: words of a compiler, a sign : and a standard.
ways=
for one in ${CC:-gcc clang g++ clang++}; do
	case $one in
	*++) standards='c++11 c++17' ;;
	*) standards='c99 c11' ;;
	esac
	for standard in $standards; do
		! command -v "$one" > "$work/log" || ways="$ways $one:$standard"
	done
done
ways=${ways:-cc:c99 cc:c11}

# words_of FORMAT: the words that ask for a format; those for format 2 are left out, as most users do
words_of() {
	test "$1" = 2 || echo "--x-format $1"
}

# as_file TEXT: a text as the end of a file's name
as_file() {
	echo "$1" | tr '/:' '__'
}

# sanitizers COMPILER: the options that find wrong addresses and undefined behaviour, where the compiler has them
sanitizers() {
	known=$work/sanitizers.$(as_file "$1")
	if ! test -e "$known"; then
		printf 'int main(void) { return 0; }\n' > "$work/empty.c"
		: > "$known"
		case $1 in *++) language=c++ ;; *) language=c ;; esac
		if "$1" -x $language -fsanitize=address,undefined "$work/empty.c" -o "$work/empty" 2> "$work/log" && "$work/empty"; then
			echo '-g -fsanitize=address,undefined -fno-sanitize-recover' > "$known"
		fi
	fi
	cat "$known"
}

# compile FORMAT NAME [sanitized] [OPTION ..]: makes programs of NAME.c, an output of a format, and names them in $made; where they are to be
# sanitized, one for each compiler is, that of its first standard. Headers of these scripts are included as those of a system, since warnings
# are asked for in the output alone.
compile() {
	output=$2 kind=$1 sanitized=
	shift 2
	if test "${1:-}" = sanitized; then
		sanitized=yes
		shift
	fi
	made=
	if test "$kind" = 2; then
		# shellcheck disable=SC2046
		test -z "$sanitized" || set -- "$@" $(sanitizers "$compiler")
		# shellcheck disable=SC2086
		"$compiler" $options -isystem "$work" "$@" "$work/$output.c" -o "$work/$output.2"
		made=$work/$output.2
		return
	fi
	for how in $ways; do
		by=${how%:*} standard=${how#*:} more=
		case $by in *++) language=c++ ;; *) language=c ;; esac
		case $sanitized$standard in yesc99 | yesc++11) more=$(sanitizers "$by") ;; esac
		one=$work/$output.3.$(as_file "$how")
		# shellcheck disable=SC2086
		"$by" -x $language -std=$standard $strict -isystem "$work" $more "$@" "$work/$output.c" -o "$one"
		made="$made $one"
	done
}
