#!/bin/sh
# Compiles the example pieces as C, also as custom ones. They stand in the cases of crates/cases/data in which a piece is run, so the
# gate reads and prints the same texts. Each piece goes into a function, behind a user's declarations.
#
# Usage: tests/c/compile.sh, from anywhere; CC names the compiler (cc where it is unset).
. "$(dirname "$0")/setup.sh"

here=$root/tests/c
cases=$root/crates/cases/data

# pieces KIND FILE NAME: puts the pieces of the cases "a KIND with .. is run" into files named NAME and their numbers
pieces() {
    sed -n "/^case a $1 with .* is run\$/,/^run /s/^[|>] //p" "$cases/$2" | awk -v work="$work/$3" '
        /^\/\*!begin:re2c / { split($2, part, "*"); file = work part[1] ".inc" }
        file != "" { print > file }
        /^\/\*!end:re2c\*\// { close(file); file = "" }
    '
}

pieces piece pieces.txt piece
pieces 'custom piece' heads.txt custom

count=0
for piece in "$work"/piece*.inc "$work"/custom*.inc; do
    name=$(basename "$piece" .inc)
    number=${name#piece}
    number=${number#custom}
    cat "$here/custom.h" "$here/piece$number.h" "$piece" "$here/end.h" > "$work/$name.c"
    # shellcheck disable=SC2086
    "$compiler" $options -c "$work/$name.c" -o "$work/$name.o"
    count=$((count + 1))
done

test "$count" -eq 6
echo "$count pieces compiled"
