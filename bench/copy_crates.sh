# A copy of some crates, in which a bench can change what it measures; to be sourced, with the folder of the benches in
# `here`. `copy_crates DIR NAME..` puts these crates and their lines of crates.txt into DIR.
copy_crates() {
    copy=$1
    shift
    mkdir "$copy/crates"
    cp "$here/../HANDLES" "$copy/"
    for name in "$@"; do
        mkdir "$copy/crates/$name"
        (cd "$here/../crates/$name" && tar cf - --exclude=out .) | tar xf - -C "$copy/crates/$name"
        grep "^$name:" "$here/../crates.txt" >> "$copy/crates.txt"
    done
}
