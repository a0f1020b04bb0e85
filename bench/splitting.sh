#!/bin/sh
# Measures the pieces of 16 MiB of outside text and of one block of 16 MiB, and fails where they take 100 ms and 1 s or
# more; and those of sources that are made to be slow, at 1 s each.
cd "$(dirname "$0")/../crates/lx_samples" || exit 1
figures=$(rt test | sed -n 's/^ *splitting_\([a-z]*\): \([0-9][0-9]*\) us$/\1 \2/p')
[ -n "$figures" ] || { echo "splitting: no figure (rt test failed)" >&2; exit 1; }
echo "$figures" | {
    status=0
    while read -r name micros; do
        limit=1000000
        [ "$name" = outside ] && limit=100000
        echo "$name: $micros us (limit $limit)"
        [ "$micros" -lt "$limit" ] || status=1
    done
    exit "$status"
}
