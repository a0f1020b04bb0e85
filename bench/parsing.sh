#!/bin/sh
# Measures the items of 4,000,000 nested parentheses, of the same where they are not closed or no action follows, and of
# 16 MiB of rules, and fails where one of them takes 1 s or more.
cd "$(dirname "$0")/../crates/lx_samples" || exit 1
figures=$(rt test | sed -n 's/^ *parsing_\([a-z]*\): \([0-9][0-9]*\) us$/\1 \2/p')
[ -n "$figures" ] || { echo "parsing: no figure (rt test failed)" >&2; exit 1; }
echo "$figures" | {
    status=0
    while read -r name micros; do
        echo "$name: $micros us (limit 1000000)"
        [ "$micros" -lt 1000000 ] || status=1
    done
    exit "$status"
}
