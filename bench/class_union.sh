#!/bin/sh
# Measures the union of two sets of 100,000 ranges each, and fails where it takes 50 ms or more.
cd "$(dirname "$0")/../crates/lx_samples" || exit 1
micros=$(rt test | sed -n 's/^ *class_union: \([0-9][0-9]*\) us$/\1/p')
[ -n "$micros" ] || { echo "class_union: no figure (rt test failed)" >&2; exit 1; }
echo "class_union: $micros us (limit 50000)"
[ "$micros" -lt 50000 ]
