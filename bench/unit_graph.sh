#!/bin/sh
# Measures the graph of a class of 100,000 ranges in UTF-8, and fails where it takes 200 ms or more.
cd "$(dirname "$0")/../crates/lx_samples" || exit 1
micros=$(rt test | sed -n 's/^ *unit_graph: \([0-9][0-9]*\) us$/\1/p')
[ -n "$micros" ] || { echo "unit_graph: no figure (rt test failed)" >&2; exit 1; }
echo "unit_graph: $micros us (limit 200000)"
[ "$micros" -lt 200000 ]
