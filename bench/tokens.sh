#!/bin/sh
# Measures the tokens of 16 MiB of rules, and fails where it takes 2 s or more.
cd "$(dirname "$0")/../crates/lx_samples" || exit 1
micros=$(rt test | sed -n 's/^ *tokens_rules: \([0-9][0-9]*\) us$/\1/p')
[ -n "$micros" ] || { echo "tokens: no figure (rt test failed)" >&2; exit 1; }
echo "tokens: $micros us (limit 2000000)"
[ "$micros" -lt 2000000 ]
