#!/bin/sh
# Tries the edits of crates with a long proof, crates/NAME/edits/*.edit: the prover must refuse each, as it must those of must-fail/.
# The gate does not try them, since it would prove these crates once more for them. They are tried on a copy of the repository as it
# stands, one crate behind another; each is proved there first, with those below it, which takes from 5 to 30 minutes of a processor.
# The script fails where an edit is not refused.
#
# Usage: tests/edits.sh [NAME ..], from anywhere; none: all crates that have such edits.
set -eu
root=$(cd "$(dirname "$0")/.." && pwd)
work=$(mktemp -d)
trap 'rm -rf "$work"' EXIT
cd "$root"
[ $# -gt 0 ] || set -- $(ls -d crates/*/edits | cut -d/ -f2)
git ls-files -z --cached --others --exclude-standard | xargs -0 cp --parents -t "$work"
cd "$work"
git init -q
failed=0
for name; do
    mkdir -p "crates/$name/must-fail"
    mv "crates/$name/edits/"* "crates/$name/must-fail/"
    (cd "crates/$name" && rt check > check.log 2>&1) || { echo "$name: not proved" >&2; exit 1; }
    rt must-fail "$name" || failed=1
done
exit "$failed"
