#!/bin/sh
# Measures the automata of two rule lists of the greatest size, one with 128 tags and one of nested alternations, and the closures
# of their starts, and fails where one of these takes 50 ms or more, or where the memory taken in all is 50 MB or more.
cd "$(dirname "$0")/../crates/tdfa_samples" || exit 1
log=$(mktemp) || exit 1
trap 'rm -f "$log"' EXIT
rt test > "$log" 2>&1 || { tail -5 "$log" >&2; exit 1; }
python3 - out/tdfa_samples_tests <<'PYTHON'
import re, resource, subprocess, sys
status = 0
for name in ['many_tags', 'nested_alternations']:
    tests = subprocess.run([sys.argv[1], 'tests::closures::time_of_' + name], capture_output=True, text=True, check=True)
    for part in [name, name + '_closure']:
        micros = int(re.search(part + r': (\d+) us', tests.stdout).group(1))
        print(f'{part}: {micros} us (limit 50000)')
        status |= micros >= 50_000
taken = 1024 * resource.getrusage(resource.RUSAGE_CHILDREN).ru_maxrss
print(f'memory: {taken} bytes (limit 50000000)')
sys.exit(status | (taken >= 50_000_000))
PYTHON
