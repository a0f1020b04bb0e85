#!/bin/sh
# Measures automata from their rule lists on, and fails where they take too long: a lexer of 40 rules (50 ms), 2,049 states (1 s), a
# string of 4,095 letters (1 s) and 1,047,629 places (20 s), and refusals of a little more (as long each); or where the memory taken
# in all is 2 GiB or more.
cd "$(dirname "$0")/../crates/tdfa_samples" || exit 1
log=$(mktemp) || exit 1
trap 'rm -f "$log"' EXIT
rt test > "$log" 2>&1 || { tail -5 "$log" >&2; exit 1; }
python3 - out/tdfa_samples_tests <<'PYTHON'
import re, resource, subprocess, sys
limits = {
    'limits::time_of_a_lexer': {'lexer': 50_000},
    'limits::time_of_many_states': {'states': 1_000_000, 'states_refused': 1_000_000},
    'limits::time_of_a_string': {'string': 1_000_000, 'string_refused': 1_000_000},
    'limits::time_of_many_places': {'places': 20_000_000, 'places_refused': 20_000_000},
}
status = 0
for test, parts in limits.items():
    tests = subprocess.run([sys.argv[1], 'tests::' + test], capture_output=True, text=True, check=True)
    for part, limit in parts.items():
        micros = int(re.search(part + r': (\d+) us', tests.stdout).group(1))
        print(f'{part}: {micros} us (limit {limit})')
        status |= micros >= limit
    taken = 1024 * resource.getrusage(resource.RUSAGE_CHILDREN).ru_maxrss
    print(f'memory so far: {taken} bytes (limit {2 ** 31})')
    status |= taken >= 2 ** 31
sys.exit(status)
PYTHON
