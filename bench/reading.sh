#!/bin/sh
# Measures the reading of pieces of some 10 MB, one of the oldest format and one of format 3, and fails where one takes 1 s
# or more, or where the memory taken in all is more than 4 times the text above the text itself.
cd "$(dirname "$0")/../crates/code_samples" || exit 1
log=$(mktemp) || exit 1
trap 'rm -f "$log"' EXIT
rt test > "$log" 2>&1 || { tail -5 "$log" >&2; exit 1; }
python3 - out/code_samples_tests <<'PYTHON'
import re, resource, subprocess, sys
failed = False
for name in ['time_of_a_large_piece', 'time_of_a_large_piece_of_format_three']:
    tests = subprocess.run([sys.argv[1], f'tests::reader::{name}'], capture_output=True, text=True, check=True)
    text, micros = map(int, re.search(r'reading: (\d+) bytes in (\d+) us', tests.stdout).groups())
    above = 1024 * resource.getrusage(resource.RUSAGE_CHILDREN).ru_maxrss - text
    print(f'{name}: {micros} us (limit 1000000)')
    print(f'{name}: at most {above} bytes above the text of {text}, which is {above / text:.2f} times it (limit 4)')
    failed = failed or micros >= 1_000_000 or above > 4 * text
sys.exit(failed)
PYTHON
