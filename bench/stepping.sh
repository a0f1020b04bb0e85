#!/bin/sh
# Measures the statements a second of the stepper on three rules and a stream of 100 MB, and fails where they are fewer
# than 20 million, or where the memory taken in all is 8 MB or more above the stream's. The longer stream is that of a
# copy of the crates, whose tests are proved again: it takes some minutes.
here=$(cd "$(dirname "$0")" && pwd)
copy=$(mktemp -d) || exit 1
trap 'rm -rf "$copy"' EXIT
. "$here/copy_crates.sh"
copy_crates "$copy" lx_base lx_class lx_encode lx_ccode lx_files lx_creader lx_window lx_step lx_run code_samples
cd "$copy/crates/code_samples" || exit 1
sed -i 's/^const COPIES: usize = .*/const COPIES: usize = 14_300_000;/' src/tests/stepper.rt
rt test > "$copy/log" 2>&1 || { tail -5 "$copy/log" >&2; exit 1; }
python3 - out/code_samples_tests <<'PYTHON'
import re, resource, subprocess, sys
tests = subprocess.run([sys.argv[1], 'tests::stepper::a_long_stream'], capture_output=True, text=True, check=True)
count, micros = map(int, re.search(r'stepping: (\d+) statements in (\d+) us', tests.stdout).groups())
stream = 7 * 14_300_000
above = 1024 * resource.getrusage(resource.RUSAGE_CHILDREN).ru_maxrss - stream
speed = 1_000_000 * count // max(micros, 1)
print(f'stepping: {speed} statements a second (at least 20000000)')
print(f'stepping: {above} bytes above the stream of {stream} (limit 8000000)')
sys.exit(speed < 20_000_000 or above >= 8_000_000)
PYTHON
