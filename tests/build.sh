#!/bin/sh
# Tries bin/re2c and bin/build on a small copy of the repository, with an rt that proves nothing: it prints lines as the real one does,
# waits, fails, and writes a program that tells how often it was built. So what is tried is when they build, what they tell, and how they
# end, and not that the real rt takes these commands.
#
# Usage: tests/build.sh, from anywhere. It takes about a minute, and needs python3, as the kit does.
set -eu
root=$(cd "$(dirname "$0")/.." && pwd)
work=$(mktemp -d)
trap 'rm -rf "$work"' EXIT
export LC_ALL=C
export TMPDIR="$work/temporary"
export FAKE="$work/fake"
tools=$PATH
PATH=$work/kit/bin:$tools
mkdir -p "$work/kit/bin" "$TMPDIR" "$FAKE" "$work/repository/docs"
echo "a kit" > "$work/kit/KIT-ID"
cat > "$work/kit/bin/rt" <<'RT'
#!/bin/sh
# Takes the commands that bin/build gives. Each is noted in $FAKE/calls. Other files there say what it does: `fails` names a crate whose
# proof fails, `edits` a file that is changed while the crates are proved, and `waits` has it wait behind a prover that it started.
[ "$1" != version ] || { cat "$FAKE/version"; exit; }
crate=$(basename "$PWD")
echo "$crate $1" >> "$FAKE/calls"
case $1 in
lib)
	echo "rt: chose --jobs 4 for $crate"
	echo "  fn $crate::first: \\proved"
	if [ -e "$FAKE/fails" ] && [ "$crate" = "$(cat "$FAKE/fails")" ]; then
		echo "fn $crate::second: not proved"
		exit 1
	fi
	;;
all)
	if [ -e "$FAKE/edits" ]; then
		echo "changed meanwhile" >> "$(cat "$FAKE/edits")"
	fi
	if [ -e "$FAKE/waits" ]; then
		sleep 600 &
		echo $! > "$FAKE/prover"
		wait
	fi
	echo "rt: 8 at a time"
	for each in $(sed -n 's/:.*//p' ../../crates.txt); do
		case $each in
		lx_gen | lx_compile | lx_source | lx_top | lx_samples) ;;
		lx_*) printf '== %s\nlogic=proved functions=1\n' "$each" ;;
		esac
	done
	# what is left waits for all others
	sleep 600
	;;
run)
	shift
	echo built >> "$FAKE/built"
	mkdir -p out
	rm -f out/re2c
	printf '#!/bin/sh\necho "build %s: $*"\nexit 3\n' "$(wc -l < "$FAKE/built" | tr -d ' ')" > out/re2c
	chmod +x out/re2c
	;;
esac
RT
chmod +x "$work/kit/bin/rt"
cd "$work/repository"
cp -R "$root/bin" "$root/crates.txt" "$root/HANDLES" .
# (samples and cases are none of the program's)
sed -n 's/:.*//p' crates.txt | while read -r crate; do
	mkdir -p "crates/$crate/src" "crates/$crate/specs"
	echo "fn main() {}" > "crates/$crate/src/lib.rt"
	echo "-- a definition" > "crates/$crate/specs/Lib.antt"
done
touch crates/lx_regs/README.md crates/lx_regs/specs/More.antt
git init -q
count=$(grep '^lx_\|^re2c' crates.txt | grep -cv '^lx_samples')

# is BUILDS WHAT [COMMAND ..]: the command, else bin/re2c with two words, runs the program, which was built so many times
is() {
	builds=$1
	what=$2
	shift 2
	[ $# -gt 0 ] || set -- bin/re2c -i "a file"
	status=0
	"$@" > "$work/out" 2> "$work/err" || status=$?
	echo "build $builds: -i a file" | cmp - "$work/out"
	test "$status" = 3
	echo "build $builds: $what"
}

is 1 "the first run"
grep -c ' is done, ' "$work/err" | grep -qx "$count"
tail -n 1 "$work/err" | grep -qx 're2c: re2c is done, 0 left'
grep -q 'some 50 minutes' "$work/err"
grep -q '^  fn lx_base::first: \\proved$' crates/re2c/out/build.log
sort -u "$FAKE/calls" | wc -l | grep -qx ' *11'
is 1 "nothing changed"
test ! -s "$work/err"
touch crates/lx_regs/src/lib.rt
is 1 "a file that was touched is the same"
echo "more" > crates/lx_regs/README.md
echo "more" > crates/cases/src/lib.rt
is 1 "what the program is not made of changed"
echo "-- another one" >> crates/lx_regs/specs/Lib.antt
is 2 "a definition changed"
printf 'fn main() { }' > crates/lx_regs/src/lib.rt
touch -t 200001010000 crates/lx_regs/src/lib.rt
is 3 "a file changed, and got an old time"
rm crates/lx_regs/specs/More.antt
is 4 "a file is gone"
rm -r crates/lx_auto/specs
is 5 "a folder is gone"
echo "fn more() {}" > crates/lx_regs/src/more.rt
is 6 "a file is new"
echo "# a remark" >> crates.txt
is 7 "crates.txt changed"
echo "another kit" > "$work/kit/KIT-ID"
is 8 "the kit is another one"
rm "$work/kit/KIT-ID"
echo "a third kit" > "$FAKE/version"
is 9 "the kit is another one, by what rt version prints"
is 9 "nothing changed with this kit"
without=/usr/bin:/bin
if (PATH=$without; command -v rt > "$work/out"); then
	echo "the kit stands among the system's commands, so no run is without it"
	without=
else
	PATH=$without is 9 "there is no kit"
fi
sleep 1
touch crates/re2c/out/re2c
is 10 "the program was made anew by another hand"

echo "$PWD/crates/lx_min/src/lib.rt" > "$FAKE/edits"
echo "fn more() { }" > crates/lx_regs/src/more.rt
is 11 "a file changes while the program is built"
grep -q 'a file changed while the program was built' "$work/err"
rm "$FAKE/edits"
is 12 "the next run builds again"
is 12 "and the one behind it does not"

ln -s "$PWD/bin/re2c" "$work/link"
ln -s ../link "$TMPDIR/link of a link"
is 12 "through a link" "$work/link" -i "a file"
cd /
is 12 "through a link to a link, from another folder" "$TMPDIR/link of a link" -i "a file"
cd "$work/repository"
rm "$TMPDIR/link of a link"

echo lx_compile > "$FAKE/fails"
echo "fn more() {  }" > crates/lx_regs/src/more.rt
status=0
bin/re2c -i a > "$work/out" 2> "$work/err" || status=$?
test "$status" = 126
test ! -s "$work/out"
tail -n 1 "$work/err" | grep -qx 'fn lx_compile::second: not proved'
grep -q 'the program was not built; .*/crates/re2c/out/build.log ends so:$' "$work/err"
echo "status 126: a proof fails"
rm "$FAKE/fails"
is 13 "the proof holds again"

# ends SIGNAL STATUS WHOM: a build that waits for a prover is ended by a signal to the script, or to all of its group
ends() {
	rm -f "$FAKE/prover"
	python3 - "$FAKE/prover" "$@" <<'PYTHON'
import os, signal, subprocess, sys, time
prover, number, status, whom = sys.argv[1], getattr(signal, 'SIG' + sys.argv[2]), int(sys.argv[3]), sys.argv[4]
# (a script cannot hear a signal that is ignored where it starts)
heard = lambda: [signal.signal(it, signal.SIG_DFL) for it in (signal.SIGINT, signal.SIGTERM, signal.SIGHUP)]
build = subprocess.Popen(['bin/build'], stderr=subprocess.DEVNULL, start_new_session=True, preexec_fn=heard)
while not os.path.exists(prover) or not open(prover).read().endswith('\n'):
    time.sleep(0.05)
(os.killpg if whom == 'group' else os.kill)(build.pid, number)
if build.wait(20) != status:
    sys.exit(f'the status is {build.returncode}')
for _ in range(200):
    try:
        os.kill(int(open(prover).read()), 0)
    except ProcessLookupError:
        break
    time.sleep(0.05)
else:
    sys.exit('the prover goes on')
PYTHON
	test -z "$(ls "$TMPDIR")"
	test ! -e crates/re2c/out/build.begun.new
	echo "status $2: a build is ended by SIG$1 to the $3"
}

touch "$FAKE/waits"
echo "fn more() {   }" > crates/lx_regs/src/more.rt
ends INT 130 group
ends TERM 143 script
ends HUP 129 script
rm "$FAKE/waits"
is 14 "the next run builds"

echo "fn more() {}" > crates/lx_regs/src/more.rt
bin/re2c -i "a file" > "$work/other" 2> /dev/null &
other=$!
is 15 "two builds at once"
status=0
wait "$other" || status=$?
test "$status" = 3
cmp "$work/out" "$work/other"

# what `rt ci` leaves: a program alone in the folder, made behind its lock
left_by_gate() {
	rm -r crates/re2c/out
	touch .git/rt-ci.lock
	sleep 1
	(cd crates/re2c && rt run -- -i /dev/null)
}
echo "a kit" > "$work/kit/KIT-ID"
sleep 1
left_by_gate
is 16 "what rt ci left is taken over"
is 16 "and stays"
left_by_gate
echo "fn more() { }" > crates/lx_regs/src/more.rt
is 18 "what rt ci left is not taken over where a file changed since it began"
left_by_gate
echo "another kit" > "$work/kit/KIT-ID"
is 20 "nor where the kit changed"
left_by_gate
touch .git/rt-ci.lock
is 22 "nor where another run began behind it"

if [ -n "$without" ]; then
	rm -r crates/re2c/out
	status=0
	PATH=$without bin/re2c -i a > "$work/out" 2> "$work/err" || status=$?
	test "$status" = 126
	grep -q 'there is no rt in the path' "$work/err"
	echo "status 126: there is no kit, and no program"
fi
