#!/bin/sh
# Measures the first build of the program: clones the last commit, runs bin/build there, in a mount namespace of its own, in which the kit
# has kept nothing, where it keeps what it proved, and prints how long it took. A quiet machine is wanted, since what else runs on it
# lengthens the build.
#
# Usage: bench/first_build.sh, from anywhere, as root.
set -eu
root=$(cd "$(dirname "$0")/.." && pwd)
kept=/opt/rattle-kept
work=$(mktemp -d)
trap 'rm -rf "$work"' EXIT
git clone -q "$root" "$work/clone"
mkdir -p "$kept" "$work/kept"
begin=$(date +%s)
if [ -d "$kept" ]; then
    unshare -m sh -c 'mount --bind "$1/kept" "$2" && exec "$1/clone/bin/build"' sh "$work" "$kept"
else
    "$work/clone/bin/build"
fi
end=$(date +%s)
echo "first build: $(((end - begin) / 60)) min $(((end - begin) % 60)) s on $(nproc) processors"
