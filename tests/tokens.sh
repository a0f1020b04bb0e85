#!/bin/sh
# A token borrows its window: code that keeps one across `slide`, `begin` or `refill` is refused by the borrow checker.
#
# The gate has no place for code that must not compile, so this is a script of its own. It takes about a minute.
set -eu

root=$(cd "$(dirname "$0")/.." && pwd)
work=$(mktemp -d)
trap 'rm -rf "$work"' EXIT

mkdir -p "$work/crates/kept/src"
cp -r "$root/crates/lx_window" "$work/crates/"
rm -rf "$work/crates/lx_window/must-fail"
printf 'lx_window: thiserror\nkept: lx_window\n' >"$work/crates.txt"
printf 'Handles allowed: none.\n' >"$work/HANDLES"

cat >"$work/crates/kept/src/lib.rt" <<'END'
//! Tokens that are kept too long.
#![tactic(auto)]

use lx_window::{MemRefill, Window};

pub fn across_slide(window: &mut Window<'_>, to: u64) -> usize {
    let token = window.token(to);
    window.slide();
    token.len()
}

pub fn across_begin(window: &mut Window<'_>, to: u64) -> usize {
    let token = window.token(to);
    window.begin(to);
    token.len()
}

pub fn across_refill(window: &mut Window<'_>, source: &mut MemRefill<'_>, to: u64) -> usize {
    let token = window.token(to);
    let _ = window.refill(source);
    token.len()
}
END

(cd "$work/crates/kept" && rt check --allow-holes) >"$work/said" 2>&1 || true
for call in slide begin refill; do
    line=$(grep -n "window.$call(" "$work/crates/kept/src/lib.rt" | cut -d: -f1)
    if ! grep "lib.rt:$line:" "$work/said" | grep -q 'borrow-e0502'; then
        cat "$work/said"
        echo "tokens: a token kept across $call is not refused" >&2
        exit 1
    fi
done
echo "tokens: none may be kept across slide, begin or refill"
