#!/bin/sh
# Compares `units_of` on all code points with python's codecs: a copy of the crates gets one more test, which
# prints a sum for each encoding. It takes about a minute, and proves nothing.
here=$(cd "$(dirname "$0")" && pwd)
copy=$(mktemp -d) || exit 1
trap 'rm -rf "$copy"' EXIT
. "$here/copy_crates.sh"
copy_crates "$copy" lx_base lx_class lx_encode
cat >> "$copy/crates/lx_encode/src/units.rt" <<'TEST'

#[cfg(test)]
mod tests {
    use super::*;
    use std::test::Fail;

    #[test]
    fn all_units(rt: HostRuntime) -> Result<(), Fail> {
        for enc in [Enc::Utf8, Enc::Utf16, Enc::Utf32] {
            let mut sum: u64 = 0;
            for point in 0..0x11_0000 {
                if let Some(units) = units_of(enc, point) {
                    for place in [u32::from(units.len), units.a, units.b, units.c, units.d] {
                        sum = (sum * 31 + u64::from(place) + 1) % 1_000_000_007;
                    }
                }
            }
            println!(rt; "sum {}", sum)?;
        }
        Ok(())
    }
}
TEST
ours=$(cd "$copy/crates/lx_encode" && rt try --test 2>&1 | grep -a '^ *sum' | sed 's/^ *//')
theirs=$(python3 "$here/units_of_all.py")
echo "$ours"
[ -n "$ours" ] && [ "$ours" = "$theirs" ]
