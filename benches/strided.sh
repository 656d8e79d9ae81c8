#!/usr/bin/env bash
# Times 10^7 calls of hull, meet and round of strided sets, beside the same operations on plain intervals of i128.
# The program is made, proved and built in a temporary folder.
set -eu
top=$(readlink -f "$(dirname "${BASH_SOURCE[0]}")/..")
. "$top/benches/copies.sh"
work=$(mktemp -d)
trap 'rm -rf "$work"' EXIT
copy_crates "$top" "$work" strided_dom
cat > "$work/crates/speed/src/main.rt" <<'PROGRAM'
#![tactic(auto)]

use std::time::Instant;
use strided_dom::{Marks, Strided};

const CALLS: usize = 10_000_000;

/// The ends of a set, mixed, so that no call is left out.
fn ends_of(s: &Strided) -> i128 {
    if s.is_empty() { 0 } else { s.lo() ^ s.hi() }
}

fn set(lo: i32, hi: i32, stride: u8) -> Strided {
    Strided::range(i128::from(lo), i128::from(hi), i128::from(stride.max(1)))
}

fn plain_hulls(ends: &[(i128, i128)]) -> i128 {
    let n = ends.len();
    if n == 0 {
        return 0;
    }
    let mut check = 0;
    for i in 0..CALLS {
        let (lo, hi) = ends[i % n];
        let (low, high) = ends[(i * 7 + 3) % n];
        check ^= lo.min(low) ^ hi.max(high);
    }
    check
}

fn plain_meets(ends: &[(i128, i128)]) -> i128 {
    let n = ends.len();
    if n == 0 {
        return 0;
    }
    let mut check = 0;
    for i in 0..CALLS {
        let (lo, hi) = ends[i % n];
        let (low, high) = ends[(i * 7 + 3) % n];
        let first = lo.max(low);
        let last = hi.min(high);
        if first <= last {
            check ^= first ^ last;
        }
    }
    check
}

fn hulls(sets: &[Strided]) -> i128 {
    let n = sets.len();
    if n == 0 {
        return 0;
    }
    let mut check = 0;
    for i in 0..CALLS {
        let s = sets[i % n].hull(&sets[(i * 7 + 3) % n]);
        check ^= ends_of(&s);
    }
    check
}

fn meets(sets: &[Strided]) -> i128 {
    let n = sets.len();
    if n == 0 {
        return 0;
    }
    let mut check = 0;
    for i in 0..CALLS {
        let s = sets[i % n].meet(&sets[(i * 7 + 3) % n]);
        check ^= ends_of(&s);
    }
    check
}

fn rounds(sets: &[Strided], marks: &Marks) -> i128 {
    let n = sets.len();
    if n == 0 {
        return 0;
    }
    let mut check = 0;
    for i in 0..CALLS {
        let s = sets[i % n].round(marks);
        check ^= ends_of(&s);
    }
    check
}

fn main(rt: HostRuntime) -> anyhow::Result<()> {
    let limits = vec![in rt.alloc(); -0x8000_0000_0000_0000, -0x8000_0000, -0x8000, -128, -1, 0, 1, 127, 255, 0x7fff, 0xffff, 0x7fff_ffff, 0xffff_ffff, 0x7fff_ffff_ffff_ffff, 0xffff_ffff_ffff_ffff]?;
    let Some(marks) = Marks::checked(limits) else {
        return Ok(());
    };
    for stride in [1u8, 4, 0] {
        let mut sets = Vec::new(rt.alloc());
        let mut ends = Vec::new(rt.alloc());
        for i in 0..1024u16 {
            let step = if stride == 0 { (i % 12 + 1) as u8 } else { stride };
            let lo = i32::from(i * 37 % 1000) * 12 - 500;
            let hi = lo + i32::from(i * 13 % 97) * 12 + 12;
            sets.push(set(lo, hi, step))?;
            ends.push((i128::from(lo), i128::from(hi)))?;
        }
        let start = Instant::now(&rt)?;
        let a = plain_hulls(&ends);
        let plain_hull = start.elapsed(&rt)?.as_millis();
        let start = Instant::now(&rt)?;
        let b = plain_meets(&ends);
        let plain_meet = start.elapsed(&rt)?.as_millis();
        let start = Instant::now(&rt)?;
        let c = hulls(&sets);
        let hull = start.elapsed(&rt)?.as_millis();
        let start = Instant::now(&rt)?;
        let d = meets(&sets);
        let meet = start.elapsed(&rt)?.as_millis();
        let start = Instant::now(&rt)?;
        let e = rounds(&sets, &marks);
        let round = start.elapsed(&rt)?.as_millis();
        println!(rt; "stride {stride} (0: mixed), ms: plain hull {plain_hull}, hull {hull}, plain meet {plain_meet}, meet {meet}, round {round} ({a} {b} {c} {d} {e})")?;
    }
    Ok(())
}
PROGRAM
cd "$work/crates/speed"
rt run
