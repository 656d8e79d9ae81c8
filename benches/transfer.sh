#!/usr/bin/env bash
# Times 10^7 calls of `binary`, of operators in turn and of each alone, beside the same operators on plain intervals of i128.
# The program is made, proved and built in a temporary folder.
set -eu
top=$(readlink -f "$(dirname "${BASH_SOURCE[0]}")/..")
. "$top/benches/copies.sh"
work=$(mktemp -d)
trap 'rm -rf "$work"' EXIT
copy_crates "$top" "$work" tm_cint strided_dom transfer_int
cat > "$work/crates/speed/src/main.rt" <<'PROGRAM'
#![tactic(auto)]

use std::time::Instant;
use strided_dom::Strided;
use tm_cint::{BinOp, IntType};
use transfer_int::{Outcome, binary, converted};

const CALLS: usize = 10_000_000;

ghost use Rattle.tm_cint.specs.declared.int_types.IntType.{IntType};
ghost use Rattle.transfer_int.specs.Operands.{AreValues};

/// A set of values of `int`.
#[derive(Clone, Copy)]
struct IntSet {
    set: Strided,
    ghost in_type: { AreValues IntType.Int set },
}

fn in_int(set: &Strided) -> Strided
    ensures { AreValues IntType.Int result }
{
    converted(IntType::Int, set)
}

fn set_of(lo: i32, hi: i32, stride: u8) -> IntSet {
    let set = Strided::range(i128::from(lo), i128::from(hi), i128::from(stride.max(1)));
    IntSet { set: in_int(&set) }
}

fn call(op: BinOp, a: &IntSet, b: &IntSet) -> Outcome {
    binary(op, IntType::Int, &a.set, &b.set)
}

/// The ends of a value and an error, mixed, so that no call is left out.
fn mixed(outcome: Outcome) -> i128 {
    let set = outcome.value;
    let ends = if set.is_empty() { 0 } else { set.lo() ^ set.hi() };
    let classes = outcome.classes;
    if classes.overflow || classes.div || classes.shift { !ends } else { ends }
}

fn on_sets(operators: &[BinOp], sets: &[IntSet]) -> i128 {
    let m = operators.len();
    let n = sets.len();
    if m == 0 || n == 0 {
        return 0;
    }
    let mut check = 0;
    for i in 0..CALLS {
        check ^= mixed(call(operators[i % m], &sets[i % n], &sets[(i * 7 + 3) % n]));
    }
    check
}

/// The interval of an operator's results, met with `int`, and whether it leaves `int`.
fn spanned(p: i128, q: i128, r: i128, s: i128) -> i128 {
    let lo = p.min(q).min(r.min(s));
    let hi = p.max(q).max(r.max(s));
    let low = lo.max(-0x8000_0000);
    let high = hi.min(0x7fff_ffff);
    let ends = low ^ high;
    if lo < low || high < hi { !ends } else { ends }
}

fn quotient(x: i32, y: i32) -> i128 {
    if y == 0 { 0 } else { i128::from(x) / i128::from(y) }
}

fn remainder(x: i32, y: i32) -> i128 {
    if y == 0 { 0 } else { i128::from(x) % i128::from(y) }
}

fn plain(op: BinOp, a: (i32, i32), b: (i32, i32)) -> i128 {
    let (lo, hi) = (i128::from(a.0), i128::from(a.1));
    let (low, high) = (i128::from(b.0), i128::from(b.1));
    match op {
        BinOp::Add => spanned(lo + low, lo + low, hi + high, hi + high),
        BinOp::Sub => spanned(lo - high, lo - high, hi - low, hi - low),
        BinOp::Mul => spanned(lo * low, lo * high, hi * low, hi * high),
        BinOp::Div => spanned(quotient(a.0, b.0), quotient(a.0, b.1), quotient(a.1, b.0), quotient(a.1, b.1)),
        BinOp::Rem => spanned(remainder(a.0, b.0), remainder(a.0, b.1), remainder(a.1, b.0), remainder(a.1, b.1)),
        BinOp::Shl => {
            let (n, m) = ((b.0 & 31) as u32, (b.1 & 31) as u32);
            spanned(lo << n, lo << m, hi << n, hi << m)
        }
        BinOp::Shr => {
            let (n, m) = ((b.0 & 31) as u32, (b.1 & 31) as u32);
            spanned(lo >> n, lo >> m, hi >> n, hi >> m)
        }
        BinOp::And => spanned(lo & low, lo & high, hi & low, hi & high),
        BinOp::Or => spanned(lo | low, lo | high, hi | low, hi | high),
        BinOp::Xor => spanned(lo ^ low, lo ^ high, hi ^ low, hi ^ high),
        BinOp::Lt | BinOp::Ge => i128::from(hi < low) ^ i128::from(lo < high),
        BinOp::Le | BinOp::Gt => i128::from(hi <= low) ^ i128::from(lo <= high),
        BinOp::Eq | BinOp::Ne => i128::from(lo.max(low) <= hi.min(high)),
    }
}

fn on_intervals(operators: &[BinOp], ends: &[(i32, i32)]) -> i128 {
    let m = operators.len();
    let n = ends.len();
    if m == 0 || n == 0 {
        return 0;
    }
    let mut check = 0;
    for i in 0..CALLS {
        check ^= plain(operators[i % m], ends[i % n], ends[(i * 7 + 3) % n]);
    }
    check
}

fn main(rt: HostRuntime) -> anyhow::Result<()> {
    let mut sets = Vec::new(rt.alloc());
    let mut ends = Vec::new(rt.alloc());
    for i in 0..1024u16 {
        let lo = i32::from(i * 37 % 1000) * 12 - 500;
        let hi = lo + i32::from(i * 13 % 97) * 12 + 12;
        sets.push(set_of(lo, hi, (i % 12 + 1) as u8))?;
        ends.push((lo, hi))?;
    }
    let all = [
        BinOp::Add,
        BinOp::Sub,
        BinOp::Mul,
        BinOp::Div,
        BinOp::Rem,
        BinOp::Shl,
        BinOp::Shr,
        BinOp::And,
        BinOp::Or,
        BinOp::Xor,
        BinOp::Lt,
        BinOp::Eq,
    ];
    for (word, operators) in [
        ("in turn", &all[..]),
        ("+", &all[0..1]),
        ("-", &all[1..2]),
        ("*", &all[2..3]),
        ("/", &all[3..4]),
        ("%", &all[4..5]),
        ("<<", &all[5..6]),
        (">>", &all[6..7]),
        ("&", &all[7..8]),
        ("|", &all[8..9]),
        ("^", &all[9..10]),
        ("<", &all[10..11]),
        ("==", &all[11..12]),
    ] {
        let start = Instant::now(&rt)?;
        let a = on_intervals(operators, &ends);
        let intervals = start.elapsed(&rt)?.as_millis();
        let start = Instant::now(&rt)?;
        let b = on_sets(operators, &sets);
        let strided = start.elapsed(&rt)?.as_millis();
        println!(rt; "{word}, ms: intervals {intervals}, strided sets {strided} ({a} {b})")?;
    }
    Ok(())
}
PROGRAM
cd "$work/crates/speed"
rt run
