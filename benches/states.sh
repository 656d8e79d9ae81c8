#!/usr/bin/env bash
# Times 30,000 applications of an edge that changes one of 2,000 cells and is joined at its target, over the states of
# this repository, beside the same on plain vectors of ends in Rust; and a copy of a state, for 20 and for 2,000 cells.
# Both programs are made, and ours is proved and built, in a temporary folder, and run five times each; the run with the
# least processor time counts. The last lines are the ratios of that time and of the memory at the peak.
set -eu
top=$(readlink -f "$(dirname "${BASH_SOURCE[0]}")/..")
. "$top/benches/copies.sh"
work=$(mktemp -d)
trap 'rm -rf "$work"' EXIT
copy_crates "$top" "$work" tm_lattice shared_tables strided_dom pointer_dom state_tree cell_env
cat > "$work/crates/speed/src/main.rt" <<'PROGRAM'
#![tactic(auto)]

use anyhow::{Result, anyhow};
use cell_env::{CellState, State};
use pointer_dom::AbsValue;
use state_tree::Tree;
use std::alloc::Global;
use std::time::Instant;
use strided_dom::Strided;
use tm_lattice::{Keyed, Lattice, NoMemory};

const CELLS: u32 = 2_000;
const STEPS: u32 = 30_000;
const TARGETS: usize = 16;

/// A cell that holds the numbers from 0 to `last`.
fn cell(last: u16) -> CellState<AbsValue> {
    CellState {
        value: AbsValue::from_numbers(Strided::range(0, i128::from(last), 1)),
        pending: 0,
        fresh: true,
        stored: false,
    }
}

fn start(alloc: Global, cells: u32) -> Result<State<AbsValue>, NoMemory> {
    let mut own = Tree::new(alloc);
    for number in 0..cells {
        own.put(number, cell(1))?;
    }
    Ok(State::new(Keyed::new(alloc), own))
}

/// The state after a store to one cell.
fn stored(alloc: Global, state: &State<AbsValue>, number: u32, last: u16) -> Result<State<AbsValue>, NoMemory> {
    let mut cells = state.cells().shared()?;
    cells.put(number, cell(last))?;
    Ok(State::new(state.temps().copied(alloc)?, cells))
}

fn steps(alloc: Global) -> Result<u64, NoMemory> {
    let mut targets = Vec::new(alloc);
    for _ in 0..TARGETS {
        if targets.push(start(alloc, CELLS)?).is_err() {
            return Err(NoMemory);
        }
    }
    let mut raised = 0u64;
    for step in 0..STEPS {
        let from = step as usize % TARGETS;
        let to = (step as usize + 1) % TARGETS;
        if from < targets.len() && to < targets.len() {
            let after = stored(alloc, &targets[from], step * 7 % CELLS, (step % 1_000 + 2) as u16)?;
            if !after.below(&targets[to]) {
                targets[to] = targets[to].join(alloc, &after)?;
                raised = raised.wrapping_add(1);
            }
        }
    }
    Ok(raised)
}

/// Nanoseconds for each of 100,000 copies of a state with so many cells.
fn copies(rt: &HostRuntime, cells: u32) -> Result<u128> {
    let Ok(state) = start(rt.alloc(), cells) else {
        return Err(anyhow!("no memory"));
    };
    let begun = Instant::now(rt)?;
    for _ in 0..100_000u32 {
        let _copy = state.copied(rt.alloc());
    }
    Ok(begun.elapsed(rt)?.as_nanos() / 100_000)
}

fn main(rt: HostRuntime) -> Result<()> {
    let begun = Instant::now(&rt)?;
    let raised = steps(rt.alloc()).unwrap_or(0);
    let spent = begun.elapsed(&rt)?.as_millis();
    println!(rt; "ours {spent} ms, {raised} raised")?;
    let small = copies(&rt, 20)?;
    let large = copies(&rt, 2_000)?;
    println!(rt; "a copy, ns: of 20 cells {small}, of 2,000 cells {large}")?;
    Ok(())
}
PROGRAM
cat > "$work/plain.rs" <<'PROGRAM'
use std::time::Instant;

const CELLS: usize = 2_000;
const STEPS: usize = 30_000;
const TARGETS: usize = 16;

#[derive(Clone, Copy)]
struct Cell {
    lo: i128,
    hi: i128,
    stride: u128,
    pending: u16,
    fresh: bool,
    stored: bool,
}

fn cell(last: i128) -> Cell {
    Cell { lo: 0, hi: last, stride: 1, pending: 0, fresh: true, stored: false }
}

fn is_below(a: &[Cell], b: &[Cell]) -> bool {
    a.iter().zip(b).all(|(a, b)| {
        b.lo <= a.lo && a.hi <= b.hi && b.stride <= a.stride && a.pending | b.pending == b.pending
            && (a.fresh || !b.fresh) && (a.stored || !b.stored)
    })
}

fn join(a: &[Cell], b: &[Cell]) -> Vec<Cell> {
    a.iter().zip(b).map(|(a, b)| Cell {
        lo: a.lo.min(b.lo),
        hi: a.hi.max(b.hi),
        stride: a.stride.min(b.stride),
        pending: a.pending | b.pending,
        fresh: a.fresh && b.fresh,
        stored: a.stored && b.stored,
    }).collect()
}

fn main() {
    let begun = Instant::now();
    let mut targets = vec![vec![cell(1); CELLS]; TARGETS];
    let mut raised = 0;
    for step in 0..STEPS {
        let (from, to) = (step % TARGETS, (step + 1) % TARGETS);
        let mut after = targets[from].clone();
        after[step * 7 % CELLS] = cell((step % 1_000 + 2) as i128);
        if !is_below(&after, &targets[to]) {
            targets[to] = join(&targets[to], &after);
            raised += 1;
        }
    }
    println!("plain {} ms, {raised} raised", begun.elapsed().as_millis());
}
PROGRAM
(cd "$work" && rustc -O plain.rs)
(cd "$work/crates/speed" && rt run > /dev/null)
python3 - "$work/crates/speed/out/speed" "$work/plain" <<'RATIOS'
import os
import sys
import time

def peak_of(process):
    """The most memory in KB that a process had so far; 0 where it has ended."""
    with open("/proc/%d/status" % process) as status:
        return sum(int(line.split()[1]) for line in status if line.startswith("VmHWM:"))

def run(program):
    """The processor seconds of a run, its text, and the most memory that it had, in KB."""
    read, write = os.pipe()
    child = os.fork()
    if child == 0:
        os.dup2(write, 1)
        os.execv(program, [program])
    os.close(write)
    # The kernel's own count for a child begins with the memory of its parent, so the process is asked while it runs.
    memory = 0
    while os.waitid(os.P_PID, child, os.WEXITED | os.WNOHANG | os.WNOWAIT) is None:
        memory = peak_of(child) or memory
        time.sleep(0.002)
    with os.fdopen(read) as told:
        text = told.read()
    usage = os.wait4(child, 0)[2]
    return usage.ru_utime + usage.ru_stime, text, memory

def best(program):
    """The fastest of five runs."""
    return min(run(program) for _ in range(5))

spent, ours, own = best(sys.argv[1])
plain_spent, plain, least = best(sys.argv[2])
print(ours + plain, end="")
print("processor time: %.2f s beside %.2f s, %.1f times plain vectors" % (spent, plain_spent, spent / plain_spent))
print("memory: %d KB beside %d KB, %.1f times" % (own, least, own / least))
RATIOS
