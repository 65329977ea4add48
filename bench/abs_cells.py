#!/usr/bin/env python3
"""Times calls on pairs of ids, as a list and as packed bits, and measures what packed pairs keep.

usage: abs_cells.py

It makes a program over copies of `abs_cells` and the crates below it in a new folder, proves it, builds it with LLVM and runs
it. Given lines of input the program keeps the pairs of 512 ids, all that there are, once for each line; given none it times the
calls.
"""
import tempfile

from common import run_over_copies, peak_memory

KEPT = 1000
MAIN = '''//! Times calls on pairs of ids.
#![tactic(auto)]

ghost use Rattle.std.specs.Prelude.{◌<◌};

use abs_cells::{AbsState, Cell, IdSet, ListPairs, PackedPairs, Pairs, well_formed};
use anyhow::Result;
use jvm_values::{Base, Shape, Ty};
use list_views::Seq;
use std::alloc::{AllocError, Global};
use std::io::{BufRead, BufReader};
use std::rt::Clock;
use std::time::Instant;

/// All pairs of the multiples of a number below 512.
fn filled<P: Pairs>(alloc: Global, step: u16) -> Result<P, AllocError>
    requires { 0 < step }
{
    let mut pairs = P::empty(alloc);
    for a in 0..512u16 {
        for b in a + 1..512u16 {
            if a % step == 0 && b % step == 0 {
                pairs.add(a, b)?;
            }
        }
    }
    Ok(pairs)
}

/// A multiple of 16 below 496.
fn id(n: u32) -> u16
    ensures { result < 496 }
{
    (n % 31) as u16 * 16
}

fn ask<P: Pairs>(pairs: &P, rounds: u32) -> u32 {
    let mut yes = 0u32;
    for n in 0..rounds {
        if pairs.has(id(n), 496) {
            yes = yes.wrapping_add(1);
        }
    }
    yes
}

fn add<P: Pairs>(pairs: &mut P, rounds: u32) -> Result<(), AllocError> {
    for n in 0..rounds {
        pairs.add(id(n), 496)?;
    }
    Ok(())
}

fn remove<P: Pairs>(pairs: &mut P, rounds: u32) {
    for n in 0..rounds {
        pairs.remove(id(n), 496);
    }
}

fn touch<P: Pairs>(pairs: &P, rounds: u32) -> u32 {
    let mut x = IdSet::new();
    let mut y = IdSet::new();
    for a in 0..512u16 {
        x.put(a);
    }
    for b in 512..2048u16 {
        y.put(b);
    }
    let mut yes = 0u32;
    for _ in 0..rounds {
        if pairs.touches(&x, &y) {
            yes = yes.wrapping_add(1);
        }
    }
    yes
}

/// A state of 512 ids of any type with these pairs.
fn state<P: Pairs>(alloc: Global, step: u16) -> Result<AbsState<P>, AllocError>
    requires { 0 < step }
{
    let mut cells = Seq::new(alloc);
    for id in 0..512u16 {
        let ty = Ty {
            dims: 0,
            base: Base::Class(0),
        };
        cells.push((id, Cell::Unk(ty, true, Shape::Any))).map_err(|_| AllocError)?;
    }
    let eq = filled::<P>(alloc, step)?;
    let share = filled::<P>(alloc, step)?;
    Ok(AbsState::new(Seq::new(alloc), None, cells, eq, share))
}

fn show(rt: &HostRuntime, form: &str, step: u16, call: &str, start: Instant, rounds: u32) -> Result<()>
    requires { 0 < rounds }
{
    let taken = start.elapsed(rt)?.as_nanos() / u128::from(rounds);
    println!(rt; "| `{form}` | every {step} of 512 | `{call}` | {taken} |")?;
    Ok(())
}

fn timed<P: Pairs>(rt: &HostRuntime, form: &str, step: u16, rounds: u32) -> Result<()>
    requires step { 0 < step }
    requires rounds { 0 < rounds }
{
    let mut pairs = filled::<P>(rt.alloc(), step)?;
    let start = Instant::now(rt)?;
    let yes = ask(&pairs, rounds);
    show(rt, form, step, "has", start, rounds)?;
    let start = Instant::now(rt)?;
    add(&mut pairs, rounds)?;
    show(rt, form, step, "add", start, rounds)?;
    let start = Instant::now(rt)?;
    let touched = touch(&pairs, rounds);
    show(rt, form, step, "touches", start, rounds)?;
    let start = Instant::now(rt)?;
    remove(&mut pairs, rounds);
    show(rt, form, step, "remove", start, rounds)?;
    println!(rt; "{yes} there, {touched} touched")?;
    Ok(())
}

fn tested<P: Pairs>(rt: &HostRuntime, form: &str, step: u16) -> Result<()>
    requires { 0 < step }
{
    let state = state::<P>(rt.alloc(), step)?;
    let start = Instant::now(rt)?;
    let good = well_formed(&state);
    show(rt, form, step, "well_formed", start, 1)?;
    println!(rt; "{good}")?;
    Ok(())
}

fn main(rt: HostRuntime) -> Result<()> {
    let mut kept = Vec::new(rt.alloc());
    for _line in BufReader::new(rt.alloc(), rt.reader())?.lines(rt.alloc()) {
        kept.push(filled::<PackedPairs>(rt.alloc(), 1)?)?;
    }
    if kept.len() == 0 {
        timed::<PackedPairs>(&rt, "PackedPairs", 16, 1000000)?;
        timed::<PackedPairs>(&rt, "PackedPairs", 1, 1000000)?;
        timed::<ListPairs>(&rt, "ListPairs", 16, 1000000)?;
        tested::<PackedPairs>(&rt, "PackedPairs", 1)?;
        tested::<ListPairs>(&rt, "ListPairs", 16)?;
        timed::<ListPairs>(&rt, "ListPairs", 1, 1000)?;
        tested::<ListPairs>(&rt, "ListPairs", 1)?;
    }
    Ok(())
}
'''


def main():
    with tempfile.TemporaryDirectory() as made:
        print('| form | ids | call | nanoseconds a call |\n|---|---|---|---|', flush=True)
        built = str(run_over_copies(made, 'cells_timed', 'abs_cells jvm_values list_views anyhow', MAIN))
        some, more = (peak_memory(built, b'a\n' * count) for count in [KEPT, 2 * KEPT])
        print('packed pairs of 512 ids, all there are: %.1f KiB' % ((more - some) * 1024 / KEPT))


main()
