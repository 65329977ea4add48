#!/usr/bin/env python3
"""Times a write of a reference into a field, in a state of 512 ids with 1,000 pairs, where 100 ids are affected.

usage: abs_heap.py

It makes a program over copies of `abs_heap` and the crates below it in a new folder, proves it, builds it with LLVM and runs
it.
"""
from common import print_over_copies

MAIN = '''//! Times a write.
#![tactic(auto)]

ghost use Rattle.std.specs.Prelude.{◌<◌, true};
ghost use Rattle.abs_cells.specs.Cells.{HasCell};
ghost use Rattle.abs_cells.specs.Sound.{IsWellFormed};

use abs_cells::{AbsState, Cell, Id, Ids, ListPairs, PackedPairs, Pairs, well_formed};
use abs_heap::put_field;
use abs_reach::has_cell;
use anyhow::Result;
use jvm_values::{Base, Shape, Ty};
use list_views::Seq;
use std::alloc::{AllocError, Global};
use std::rt::Clock;
use std::time::Instant;

/// The cell of an id: 0 is an instance with one field, the others are trees.
fn cell(alloc: Global, id: u16) -> Result<Cell, AllocError> {
    if id == 0 {
        let mut ids = Ids::new(alloc);
        ids.push(1)?;
        return Ok(Cell::Obj(0, ids));
    }
    let ty = Ty { dims: 0, base: Base::Class(0) };
    Ok(Cell::Unk(ty, true, Shape::Tree))
}

/// 0 with 100 ids, and 900 pairs of others with one of the next three.
fn pairs<P: Pairs>(alloc: Global) -> Result<P, AllocError> {
    let mut pairs = P::empty(alloc);
    for b in 2..102u16 {
        pairs.add(0, b)?;
    }
    for n in 0..900u16 {
        let a = 102 + n / 3;
        pairs.add(a, a + n % 3 + 1)?;
    }
    Ok(pairs)
}

fn state<P: Pairs>(alloc: Global) -> Result<AbsState<P>, AllocError> {
    let mut cells = Seq::new(alloc);
    for id in 0..512u16 {
        cells.push((id, cell(alloc, id)?)).map_err(|_| AllocError)?;
    }
    let share = pairs::<P>(alloc)?;
    Ok(AbsState::new(Seq::new(alloc), None, cells, P::empty(alloc), share))
}

fn written<P: Pairs>(alloc: Global, state: &AbsState<P>, k: Id, w: Id, rounds: u32) -> u32
    requires good { IsWellFormed state.now }
    requires first { HasCell (λ _. true) state.now k }
    requires second { HasCell (λ _. true) state.now w }
{
    let mut done = 0u32;
    for _ in 0..rounds {
        if put_field(alloc, state, k, 0, w).is_ok() {
            done = done.wrapping_add(1);
        }
    }
    done
}

fn timed<P: Pairs>(rt: &HostRuntime, form: &str, state: &AbsState<P>, w: Id, rounds: u32) -> Result<()>
    requires rounds { 0 < rounds }
    requires good { IsWellFormed state.now }
    requires first { HasCell (λ _. true) state.now 0 }
    requires second { HasCell (λ _. true) state.now w }
{
    let start = Instant::now(rt)?;
    let done = written(rt.alloc(), state, 0, w, rounds);
    let taken = start.elapsed(rt)?.as_nanos() / u128::from(rounds);
    println!(rt; "| `{form}` | {w} | {taken} | {done} of {rounds} |")?;
    Ok(())
}

fn tested<P: Pairs>(rt: &HostRuntime, form: &str, rounds: u32) -> Result<()>
    requires { 0 < rounds }
{
    let state = state::<P>(rt.alloc())?;
    if well_formed(&state) {
        if has_cell(&state, 0) && has_cell(&state, 300) && has_cell(&state, 511) {
            timed(rt, form, &state, 300, rounds)?;
            timed(rt, form, &state, 511, rounds)?;
        }
    }
    Ok(())
}

fn main(rt: HostRuntime) -> Result<()> {
    tested::<ListPairs>(&rt, "ListPairs", 200)?;
    tested::<PackedPairs>(&rt, "PackedPairs", 3)?;
    Ok(())
}
'''
BELOW = 'abs_heap abs_reach abs_cells jvm_values list_views anyhow'

print_over_copies(['form', 'value', 'nanoseconds a call', 'done'], 'writes_timed', BELOW, MAIN)
