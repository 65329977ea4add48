#!/usr/bin/env python3
"""Times the tests of what ids reach, on a state of 512 ids whose two halves are closures, with every pair inside a half.

usage: abs_reach.py

It makes a program over copies of `abs_reach` and the crates below it in a new folder, proves it, builds it with LLVM and runs
it.
"""
from common import print_over_copies

MAIN = '''//! Times the tests of what ids reach.
#![tactic(auto)]

ghost use Rattle.std.specs.Prelude.{◌<◌, true};
ghost use Rattle.abs_cells.specs.Cells.{HasCell};
ghost use Rattle.abs_cells.specs.Sound.{IsWellFormed};

use abs_cells::{AbsState, Cell, Id, Ids, ListPairs, PackedPairs, Pairs, well_formed};
use abs_reach::{Marks, has_cell, is_finite, is_tree, known_from, may_be_in, may_meet};
use anyhow::Result;
use jvm_values::{Base, Shape, Ty};
use list_views::Seq;
use std::alloc::{AllocError, Global};
use std::rt::Clock;
use std::time::Instant;

/// Whether the place of an id in its half of 256 is that of a hazy id.
fn is_hazy(id: u16) -> bool {
    id % 256 >= 128
}

/// The cell of an id: of each half the first 128 ids are a chain of known ids, each with a hazy one of its own.
fn cell(alloc: Global, id: u16) -> Result<Cell, AllocError>
    requires { id < 512 }
{
    if is_hazy(id) {
        let ty = Ty { dims: 0, base: Base::Class(0) };
        return Ok(Cell::Unk(ty, true, Shape::Tree));
    }
    let mut ids = Ids::new(alloc);
    ids.push(id + 128)?;
    if !is_hazy(id + 1) {
        ids.push(id + 1)?;
    }
    Ok(Cell::Obj(0, ids))
}

/// Every pair inside a half of which one at least is hazy, or none.
fn pairs<P: Pairs>(alloc: Global, all: bool) -> Result<P, AllocError> {
    let mut pairs = P::empty(alloc);
    if all {
        for a in 0..512u16 {
            for b in a + 1..512u16 {
                if a / 256 == b / 256 && is_hazy(b) {
                    pairs.add(a, b)?;
                }
            }
        }
    }
    Ok(pairs)
}

fn state<P: Pairs>(alloc: Global, all: bool) -> Result<AbsState<P>, AllocError> {
    let mut cells = Seq::new(alloc);
    for id in 0..512u16 {
        cells.push((id, cell(alloc, id)?)).map_err(|_| AllocError)?;
    }
    let share = pairs::<P>(alloc, all)?;
    Ok(AbsState::new(Seq::new(alloc), None, cells, P::empty(alloc), share))
}

fn meets<P: Pairs>(state: &AbsState<P>, x: Id, y: Id, marks: &mut Marks, rounds: u32) -> u32
    requires good { IsWellFormed state.now }
    requires first { HasCell (λ _. true) state.now x }
    requires second { HasCell (λ _. true) state.now y }
{
    let mut yes = 0u32;
    for _ in 0..rounds {
        if may_meet(state, x, y, marks) {
            yes = yes.wrapping_add(1);
        }
    }
    yes
}

fn inside<P: Pairs>(state: &AbsState<P>, x: Id, y: Id, marks: &mut Marks, rounds: u32) -> u32
    requires good { IsWellFormed state.now }
    requires first { HasCell (λ _. true) state.now x }
    requires second { HasCell (λ _. true) state.now y }
{
    let mut yes = 0u32;
    for _ in 0..rounds {
        if may_be_in(state, x, y, marks) {
            yes = yes.wrapping_add(1);
        }
    }
    yes
}

fn trees<P: Pairs>(state: &AbsState<P>, x: Id, marks: &mut Marks, rounds: u32) -> u32
    requires good { IsWellFormed state.now }
    requires there { HasCell (λ _. true) state.now x }
{
    let mut yes = 0u32;
    for _ in 0..rounds {
        if is_tree(state, x, marks) {
            yes = yes.wrapping_add(1);
        }
    }
    yes
}

fn finite<P: Pairs>(state: &AbsState<P>, x: Id, marks: &mut Marks, rounds: u32) -> u32
    requires good { IsWellFormed state.now }
    requires there { HasCell (λ _. true) state.now x }
{
    let mut yes = 0u32;
    for _ in 0..rounds {
        if is_finite(state, x, marks) {
            yes = yes.wrapping_add(1);
        }
    }
    yes
}

fn closed<P: Pairs>(state: &AbsState<P>, x: Id, marks: &mut Marks, rounds: u32) -> u32
    requires good { IsWellFormed state.now }
    requires there { HasCell (λ _. true) state.now x }
{
    let mut yes = 0u32;
    for _ in 0..rounds {
        known_from(state, x, marks);
        if marks.has(255) {
            yes = yes.wrapping_add(1);
        }
    }
    yes
}

fn show(rt: &HostRuntime, form: &str, all: bool, call: &str, start: Instant, rounds: u32, yes: u32) -> Result<()>
    requires { 0 < rounds }
{
    let taken = start.elapsed(rt)?.as_nanos() / u128::from(rounds);
    let pairs = if all { "all" } else { "none" };
    println!(rt; "| `{form}` | {pairs} | `{call}` | {taken} | {yes} of {rounds} |")?;
    Ok(())
}

fn timed<P: Pairs>(rt: &HostRuntime, form: &str, all: bool, state: &AbsState<P>, rounds: u32) -> Result<()>
    requires rounds { 0 < rounds }
    requires good { IsWellFormed state.now }
    requires first { HasCell (λ _. true) state.now 0 }
    requires second { HasCell (λ _. true) state.now 256 }
{
    let mut marks = Marks::new(rt.alloc())?;
    let start = Instant::now(rt)?;
    let yes = closed(state, 0, &mut marks, rounds);
    show(rt, form, all, "known_from", start, rounds, yes)?;
    let start = Instant::now(rt)?;
    let yes = meets(state, 0, 256, &mut marks, rounds);
    show(rt, form, all, "may_meet", start, rounds, yes)?;
    let start = Instant::now(rt)?;
    let yes = inside(state, 0, 256, &mut marks, rounds);
    show(rt, form, all, "may_be_in", start, rounds, yes)?;
    let start = Instant::now(rt)?;
    let yes = trees(state, 0, &mut marks, rounds);
    show(rt, form, all, "is_tree", start, rounds, yes)?;
    let start = Instant::now(rt)?;
    let yes = finite(state, 0, &mut marks, rounds);
    show(rt, form, all, "is_finite", start, rounds, yes)?;
    Ok(())
}

fn tested<P: Pairs>(rt: &HostRuntime, form: &str, all: bool, rounds: u32) -> Result<()>
    requires { 0 < rounds }
{
    let state = state::<P>(rt.alloc(), all)?;
    if well_formed(&state) {
        if has_cell(&state, 0) && has_cell(&state, 256) {
            timed(rt, form, all, &state, rounds)?;
        }
    }
    Ok(())
}

fn main(rt: HostRuntime) -> Result<()> {
    tested::<PackedPairs>(&rt, "PackedPairs", true, 20000)?;
    tested::<PackedPairs>(&rt, "PackedPairs", false, 20000)?;
    tested::<ListPairs>(&rt, "ListPairs", true, 2000)?;
    tested::<ListPairs>(&rt, "ListPairs", false, 20000)?;
    Ok(())
}
'''
BELOW = 'abs_reach abs_cells jvm_values list_views anyhow'

print_over_copies(['form', 'pairs', 'call', 'nanoseconds a call', 'yes'], 'reach_timed', BELOW, MAIN)
