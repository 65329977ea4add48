#!/usr/bin/env python3
"""Times the patterns of ids: a list of 512 ids asked for all its ids; a pattern of 4,095 parts; and known cells without a cycle whose
pattern has more parts than any memory has room for.

usage: term_enc.py

It makes a program over copies of `term_enc` and the crates below it in a new folder, proves it, builds it with LLVM and runs it.
"""
from common import print_over_copies

MAIN = '''//! Times the patterns of ids.
#![tactic(auto)]

ghost use Rattle.std.specs.Prelude.{◌<◌, not, IsTrue};
ghost use Rattle.abs_cells.specs.Cells.{is_int, HasCell};
ghost use Rattle.abs_cells.specs.Sound.{AreIdsRising, IsWellFormed};

use abs_cells::{AbsState, Cell, Id, Ids, ListPairs, Pairs, well_formed};
use abs_reach::{Marks, cell_of};
use anyhow::Result;
use list_views::Seq;
use std::alloc::{AllocError, Global};
use std::rt::Clock;
use std::time::Instant;
use term_enc::encode;

/// The cell of an id: an instance whose fields are the next id, once or twice; the last one is null.
fn cell(alloc: Global, id: u16, count: u16, twice: bool) -> Result<Cell, AllocError>
    requires { id < count }
{
    if id + 1 == count {
        return Ok(Cell::Null);
    }
    let mut ids = Ids::new(alloc);
    ids.push(id + 1)?;
    if twice {
        ids.push(id + 1)?;
    }
    Ok(Cell::Obj(0, ids))
}

fn chain(alloc: Global, count: u16, twice: bool) -> Result<AbsState<ListPairs>, AllocError> {
    let mut cells = Seq::new(alloc);
    for id in 0..count {
        cells.push((id, cell(alloc, id, count, twice)?)).map_err(|_| AllocError)?;
    }
    Ok(AbsState::new(Seq::new(alloc), None, cells, ListPairs::empty(alloc), ListPairs::empty(alloc)))
}

fn is_no_int<P: Pairs>(state: &AbsState<P>, x: Id) -> bool
    requires { AreIdsRising 0 state.now.cells }
    ensures { IsTrue result → HasCell (λ cell. not (is_int cell)) state.now x }
{
    match cell_of(state.cells(), x) {
        Some(cell) => !cell.is_int(),
        None => false,
    }
}

/// Asks for each id of a state, and counts those that have a pattern.
fn sized<P: Pairs>(alloc: Global, state: &AbsState<P>, count: u16, marks: &mut Marks) -> Result<u32, AllocError>
    requires { IsWellFormed state.now }
{
    let mut some = 0u32;
    for x in 0..count {
        if is_no_int(state, x) {
            if encode(alloc, state, x, marks)?.is_some() {
                some = some.wrapping_add(1);
            }
        }
    }
    Ok(some)
}

fn timed<P: Pairs>(rt: &HostRuntime, what: &str, state: &AbsState<P>, count: u16, rounds: u32) -> Result<()>
    requires good { IsWellFormed state.now }
    requires some { 0 < rounds }
{
    let mut marks = Marks::new(rt.alloc())?;
    let start = Instant::now(rt)?;
    let mut some = 0u32;
    for _ in 0..rounds {
        some = sized(rt.alloc(), state, count, &mut marks)?;
    }
    let taken = start.elapsed(rt)?.as_nanos() / u128::from(rounds);
    println!(rt; "| {what} | {count} | {some} | {taken} |")?;
    Ok(())
}

fn tested(rt: &HostRuntime, what: &str, ids: u16, twice: bool, asked: u16, rounds: u32) -> Result<()>
    requires { 0 < rounds }
{
    let state = chain(rt.alloc(), ids, twice)?;
    if well_formed(&state) {
        timed(rt, what, &state, asked, rounds)?;
    }
    Ok(())
}

fn main(rt: HostRuntime) -> Result<()> {
    tested(&rt, "a list of 128 ids", 128, false, 128, 100)?;
    tested(&rt, "a list of 256 ids", 256, false, 256, 100)?;
    tested(&rt, "a list of 512 ids", 512, false, 512, 100)?;
    tested(&rt, "4,095 parts", 12, true, 1, 1000)?;
    tested(&rt, "2^512 - 1 parts", 512, true, 1, 1000)?;
    tested(&rt, "all ids of that", 512, true, 512, 10)?;
    Ok(())
}
'''
BELOW = 'term_enc abs_reach abs_cells list_views anyhow'

print_over_copies(['state', 'ids asked for', 'sized', 'nanoseconds for all'], 'terms_timed', BELOW, MAIN)
