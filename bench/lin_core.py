#!/usr/bin/env python3
"""Times `combine` and `shows` as the number of variables and the length of the rows grow.

Makes a program over copies of the crates in a temporary folder, and proves it and runs it as it
is built for use.
"""
import subprocess
import sys
import tempfile

from common import program_over_copies

MAIN = """//! Times sums of rows.
#![tactic(auto)]

ghost use Rattle.std.specs.Prelude.{◌≡◌, ◌<◌, ◌≤◌, IsTrue, length};
ghost use Rattle.lin_core.specs.Rows.{AllRise, Rise, RiseFrom};
ghost use Rattle.lin_core.specs.Sums.{variables};

use lin_core::{Row, RowKind, Scratch, Target, combine, shows};
use list_views::Seq;
use std::alloc::{AllocError, Global};
use std::io;
use std::rt::Clock;
use std::time::Instant;

fn terms(alloc: Global, count: u32, step: u32) -> Result<Seq<(u32, i64)>, AllocError> {
    let mut terms = Seq::new(alloc);
    for n in 0..count {
        terms.push((n.saturating_mul(step), 3))?;
    }
    Ok(terms)
}

fn rises_from(terms: &[(u32, i64)], low: usize, end: usize) -> bool
    ensures { IsTrue result → RiseFrom low end terms.now }
{
    match terms.split_first() {
        None => true,
        Some((term, rest)) => {
            let variable = term.0 as usize;
            low <= variable && variable < end && rises_from(rest, variable + 1, end)
        }
    }
}

fn all_rise(rows: &[Row], end: usize) -> bool
    ensures { IsTrue result → AllRise end rows.now }
{
    for row in rows {
        if !rises_from(row.terms.as_slice(), 0, end) {
            return false;
        }
    }
    true
}

fn shown(rows: &[Row], target: &Target, sum: &mut Scratch, times: u32) -> u32
    requires rows { AllRise (variables sum.old) rows.now }
    requires target { Rise (variables sum.old) target.now.terms }
{
    let mut shown = 0u32;
    for _ in 0..times {
        if combine(rows, &[(0, 1)], sum).is_ok() && shows(sum, target) {
            shown = shown.wrapping_add(1);
        }
    }
    shown
}

fn timed(
    rt: &(impl Clock + Print + AllocGlobal),
    vars: u32,
    length: u32,
    step: u32,
    times: u32,
) -> io::Result<()>
    requires { 0 < times }
{
    let mut rows = Vec::new(rt.alloc());
    rows.push(Row {
        kind: RowKind::AtLeastZero,
        terms: terms(rt.alloc(), length, step)?,
        constant: 1,
    })?;
    let rows = rows.as_slice();
    let target = Target {
        terms: terms(rt.alloc(), length, step)?,
        constant: 1,
    };
    let mut sum = Scratch::new(rt.alloc(), vars)?;
    if !all_rise(rows, vars as usize) || !rises_from(target.terms.as_slice(), 0, vars as usize) {
        return Ok(());
    }
    let start = Instant::now(rt)?;
    let shown = shown(rows, &target, &mut sum, times);
    let taken = start.elapsed(rt)?.as_nanos() / u128::from(times);
    rt.println(format_args!("{vars:>8} variables, row of {length:>6} terms: {taken:>8} ns a sum, shown {shown} of {times}"))
}

fn main(rt: HostRuntime) -> io::Result<()> {
    timed(&rt, 100, 3, 30, 10000000)?;
    timed(&rt, 1000, 3, 300, 10000000)?;
    timed(&rt, 10000, 3, 3000, 10000000)?;
    timed(&rt, 100000, 3, 30000, 10000000)?;
    timed(&rt, 1000000, 3, 300000, 10000000)?;
    timed(&rt, 100000, 30, 3000, 1000000)?;
    timed(&rt, 100000, 300, 300, 100000)?;
    timed(&rt, 100000, 3000, 30, 10000)?;
    timed(&rt, 100000, 30000, 3, 1000)
}
"""
PROOFS = {
    "+rises_from": """use Rattle.std.proofs.Common.{length}
use Rattle.sums_timed.proofs.+rises_from.Given as goal

abbrev pub decreases-rises_from : goal.decreases-rises_from
decreases-rises_from l = length l.terms.now
""",
    "all_rise": """use Rattle.std.specs.List.{AllWithin}
use Rattle.lin_core.specs.declared.rows.Row.{Row}
use Rattle.lin_core.specs.Rows.{Rise}
use Rattle.sums_timed.proofs.all_rise.Given as goal

abbrev pub invariant-loop-row : goal.invariant-loop-row
invariant-loop-row l = AllWithin (λ (row : Row). Rise l.end row.terms) l.rows 0 l.row-index
""",
    "shown": """use Rattle.std.proofs.Common.{◌≡◌}
use Rattle.lin_core.specs.Sums.{variables}
use Rattle.sums_timed.proofs.shown.Given as goal

abbrev pub invariant-loop : goal.invariant-loop
invariant-loop l = variables l.sum ≡ variables l.fn.sum
""",
}


def main():
    with tempfile.TemporaryDirectory() as folder:
        program = program_over_copies(folder, "sums_timed", "list_views lin_core", MAIN)
        for name, text in PROOFS.items():
            (program / "proofs" / name).mkdir(parents=True)
            (program / "proofs" / name / "Invariants.antt").write_text(text)
        return subprocess.run(["rt", "run"], cwd=program).returncode


if __name__ == "__main__":
    sys.exit(main())
