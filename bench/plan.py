#!/usr/bin/env python3
"""Times the search of a plan: stars, cliques and chains of left joins of 8, 10, 12, 14 and 16 items, made in code.

    bench/plan.py [PROGRAM]

Where PROGRAM isn't given, a program is made in a copy of this repository, proved and built, which takes some minutes; give
the path that is then printed to time it again. A star links the first item with each other one, a clique each two items;
neither has a special join, so each split of each set is looked at. Wanted are at most 40 ns a split.
"""
import sys
import tempfile
from pathlib import Path

from timing import built, least, peak_memory

MAIN = """//! Searches for the plan of a problem made in code: the words are its shape and its number of items.
#![tactic(auto)]

ghost use Rattle.std.specs.Prelude.{◌≡◌, ◌<◌, ◌≤◌, length, All, IfOk};
ghost use Rattle.jp_search_tests.specs.Plain.{HasRows, IsLink};

use jp_base::{Memory, RelNo};
use jp_search_tests::{chain_problem, plain_problem, shape_of};
use std::alloc::Global;
use std::env;
use std::process::ExitCode;

#[derive(Clone, Copy, Debug, PartialEq, Eq)]
enum Shape {
    Star,
    Clique,
    Chain,
}

fn rows_of(alloc: Global, count: u8) -> Result<Vec<u64>, Memory>
    requires { count ≤ 16 }
    ensures count { IfOk result (λ rows. length rows.items ≡ count) }
    ensures rows { IfOk result (λ rows. All HasRows rows.items) }
{
    let mut rows = Vec::new(alloc);
    'rows: for number in 0..count {
        rows.push(100 * (number as u64 + 1))?;
    }
    Ok(rows)
}

fn star(alloc: Global, count: u8) -> Result<Vec<(RelNo, RelNo)>, Memory>
    requires { count ≤ 16 }
    ensures { IfOk result (λ links. All IsLink links.items) }
{
    let mut links = Vec::new(alloc);
    'links: for number in 1..count {
        links.push((0, number))?;
    }
    Ok(links)
}

fn clique(alloc: Global, count: u8) -> Result<Vec<(RelNo, RelNo)>, Memory>
    requires { count ≤ 16 }
    ensures { IfOk result (λ links. All IsLink links.items) }
{
    let mut links = Vec::new(alloc);
    'links: for number in 1..count {
        link_before(number, &mut links)?;
    }
    Ok(links)
}

fn link_before(number: RelNo, links: &mut Vec<(RelNo, RelNo)>) -> Result<(), Memory>
    requires number { number < 16 }
    requires links { All IsLink links.old.items }
    ensures { All IsLink links.new.items }
{
    'links: for other in 0..number {
        links.push((other, number))?;
    }
    Ok(())
}

fn linked(alloc: Global, rows: &[u64], links: &[(RelNo, RelNo)]) -> Result<String, Memory>
    requires some { 1 ≤ length rows.now }
    requires few { length rows.now ≤ 16 }
    requires rows { All HasRows rows.now }
    requires links { All IsLink links.now }
{
    let problem = plain_problem(alloc, rows, links)?;
    shape_of(alloc, &problem)
}

fn chained(alloc: Global, rows: &[u64]) -> Result<String, Memory>
    requires some { 1 ≤ length rows.now }
    requires few { length rows.now ≤ 16 }
    requires rows { All HasRows rows.now }
{
    let problem = chain_problem(alloc, rows)?;
    shape_of(alloc, &problem)
}

fn planned(alloc: Global, shape: Shape, count: u8) -> Result<String, Memory>
    requires some { 1 ≤ count }
    requires few { count ≤ 16 }
{
    let rows = rows_of(alloc, count)?;
    match shape {
        Shape::Star => {
            let links = star(alloc, count)?;
            linked(alloc, rows.as_slice(), links.as_slice())
        }
        Shape::Clique => {
            let links = clique(alloc, count)?;
            linked(alloc, rows.as_slice(), links.as_slice())
        }
        Shape::Chain => chained(alloc, rows.as_slice()),
    }
}

fn main(rt: HostRuntime) -> ExitCode {
    let mut shape = Shape::Star;
    let mut count = 1u8;
    if let Ok(args) = env::args(&rt) {
        for word in args.skip(1) {
            match word.as_str() {
                "clique" => shape = Shape::Clique,
                "chain" => shape = Shape::Chain,
                other => {
                    if let Ok(number) = other.parse::<u8>() {
                        count = number;
                    }
                }
            }
        }
    }
    if count == 0 || count > 16 {
        return ExitCode::from(2);
    }
    match planned(rt.alloc(), shape, count) {
        Ok(_) => ExitCode::from(0),
        Err(_) => ExitCode::from(1),
    }
}
"""

ROWS = """use Rattle.std.proofs.Common.{◌≡◌, length}
use Rattle.std.specs.Prelude.{All}
use Rattle.jp_search_tests.specs.Plain.{HasRows}
use Rattle.plan_bench.proofs.rows_of.Given as goal

abbrev pub invariant-rows : goal.invariant-rows
invariant-rows l = (length l.rows.items ≡ l.number) × All HasRows l.rows.items
"""

LINKS = """use Rattle.std.specs.Prelude.{All}
use Rattle.jp_search_tests.specs.Plain.{IsLink}
use Rattle.plan_bench.proofs.NAME.Given as goal

abbrev pub invariant-links : goal.invariant-links
invariant-links l = All IsLink l.links.items
"""

NEEDS = "jp_base jp_query jp_problem jp_cost jp_tree jp_search jp_search_tests sqlite_items"
FILES = {
    "src/main.rt": MAIN,
    "proofs/rows_of/Invariants.antt": ROWS,
    **{f"proofs/{name}/Invariants.antt": LINKS.replace("NAME", name) for name in ("star", "clique", "link_before")},
}


def main(arguments):
    program = str(Path(arguments[0]).resolve() if arguments else built("plan_bench", NEEDS, FILES))
    with tempfile.TemporaryDirectory() as folder:
        start = least([program, "1"], folder)
        for shape in ("star", "clique", "chain"):
            for count in (8, 10, 12, 14, 16):
                command = [program, shape, str(count)]
                seconds = max(least(command, folder) - start, 0)
                line = f"{shape} of {count}: {seconds:.3f} s, {peak_memory(command, folder):.1f} MiB peak"
                if shape != "chain" and count >= 12:
                    splits = 3**count - 2 ** (count + 1) + 1
                    line += f", {splits} splits, {seconds / splits * 1e9:.0f} ns a split, estimates with them"
                print(line)
    return 0


if __name__ == "__main__":
    sys.exit(main(sys.argv[1:]))
