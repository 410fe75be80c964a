#!/usr/bin/env python3
"""Times the methods of a join step alone, over made tuples: two columns of so many numbers, in each of which each number
stands once.

    bench/steps.py [PROGRAM] [ROWS]

ROWS is 1,000,000 where it isn't given. Where PROGRAM isn't given, a program is made in a copy of this repository, proved
and built, which takes some minutes; give the path that is then printed to time it again. `plain` is a loop over Rattle's
HashMap that finds the same pairs: a list of right tuples for each number, without an environment or expressions. Wanted is
that `hash` takes at most twice its time. `tuples` makes the tuples of both sides and stops, and `arena` writes a pair for
each left tuple too, so what `hash` takes more than `arena` is its table and its lists.
"""
import sys
import tempfile
from pathlib import Path

from timing import built, least, peak_memory

MAIN = """//! Runs a step between two columns made in code: the words are what is timed and the number of rows.
#![tactic(auto)]

use jp_joins_tests::{Work, worked};
use jp_problem::Method;
use std::env;
use std::process::ExitCode;

fn main(rt: HostRuntime) -> ExitCode {
    let mut work = Work::Tuples;
    let mut count = 1u32;
    if let Ok(args) = env::args(&rt) {
        for word in args.skip(1) {
            match word.as_str() {
                "arena" => work = Work::Arena,
                "plain" => work = Work::Plain,
                "hash" => work = Work::Step(Method::Hash),
                "merge" => work = Work::Step(Method::Merge),
                other => {
                    if let Ok(number) = other.parse::<u32>() {
                        count = number;
                    }
                }
            }
        }
    }
    match worked(rt.alloc(), work, count) {
        Ok(_) => ExitCode::from(0),
        Err(_) => ExitCode::from(1),
    }
}
"""

NEEDS = "jp_base jp_query jp_problem jp_joins jp_joins_tests"
WORKS = ("tuples", "arena", "plain", "hash", "merge")


def main(arguments):
    program = str(Path(arguments[0]).resolve() if arguments else built("steps_bench", NEEDS, {"src/main.rt": MAIN}))
    rows = arguments[1] if len(arguments) > 1 else "1000000"
    seconds = {}
    with tempfile.TemporaryDirectory() as folder:
        for work in WORKS:
            command = [program, work, rows]
            seconds[work] = least(command, folder)
            print(f"{work}: {seconds[work]:.2f} s, {peak_memory(command, folder):.0f} MiB peak")
    alone = {work: seconds[work] - seconds["tuples"] for work in ("plain", "hash")}
    print(f"without the making of tuples: hash takes {alone['hash'] / alone['plain']:.2f} times what plain takes")
    return 0


if __name__ == "__main__":
    sys.exit(main(sys.argv[1:]))
