#!/usr/bin/env python3
"""Measures how many bytes a second `plain_row` of texel_rules converts, beside a copy of the same bytes.

It copies the crates that `plain_row` needs to a folder of its own, proves and builds there the small program below
over them, and runs that in four ways: no row at all, a copy, `plain_row` without premultiply and with it, each on a row of
2,048 texels of RGBA bytes. It prints the best of a few rates of each, less the time of the run of no row, and their shares
of the copy's rate. Row and result stay in the caches, so the rates are those of the work and not of the memory.

usage: bench/rows.py      (about a minute where the crates were proved on this machine, and minutes where not)
"""

import pathlib
import re
import shutil
import subprocess
import sys
import tempfile
import time

TOP = pathlib.Path(__file__).resolve().parent.parent
CRATES = ["gl_numbers", "texel_rules"]
RUNS = 7
WAYS = [("copy", "copy"), ("plain", "plain_row"), ("premultiply", "plain_row, premultiplied")]

PROGRAM = r'''//! Converts one row of 2,048 texels of RGBA bytes again and again, in the way that its one word names, and prints the sum
//! of a byte of each result, so that no result goes unused. `bench/rows.py` builds and times it.
#![tactic(auto)]

use gl_numbers::{Format, TexelType};
use std::process::ExitCode;
use std::rt::Env;
use texel_rules::{Layout, plain_row};

/// How often the row is converted.
const ROUNDS: u32 = 500_000;

/// How many bytes it has.
const ROW: usize = 8192;

/// Converts or copies the row `ROUNDS` times, each time with another first byte, and sums a byte of each result.
fn sum_of_rows(word: &str, layout: Layout) -> u32 {
    let mut from = [77u8; ROW];
    let mut into = [0u8; ROW];
    let mut sum = 0u32;
    if !layout.is_allowed() || from.len() % layout.texel_bytes() as usize != 0 {
        return 0;
    }
    let is_copied = word == "copy";
    let is_premultiplied = word == "premultiply";
    let is_nothing = word == "nothing";
    for n in 0..ROUNDS {
        from[0] = (n % 256) as u8;
        if is_copied {
            into.copy_from_slice(&from);
        } else if !is_nothing {
            plain_row(layout, is_premultiplied, &from, &mut into);
        }
        sum = sum.wrapping_add(u32::from(into[n as usize % ROW]));
    }
    sum
}

/// The words after the program's name; None where they can't be had.
fn read_words<R: Env + AllocGlobal>(rt: &R) -> Option<Vec<String>> {
    let Ok(words) = std::env::args(rt) else {
        return None;
    };
    let Ok(words) = words.skip(1).collect(rt.alloc()) else {
        return None;
    };
    Some(words)
}

fn main(rt: HostRuntime) -> ExitCode {
    let Some(words) = read_words(&rt) else {
        return ExitCode::from(2);
    };
    let word = words.last().map_or("", |word| word.as_str());
    // The layout stays unknown to the compiler, as it is where a page's image is uploaded.
    let format = if word == "rgb" { Format::Rgb } else { Format::Rgba };
    let layout = Layout {
        format,
        kind: TexelType::UnsignedByte,
    };
    let sum = sum_of_rows(word, layout);
    match println!(rt; "{sum}") {
        Ok(()) => ExitCode::from(0),
        Err(_) => ExitCode::from(2),
    }
}
'''


def number(name):
    """A number that the program names as a constant."""
    return int(re.search(rf"const {name}: \w+ = ([0-9_]+);", PROGRAM)[1].replace("_", ""))


def build(top):
    """Proves and builds the program over copies of the crates, and gives its path."""
    for name in CRATES:
        shutil.copytree(TOP / "crates" / name, top / "crates" / name)
    (top / "crates" / "rows" / "src").mkdir(parents=True)
    (top / "crates" / "rows" / "src" / "main.rt").write_text(PROGRAM)
    (top / "crates.txt").write_text("gl_numbers:\ntexel_rules: gl_numbers\nrows: gl_numbers texel_rules\n")
    shutil.copy(TOP / "HANDLES", top / "HANDLES")
    built = subprocess.run(["rt", "run", "rows", "--", "nothing"], cwd=top / "crates" / "rows", capture_output=True, text=True)
    if built.returncode != 0:
        sys.exit(f"bench/rows.py: the program was not built:\n{built.stdout}{built.stderr}")
    return top / "crates" / "rows" / "out" / "rows"


def seconds(program, way):
    """The least of the times of a few runs."""
    best = float("inf")
    for _ in range(RUNS):
        start = time.perf_counter()
        subprocess.run([program, way], stdout=subprocess.DEVNULL, check=True)
        best = min(best, time.perf_counter() - start)
    return best


def main():
    size = number("ROUNDS") * number("ROW")
    with tempfile.TemporaryDirectory() as folder:
        program = build(pathlib.Path(folder))
        idle = seconds(program, "nothing")
        rates = [(name, size / (seconds(program, way) - idle)) for way, name in WAYS]
    print(f"{size} bytes in rows of {number('ROW')}")
    for name, rate in rates:
        print(f"  {name:26} {rate / 1e9:8.2f} GB/s {rate / rates[0][1]:8.3f} of the copy's rate")


if __name__ == "__main__":
    main()
