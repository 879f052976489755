#!/usr/bin/env python3
"""Measures how long the parser takes beside the phases before it, and how much stack it needs.

It builds the small program below over copies of the crates of the shading language, as `bench/hostile.py` does. For an ordinary
shader of nearly 256 KiB it prints how long `lex`, `expand` and `parse` take each, from many runs in one process. For the deepest tree
of each kind and for 131,072 hostile tokens it prints how parsing ended, the processor time of lexing and parsing, and the least
limit of the stack, in KiB, with which the program ends so.

usage: bench/parser.py      (about a minute where the crates were proved on this machine, and minutes where not)
"""

import pathlib
import tempfile

from hostile import CRATES, STACK, TIMES, TOP, build, ordinary, run

PROGRAM = r'''//! Lexes, expands or parses the source of a file so many times, and prints how that ended. Its words are `lex`, `expand`
//! or `parse`, how many times, and the file. `bench/parser.py` builds and times it.
#![tactic(auto)]

use glsl_lex::lex;
use glsl_parse::{Parse, parse};
use glsl_preproc::expand;
use glsl_tree::Token;
use std::alloc::Global;
use std::fs;
use std::process::ExitCode;
use std::rt::{Env, Files};

/// What the words ask for.
#[derive(Drop)]
struct Task {
    what: String,
    times: u32,
    source: String,
}

/// The task of the words, and the text of its file.
fn read_task<R: Env + Files + AllocGlobal>(rt: &R) -> Option<Task> {
    let Ok(words) = std::env::args(rt) else {
        return None;
    };
    let Ok(words): Result<Vec<String>, _> = words.skip(1).collect(rt.alloc()) else {
        return None;
    };
    let [what, times, path] = words.as_slice() else {
        return None;
    };
    let Ok(times): Result<u32, _> = times.as_str().parse() else {
        return None;
    };
    let source = fs::read_to_string(rt, path.as_str()).ok()?;
    let what = String::from_str(rt.alloc(), what.as_str()).ok()?;
    Some(Task {
        what,
        times,
        source,
    })
}

/// How lexing ended, as a number of the script's table, and the count of tokens.
fn lexed(alloc: Global, source: &[u8], times: u32) -> (u8, usize) {
    let mut count = 0;
    if source.len() > 262_144 {
        return (4, 0);
    }
    for _ in 0..times {
        let Ok(tokens) = lex(alloc, source) else {
            return (5, 0);
        };
        count = tokens.len();
    }
    (0, count)
}

/// How the expansion ended, and its count of tokens.
fn expanded(alloc: Global, tokens: &[Token], times: u32) -> (u8, usize) {
    let mut count = 0;
    for _ in 0..times {
        let Ok(tokens) = expand(alloc, tokens) else {
            return (1, 0);
        };
        count = tokens.len();
    }
    (0, count)
}

/// How parsing ended, and the count of tokens.
fn parsed(alloc: Global, tokens: &[Token], times: u32) -> (u8, usize) {
    for _ in 0..times {
        match parse(alloc, tokens) {
            Ok(_) => {}
            Err(Parse::Syntax) => return (6, tokens.len()),
            Err(Parse::Memory) => return (3, tokens.len()),
        }
    }
    (0, tokens.len())
}

/// How the task ended, and its count of tokens.
fn ended(alloc: Global, task: &Task) -> (u8, usize) {
    let source = task.source.as_bytes();
    if source.len() > 262_144 {
        return (4, 0);
    }
    if task.what.as_str() == "lex" {
        return lexed(alloc, source, task.times);
    }
    let Ok(tokens) = lex(alloc, source) else {
        return (5, 0);
    };
    if task.what.as_str() == "expand" {
        return expanded(alloc, tokens.as_slice(), task.times);
    }
    match expand(alloc, tokens.as_slice()) {
        Ok(tokens) => parsed(alloc, tokens.as_slice(), task.times),
        Err(_) => (1, 0),
    }
}

fn main(rt: HostRuntime) -> ExitCode {
    let Some(task) = read_task(&rt) else {
        return ExitCode::from(2);
    };
    let (end, number) = ended(rt.alloc(), &task);
    match println!(rt; "{end} {number}") {
        Ok(()) => ExitCode::from(0),
        Err(_) => ExitCode::from(2),
    }
}
'''

TOKENS = 131_072


def nested(before, each, tokens, middle="", close="", after="", count=None):
    """Nested pieces of so many tokens each, behind `before`: as many as make 131,072 tokens with those that stand before, or `count`."""
    count = (TOKENS - before[1]) // tokens if count is None else count
    return before[0] + each * count + middle + close * count + after


VALUE = ("int x=", 3)
BODY = ("void main(){", 6)
# The deepest trees are of height 128.
SOURCES = [
    ("a short shader", "void main(){}"),
    ("brackets of height 128", nested(VALUE, "(", 1, "1", ")", ";", 124)),
    ("signs of height 128", nested(VALUE, "- ", 1, "1", "", ";", 124)),
    ("blocks of height 128", nested(("void main()", 5), "{", 1, "", "}", "", 126)),
    ("ifs of height 128", nested(BODY, "if(a)", 4, ";", "", "}", 124)),
    ("131,072 tokens of (", nested(VALUE, "(", 1)),
    ("131,072 tokens of -", nested(VALUE, "- ", 1)),
    ("131,072 tokens of a=", nested(BODY, "a=", 2)),
    ("131,072 tokens of if(a)", nested(BODY, "if(a)", 4)),
    ("131,072 tokens of {", nested(("void main()", 5), "{", 1)),
    ("131,072 tokens of a sum", nested(VALUE, "a+", 2, "a", "", ";", (TOKENS - 5) // 2)),
    ("131,072 tokens of statements", nested(BODY, "a=b;", 4, "", "", "}", (TOKENS - 7) // 4)),
]


def least_stack(program, path, end):
    """The least limit of the stack in KiB, to 8 KiB, with which the program ends so."""
    low, high = 0, STACK // 1024
    while high - low > 8:
        middle = (low + high) // 2
        try:
            fits = run(program, path, "parse", 1, middle * 1024)[0] == end
        except (OSError, IndexError):
            fits = False
        low, high = (low, middle) if fits else (middle, high)
    return high


def main():
    with tempfile.TemporaryDirectory() as folder:
        folder = pathlib.Path(folder)
        program = build(TOP, folder, CRATES + ["glsl_parse"], PROGRAM)
        path = folder / "source"
        path.write_text(ordinary())
        times = {}
        for what in ("lex", "expand", "parse"):
            times[what] = min(run(program, path, what, TIMES)[1] - run(program, path, what, 1)[1] for _ in range(3)) / (TIMES - 1)
        print(f"an ordinary shader of {len(ordinary())} bytes: " + ", ".join(f"{what} {1000 * seconds:.1f} ms" for what, seconds in times.items()), flush=True)
        for name, source in SOURCES:
            path.write_text(source)
            end, seconds, _ = run(program, path, "parse")
            print(f"{name:30} {len(source):7} bytes  {end:15} {seconds:6.3f} s  {least_stack(program, path, end):6} KiB of stack", flush=True)


if __name__ == "__main__":
    main()
