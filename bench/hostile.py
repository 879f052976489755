#!/usr/bin/env python3
"""Measures how long the preprocessor takes on hostile sources, and how much memory.

It makes each source of the table below in a folder of its own, copies the crates of the shading language there, proves and
builds the small program below over them, and runs that on each source, with the memory of the process limited. It prints how
the expansion ended, the processor time and the most memory of each. The time of reading and lexing the source is in it.
At the end it prints how long lexing and expanding an ordinary shader of 256 KiB take each, from many runs in one process.
Where the top folder of another checkout is given, its crates are built and run too, and its figures stand beside these.

usage: bench/hostile.py [OTHER]      (about a minute where the crates were proved on this machine, and minutes where not)
"""

import itertools
import os
import pathlib
import resource
import shutil
import string
import subprocess
import sys
import tempfile

TOP = pathlib.Path(__file__).resolve().parent.parent
CRATES = ["glsl_tree", "glsl_lex", "glsl_preproc"]
LONGEST = 262_144
MOST_MEMORY = 8 << 30
MOST_SECONDS = 600
STACK = 64 << 20
TIMES = 41
ENDS = {"0": "whole", "1": "fails", "2": "too long", "3": "memory", "4": "no source", "5": "no tokens", "6": "syntax"}

PROGRAM = r'''//! Lexes or expands the source of a file so many times, and prints how that ended. Its words are `lex` or `expand`, how many
//! times, and the file. `bench/hostile.py` builds and times it.
#![tactic(auto)]

use glsl_lex::lex;
use glsl_preproc::{Pre, expand};
use std::alloc::Global;
use std::fs;
use std::process::ExitCode;
use std::rt::{Env, Files};

/// What the words ask for.
#[derive(Drop)]
struct Task {
    is_lex: bool,
    times: u32,
    source: String,
}

/// The task of the words, and the text of its file.
fn read_task<R: Env + Files + AllocGlobal>(rt: &R) -> Option<Task> {
    let Ok(words) = std::env::args(rt) else {
        return None;
    };
    let Ok(words): Result<Vec<String>, _> = words.skip(1).collect(rt.alloc()) else {
        return None;
    };
    let [what, times, path] = words.as_slice() else {
        return None;
    };
    let Ok(times): Result<u32, _> = times.as_str().parse() else {
        return None;
    };
    let source = fs::read_to_string(rt, path.as_str()).ok()?;
    Some(Task {
        is_lex: what.as_str() == "lex",
        times,
        source,
    })
}

/// How lexing ended, as a number of the script's table, and the count of tokens.
fn lexed(alloc: Global, source: &[u8], times: u32) -> (u8, usize) {
    let mut count = 0;
    if source.len() > 262_144 {
        return (4, 0);
    }
    for _ in 0..times {
        let Ok(tokens) = lex(alloc, source) else {
            return (5, 0);
        };
        count = tokens.len();
    }
    (0, count)
}

/// How the expansion ended, and its count of tokens or its line.
fn expanded(alloc: Global, source: &[u8], times: u32) -> (u8, usize) {
    let mut end = (4, 0);
    if source.len() > 262_144 {
        return end;
    }
    let Ok(tokens) = lex(alloc, source) else {
        return (5, 0);
    };
    for _ in 0..times {
        end = match expand(alloc, tokens.as_slice()) {
            Ok(expanded) => (0, expanded.len()),
            Err(Pre::Directive(line)) => (1, line as usize),
            Err(Pre::TooLong) => (2, 0),
            Err(Pre::Memory) => (3, 0),
        };
    }
    end
}

fn main(rt: HostRuntime) -> ExitCode {
    let Some(task) = read_task(&rt) else {
        return ExitCode::from(2);
    };
    let source = task.source.as_bytes();
    let (end, number) = if task.is_lex {
        lexed(rt.alloc(), source, task.times)
    } else {
        expanded(rt.alloc(), source, task.times)
    };
    match println!(rt; "{end} {number}") {
        Ok(()) => ExitCode::from(0),
        Err(_) => ExitCode::from(2),
    }
}
'''


def define(name, body):
    return f"#define {name} {body}\n"


def doubling(first, levels, last="x"):
    """Macros `first`0 to `first``levels`, each of which stands for two of the one before it."""
    lines = [define(f"{first}0", last)]
    lines += [define(f"{first}{n + 1}", f"{first}{n} {first}{n}") for n in range(levels)]
    return "".join(lines)


def chain(length, last):
    """Macros m1 to m`length`, each of which stands for the one before it, and m0 for `last`."""
    return define("m0", last) + "".join(define(f"m{n + 1}", f"m{n}") for n in range(length))


def names(count):
    """Short names that differ."""
    letters = string.ascii_letters
    words = ("".join(word) for length in (1, 2, 3) for word in itertools.product(letters, repeat=length))
    return list(itertools.islice(words, count))


def many_parameters(parameters, body, calls):
    """A macro of many parameters and a longer body, and a macro that calls it, so many times."""
    words = names(parameters)
    head = f"#define f({','.join(words)})" + " Z" * body + "\n"
    return head + define("g", f"f({',' * (parameters - 1)})") + "g " * calls


def redefinitions(macros):
    """Macros that are defined twice, as they are."""
    lines = "".join(define(f"a{n}", "+") for n in range(macros))
    return lines + lines


def elif_chain(parts):
    """An `#elif` chain whose conditions double, and whose parts are all left out."""
    return doubling("d", 12, "0 |") + "#if 0\n" + "#elif d12 0\n" * parts + "#endif\n"


def nesting_brackets(count):
    return "#if " + "(" * count + "1" + ")" * count + "\na\n#endif\n"


def ordinary():
    """A shader of nearly 256 KiB with uniforms, functions, comments, macros and conditionals, as one is written by hand."""
    text = "#ifdef GL_ES\nprecision mediump float;\n#endif\n#define SATURATE(x) clamp(x, 0.0, 1.0)\n#define LIGHTS 4\n"
    for n in itertools.count():
        piece = (
            f"// Light number {n}, with its own colour.\nuniform vec3 u_color{n};\nuniform vec3 u_position{n};\n"
            f"vec3 shade{n}(vec3 normal, vec3 point) {{\n    vec3 light = normalize(u_position{n} - point);\n"
            "    float diffuse = SATURATE(dot(normal, light));\n    for (int i = 0; i < LIGHTS; i++) {\n"
            f"#if LIGHTS > 2 && defined(GL_ES)\n        diffuse += float(i) * 0.125;\n#endif\n    }}\n"
            f"    return diffuse * u_color{n} + vec3(0.05, 0.05, 0.1);\n}}\n"
        )
        if len(text) + len(piece) > LONGEST:
            return text
        text += piece


# The longest name that is a token.
LONG_NAME = "n" * 256

# Each source with its name; those of the first part had taken seconds, minutes or gigabytes.
SOURCES = [
    ("4 calls round 200 uses", "#define f(x)" + " x" * 200 + "\nf(f(f(f(1))))"),
    ("10,000 uses of 10,000 tokens", "#define f(x)" + " x" * 10_000 + "\nf(" + "1 " * 10_000 + ")"),
    ("65,000 uses of 65,000 tokens", "#define f(x)" + " x" * 65_000 + "\nf(" + "1 " * 65_000 + ")"),
    ("20,000 parameters, 200 calls", many_parameters(20_000, 40_000, 200)),
    ("20,000 parameters, 20 calls", many_parameters(20_000, 40_000, 20)),
    ("2^24 empty names below 990 macros", doubling("e", 24, "") + chain(990, "e24") + "m990"),
    ("2^20 empty names below 990 macros", doubling("e", 20, "") + chain(990, "e20") + "m990"),
    ("doubling calls", "#define f(x) x x\n" + "f(" * 24 + "1" + ")" * 24),
    ("60,000 calls in one another", "#define f(x) x\n" + "f(" * 60_000 + "1" + ")" * 60_000),
    ("60,000 parameters", f"#define f({','.join(names(60_000))}) x\nf"),
    ("doubling of nothing", doubling("e", 30, "") + "e30"),
    ("1,000 calls round 120,000 tokens", "#define f(x) x\n" + "f(" * 1_000 + "1 " * 120_000 + ")" * 1_000),
    ("4,000 uses of 4,000 tokens", "#define f(x)" + " x" * 4_000 + "\nf(" + "1 " * 4_000 + ")"),
    # Of the same kinds.
    ("arguments that nest and repeat", "#define f(x,y) x y x y\n" + "f(1," * 500 + "1" + ")" * 500),
    ("a macro that names 1,000 others", "".join(define(f"a{n}", "1 " * 100) for n in range(1_000)) + define("b", " ".join(f"a{n}" for n in range(1_000))) + "b " * 100),
    ("8,000 macros defined again", redefinitions(8_000)),
    ("100 long macros defined again", "".join(define(f"a{n}", "+ " * 600) for n in range(100)) * 2),
    ("an #if of macros that double", doubling("d", 22, "0 |") + "#if d22 0\n#endif\n"),
    ("an #elif chain of macros that double", elif_chain(10_000)),
    ("defined of 19,000 names", "#if " + "defined a && " * 19_000 + "1\n#endif\n"),
    ("a long name that doubles", define(LONG_NAME, "") + doubling("d", 17, LONG_NAME) + "d17"),
    ("131,072 tokens of a long text", doubling("d", 17, LONG_NAME) + "d17"),
    ("900 names of 253 bytes that differ last", "".join(define("n" * 250 + str(n), "") for n in range(100, 1_000)) + doubling("d", 20, "n" * 250 + "999") + "d20"),
    ("900 long names in 1,000 calls", "#define f(x) x\n" + "f(" * 1_000 + (LONG_NAME + " ") * 900 + ")" * 1_000),
    ("100,000 open brackets behind a macro", "#define f(x) x\n" + "f(" * 100_000),
    ("1,023 brackets in an #if", nesting_brackets(1_023)),
    ("1,023 macros one in another", chain(1_022, "1") + "m1022"),
    ("1,000 calls one in another", "#define f(x) x\n" + "f(" * 1_000 + "1" + ")" * 1_000),
    ("18,000 conditionals", "#if 1\n" * 18_000 + "#endif\n" * 18_000),
    ("120,000 tokens of text", "a + " * 60_000),
    ("131,072 tokens of macros", doubling("d", 17, "x") + "d17"),
]


def build(top, folder, crates=CRATES, program=PROGRAM):
    """Proves and builds the program over copies of the crates of a checkout, and gives its path."""
    for name in crates:
        shutil.copytree(top / "crates" / name, folder / "crates" / name, ignore=shutil.ignore_patterns("out", "must-fail"))
    hostile = folder / "crates" / "hostile"
    (hostile / "src").mkdir(parents=True)
    (hostile / "src" / "main.rt").write_text(program)
    # How it ends where it is run without words, as `rt ci` runs it.
    (hostile / "status").write_text("2\n")
    listed = [line for line in (top / "crates.txt").read_text().splitlines() if line.split(":")[0] in crates]
    (folder / "crates.txt").write_text("\n".join(listed) + f"\nhostile: {' '.join(crates)}\n")
    shutil.copy(top / "HANDLES", folder / "HANDLES")
    built = subprocess.run(["rt", "ci"], cwd=folder, capture_output=True, text=True)
    if built.returncode != 0:
        sys.exit(f"bench/hostile.py: the program was not built:\n{built.stdout}{built.stderr}")
    return hostile / "out" / "hostile"


def run(program, path, what="expand", times=1, stack=STACK):
    """How a source ended, the processor seconds, and the most memory in MiB."""

    def limit():
        resource.setrlimit(resource.RLIMIT_AS, (MOST_MEMORY, MOST_MEMORY))
        resource.setrlimit(resource.RLIMIT_CPU, (MOST_SECONDS, MOST_SECONDS))
        resource.setrlimit(resource.RLIMIT_STACK, (stack, stack))

    process = subprocess.Popen([program, what, str(times), str(path)], stdout=subprocess.PIPE, preexec_fn=limit)
    words = process.stdout.read().decode().split()
    _, status, used = os.wait4(process.pid, 0)
    end = f"status {status}" if status else ENDS[words[0]] + (f" {words[1]}" if words[0] in "01" else "")
    return end, used.ru_utime + used.ru_stime, used.ru_maxrss / 1024


def main():
    with tempfile.TemporaryDirectory() as folder:
        folder = pathlib.Path(folder)
        tops = [TOP] + [pathlib.Path(word).resolve() for word in sys.argv[1:2]]
        programs = []
        for n, top in enumerate(tops):
            (folder / str(n)).mkdir()
            programs.append(build(top, folder / str(n)))
        for name, source in SOURCES:
            path = folder / "source"
            path.write_text(source)
            figures = "".join(f"  {end:15} {seconds:8.2f} s {memory:7.0f} MiB" for end, seconds, memory in (run(program, path) for program in programs))
            print(f"{name:38} {len(source):7} bytes{'' if len(source) <= LONGEST else ' (too many)'}{figures}", flush=True)
        path.write_text(ordinary())
        for program in programs:
            each = {what: min(run(program, path, what, TIMES)[1] - run(program, path, what, 1)[1] for _ in range(3)) / (TIMES - 1) for what in ("lex", "expand")}
            print(f"an ordinary shader of {len(ordinary())} bytes: lex {1000 * each['lex']:.1f} ms, expand {1000 * each['expand']:.1f} ms", flush=True)


if __name__ == "__main__":
    main()
