#!/usr/bin/env python3
"""Compares the built program with a plain one that does the same without proofs, and with a pipe of the same bytes.

PLAIN is a program that takes the same words as webgl_tool, `run PATH` and `replay`, and gives the same bytes. For each
session and stream below it prints the instructions that valgrind's callgrind counts for both programs, where there is a
valgrind, and the least times of a few runs in turn, with those of `cat INPUT | cat > OUT`. Other work on the machine
disturbs the times and not the instructions. The rows with many records have RECORDS of them.

usage: bench/compare.py PLAIN [--tool TOOL] [--records N] [--runs N] [--only WORD] [--folder FOLDER]
"""

import argparse
import pathlib
import re
import shutil
import struct
import subprocess
import tempfile
import time

from run import ARRAY_BUFFER, BODY, STATIC_DRAW, TOOL, bind_buffer, buffer_data, create_buffer, get_error, record, words

ELEMENT_ARRAY_BUFFER, BUFFER_SIZE = 0x8893, 0x8764
BODIES = 16


def buffer_sub_data(target, offset, data):
    return record(22, struct.pack("<Iq", target, offset) + data)


def no_records(_):
    return []


def get_errors(count):
    return [get_error() * count]


def mixed(count):
    for handle in range(1, count // 4 + 1):
        yield create_buffer() + bind_buffer(handle) + buffer_data(words(handle, 0, 0, 0)) + get_error()


def every_call(count):
    for handle in range(1, count // 8 + 1):
        target = (ARRAY_BUFFER, ELEMENT_ARRAY_BUFFER)[handle & 1]
        yield create_buffer() + record(19, words(target, handle)) + record(21, words(target, STATIC_DRAW, handle, 0, 0, 0))
        yield buffer_sub_data(target, 4, words(handle, handle)) + record(23, words(target, BUFFER_SIZE))
        yield record(13, words(handle)) + record(7, words(handle)) + get_error()


def refused(count):
    four = bind_buffer(9) + buffer_data(bytes(16)) + record(23, words(ARRAY_BUFFER, 7)) + get_error()
    return [four * (count // 4)]


def sub_datas(count):
    yield create_buffer() + bind_buffer(1) + buffer_data(bytes(4096))
    for n in range(count):
        yield buffer_sub_data(ARRAY_BUFFER, n * 64 % 4096, words(n) * 16)


def large_bodies(_):
    yield create_buffer() + bind_buffer(1)
    for n in range(BODIES):
        yield buffer_data(bytes([n]) * BODY)


def small_commands(count):
    for name in range(3, 3 + count // 4):
        yield record(1, words(name)) + record(11, words(ARRAY_BUFFER, name))
        yield record(12, words(ARRAY_BUFFER, STATIC_DRAW, 16)) + record(13, words(ARRAY_BUFFER, 0, name, 0, 0, 0))


def patches(count):
    yield record(1, words(3)) + record(11, words(ARRAY_BUFFER, 3)) + record(12, words(ARRAY_BUFFER, STATIC_DRAW, 4096))
    for n in range(count):
        yield record(13, words(ARRAY_BUFFER, n * 64 % 4096) + words(n) * 16)


def large_commands(_):
    yield record(1, words(3)) + record(11, words(ARRAY_BUFFER, 3))
    for n in range(BODIES):
        yield record(12, words(ARRAY_BUFFER, STATIC_DRAW, BODY)) + record(13, words(ARRAY_BUFFER, 0) + bytes([n]) * BODY)


ROWS = [
    ("run: empty session", "run", no_records),
    ("run: getError", "run", get_errors),
    ("run: createBuffer, bindBuffer, bufferData, getError", "run", mixed),
    ("run: eight calls in turn", "run", every_call),
    ("run: refused or getError", "run", refused),
    ("run: bufferSubData of 64 bytes", "run", sub_datas),
    (f"run: {BODIES} bufferData of 16 MiB", "run", large_bodies),
    ("replay: small commands", "replay", small_commands),
    ("replay: BufferBytes of 64 bytes", "replay", patches),
    (f"replay: {BODIES} BufferBytes of 16 MiB", "replay", large_commands),
]


def write_input(path, command, parts):
    with open(path, "wb") as file:
        file.write((b"WGLR" if command == "run" else b"ESCS") + words(1))
        file.writelines(parts)
        if command == "run":
            file.write(record(0))


class Row:
    """One input, and the programs that are run on it."""

    def __init__(self, command, folder):
        self.command = command
        self.source, self.out, self.line, self.report = (folder / name for name in ("in.bin", "out.bin", "line.bin", "report"))

    def call(self, program):
        return [str(program), "run", str(self.out)] if self.command == "run" else [str(program), "replay"]

    def spawn(self, call, **rest):
        for path in (self.out, self.line):
            path.unlink(missing_ok=True)
        with open(self.source, "rb") as stdin, open(self.line, "wb") as stdout:
            return subprocess.run(call, stdin=stdin, stdout=stdout, check=True, **rest)

    def seconds(self, call):
        start = time.perf_counter()
        self.spawn(call)
        return time.perf_counter() - start

    def times(self, calls, runs):
        """The least seconds of each call; they take turns, so that other work hits all alike."""
        least = [float("inf")] * len(calls)
        for _ in range(runs):
            for n, call in enumerate(calls):
                least[n] = min(least[n], self.seconds(call))
        return least

    def instructions(self, call):
        counted = ["valgrind", "--tool=callgrind", f"--callgrind-out-file={self.report}", *call]
        done = self.spawn(counted, stderr=subprocess.PIPE, text=True)
        return int(re.search(r"Collected\s*:\s*(\d+)", done.stderr).group(1))


def compare(name, row, programs, runs):
    size = row.source.stat().st_size
    calls = [row.call(program) for program in programs]
    pipe = ["sh", "-c", 'cat "$0" | cat > "$1"', str(row.source), str(row.out)]
    mine, plain, piped = (1e3 * t for t in row.times([*calls, pipe], runs))
    line = f"{name:52} {size / 1e6:7.1f} {mine:8.1f} {plain:8.1f} {piped:8.1f} {mine / plain:6.2f}"
    if shutil.which("valgrind") is not None:
        mine, plain = (row.instructions(call) / 1e6 for call in calls)
        line += f" {mine:9.1f} {plain:9.1f} {mine / plain:6.2f}"
    print(line, flush=True)


def main():
    parser = argparse.ArgumentParser(description="compares webgl_tool with a plain program")
    parser.add_argument("plain", type=pathlib.Path)
    parser.add_argument("--tool", type=pathlib.Path, default=TOOL)
    parser.add_argument("--records", type=int, default=100_000)
    parser.add_argument("--runs", type=int, default=5)
    parser.add_argument("--only", default="")
    parser.add_argument("--folder", type=pathlib.Path)
    args = parser.parse_args()
    print(f"times in ms, least of {args.runs}; instructions in millions, of {args.records} records")
    times = f"{'tool':>8} {'plain':>8} {'cat':>8} {'ratio':>6}"
    print(f"{'input':52} {'MB':>7} {times} {'I tool':>9} {'I plain':>9} {'ratio':>6}", flush=True)
    with tempfile.TemporaryDirectory(dir=args.folder) as folder:
        for name, command, parts in ROWS:
            if args.only in name:
                row = Row(command, pathlib.Path(folder))
                write_input(row.source, command, parts(args.records))
                compare(name, row, [args.tool, args.plain.resolve()], args.runs)


if __name__ == "__main__":
    main()
