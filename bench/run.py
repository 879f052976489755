#!/usr/bin/env python3
"""Measures the built program on large sessions and streams, beside a pipe of the same bytes.

It makes three sessions in a folder of its own: a million getError records; a million records of createBuffer, bindBuffer,
bufferData of 16 bytes and getError in turn; and 64 bufferData records of 16 MiB. It runs the program on each, with the
replies to /dev/null and the stream to a file, and prints the best of five rates, with the outputs removed before each
run, beside that of `cat INPUT | cat > OUT` of the same input; and how many system calls the program makes. Then it makes
a stream of 100,000 small commands, MakeBuffer, BindBuffer, BufferSize and BufferBytes of 16 bytes in turn, and does the
same with `replay`.

usage: bench/run.py [FOLDER]      (about 2.2 GB; a temporary folder that is removed, where none is given)
"""

import pathlib
import re
import shutil
import struct
import subprocess
import sys
import tempfile
import time

TOP = pathlib.Path(__file__).resolve().parent.parent
TOOL = TOP / "crates" / "webgl_tool" / "out" / "webgl_tool"
RUNS = 5
ARRAY_BUFFER, STATIC_DRAW = 0x8892, 0x88E4
MANY = 1_000_000
BODIES, BODY = 64, 16 * 1024 * 1024
COMMANDS = 100_000


def words(*numbers):
    return struct.pack(f"<{len(numbers)}I", *numbers)


def record(operation, body=b""):
    return words(operation, len(body)) + body


def create_buffer():
    return record(1)


def bind_buffer(handle):
    return record(19, words(ARRAY_BUFFER, handle))


def buffer_data(data):
    return record(21, words(ARRAY_BUFFER, STATIC_DRAW) + data)


def get_error():
    return record(86)


def get_errors():
    yield get_error() * MANY


def mixed():
    for handle in range(1, MANY // 4 + 1):
        yield create_buffer() + bind_buffer(handle) + buffer_data(words(handle, 0, 0, 0)) + get_error()


def large_bodies():
    yield create_buffer() + bind_buffer(1)
    for n in range(BODIES):
        yield buffer_data(bytes([n]) * BODY)


SESSIONS = [
    ("getError records", get_errors, MANY),
    ("mixed small records", mixed, MANY),
    ("records, of which 64 are bufferData of 16 MiB", large_bodies, BODIES + 2),
]


def write_session(path, parts):
    with open(path, "wb") as session:
        session.write(b"WGLR" + words(1))
        for part in parts():
            session.write(part)
        session.write(record(0))


def write_stream(path):
    with open(path, "wb") as stream:
        stream.write(b"ESCS" + words(1))
        for name in range(3, 3 + COMMANDS // 4):
            stream.write(record(1, words(name)) + record(11, words(ARRAY_BUFFER, name)))
            stream.write(record(12, words(ARRAY_BUFFER, STATIC_DRAW, 16)))
            stream.write(record(13, words(ARRAY_BUFFER, 0, name, 0, 0, 0)))


def seconds(run, out):
    """The least of the times of a few runs, each without the output of the one before."""
    best = float("inf")
    for _ in range(RUNS):
        out.unlink(missing_ok=True)
        start = time.perf_counter()
        run()
        best = min(best, time.perf_counter() - start)
    out.unlink()
    return best


def run_tool(session, stream, before=()):
    with open(session, "rb") as source:
        return subprocess.run(
            [*before, str(TOOL), "run", str(stream)],
            stdin=source,
            stdout=subprocess.DEVNULL,
            stderr=subprocess.PIPE,
            check=True,
        )


def replay(stream, line, before=()):
    with open(stream, "rb") as source, open(line, "wb") as out:
        subprocess.run([*before, str(TOOL), "replay"], stdin=source, stdout=out, check=True)


def run_pipe(session, copy):
    subprocess.run(["sh", "-c", 'cat "$0" | cat > "$1"', str(session), str(copy)], check=True)


def system_calls(run, source, out):
    """How many system calls a run makes, where strace can count them."""
    if shutil.which("strace") is None:
        return "not counted: there is no strace"
    out.unlink(missing_ok=True)
    report = out.with_suffix(".strace")
    run(source, out, ["strace", "-c", "-f", "-o", str(report)])
    total = re.search(r"^\s*100\.00\s+\S+\s+(?:\d+\s+)?(\d+)\s.*total$", report.read_text(), re.M)
    report.unlink()
    return total.group(1) if total else "not counted"


def compare(name, count, unit, run, source, out, copy):
    """The rates of a run and of a pipe of the same bytes, each the best of a few."""
    size = source.stat().st_size
    tool = seconds(lambda: run(source, out), out)
    pipe = seconds(lambda: run_pipe(source, copy), copy)
    print(f"{count} {name}, {size} bytes")
    print(f"  webgl_tool   {tool:8.3f} s {size / tool / 1e6:10.1f} MB/s {count / tool:12.0f} {unit}/s")
    print(f"  cat | cat    {pipe:8.3f} s {size / pipe / 1e6:10.1f} MB/s")
    print(f"  {pipe / tool:.2f} of the pipe's rate; system calls: {system_calls(run, source, out)}", flush=True)
    out.unlink(missing_ok=True)


def measure(folder):
    source, out, copy = (folder / name for name in ("source.bin", "out.bin", "copy.bin"))
    for name, parts, records in SESSIONS:
        write_session(source, parts)
        compare(name, records, "records", run_tool, source, out, copy)
    write_stream(source)
    compare("small commands to replay", COMMANDS, "commands", replay, source, out, copy)


def main():
    if not TOOL.exists():
        subprocess.run([str(TOP / "build")], check=True)
    if len(sys.argv) > 1:
        measure(pathlib.Path(sys.argv[1]))
        return
    with tempfile.TemporaryDirectory() as folder:
        measure(pathlib.Path(folder))


if __name__ == "__main__":
    main()
