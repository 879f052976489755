#!/usr/bin/env python3
"""Runs the gate from nothing on a clone of the last commit, and prints what it took: the time of the whole run, and the
processor minutes of each crate's proofs, tests and wrong bodies, as a table for docs/proofs.md.

Every half second it reads what each prover process below this one has used, so what a process uses in its last moments is
not counted: some tenths of a second for each. The time says something only where nothing else runs on the machine; the
processor minutes grow where other work shares it.

usage: bench/proofs.py [LOG]      (LOG: a file for what the gate says; none, where none is given)
"""

import collections
import os
import pathlib
import re
import subprocess
import sys
import tempfile
import time

TOP = pathlib.Path(__file__).resolve().parent.parent
TICK = os.sysconf("SC_CLK_TCK")
PARTS = ("proofs", "tests", "wrong bodies")


def crates(root):
    """The crates that crates.txt lists, in its order."""
    return [line.split(":")[0].split()[0] for line in (root / "crates.txt").read_text().splitlines() if ":" in line]


def processes():
    """Each process that can be read: its number and start, its parent, its processor seconds, and its command line."""
    for name in os.listdir("/proc"):
        if name.isdigit():
            try:
                fields = pathlib.Path(f"/proc/{name}/stat").read_text().rsplit(")", 1)[1].split()
                command = pathlib.Path(f"/proc/{name}/cmdline").read_text().replace("\0", " ")
            except OSError:
                continue
            yield (int(name), fields[19]), int(fields[1]), (int(fields[11]) + int(fields[12])) / TICK, command


def below(root, found):
    """The processes below one, by their parents."""
    kept, grew = {root}, True
    while grew:
        more = {key[0] for key, parent, _, _ in found if parent in kept} - kept
        kept |= more
        grew = bool(more)
    return kept


def part(command):
    """The crate that a prover works on, and for which of the three parts."""
    crate = re.search(r"--crate-name (\S+)", command)
    if not crate:
        return None
    if "rt-edits" in command:
        return crate[1], "wrong bodies"
    return crate[1], "tests" if " --test " in command else "proofs"


def watch(gate):
    """Adds up the seconds of each part of each crate until the gate has ended."""
    last, sums = {}, collections.Counter()
    while gate.poll() is None:
        found = list(processes())
        ours = below(gate.pid, found)
        for key, _, seconds, command in found:
            where = key[0] in ours and part(command)
            if where:
                sums[where] += seconds - last.get(key, 0)
                last[key] = seconds
        time.sleep(0.5)
    return sums


def lines(crate, folder, ending):
    return sum(len(path.read_text().splitlines()) for path in (crate / folder).rglob(f"*.{ending}"))


def show(root, sums):
    print("| Crate | Code | Definitions | Proofs | Wrong bodies | Proving | Tests | Trying wrong bodies |")
    print("|---|---|---|---|---|---|---|---|")
    for name in crates(root):
        crate = root / "crates" / name
        sizes = [lines(crate, folder, ending) for folder, ending in (("src", "rt"), ("specs", "antt"), ("proofs", "antt"))]
        numbers = [*sizes, len(list(crate.glob("must-fail/*.edit")))]
        minutes = [f"{sums[name, it] / 60:.1f}" for it in PARTS]
        print(f"| `{name}` | {' | '.join([*map(str, numbers), *minutes])} |")
    whole = [f"{sum(seconds for (_, it), seconds in sums.items() if it == wanted) / 60:.0f}" for wanted in PARTS]
    print(f"| all | | | | | {' | '.join(whole)} |")


def gate_words():
    """The gate's words: a kit that keeps results of earlier runs has a flag for a run from nothing, and others always begin there."""
    told = subprocess.run(["rt", "help"], capture_output=True, text=True, check=False)
    return ["rt", "ci", *(["--anew"] if "--anew" in told.stdout + told.stderr else [])]


def main():
    log = open(sys.argv[1], "w") if len(sys.argv) > 1 else subprocess.DEVNULL
    with tempfile.TemporaryDirectory() as folder:
        root = pathlib.Path(folder) / "clone"
        subprocess.run(["git", "clone", "-q", str(TOP), str(root)], check=True)
        start = time.time()
        words = gate_words()
        gate = subprocess.Popen(words, cwd=root, stdout=log, stderr=subprocess.STDOUT)
        sums = watch(gate)
        print(f"{' '.join(words)}: status {gate.returncode}, {(time.time() - start) / 60:.0f} minutes on {os.cpu_count()} processors\n")
        show(root, sums)


if __name__ == "__main__":
    main()
