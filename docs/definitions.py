#!/usr/bin/env python3
"""Writes docs/definitions.md: each definition that a contract or another definition can cite, with the comment above it.

usage: docs/definitions.py      (run it again after a change of a file in crates/*/specs/)
"""

import pathlib
import re

TOP = pathlib.Path(__file__).resolve().parent.parent
HEAD = re.compile(r"(?:abbrev |unfoldable |opaque )*pub (?:abbrev |unfoldable )*(?:record |data )?([^\s:({]+)")
INTRO = """# Definitions

Contracts cite these definitions; a reader who trusts the prover has to trust them and nothing else. Each has a comment
directly above it that says it in words, which is its meaning here; where a standard speaks of it, the comment names the
section of WebGL 1.0, OpenGL ES 2.0.25 or GLSL ES 1.00.17. The others are this project's own. Crates stand in the order of
`crates.txt`. `docs/definitions.py` makes this page from the files themselves.

Words and limits stand as numerals in these definitions, so that a constant of the code that is another is refused by the
prover. A few contracts also read constants of the code that their own facts fix, as the eight bytes of a header.
"""


def crates():
    """The crates in the order in which they are listed."""
    lines = (TOP / "crates.txt").read_text().splitlines()
    return [line.split(":")[0].split()[0] for line in lines if line.strip() and not line.startswith("#")]


def definitions(text):
    """The names and comments of a file's public definitions, in order; those under one comment come together."""
    found, comment = [], []
    for line in text.splitlines():
        if line.startswith("-- "):
            comment.append(line[3:])
            continue
        head = HEAD.match(line)
        if head and comment:
            found.append(([head[1]], " ".join(comment)))
        elif head and found and not line.startswith(("pub mod", "pub use")):
            found[-1][0].append(head[1])
        comment = []
    return found


def cell(text):
    return text.replace("|", "\\|")


def main():
    parts = [INTRO]
    for crate in crates():
        files = sorted((TOP / "crates" / crate / "specs").glob("*.antt"))
        tables = []
        for file in files:
            text = file.read_text()
            about = re.match(r"(?:-- .*\n)*", text)[0]
            rows = definitions(text[len(about) :])
            if file.name == "Lib.antt" or not rows:
                continue
            tables.append(f"### `{crate}/specs/{file.name}`\n")
            if about:
                tables.append(about.replace("-- ", ""))
            tables.append("| Definition | Meaning |\n|---|---|")
            tables += [f"| {', '.join(f'`{cell(name)}`' for name in names)} | {cell(comment)} |" for names, comment in rows]
            tables.append("")
        if tables:
            parts.append(f"## {crate}\n\n" + "\n".join(tables))
    (TOP / "docs" / "definitions.md").write_text("\n".join(parts).rstrip("\n") + "\n")


if __name__ == "__main__":
    main()
