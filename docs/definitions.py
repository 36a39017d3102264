#!/usr/bin/env python3
"""Lists all definitions: python3 docs/definitions.py > docs/DEFINITIONS.md

Each word stands beside its file, its crate and the comment before it. With --twice only those are listed that two crates define.
"""
import pathlib
import re
import sys

TOP = pathlib.Path(__file__).resolve().parent.parent
DEFINED = re.compile(r"^(?:(?:abbrev|unfoldable) (?:pub )?|(?:pub )?(?:record|data) )(\w+)")
HEAD = """# Definitions

What the contracts cite, by name: made of `crates/*/specs` by `python3 docs/definitions.py > docs/DEFINITIONS.md`, and not by hand. A definition
without a comment is said by its own line, or by the comment before it in its file. [ARCHITECTURE](ARCHITECTURE.md#where-a-question-is-answered) has the way in.

| Word | Where | What it says |
|---|---|---|
"""


def definitions():
    """Each word, its crate, its file and its comment."""
    for path in TOP.glob("crates/*/specs/*.antt"):
        comment = []
        for line in path.read_text(encoding="utf-8").splitlines():
            if found := DEFINED.match(line):
                yield found[1], path.parts[-3], path.name, " ".join(comment)
            comment = [*comment, line[3:]] if line.startswith("-- ") else []


def main():
    found = sorted(definitions(), key=lambda row: (row[0].lower(), row))
    if "--twice" in sys.argv:
        found = [row for row in found if any(row[0] == other[0] and row[1] != other[1] for other in found)]
    sys.stdout.write(HEAD)
    for word, crate, file, comment in found:
        says = comment.replace("|", "\\|")
        print(f"| `{word}` | `{file}` of `{crate}` | {says} |".replace("|  |", "| |"))


if __name__ == "__main__":
    main()
