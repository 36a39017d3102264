#!/usr/bin/env python3
"""Times the program where people wait, each figure beside a floor of the same run, and prints the tables of README.md.

run.py PROGRAM [PART]... [--keys NUMBER]: all parts, or those that are named; the parts list, pages, sealing, compact, opening, check, one-key,
shapes, scopes and supposing have so many keys. It needs cc, and says which part it skips and why.
"""
import argparse
import tempfile

import bases
import edits
import gnupg
import growth
import imports
import scopes
import sealing
import shapes
import spelling
import supposing
from measure import Bench, Failed

PARTS = {
    "import": imports.part,
    "spelling": spelling.part,
    "edits": edits.part,
    "growth": growth.part,
    "sample": growth.part_sample,
    "list": growth.part_list,
    "pages": bases.part_pages,
    "sealing": sealing.part,
    "compact": bases.part_compact,
    "opening": bases.part_opening,
    "check": bases.part_check,
    "one-key": bases.part_one_key,
    "shapes": shapes.part,
    "scopes": scopes.part,
    "supposing": supposing.part,
    "gnupg": gnupg.part,
}


def main():
    parser = argparse.ArgumentParser()
    parser.add_argument("program")
    parser.add_argument("parts", nargs="*", metavar="PART")
    parser.add_argument("--keys", type=int, default=100_000)
    asked = parser.parse_args()
    with tempfile.TemporaryDirectory(prefix="wot") as folder:
        bench = Bench(asked.program, folder, asked.keys)
        for part in asked.parts or PARTS:
            try:
                PARTS[part](bench)
            except (Failed, OSError) as fault:
                print(f"\n{part}: FAULT: {fault}")


main()
