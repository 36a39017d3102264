#!/usr/bin/env python3
"""Draws the rooms of the house, from crates.txt: python3 docs/crates.py > docs/crates.svg

A room is begun by a comment in crates.txt, `# NAME: what it is for`, and has the crates that follow. The rooms stand from the top down.
It fails where a crate stands in no room, or on one of a higher room. Crates of laws, of worked keyrings and of tests, which the program
could do without, are pale.
"""
import pathlib
import re
import sys

CRATES = pathlib.Path(__file__).resolve().parent.parent / "crates.txt"
PALE = ("_laws", "_tests", "_examples")
WIDTH, LEFT, EDGE, LETTER, HEIGHT, GAP = 1180, 590, 8, 7.3, 24, 10


def rooms(text):
    """Each room: its name, what it is for, its crates; and on what each crate stands."""
    found, below = [("", "no room", [])], {}
    for line in text.splitlines():
        if begun := re.match(r"# (\w+): (.+)$", line):
            found.append((begun[1], begun[2], []))
        elif ":" in (kept := line.split("#")[0]):
            words, _, rest = kept.partition(":")
            found[-1][2].append(words.split()[0])
            below[words.split()[0]] = rest.split()
    return found, below


def faults(found, below):
    """Crates in no room, and crates that stand on one of a higher room."""
    place = {crate: number for number, (_, _, crates) in enumerate(found) for crate in crates}
    return [f"{crate} stands in no room" for crate in found[0][2]] + [
        f"{crate} stands on {other}, of a higher room" for crate in place for other in below[crate] if place.get(other, len(found)) < place[crate]
    ]


def is_pale(crate):
    return crate.endswith(PALE)


def boxes(crates):
    """Where each crate of a room is drawn: the pale ones behind the others, and on a further line what the first has no room for."""
    at, line = LEFT, 0
    for crate in sorted(crates, key=is_pale):
        width = len(crate) * LETTER + 14
        if at + width > WIDTH - 2 * EDGE and at > LEFT:
            at, line = LEFT, line + 1
        yield crate, at, line, width
        at += width + GAP


def svg(found):
    drawn, top = [], EDGE
    for number, (name, says, crates) in enumerate(found[1:]):
        placed = list(boxes(crates))
        high = (HEIGHT + GAP) * (1 + max((line for _, _, line, _ in placed), default=0)) + GAP
        drawn.append(f'<rect x="{EDGE}" y="{top}" width="{WIDTH - 2 * EDGE}" height="{high}" rx="5" fill="{"#f3f7fc" if number % 2 else "#e9f0f9"}"/>')
        drawn.append(f'<text x="{EDGE + 12}" y="{top + 19}" font-weight="bold" font-size="14">{name}</text>')
        drawn.append(f'<text x="{EDGE + 12}" y="{top + 35}" font-family="sans-serif" font-size="11" fill="#555">{says}</text>')
        for crate, at, line, width in placed:
            fill, stroke = ("#fafafa", '#888" stroke-dasharray="3 2') if is_pale(crate) else ("#dce9f7", "#444")
            y = top + GAP + line * (HEIGHT + GAP)
            drawn.append(f'<rect x="{at:.0f}" y="{y}" width="{width:.0f}" height="{HEIGHT}" rx="4" fill="{fill}" stroke="{stroke}"/>')
            drawn.append(f'<text x="{at + width / 2:.0f}" y="{y + 16}" text-anchor="middle">{crate}</text>')
        top += high + 4
    return "\n".join([
        f'<svg xmlns="http://www.w3.org/2000/svg" viewBox="0 0 {WIDTH} {top + EDGE}" font-family="monospace" font-size="12">',
        "<title>The rooms of the house: a crate stands on crates of its own room and of lower ones</title>",
        f'<rect width="{WIDTH}" height="100%" fill="white"/>', *drawn, "</svg>", "",
    ])


if __name__ == "__main__":
    FOUND, BELOW = rooms(CRATES.read_text(encoding="utf-8"))
    if FAULTS := faults(FOUND, BELOW):
        sys.exit("\n".join(["crates.txt:", *FAULTS]))
    sys.stdout.write(svg(FOUND))
