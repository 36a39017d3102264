#!/usr/bin/env python3
"""Runs the program of examples/ that makes a graph of an explanation.

The picture of the documents is compared with the graph, by its nodes and arrows, where there is a `dot`.
"""
import pathlib
import re
import shutil
import subprocess
import sys

TOP = pathlib.Path(__file__).resolve().parent.parent


def graph():
    """The graph of the worked explanation, and the picture made of it."""
    levels = TOP / "examples" / "levels"
    with (levels / "output").open("rb") as replies:
        made = subprocess.run([sys.executable, TOP / "examples" / "why_graph.py"], stdin=replies, capture_output=True, text=True, timeout=60, check=False).stdout
    if made != (levels / "graph.dot").read_text(encoding="utf-8"):
        return f"FAULT: examples/levels/graph.dot is not the graph\n{made}"
    if not shutil.which("dot"):
        return "ok; the picture is not compared: no dot"
    drawn = subprocess.run(["dot", "-Tsvg"], input=made, capture_output=True, text=True, timeout=60, check=True).stdout
    parts = [sorted(re.findall(r"<(?:title|text)[^>]*>([^<]*)<", picture)) for picture in (drawn, (TOP / "docs" / "levels.svg").read_text(encoding="utf-8"))]
    return "ok" if parts[0] == parts[1] else f"FAULT: docs/levels.svg has {parts[1]} in place of {parts[0]}"


if __name__ == "__main__":
    said = graph()
    print(f"examples: the graph: {said}")
    sys.exit(1 if said.startswith("FAULT") else 0)
