#!/usr/bin/env python3
r"""Turns the replies to `sigs` and to `why FPR PLACE`, in this order, into a graph for Graphviz.

    (cd STORE && printf 'sigs\nwhy %s 1\n' FPR | wot) | python3 examples/why_graph.py | dot -Tsvg > why.svg

A box is a key of the explanation with its level and its trust, the ellipse is the user ID with its letter. An arrow is a certification
by a key of a lower level, also one that a later one replaced; its label is the depth, the amount and the scope of a trust signature.
Bold arrows are the certifications that count for the user ID itself.
"""
import sys


def quoted(*lines):
    return '"' + r"\n".join(line.replace("\\", "\\\\").replace('"', '\\"') for line in lines) + '"'


keys, rows, by, why = {}, {}, [], None
for fields in (line.rstrip("\n").split(":") for line in sys.stdin):
    if fields[0] == "pub":
        users = keys.setdefault(fields[4], [])
    elif fields[0] in ("uid", "uat"):
        users.append((fields[9], []))
    elif fields[0] == "sig":
        users[-1][1].append((fields[4], f"{fields[7]} {fields[8]}".strip()))
    elif fields[0] == "why":
        why = fields
    elif fields[0] == "row":
        rows[fields[1]] = (int(fields[2]), fields[3])
    elif fields[0] == "by":
        by.append(fields[1])
if why is None or why[2] not in keys:
    sys.exit("why_graph: no replies to `sigs` and `why` on standard input")

user, certs = keys[why[2]][int(why[3]) - 1]
print("digraph why {\n  node [shape=box];")
for level in sorted({level for level, _ in rows.values()}):
    print("  { rank=same; " + " ".join(quoted(key) for key in rows if rows[key][0] == level) + " }")
for key, (level, trust) in rows.items():
    print(f"  {quoted(key)} [label={quoted(keys[key][0][0], f'level {level}, trust {trust}')}];")
print(f"  user [shape=ellipse, label={quoted(user, why[1])}];")
for key, (level, _) in rows.items():
    for issuer, label in sorted({cert for _, found in keys[key] for cert in found}):
        if issuer in rows and rows[issuer][0] < level:
            print(f"  {quoted(issuer)} -> {quoted(key)} [label={quoted(label)}];")
for issuer in by:
    print(f"  {quoted(issuer)} -> user [style=bold, label={quoted(dict(certs)[issuer])}];")
print("}")
