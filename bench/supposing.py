"""What an edit would change, beside the edit itself and a walk of all letters; and on whose ownertrust a letter hangs."""
from measure import in_turn, session, shown, table, times

ROUNDS = 5
# dates at which the made keys have the same letters as now, and others
DATES = (0, 1_900_000_000)


def fingerprints(told):
    """Of each key that `sigs` tells: its key ID, its fingerprint and the issuers of its certifications."""
    keys = []
    for fields in (line.split(":") for line in told.decode().split("\n")):
        if fields[0] == "pub":
            keys.append([fields[4], "", set()])
        elif fields[0] == "fpr":
            keys[-1][1] = fields[9]
        elif fields[0] == "sig":
            keys[-1][2].add(fields[4])
    return keys


def deepest(program, keys):
    """A fingerprint whose first user ID has an introducer of the deepest level that is found among some keys."""
    def level(fingerprint):
        told = program.ask(f"why {fingerprint} 1\n")[1].decode()
        return max((int(line.split(":")[2]) for line in told.split("\n") if line.startswith("row:")), default=-1)

    return max((key[1] for key in keys[:: max(1, len(keys) // 400)]), key=level)


def part(bench):
    """In an open session of made keys."""
    made = bench.store("supposing", (["sample", "7", str(bench.keys)], None))
    with session([bench.program], made) as program:
        keys = fingerprints(program.ask("sigs\n")[1])
        certifying = set().union(*(issuers for _, _, issuers in keys))
        quiet = next((fingerprint for key_id, fingerprint, _ in keys if key_id not in certifying), keys[-1][1])
        entries = program.ask("export\n")[1].count(b"\n") - 1
        pairs = {
            "`trust` of a key that certifies nobody": (f"trust {quiet} f", f"trust {quiet} m", f"suppose trust {quiet} f"),
            "`date`": (f"date {DATES[1]}", f"date {DATES[0]}", f"suppose date {DATES[1]}"),
            "`options`": ("options pgp 1 3 5 1", "options pgp 1 3 5 2", "suppose options pgp 1 3 5 1"),
        }
        rows = []
        for name, (edit, back, asked) in pairs.items():
            def made_and_back(edit=edit, back=back):
                return program.accept(edit + "\n") + program.accept(back + "\n")

            edited, supposed, walked = in_turn(made_and_back, lambda asked=asked: program.accept(asked + "\n"), lambda: program.accept("check\n"), rounds=ROUNDS)
            rows.append((name, shown(edited), shown(walked), shown(supposed), times(supposed, edited + 2 * walked)))
        columns = ("edit", "made and taken back", "`check`", "supposed", "times the edits and two checks")
        table(f"What an edit would change, {bench.keys:,} made keys", columns, rows)
        fingerprint = deepest(program, keys)
        took = in_turn(lambda: program.accept(f"critical {fingerprint} 1\n"), rounds=3)[0]
        table("On whose ownertrust a letter hangs", ("keys", "entries", "`critical`", "an entry"), [(f"{bench.keys:,}", f"{entries:,}", shown(took), shown(took / entries))])
