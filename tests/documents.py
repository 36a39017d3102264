#!/usr/bin/env python3
"""Looks at the documents: links lead somewhere, a block of shell that an output follows prints it, the man page names what the manual does and
has the number of the newest change, the picture and the table of the rooms are those of crates.txt, no room stands on a higher one, the list of
definitions is the one that docs/definitions.py makes, each script of the tests is run and told of, the definitions and files that are named stand
where it is said, each promise names calls, clauses and tests that are there, and the edits that must fail are those that the page of proofs names.

The man pages are also read by mandoc or by man, where there is one.
"""
import os
import pathlib
import re
import shutil
import subprocess
import sys

from reference.program import PROGRAM, folder

TOP = pathlib.Path(__file__).resolve().parent.parent
DOCUMENTS = sorted([*TOP.glob("*.md"), *TOP.glob("docs/**/*.md"), *TOP.glob("bench/*.md"), *TOP.glob("tests/*.md"), *TOP.glob("examples/**/README.md")])
FENCED = re.compile(r"^```.*?^```$", re.M | re.S)
LINK = re.compile(r"\]\(([^)\s]+)\)")
SESSION = re.compile(r"^```sh\n((?:(?!```).*\n)*)```\n\n```\n((?:(?!```).*\n)*)```$", re.M)


def anchors(document):
    """The headings of a document, as they are linked to."""
    headings = re.findall(r"^#+ (.*)$", FENCED.sub("", document.read_text(encoding="utf-8")), re.M)
    return {re.sub(r"[^\w\- ]", "", heading.lower()).replace(" ", "-") for heading in headings}


def dead_links():
    count, dead = 0, []
    for document in DOCUMENTS:
        for link in LINK.findall(FENCED.sub("", document.read_text(encoding="utf-8"))):
            if re.match(r"https?:", link):
                continue
            count += 1
            path, _, anchor = link.partition("#")
            target = (document.parent / path).resolve() if path else document
            if not target.exists() or (anchor and anchor not in anchors(target)):
                dead.append(f"{document.relative_to(TOP)}: {link}")
    return f"{count} links", dead


def sessions():
    """Each block of shell that an output follows, in an empty folder."""
    count, faults = 0, []
    with folder() as tools:
        os.symlink(PROGRAM, os.path.join(tools, "wot"))
        environment = {**os.environ, "PATH": tools + os.pathsep + os.environ["PATH"]}
        for document in DOCUMENTS:
            for text, wanted in SESSION.findall(document.read_text(encoding="utf-8")):
                count += 1
                with folder() as here:
                    done = subprocess.run(["sh"], input=text, capture_output=True, text=True, cwd=here, env=environment, timeout=60, check=False)
                if done.stdout != wanted:
                    faults.append(f"{document.relative_to(TOP)}: {text.splitlines()[0]} .. prints\n{done.stdout}in place of\n{wanted}")
    return f"{count} sessions", faults


def first_session():
    """The session of the README is the stored run of the program."""
    readme = (TOP / "README.md").read_text(encoding="utf-8")
    stored = [(TOP / "crates" / "wot" / name).read_text(encoding="utf-8") for name in ("stdin", "stdout")]
    return "the first session", [] if f"{stored[0]}END\n```\n\n```\n{stored[1]}```\n" in readme else ["README.md: not the session of crates/wot"]


def rows(heading):
    """The first columns of the tables of the manual under a heading."""
    part = (TOP / "docs" / "MANUAL.md").read_text(encoding="utf-8").split(f"# {heading}\n")[1].split("\n#")[0]
    return [[cell.strip() for cell in line.strip("|").split("|")] for line in part.splitlines() if line.startswith("| ")][1:]


def man_page():
    """The commands, refusals, limits and exit codes of the manual stand in the man page too."""
    page = (TOP / "docs" / "wot.1").read_text(encoding="utf-8").replace("\\-", "-").replace("\\fR", "")
    page = re.sub(r"\\f[BI]|^\.(TP|PP|BR?|I)\b *", "", page, flags=re.M)
    commands = [command for row in rows("Commands") for command in re.findall(r"`([^`]+)`", row[0])]
    refusals = [row[0].strip("`") for row in rows("Refusals")]
    limits = [part for row in rows("Limits") for part in (row[0].strip("`"), re.match(r"[\d,]+", row[1])[0])]
    codes = [part for row in rows("Exit status") for part in (f"\n{row[0]}\n", *re.findall(r"`([^`]+)`", row[2]))]
    named = [*commands, *refusals, *limits, *codes]
    return f"a man page with {len(named)} names", [f"wot.1: no {name.strip()}" for name in named if name not in page]


def crates():
    """The picture of the rooms is drawn from crates.txt as it is, no room stands on a higher one, and the table has them in that order."""
    done = subprocess.run([sys.executable, TOP / "docs" / "crates.py"], capture_output=True, text=True, timeout=60, check=False)
    wrong = done.stderr.splitlines()
    if not wrong and done.stdout != (TOP / "docs" / "crates.svg").read_text(encoding="utf-8"):
        wrong.append("docs/crates.svg: not what docs/crates.py draws of crates.txt")
    text = (TOP / "docs" / "ARCHITECTURE.md").read_text(encoding="utf-8").split("| Room | Crate ")[1].split("\n\n")[0]
    cells = [line.split(" | ")[:2] for line in text.splitlines()[2:]]
    told = [word for room, names in cells for word in [room.strip("| "), *re.findall(r"`(\w+)`", names)] if word]
    kept = [word for line in (TOP / "crates.txt").read_text(encoding="utf-8").splitlines() for word in re.findall(r"^(?:# )?(\w+):", line)]
    kept = [word for word in kept if not re.search(r"_(tests|examples)$", word)]
    wrong += [] if told == kept else [f"docs/ARCHITECTURE.md: the rooms are not those of crates.txt: {next((pair for pair in zip(told, kept) if pair[0] != pair[1]), 'at the end')}"]
    return "the picture and the table of the rooms", wrong


def definitions():
    """What the table of questions names stands in the file that it names."""
    count, wrong = 0, []
    for cell in re.findall(r"^\| [^|]*\? \| ([^|]*) \|$", (TOP / "docs" / "ARCHITECTURE.md").read_text(encoding="utf-8"), re.M):
        for part in cell.split(";"):
            crate = next(iter(re.findall(r" of `(wot_\w+)`", part)), "wot_types")
            for file in re.findall(r"`(\w+\.antt)`", part):
                path = TOP / "crates" / crate / "specs" / file
                text = path.read_text(encoding="utf-8") if path.exists() else ""
                named = [None, *re.findall(r"`(\w+)`", part.partition(":")[2])]
                count += len(named)
                missing = [name for name in named if not (text if name is None else re.search(rf"^(abbrev |unfoldable )?pub (record )?{name} ", text, re.M))]
                wrong += [f"docs/ARCHITECTURE.md: no {name or 'such file'} in {path.relative_to(TOP)}" for name in missing]
    return f"{count} definitions", wrong


def index():
    """The list of the definitions is the one that docs/definitions.py makes."""
    made = subprocess.run([sys.executable, TOP / "docs" / "definitions.py"], capture_output=True, text=True, timeout=60, check=True).stdout
    is_same = made == (TOP / "docs" / "DEFINITIONS.md").read_text(encoding="utf-8")
    return "the list of definitions", [] if is_same else ["docs/DEFINITIONS.md: not what docs/definitions.py makes of crates/*/specs"]


def places():
    """The files that the table of places to change names are there, each in a crate of its cell, with what is named behind it."""
    count, wrong = 0, []
    for line in re.findall(r"^\| .* \|$", (TOP / "CONTRIBUTING.md").read_text(encoding="utf-8"), re.M):
        for cell in line.strip("|").split("|"):
            named = set(re.findall(r"`(wot_\w+)`", cell)) or {"wot_types"}
            wrong += [f"CONTRIBUTING.md: no crate {crate}" for crate in named if not (TOP / "crates" / crate).is_dir()]
            for file, words in re.findall(r"`(\w+\.(?:rt|antt)|(?:tests|contrib|examples)/[\w./-]*)`(?: \(([^)]*)\))?", cell):
                paths = [TOP / file] if "/" in file else [path for crate in named for path in TOP.glob(f"crates/{crate}/[sp]*/{file}")]
                texts = [path.read_text(encoding="utf-8") if path.is_file() else "" for path in paths if path.exists()]
                count += 1
                wrong += [] if texts else [f"CONTRIBUTING.md: no {file}"]
                wrong += [f"CONTRIBUTING.md: no {word} in {file}" for word in re.findall(r"`([\w-]+)`", words) if not any(word in text for text in texts)]
    return f"{count} places", wrong

FUNCTION = re.compile(r"^( *)(?:pub(?:\(\w+\))? )?(?:const )?fn (\w+)")
OWNER = re.compile(r"^(?:pub )?(?:impl|trait)\b(?:<.*?>+(?= ))? (?:.* for )?(\w+)")


def declared(crate):
    """What a crate declares: its clauses by the name of each function, or by that of its type before it; which of these have no body, or are tests."""
    clauses, laws, tests = {}, set(), set()
    for path in crate.glob("src/*.rt"):
        owner, name, before = "", None, ""
        for line in path.read_text(encoding="utf-8").splitlines():
            owner = "" if line.startswith("}") else found[1] + "::" if (found := OWNER.match(line)) else owner
            if found := FUNCTION.match(line):
                name = (owner if found[1] else "") + found[2]
                clauses.setdefault(name, set())
                tests |= {name} if before == "#[test]" else set()
            elif found := re.match(r" *ensures (\w+) \{", line):
                clauses[name].add(found[1])
            elif found := re.match(r"(?:pub )?(?:struct|enum|trait) (\w+)", line):
                clauses.setdefault(found[1], set())
            laws |= {name} if line.strip() == "{}" else set()
            before = line.strip() or before
    return clauses, laws, tests


def words_of(path):
    """The definitions of a file, and the parts of its records, each behind its record's name."""
    found, record = set(), None
    for line in path.read_text(encoding="utf-8").splitlines() if path.exists() else []:
        if match := re.match(r"(?:abbrev |unfoldable )?pub (record |data )?(\w+) ", line):
            record = match[2]
            found.add(record)
        elif match := re.match(r"  pub (\w+) :", line):
            found.add(f"{record}.{match[1]}")
    return found


def carriers(cell, crates, parts):
    """The kinds of what a cell of the page of promises names, and what of it isn't there."""
    kinds, missing = set(), [name for said in re.findall(r"\(([^()]*)\)", cell) for name in re.findall(r"`(\w+\.\w+)`", said) if name not in parts]
    for part in re.sub(r" ?\([^()]*\)", "", cell).split("; "):
        path, *names = re.findall(r"`([^`]+)`", part)
        if match := re.fullmatch(r"`(\w+\.antt)`(?: of `(wot_\w+)`)?: (?:`\w+`(?:, )?)+", part):
            words = words_of(TOP / "crates" / (match[2] or "wot_types") / "specs" / match[1])
            missing += [f"{name} in {match[1]}" for name in names[1 if match[2] else 0:] if name not in words]
        elif match := re.fullmatch(r"`([\w:]+)` of `(wot\w*)`(?:: (?:`\w+`(?:, )?)+)?", part):
            clauses, laws, tests = crates.get(match[2], ({}, set(), set()))
            missing += [part] if path not in clauses else [f"{name} of {path}" for name in names[1:] if name not in clauses[path]]
            kinds |= {"law"} if path in laws else {"test"} if path in tests else {"clause", "type"}
        else:
            missing += [] if part == f"`{path}`" and (TOP / path).exists() else [part]
            kinds |= {"test"} if "/" in path else {"type"}
    return kinds, missing


def uncarried(cell):
    """The files that are named where nothing carries a promise, and aren't there."""
    named = [*re.findall(r"`(tests/\w+\.py)`", cell), *(f"crates/{crate}/src/{file}" for file, crate in re.findall(r"`(\w+\.rt)` of `(wot_\w+)`", cell))]
    return [name for name in named if not (TOP / name).exists()]


def promises():
    """Each row of the page of promises names what is there, of the kinds that it tells, and what nothing carries names no call."""
    crates = {crate.name: declared(crate) for crate in TOP.glob("crates/*")}
    parts = set().union(*map(words_of, TOP.glob("crates/*/specs/*.antt")))
    count, wrong = 0, []
    for line in re.findall(r"^\| (?!Promise \|)(.*)$", (TOP / "docs" / "SPECIFICATION.md").read_text(encoding="utf-8"), re.M):
        promise, cell, told, *more = [part.strip() for part in line.split("|")]
        count, said = count + 1, set(told.split(", "))
        kinds, missing = (said, uncarried(cell)) if told in ("neither", "not yet") else carriers(cell, crates, parts)
        faults = [f"no {name}" for name in missing]
        if more != [""] or not said <= kinds or (kinds - said) & {"law", "test"}:
            faults.append(f"{told!r} is told, and named are {sorted(kinds)}")
        wrong += [f"docs/SPECIFICATION.md: {promise[:60]}: {fault}" for fault in faults]
    return f"{count} promises", wrong


def edits():
    """The edits that must fail are those that the rows of the page of proofs name, each by itself or all of a crate."""
    there = sorted((path.stem, path.parent.parent.name) for path in TOP.glob("crates/*/must-fail/*.edit"))
    cells = re.findall(r"^\| (?!Promise \|).*\|([^|]*)\|$", (TOP / "docs" / "PROOFS.md").read_text(encoding="utf-8"), re.M)
    whole = {crate for cell in cells for crate in re.findall(r"all edits of `(\w+)`", cell)}
    named = {name for cell in cells for name in re.findall(r"(?<! of )`(\w+)`", cell)}
    wrong = [f"no edit {name} in crates/*/must-fail" for name in sorted(named - {name for name, _ in there})]
    wrong += [f"no edits of {crate}" for crate in sorted(whole - {crate for _, crate in there})]
    wrong += [f"{name} of {crate} is in no row" for name, crate in there if name not in named and crate not in whole]
    return f"{len(there)} edits", [f"docs/PROOFS.md: {fault}" for fault in wrong]


def scripts():
    """The gate runs each script of the tests, and their table has a row for each; so has that of the libraries."""
    parts = (TOP / "tests" / "README.md").read_text(encoding="utf-8").split("## The second reading")
    told, libraries = (set(re.findall(r"`(\w+)\.py`", "\n".join(re.findall(r"^\| (.*?) \|", part, re.M)))) for part in parts)
    run = set(re.search(r"^for check in (.*); do$", (TOP / ".ci" / "run").read_text(encoding="utf-8"), re.M)[1].split())
    there, below = ({path.stem for path in TOP.glob(f"tests/{part}")} for part in ("*.py", "reference/*.py"))
    wrong = [f"tests/README.md: {name}.py is not in the table and there" for name in sorted((told ^ there) | (libraries ^ below))]
    return f"{len(there)} scripts", wrong + [f".ci/run: {name}.py is not run, or not there" for name in sorted(run ^ there)]


def number():
    """The man page has the number and the date of the newest change."""
    newest, date = re.search(r"^## ([\d.]+) \(([\d-]+)\)", (TOP / "CHANGELOG.md").read_text(encoding="utf-8"), re.M).groups()
    is_same = (TOP / "docs" / "wot.1").read_text(encoding="utf-8").startswith(f'.TH WOT 1 {date} "wot {newest}" ')
    return f"number {newest}", [] if is_same else [f"docs/wot.1: not of {date} and wot {newest}, as CHANGELOG.md is"]


def man_is_read():
    """The man pages have no warnings."""
    pages = [str(TOP / "docs" / page) for page in ("wot.1", "gpg-wot.1")]
    if shutil.which("mandoc"):
        done = subprocess.run(["mandoc", "-T", "lint", "-W", "warning", *pages], capture_output=True, text=True, timeout=60, check=False)
        return "read by mandoc", done.stdout.splitlines()
    if shutil.which("man") and shutil.which("groff"):
        done = subprocess.run(["man", "--warnings", "-Tutf8", "-Z", "-l", *pages], capture_output=True, text=True, timeout=60, check=False)
        return "read by man", done.stderr.splitlines()
    return "not read: no mandoc and no man", []


if __name__ == "__main__":
    found = [check() for check in (
        dead_links, sessions, first_session, crates, definitions, index, places, promises, edits, scripts, man_page, number, man_is_read,
    )]
    wrong = [line for _, lines in found for line in lines]
    if wrong:
        sys.exit("\n".join(["documents:", *wrong]))
    print("documents: " + ", ".join(said for said, _ in found))
