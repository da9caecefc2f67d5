#!/usr/bin/env python3
"""Compares numbers on the pages with the sources: the table of docs/LIBRARY.md ("What it costs to prove"), the size of the
model in docs/MODEL.md and README.md, and how many mutants the gate tries in docs/PROMISES.md. Prints those that differ, and exits with 1
then. Lines count that aren't blank and no comment; of the model's, imports don't count.

    tools/lines.py [--write]    with --write it puts them right instead
    tools/lines.py --words      prints how many words each page has, as wc counts them, and all
"""

import pathlib
import re
import sys

TOP = pathlib.Path(__file__).resolve().parent.parent
CRATES = TOP / "crates"
# What sections 1 to 5 of docs/MODEL.md quote, and the requests.
MODEL = ["arena_rules/State", "call_rules/Machine", "arena_rules/Moves", "arena_rules/Rounding", "arena_rules/Search",
         "arena_rules/Back", "call_rules/Requests"]
USE = re.compile(r"^(?:pub )?use (Rattle\.(\w+)\.specs\.([\w.]+?))(?:\.\{| as |$)", re.MULTILINE)


def count(files, skipped):
    lines = (line.strip() for file in files for line in file.read_text().split("\n"))
    return sum(bool(line) and not re.match(skipped, line) for line in lines)


def crate_counts(names):
    """Lines of code with contracts, of definitions and of proofs of some crates."""
    found = [[file for name in names for file in (CRATES / name / part).glob(f"**/*.{kind}")]
             for part, kind in (("src", "rt"), ("specs", "antt"), ("proofs", "antt"))]
    return [count(files, "//" if kind == 0 else "--") for kind, files in enumerate(found)]


def definitions_of(crate, module):
    """The file of a module of definitions, which may be re-exported there from another crate."""
    file = CRATES / crate / "specs" / (module.replace(".", "/") + ".antt")
    if file.exists():
        return file
    facade = CRATES / crate / "specs" / "Lib.antt"
    for _, other, name in USE.findall(facade.read_text()) if facade.exists() else []:
        if name.split(".")[-1] == module.split(".")[-1]:
            return definitions_of(other, name)
    return None


def imported(file, found):
    """Adds the file and all files of definitions of this repository that it imports, directly or not."""
    if file and file not in found:
        found.add(file)
        for _, crate, module in USE.findall(file.read_text()):
            imported(definitions_of(crate, module), found)
    return found


def library_row(row):
    names = re.findall(r"`(\w+)`", row.split(":")[0])
    cells = " | ".join(f"{n:,}" for n in crate_counts(names))
    return f"{row[: row.index(' | ')]} | {cells} |"


def right(name, page):
    """The text of a page with its numbers as the sources have them."""
    if name == "LIBRARY.md":
        row = re.compile(r"^\| `\w+`.* \| [\d,]+ \| [\d,]+ \| [\d,]+ \|$", re.MULTILINE)
        return row.sub(lambda found: library_row(found[0]), page)
    if name == "PROMISES.md":
        return re.sub(r"(?<=`rt ci` tries )\d+", str(len(list(CRATES.glob("*/must-fail/*.edit")))), page)
    skipped = r"--|(pub )?use "
    part = count([CRATES / f"{name.replace('/', '/specs/')}.antt" for name in MODEL], skipped)
    files = imported(CRATES / "arena_calls/specs/Ends.antt", set())
    page = re.sub(r"\d+(?=\s+lines,\s+(?:the\s+rules|given))", str(part), page)
    return re.sub(r"\d+(\s+lines\s+in\s+)\d+(?=\s+files)", rf"{count(files, skipped)}\g<1>{len(files)}", page)


def words():
    """Prints the number of words of each page."""
    pages = sorted(page for form in ("*.md", "docs/**/*.md", "bench/**/*.md", "crates/*/*.md") for page in TOP.glob(form))
    counts = [(len(page.read_text().split()), page.relative_to(TOP)) for page in pages]
    for number, page in [*counts, (sum(number for number, _ in counts), "all")]:
        print(f"{number:6} {page}")


def main():
    if "--words" in sys.argv[1:]:
        return words()
    differ = False
    for name in ("README.md", "docs/LIBRARY.md", "docs/MODEL.md", "docs/PROMISES.md"):
        file = TOP / name
        page = file.read_text()
        wanted = right(file.name, page)
        if "--write" in sys.argv[1:]:
            file.write_text(wanted)
            continue
        for number, (line, other) in enumerate(zip(page.split("\n"), wanted.split("\n")), 1):
            if line != other:
                print(f"{name}:{number}: {line}\n    by the sources: {other}")
                differ = True
    return int(differ)


sys.exit(main())
