#!/usr/bin/env python3
"""Compares the code that pages quote with the sources. A unit of a block of the kinds `rust` and `antt` (a line that isn't
indented, and the indented ones below it) must be in a file of `crates/` or of `bindings/rust`, white space, comments,
visibility, trailing commas and the bounds `C: ChunkSource` and `D: ChunkSource` aside; on a page that quotes "the text of the file
above it", in a file that its section names. `..` marks what is left out. Prints the units that aren't there, and then exits with 1.

    tools/quotes.py [PAGE..]
"""

import pathlib
import re
import sys

TOP = pathlib.Path(__file__).resolve().parent.parent
PAGES = ["*.md", "docs/*.md", "docs/*/*.md", "crates/*/*.md"]
SOURCES = ["crates/*/src/**/*.rt", "crates/*/specs/**/*.antt", "crates/*/proofs/**/*.antt", "bindings/rust/**/*.rs"]
COMMENT = re.compile(r"^\s*(--|//).*$|\s(--|//) .*$", re.MULTILINE)


def found_in(patterns):
    return sorted(path for pattern in patterns for path in TOP.glob(pattern))


def plain(code):
    """The code without what may differ."""
    code = COMMENT.sub("", code)
    code = re.sub(r"\b(pub|abbrev|unfoldable) ", "", code)
    code = re.sub(r"[\s;]", "", code)
    code = re.sub(r"<[CD]:ChunkSource(,D:ChunkSource)?,?>|(,[CD]:ChunkSource)+(?=,?>)|[CD]:ChunkSource,", "", code)
    return code.replace(",)", ")").replace(",>", ">")


def units(page):
    """The units of a page's blocks, each with the number of its first line and the names of files in the section before it."""
    kind, unit, named = None, None, set()
    for number, line in enumerate(page.splitlines(), 1):
        if line.startswith("```"):
            kind, unit = (line[3:], None) if kind is None else (None, None)
        elif kind in ("rust", "antt") and line.strip():
            if unit is None or not line.startswith((" ", ")", ">", "}", "{", "where")):
                unit = [number, "", sorted(named)]
                yield unit
            unit[1] += line + "\n"
        elif kind is None:
            named = set() if line.startswith("#") else named
            named.update(re.findall(r"\w+\.(?:antt|rt)\b", line))


def main():
    sources = [(path.name, plain(path.read_text())) for path in found_in(SOURCES)]
    named = [pathlib.Path(name).resolve() for name in sys.argv[1:]]
    failed = False
    for page in named or found_in(PAGES):
        above = re.search(r"text\s+of\s+the\s+file\s+above\s+it", page.read_text())
        for number, unit, files in list(units(page.read_text())):
            for piece in re.split(r"\.\.(?!/)", COMMENT.sub("", unit)):
                sought = plain(piece)
                if len(sought) > 3 and not any(sought in source for name, source in sources if not above or name in files):
                    print(f"{page.relative_to(TOP)}:{number}: not in the sources: {' '.join(piece.split())[:160]}")
                    failed = True
    return int(failed)


sys.exit(main())
