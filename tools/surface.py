#!/usr/bin/env python3
"""Prints each public item of the libraries that `surface_tests` doesn't use.

Items are the names that a library exports, the methods of exported types, and those of exported traits. Only names are
compared: of a method that several types have, one use is enough. Laws are left out, and `INNER`."""
import collections
import glob
import os
import re
import sys

os.chdir(os.path.dirname(os.path.dirname(os.path.realpath(__file__))))
TESTS = "surface_tests"

# What only crates and examples of this repository call or implement: a type stands for its methods, too.
INNER = """
Beside Plain
cut_place join_parts parse_scripts put_outcome put_outcomes read_command
Base Deed Region Steps OverArena Zeros Growth grown take_room allocator_of
item_at put_copies put_item put_items copy_items move_items Item::encode_all InArena SliceIter
Origin CloneIn::copy_of CloneIn::is_flat ChunkSource::request_region RefusingChunks::requests Ones::next
Table Entry Names Tree::parse_in_one_pass vectors constants
ClaimView OwnerView lint_parts Source Thing Lender Task
Run Replies run_calls_into Bytes::one Draws Tally Text LinesErr ReadErr
exit_with is_one_word parse_calls put_summary read_all room_for_text run_input write_all
""".split()


def text_of(path):
    """Returns the code of a file without comments and string literals."""
    code = open(path, encoding="utf-8").read()
    return re.sub(r'//[^\n]*|"(?:\\.|[^"\\])*"', "", code)


def uses():
    """Returns for each crate in `crates.txt` the libraries that it names."""
    lines = (line.split("#")[0] for line in open("crates.txt", encoding="utf-8"))
    return {name.split()[0]: names.split() for name, _, names in (line.partition(":") for line in lines) if names.strip()}


def names_in(tree):
    """Returns the names that the tree of a `pub use` brings in."""
    return [word for word in re.findall(r"(\w+)(?=\s*(?:,|\}|$))", tree) if word != "self"]


def exported(crate):
    """Returns the names that a library exports at its top."""
    code = text_of(f"crates/{crate}/src/lib.rt")
    found = re.findall(r"^pub (?:fn|struct|enum|trait|const) (\w+)", code, re.M)
    for tree in re.findall(r"^pub use (?!laws)([^;]+);", code, re.M):
        found += names_in(re.sub(r"\b\w+ as ", "", tree))
    return found


def block_at(code, start):
    """Returns the text from a brace to the one that closes it."""
    depth = 0
    for at in range(start, len(code)):
        depth += {"{": 1, "}": -1}.get(code[at], 0)
        if depth == 0:
            return code[start:at]
    return code[start:]


def methods(code, types):
    """Returns the methods, with their types, of a file's impls and traits."""
    for head in re.finditer(r"^impl\b(?:<[^{]*?>)? ?(\w+)(?:<[^{]*>)?\s*(?:where[^{]*)?\{", code, re.M):
        if head[1] in types:
            for name in re.findall(r"^    pub (?:const )?fn (\w+)", block_at(code, head.end() - 1), re.M):
                yield head[1], name
    for head in re.finditer(r"^pub trait (\w+)[^{]*\{", code, re.M):
        if head[1] in types:
            for name in re.findall(r"^    fn (\w+)", block_at(code, head.end() - 1), re.M):
                yield head[1], name


def main():
    libraries = sorted(name for name in uses()[TESTS] if os.path.isdir(f"crates/{name}"))
    types = {name for library in libraries for name in exported(library)}
    items = collections.defaultdict(set)
    for name in types - set(INNER):
        items[name].add(name)
    for path in glob.glob("crates/*/src/**/*.rt", recursive=True):
        crate = path.split("/")[1]
        if "/laws" in path or re.search("test|bench|example|plain", crate):
            continue
        for owner, name in methods(text_of(path), types):
            if owner not in INNER and f"{owner}::{name}" not in INNER:
                items[name].add(f"{owner}::{name}")
    used = collections.Counter()
    for path in glob.glob(f"crates/{TESTS}/src/**/*.rt", recursive=True):
        used.update(re.findall(r"\w+", text_of(path)))
    missing = sorted(item for name, owners in items.items() if name not in used for item in owners)
    print("\n".join(missing), end="\n" if missing else "")
    return 1 if missing else 0


sys.exit(main())
