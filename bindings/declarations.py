#!/usr/bin/env python3
"""declarations.py FILE..: prints the functions that these files declare for C, and the structs that they pass, a line each.

A file is a header of C, a source of Rust with an `extern "C"` block, or a source of Rattle with exported functions. The
lines have the same form for all three: where they differ, so do the declarations."""
import re
import sys

FUNCTION_IN_C = re.compile(r"^(uint32_t|uint64_t) (\w+)\(([^)]*)\);", re.M)
FUNCTION_IN_RUST = re.compile(r'(?:extern "C"|^   )(?: pub\(crate\))?(?: safe)? fn (arena_\w+)\(([^)]*)\)\s*-> (u32|u64)', re.M)
STRUCT = re.compile(r"(?:#\[repr\(C\)\]\n(?:#\[.*\]\n)*(?:pub(?:\(crate\))? )?|^)struct (\w+) \{([^}]*)\}", re.M)
C_TYPES = {"uint8_t": "u8", "uint32_t": "u32", "uint64_t": "u64", "size_t": "usize"}


def of_c(parameter):
    """The type of a parameter in C."""
    words = re.findall(r"\w+|\*", parameter)
    is_const = words[0] == "const"
    base = words[1 if is_const else 0]
    pointer = ["*const" if is_const else "*mut"] if "*" in words else []
    return [" ".join(pointer + [C_TYPES.get(base, base)])]


def of_rust(parameter):
    """The types that C passes for a parameter in Rust or Rattle: a slice is a pointer and a length."""
    kind = parameter.split(": ")[1]
    if kind == "Global":
        return []
    item = re.sub(r"[A-Z]\w*", "struct", re.search(r"\w+(?=\]?$)", kind)[0])
    is_unique = "mut " in kind
    if kind.startswith(("&", "*")):
        pointer = f"{'*mut' if is_unique else '*const'} {item}"
        return [pointer, "usize"] if "[" in kind else [pointer]
    return [item]


def parts(text, separator):
    """The parts of a list, without the empty one at its end."""
    return [part.strip() for part in text.split(separator) if part.strip()]


def fields_of_c(listed):
    """The fields of a struct in C as Rust writes them."""
    for line in parts(listed, ";"):
        kind, names = line.split(maxsplit=1)
        yield from (f"{name}: {C_TYPES.get(kind, kind)}" for name in parts(names, ","))


def declarations(path):
    with open(path, encoding="utf-8") as file:
        text = re.sub(r"/\*.*?\*/|//.*", "", file.read(), flags=re.S if path.endswith(".h") else 0)
    function, types = (FUNCTION_IN_C, of_c) if path.endswith(".h") else (FUNCTION_IN_RUST, of_rust)
    for found in function.findall(text):
        name, listed, result = found if types is of_rust else (*found[1:], C_TYPES[found[0]])
        yield f"{name}({', '.join(kind for one in parts(listed, ',') for kind in types(one))}) -> {result}"
    for name, listed in STRUCT.findall(text):
        fields = fields_of_c(listed) if types is of_c else [re.sub("^pub ", "", field) for field in parts(listed, ",")]
        yield f"struct {name.split('_')[-1].lower()} {{ {', '.join(fields)} }}"


print("\n".join(sorted(line for path in sys.argv[1:] for line in declarations(path))))
