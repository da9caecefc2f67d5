#!/usr/bin/env python3
"""sections.py MODULE: removes an empty table, which engines without 64-bit tables can't read."""
import sys

TABLE, ELEMENTS = 4, 9


def number(data, at):
    """The number of variable length at this index, and the index after it."""
    value = shift = 0
    while True:
        byte = data[at]
        at += 1
        value |= (byte & 127) << shift
        shift += 7
        if not byte & 128:
            return value, at


def sections(data):
    """The kind and the bytes of each section."""
    at = 8
    while at < len(data):
        size, body = number(data, at + 1)
        yield data[at], data[at : body + size]
        at = body + size


def main(path):
    with open(path, "rb") as module:
        data = module.read()
    parts = list(sections(data))
    if all(kind != ELEMENTS for kind, _ in parts):
        with open(path, "wb") as module:
            module.write(data[:8] + b"".join(part for kind, part in parts if kind != TABLE))


main(sys.argv[1])
