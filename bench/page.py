#!/usr/bin/env python3
"""Compares what docs/PERFORMANCE.md and README.md show of speed with what bench/all.sh printed, which is in the files
bench/measured*.txt, one of each machine: the tables of loops, of cost against size and of whole programs, the sentence in
README, and the plots docs/loops.svg and docs/sizes.svg. Prints the lines that differ, and exits with 1 then. With --write
it fills and draws them.

    bench/page.py [--write]
"""

import math
import pathlib
import re
import statistics
import sys

TOP = pathlib.Path(__file__).resolve().parent.parent
PAGE = TOP / "docs" / "PERFORMANCE.md"
README = TOP / "README.md"
# The columns of the page, in order.
MEASURED = ("measured.txt", "measured_1mib.txt")
SIZES = (10000, 100000, 1000000, 10000000)
CHUNKS = (1, 10, 20, 40)
HERE, RUST, GRID, TEXT = "#0b6e4f", "#b3541e", "#dddddd", "#222222"


def number(cell):
    return float(cell) if re.fullmatch(r"-?[\d.]+", cell) else None


def measured(name):
    """By the name of a loop and the words after it: its nanoseconds here and in the Rust crate, and their ratio, as the
    scripts divided them. By `lines` and the words of a program: its milliseconds, their ratio, and MiB with their ratio."""
    found = {}
    for line in (TOP / "bench" / name).read_text().split("\n"):
        key, *cells = re.split(r"\s{2,}", line.split("  OTHER")[0].strip())
        values = [number(cell) for cell in cells]
        if re.fullmatch(r"[a-z]\w*( \d+)*", key) and len(values) in (2, 5) and key not in ("loop", "machine", "state"):
            found[key] = (values[0], values[2] if len(values) == 5 else None, values[4] if len(values) == 5 else None)
        elif key.startswith("lines ") and len(values) == 9:
            found[key] = (values[1], values[3], values[5], *values[6:])
    return found


def told(nanoseconds):
    """Two or three digits that count."""
    digits = next(digits for least, digits in ((100, 0), (10, 1), (0.2, 2), (0.02, 3), (0, 4)) if nanoseconds >= least)
    return f"{nanoseconds:,.{digits}f}"


def loop_row(line, machines):
    """A row of the table of loops with its figures: three columns for each machine."""
    row = re.fullmatch(r"\| `(\w+)`: (.*?) \|(?: [\d.,]* ?\|)+", line)
    if not row:
        return line
    cells = []
    for found in machines:
        here, rust, ratio = found.get(row[1], (None, None, None))
        cells += ["" if here is None else told(here), "" if rust is None else told(rust), "" if ratio is None else f"{ratio:.2f}"]
    return f"| `{row[1]}`: {row[2]} |" + "".join(f" {cell} |" if cell else " |" for cell in cells)


def size_row(line, found):
    """A row of the table of sizes with its figures."""
    row = re.match(r"\| `(\w+)` \|.* / ", line)
    if not row or f"{row[1]} {SIZES[0]}" not in found:
        return line
    pairs = (found.get(f"{row[1]} {size}", (0, None, None)) for size in SIZES)
    cells = (f" {told(here)} / {told(rust)} |" if rust else " |" for here, rust, _ in pairs)
    return f"| `{row[1]}` |" + "".join(cells)


def chunk_line(line, found):
    """The line on blocks in one of some chunks."""
    for name in ("read_older", "write_older"):
        cases = [found.get(f"{name} 10000000 {chunks}") for chunks in CHUNKS]
        if all(cases):
            line = re.sub(rf"(`{name}`) [\d., ]+ ns", r"\1 " + ", ".join(told(case[0]) for case in cases) + " ns", line)
    return line


def program_row(line, machines):
    """A row of the table of whole programs: times with memory, and both ratios, of each machine."""
    row = re.match(r"(\| `([a-z][a-z0-9 ]*)`, [^|]*\|)(?: [^|]*\||\|)+$", line)
    if not row:
        return line
    cells = []
    for found in machines:
        case = found.get(f"lines {row[2]}")
        cells += [f" {told(case[i])} ms, {case[3 + i]:.3g} MiB |" for i in (0, 1)] if case else [" |", " |"]
        cells += [f" {case[2]:.2f}, {case[5]:.2f} |" if case else " |"]
    return row[1] + "".join(cells)


def filled(line, machines):
    """A line of the page with its figures."""
    older = next((found for found in machines if "read_older 10000000 1" in found), {})
    return program_row(chunk_line(size_row(loop_row(line, machines), machines[0]), older), machines)


def ratios_of(page, machines):
    """The ratio of each loop of the page, on the first machine with both of its times."""
    timed = {}
    for loop in re.findall(r"^\| `(\w+)`: ", page, re.M):
        case = next((found[loop] for found in machines if loop in found and found[loop][1] is not None), None)
        if case:
            timed[loop] = case
    return timed


def summed_up(text, timed):
    """README with the numbers of its sentence on speed."""
    ratios = sorted(case[2] for case in timed.values())
    least, next_to_last, last = f"{ratios[0]:.2f}", f"{ratios[-2]:.2f}", f"{ratios[-1]:.0f}"
    numbers = (len(ratios) - 1, len(ratios), least, next_to_last, last, f"{statistics.median(ratios):.2f}")
    form = r"(\d+) of \[(\d+) loops\]\S+ take ([\d.]+) to ([\d.]+) .*?takes (\d+) times .*?median is (\d\.\d+)"
    found = re.search(form, text, re.DOTALL)
    for i in range(6, 0, -1) if found else ():
        text = text[: found.start(i)] + str(numbers[i - 1]) + text[found.end(i) :]
    return text


def text(x, y, words, anchor="start", colour=TEXT, size=12):
    return f'<text x="{x:.1f}" y="{y:.1f}" font-size="{size}" text-anchor="{anchor}" fill="{colour}">{words}</text>'


def line(x1, y1, x2, y2, colour=GRID):
    return f'<line x1="{x1:.1f}" y1="{y1:.1f}" x2="{x2:.1f}" y2="{y2:.1f}" stroke="{colour}"/>'


def svg(width, height, title, shapes):
    return "\n".join([
        f'<svg xmlns="http://www.w3.org/2000/svg" width="{width}" height="{height}" viewBox="0 0 {width} {height}" '
        'font-family="sans-serif" role="img">',
        f"<title>{title}</title>",
        f'<rect width="{width}" height="{height}" fill="#ffffff"/>',
        *shapes,
        "</svg>",
        "",
    ])


def ratios(loops, found):
    """A bar from 1 to the ratio for each loop, by a scale that doubles."""
    left, step, top = 190, 17, 46
    bottom = top + step * len(loops)

    def x(ratio):
        return left + (math.log2(max(ratio, 0.25)) + 2) * 90

    shapes = [text(left, 16, "time here by time in the Rust crate: left of 1 is faster here", size=13)]
    for ratio in (0.25, 0.5, 1, 2, 4, 8, 16):
        shapes += [line(x(ratio), top - 8, x(ratio), bottom, TEXT if ratio == 1 else GRID)]
        shapes += [text(x(ratio), top - 14, f"{ratio:g}", "middle")]
    for i, loop in enumerate(loops):
        ratio, y = found[loop][2], top + step * i
        low, high = sorted((x(1), x(ratio)))
        colour = HERE if ratio <= 1 else RUST
        shapes += [text(left - 10, y + 12, loop, "end")]
        shapes += [f'<rect x="{low:.1f}" y="{y + 3}" width="{max(high - low, 1):.1f}" height="{step - 6}" fill="{colour}"/>']
        shapes += [text(high + 5, y + 12, f"{ratio:.2f}", colour=colour)]
    return svg(780, bottom + 12, "Each loop's time here by the Rust crate's", shapes)


def panel(name, found, left, top):
    """One loop's times, here and in the Rust crate, over its sizes; both scales are by tens."""
    wide, high = 230, 150
    points = [(size, *found[f"{name} {size}"][:2]) for size in SIZES if f"{name} {size}" in found]
    times = [time for point in points for time in point[1:]]
    low, top_power = math.floor(math.log10(min(times))), math.ceil(math.log10(max(times)))

    def x(size):
        return left + (math.log10(size) - 4) / 3 * wide

    def y(time):
        return top + high - (math.log10(time) - low) / (top_power - low) * high

    shapes = [text(left, top - 8, name, size=13)]
    for power in range(low, top_power + 1):
        shapes += [line(left, y(10**power), left + wide, y(10**power)), text(left - 5, y(10**power) + 4, f"{10.0**power:g}", "end")]
    for size in SIZES:
        shapes += [line(x(size), top, x(size), top + high), text(x(size), top + high + 15, f"{size:,}", "middle", size=10)]
    for which, colour, dash in ((1, HERE, ""), (2, RUST, ' stroke-dasharray="5 3"')):
        way = " ".join(f"{x(point[0]):.1f},{y(point[which]):.1f}" for point in points)
        shapes += [f'<polyline points="{way}" fill="none" stroke="{colour}" stroke-width="2"{dash}/>']
        shapes += [f'<circle cx="{x(p[0]):.1f}" cy="{y(p[which]):.1f}" r="3" fill="{colour}"/>' for p in points]
    return shapes


def costs(series, found):
    """A panel for each loop, three in a row."""
    shapes = [text(40, 20, "nanoseconds an operation, by the number of values:", size=13)]
    shapes += [text(400, 20, "here", colour=HERE, size=13), text(440, 20, "the Rust crate (dashed)", colour=RUST, size=13)]
    for i, name in enumerate(series):
        shapes += panel(name, found, 45 + i % 3 * 300, 60 + i // 3 * 215)
    return svg(920, 60 + (len(series) + 2) // 3 * 215 - 20, "Time of an operation against the number of values", shapes)


def main():
    machines = [measured(name) for name in MEASURED]
    page = "\n".join(filled(line, machines) for line in PAGE.read_text().split("\n"))
    timed = ratios_of(page, machines)
    series = [name for name in re.findall(r"^\| `(\w+)` \|.* / ", page, re.M) if f"{name} {SIZES[0]}" in machines[0]]
    wanted = {
        PAGE: page,
        README: summed_up(README.read_text(), timed),
        TOP / "docs" / "loops.svg": ratios(list(timed), timed),
        TOP / "docs" / "sizes.svg": costs(series, machines[0]),
    }
    differ = False
    for file, text in wanted.items():
        if "--write" in sys.argv[1:]:
            file.write_text(text)
            continue
        for at, (line, other) in enumerate(zip(file.read_text().split("\n"), text.split("\n")), 1):
            if line != other:
                print(f"{file.relative_to(TOP)}:{at}: {line}\n    as measured: {other}")
                differ = True
    return int(differ)


sys.exit(main())
