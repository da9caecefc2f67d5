#!/usr/bin/env python3
"""Tries mutants: changes of the code that the prover must refuse. (`rt ci` tries those in crates/CRATE/must-fail.)

    tools/mutants.py [CRATE..]   those in mutants/CRATE, of each crate that is named, or of all, in batches
    tools/mutants.py --some N    N of crates of less than 700 lines, others with each change of the sources
    tools/mutants.py --state     tries none: a table of what is known of each crate's
    --dry                        before names: tries none, and prints the batches
    --check COMMAND              before names: what checks a crate, in place of `rt check`, with {root} and {crate} in it

A batch changes different functions of one crate in one check, and each must be reported by the prover at its own
function. One that isn't reported, or that no check could read, is tried alone, as is one that changes more than the
bodies of functions. Works on a copy of the tree, with what `rt check` or `rt ci` left in its folders `out`, and prints
what becomes of each. mutants/tried.txt gets a line for each that was refused: a checksum of it and of what its verdict
depends on, the day, and its name. That is its function, the definitions and contracts of its crate and of those below;
proofs and other bodies don't count. One with its line isn't tried again; --some tries any, and writes no line.

Exits with 1 if the prover accepts one, or one can't be applied or compiled, and with 2 if one wasn't tried.
"""

import collections
import datetime
import hashlib
import os
import pathlib
import re
import shutil
import subprocess
import sys
import tempfile

TOP = pathlib.Path(__file__).resolve().parent.parent
TRIED = TOP / "mutants" / "tried.txt"
FUNCTION = re.compile(r"^(\s*)(?:pub(?:\([a-z]+\))? )?(?:final )?(?:const )?(?:unsafe )?(?:extern \"C\" )?fn (\w+)")
CLAUSE = re.compile(r"\s*(requires|ensures|ghost)\b")
ATTRIBUTE = re.compile(r"^\s*#\[(?:tactic|inline|cold)\b.*?\]\n", re.MULTILINE | re.DOTALL)
PLACE = re.compile(r"(?:note: )?(?:\./)?(src|proofs)/(\S+?):(\d+)")
UNPROVED = re.compile(r"fn \w+::(\S+): (?:not proved|no proof)")
# A proof file that names what a change took away says little of the contract.
NAMES = re.compile(r"has no field|is not in scope|has no `|was not admitted")
# What the prover says of a text that it can't read, where a false statement reads well.
ERROR = re.compile(r"(?:\./)?(\S+?):\d+:\d+: error: (?:(`[^`]*`): )?(.*)")
UNREAD = re.compile(r"is not in scope|has no field|is no name|operand is missing|expected the end|cannot continue")

Change = collections.namedtuple("Change", "file old new function")
Mutant = collections.namedtuple("Mutant", "name changes")


def functions(text):
    """By the number of a line, from 1: the first line, the name and the last line of the function that it is in."""
    spans, begun = {}, None
    lines = text.split("\n")
    for number, line in enumerate(lines, 1):
        found = FUNCTION.match(line)
        if found:
            begun = (number, found[2], found[1], False)
        if not begun:
            continue
        first, name, indent, body = begun
        end = line.rstrip()
        if not body and (end == indent + "{" or end.endswith(" {") and not CLAUSE.match(line)):
            begun, body = (first, name, indent, True), True
        if line == indent + "}" or not body and end.endswith((";", "{}")):
            for inside in range(first, number + 1):
                spans[inside] = (first, name, number)
            begun = None
    return spans


def contracts(text):
    """A source without the bodies of its functions, comments, and the words for the automatic proof."""
    spans, kept, body = functions(text), [], 0
    for number, line in enumerate(text.split("\n"), 1):
        span = spans.get(number)
        if span and line.rstrip().endswith("{") and not CLAUSE.match(line) and number > body:
            body = span[2]
            kept.append(line.rstrip("{ "))
        elif number > body and not line.strip().startswith("//"):
            kept.append(line)
    return ATTRIBUTE.sub("", "\n".join(kept))


def read_mutant(path):
    """The mutant of a file, or says why it can't be applied."""
    folder = TOP / "crates" / path.parent.name
    changes, file, old = [], None, None
    for line in path.read_text().split("\n"):
        if line.startswith("file: "):
            file = line[6:].strip()
        elif line.startswith("old: "):
            old = line[5:]
        elif line.startswith("new:") and file and old:
            if not (folder / file).is_file():
                return f"there is no {file}"
            text = (folder / file).read_text()
            for change in changes:
                text = text.replace(change.old, change.new, 1) if change.file == file else text
            if text.count(old) != 1:
                return f"an old text is in {file} {text.count(old)} times"
            at = text[: text.index(old)].count("\n") + 1
            changes.append(Change(file, old, line[5:], functions(text).get(at) if file.startswith("src/") else None))
            old = None
    return Mutant(f"{path.parent.name}/{path.name}", changes) if changes else "it has no pair of texts"


def crates_below():
    """By the name of each crate of crates.txt, all crates below it, of which the file has a line before."""
    below = {}
    for line in (TOP / "crates.txt").read_text().split("\n"):
        found = re.match(r"(\w+)[^:#]*:([^#]*)", line)
        if found:
            named = [name for name in found[2].split() if name in below]
            below[found[1]] = sorted({*named, *(under for name in named for under in below[name])})
    return below


class Keys:
    """Checksums of what a mutant's verdict depends on."""

    def __init__(self):
        self.below, self.stated = crates_below(), {}

    def states(self, crate):
        """A checksum of a crate's definitions and contracts."""
        if crate not in self.stated:
            folder = TOP / "crates" / crate
            texts = [contracts(file.read_text()) for file in sorted(folder.glob("src/**/*.rt"))]
            texts += [file.read_text() for file in sorted(folder.glob("specs/**/*.antt"))]
            self.stated[crate] = hashlib.sha256("\0".join(texts).encode()).hexdigest()
        return self.stated[crate]

    def key(self, mutant):
        crate = mutant.name.split("/")[0]
        parts = [(TOP / "mutants" / mutant.name).read_text()]
        for change in mutant.changes:
            lines = (TOP / "crates" / crate / change.file).read_text().split("\n")
            first, _, last = change.function or (1, None, len(lines))
            parts.append("\n".join(lines[first - 1 : last]))
        parts += [self.states(name) for name in [crate, *self.below[crate]]]
        return hashlib.sha256("\0".join(parts).encode()).hexdigest()[:16]


def in_batches(mutants):
    """Lists of mutants no two of which change functions of one name in one file. One that changes more is alone."""
    batches, alone = [], []
    for mutant in mutants:
        spots = {(change.file, change.function and change.function[1]) for change in mutant.changes}
        if any(name is None for _, name in spots):
            alone.append([mutant])
            continue
        for taken, batch in batches:
            if not taken & spots:
                taken |= spots
                batch.append(mutant)
                break
        else:
            batches.append((spots, [mutant]))
    return [batch for _, batch in batches] + alone


def module_of(file):
    """The modules of a file of src/."""
    parts = list(pathlib.PurePath(file).with_suffix("").parts[1:])
    return parts[:-1] if parts[-1] in ("lib", "main", "mod") else parts


class Said:
    """What a check printed of a crate with changed texts."""

    def __init__(self, status, printed, texts):
        self.lines, self.texts = printed.rstrip("\n").split("\n"), texts
        self.spans = {file: functions(text) for file, text in texts.items()}
        self.last = next((line for line in reversed(self.lines) if line.startswith("logic=")), self.lines[-1])
        self.proved = status == 0 and self.last.startswith("logic=proved")
        unread = [line for line in self.lines if self.unread(line)]
        self.refused = status == 1 and self.last.startswith("logic=not-proved") and not unread
        uncompiled = [line for line in self.lines if re.search(r"\berror\[[\w-]+\]", line)]
        self.bad = unread or ([] if self.refused or self.proved else uncompiled)

    def unread(self, line):
        """Whether the prover couldn't read a text of src/, of specs/ or of a changed file."""
        error = ERROR.match(line)
        if not error or error[1] not in self.texts and not error[1].startswith(("src/", "specs/")):
            return False
        return not error[2] or bool(UNREAD.search(re.sub(r"`[^`]*`", "", error[3])))

    def at(self, line, mutant):
        """Whether a line of the output is about a function that the mutant changes."""
        place, unproved = PLACE.match(line), UNPROVED.match(line)
        for change in mutant.changes:
            name, modules = change.function and change.function[1], module_of(change.file)
            if place and place[1] == "src" and f"src/{place[2]}" == change.file:
                span = self.spans[change.file].get(int(place[3]))
                if span and span[1] == name:
                    return True
            if place and place[1] == "proofs" and not NAMES.search(line):
                parts = place[2].split("/")[:-1]
                if parts[: len(modules)] == modules and name in parts[len(modules) :]:
                    return True
            if unproved:
                parts = unproved[1].split("::")
                if parts[: len(modules)] == modules and parts[-1] == name:
                    return True
        return False

    def told(self, mutant):
        """The first line that is about the mutant, if there is one."""
        return next((line for line in self.lines if self.at(line, mutant)), None)


class Copy:
    """A copy of the crates, on which mutants are tried."""

    def __init__(self, crates, command):
        self.root, self.command = pathlib.Path(tempfile.mkdtemp(prefix="mutants-")), command
        below = crates_below()
        needed = sorted({*crates, *(under for crate in crates for under in below[crate])})
        (self.root / "crates").mkdir()
        for crate in needed:
            subprocess.run(["cp", "-a", "--reflink=auto", TOP / "crates" / crate, self.root / "crates"], check=True)
            shutil.rmtree(self.root / "crates" / crate / "must-fail", ignore_errors=True)
        for name in ("crates.txt", "HANDLES"):
            shutil.copy2(TOP / name, self.root)

    def check(self, crate, mutants):
        """Checks the crate with these mutants, and puts its files back."""
        folder, texts = self.root / "crates" / crate, {}
        for change in (change for mutant in mutants for change in mutant.changes):
            text = texts.get(change.file) or (folder / change.file).read_text()
            texts[change.file] = text.replace(change.old, change.new, 1)
        was = {file: (folder / file).read_text() for file in texts}
        command = self.command.format(root=self.root, crate=crate)
        try:
            for file, text in texts.items():
                (folder / file).write_text(text)
            ran = subprocess.run(command, shell=True, cwd=folder, stdin=subprocess.DEVNULL, stdout=subprocess.PIPE,
                                 stderr=subprocess.STDOUT, text=True, errors="replace")
        finally:
            for file, text in was.items():
                (folder / file).write_text(text)
        return Said(ran.returncode, ran.stdout, texts)

    def drop(self):
        shutil.rmtree(self.root, ignore_errors=True)


class Tries:
    """Tries mutants of one crate, and gives each its outcome: `refused`, `NOT REFUSED`, `BAD EDIT` or `not tried`."""

    def __init__(self, copy, crate, end):
        self.copy, self.crate, self.end = copy, crate, end

    def run(self, mutants):
        base = self.copy.check(self.crate, [])
        if not base.proved:
            for mutant in mutants:
                self.end(mutant, "not tried", f"the crate itself isn't proved: {base.last[:120]}")
            return
        for batch in in_batches(mutants):
            self.batch(batch)

    def batch(self, mutants):
        if len(mutants) == 1:
            return self.alone(mutants[0])
        said = self.copy.check(self.crate, mutants)
        if said.refused:
            for mutant in mutants:
                line = said.told(mutant)
                if line:
                    self.end(mutant, "refused", f"in a batch of {len(mutants)}: {line[:140]}")
                else:
                    self.alone(mutant)
        elif said.proved:
            for mutant in mutants:
                self.alone(mutant)
        else:
            # Those that can't be compiled are set aside; without a hint which they are, half is tried at a time.
            wrong = [mutant for mutant in mutants if any(said.at(line, mutant) for line in said.bad)]
            if not wrong or len(wrong) == len(mutants):
                wrong = mutants[: len(mutants) // 2]
                self.batch(wrong)
            else:
                for mutant in wrong:
                    self.alone(mutant)
            rest = [mutant for mutant in mutants if mutant not in wrong]
            if rest:
                self.batch(rest)

    def alone(self, mutant):
        said = self.copy.check(self.crate, [mutant])
        if said.proved:
            self.end(mutant, "NOT REFUSED", "the crate is still proved")
        elif said.refused:
            told = [line for line in said.lines if PLACE.match(line) or UNPROVED.match(line)]
            first = next((line for line in told if not NAMES.search(line)), None)
            self.end(mutant, "refused", f"alone: {first[:140]}" if first else "alone, only because a proof names what it takes away")
        elif said.bad:
            self.end(mutant, "BAD EDIT", said.bad[0][:140])
        else:
            self.end(mutant, "not tried", said.last[:140])


def tried():
    """By the name of each mutant that was refused, the checksum and the day."""
    lines = TRIED.read_text().splitlines() if TRIED.exists() else []
    return {name: (key, day) for key, day, name in (line.split() for line in lines)}


def note_tried(name, key):
    lines = {**tried(), name: (key, datetime.date.today().isoformat())}
    TRIED.write_text("".join(f"{key} {day} {name}\n" for name, (key, day) in sorted(lines.items())))


def chosen(crates):
    """The mutants of these crates, by crate, and why some can't be applied."""
    found, bad = {}, {}
    for crate in crates:
        if not (TOP / "mutants" / crate).is_dir():
            sys.exit(f"there are no mutants of {crate}")
        found[crate] = []
        for path in sorted((TOP / "mutants" / crate).glob("*.edit")):
            mutant = read_mutant(path)
            if isinstance(mutant, str):
                bad[f"{crate}/{path.name}"] = mutant
            else:
                found[crate].append(mutant)
    return found, bad


def state(crates):
    """Prints how many mutants of each crate were refused over these sources, over earlier ones, and have no result."""
    keys, known, sums = Keys(), tried(), collections.Counter()
    found, bad = chosen(crates)
    print(f"{'crate':24}{'refused':>9}{'earlier':>9}{'unknown':>9}{'stale':>7}")
    for crate, mutants in found.items():
        now = sum(known.get(mutant.name, ("", ""))[0] == keys.key(mutant) for mutant in mutants)
        was = sum(mutant.name in known for mutant in mutants) - now
        row = (now, was, len(mutants) - now - was, sum(name.startswith(f"{crate}/") for name in bad))
        sums.update(dict(enumerate(row)))
        print(f"{crate:24}{row[0]:9}{row[1]:9}{row[2]:9}{row[3]:7}")
    print(f"{'all':24}{sums[0]:9}{sums[1]:9}{sums[2]:9}{sums[3]:7}")


def in_all(crates, command, dry):
    """Tries all mutants of these crates that weren't refused over the same sources."""
    keys, known = Keys(), tried()
    found, bad = chosen(crates)
    left = {crate: [mutant for mutant in mutants if known.get(mutant.name, ("",))[0] != keys.key(mutant)]
            for crate, mutants in found.items()}
    left = {crate: mutants for crate, mutants in left.items() if mutants}
    for name, why in bad.items():
        print(f"BAD EDIT: {name}: {why}")
    if dry:
        for crate, mutants in left.items():
            for batch in in_batches(mutants):
                print(f"{crate}: {len(batch)}: {' '.join(mutant.name.split('/')[1][:-5] for mutant in batch)}")
        return int(bool(bad))
    if not left:
        print("all of these were refused over these sources")
        return int(bool(bad))
    ends = collections.Counter({"BAD EDIT": len(bad)})

    def end(mutant, outcome, why):
        ends[outcome] += 1
        print(f"{outcome}: {mutant.name}: {why}", flush=True)
        if outcome == "refused":
            note_tried(mutant.name, keys.key(mutant))

    copy = Copy(left, command)
    try:
        for crate, mutants in left.items():
            Tries(copy, crate, end).run(mutants)
    finally:
        copy.drop()
    return 1 if ends["NOT REFUSED"] or ends["BAD EDIT"] else 2 if ends["not tried"] else 0


def lines_of(crate):
    return sum(len(file.read_text().splitlines()) for file in (TOP / "crates" / crate).glob("src/**/*.rt"))


def in_some(count, dry):
    """Tries some by the kit's own command, so that where the kit keeps what the gate has proved, that isn't proved again."""
    sources = hashlib.sha256()
    for file in sorted(TOP.glob("crates/*/s*/**/*")):
        if file.suffix in (".rt", ".antt") and "out" not in file.parts:
            sources.update(file.read_bytes())
    paths = [path for path in (TOP / "mutants").glob("*/*.edit") if lines_of(path.parent.name) < 700]
    names = sorted((f"{path.parent.name}/{path.name}" for path in paths),
                   key=lambda name: hashlib.sha256(sources.digest() + (TOP / "mutants" / name).read_bytes()).hexdigest())[:count]
    if dry:
        print("\n".join(names))
        return 0
    help_text = subprocess.run(["rt", "help"], stdout=subprocess.PIPE, stderr=subprocess.STDOUT, text=True).stdout
    word = "ci" if "rt ci NAME" in help_text else "must-fail"
    with tempfile.TemporaryDirectory(prefix="mutants-") as copy:
        subprocess.run(f"tar -cf - --exclude='*/out' --exclude='*/must-fail' crates crates.txt HANDLES | tar -xf - -C {copy}",
                       shell=True, cwd=TOP, check=True)
        for name in names:
            folder = pathlib.Path(copy) / "crates" / name.split("/")[0] / "must-fail"
            folder.mkdir(exist_ok=True)
            shutil.copy2(TOP / "mutants" / name, folder)
        # In CI the kit runs the whole gate alone, so it is run on the copy; the crates that have no mutant there are kept.
        crates = [] if os.environ.get("CI") == "true" and word == "ci" else sorted({name.split("/")[0] for name in names})
        ran = subprocess.run(["rt", word, *crates], cwd=copy, stdout=subprocess.PIPE, stderr=subprocess.STDOUT, text=True, errors="replace")
    status = 0
    for name in names:
        line = next((line for line in ran.stdout.split("\n") if f"must-fail {name}: " in line), f"not tried: {name}")
        print(line[:200])
        if f"{name}: refused, as it must be" not in line:
            print(f"not refused: {name}" if "NOT REFUSED" in line or "BAD EDIT" in line else f"not tried: {name}")
            status = 1 if "NOT REFUSED" in line or "BAD EDIT" in line else status or 2
    if status == 2:
        print("\n".join(ran.stdout.split("\n")[-20:]))
    return status


def main(words):
    dry, command, some, states = False, "rt check", None, False
    while words and words[0].startswith("--"):
        word = words.pop(0)
        if word == "--dry":
            dry = True
        elif word == "--state":
            states = True
        elif word == "--check" and words:
            command = words.pop(0)
        elif word == "--some" and words:
            some = int(words.pop(0))
        else:
            sys.exit(__doc__)
    if some is not None:
        return in_some(some, dry)
    crates = words or sorted(path.name for path in (TOP / "mutants").iterdir() if path.is_dir())
    return state(crates) if states else in_all(crates, command, dry)


if __name__ == "__main__":
    sys.exit(main(sys.argv[1:]))
