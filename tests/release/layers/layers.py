"""layers.py TREE: compares what ARCHITECTURE.md and crates.txt of a tree say with its crates. It prints a line for each
fault and the counts last; the status is 1 where there is a fault.

- Each crate of a line of crates.txt is cited by a file of the line's crate (in src, specs or proofs), and each crate
  that a file cites is in the line of its crate.
- Each crate is in one row of one layer of ARCHITECTURE.md, and cites none of a higher layer.
- Each function, type and definition that ARCHITECTURE.md names in backticks is in the crate that is named last before
  it, in the same paragraph, row or item. One in a numbered item has to have such a crate.
"""
import os
import re
import sys

sys.path.insert(0, os.path.join(os.path.dirname(os.path.abspath(__file__)), "..", "..", "mutants"))
import texts  # noqa: E402

# Edges of crates.txt that nothing cites. A change of a line makes the proof of its crate due, so such an edge goes when
# that proof is due anyway, and its entry here with it: an entry that is no such edge is a fault.
UNCITED = """
pf_tests_low: rand_core
"""

LINE = re.compile(r"^([a-z][a-z0-9_]*)[^:\n#]*:(.*)$", re.M)
# How files cite a crate: in a `use` and before `::` in Rust, and after `Rattle.` in contracts, specs and proofs.
USED = re.compile(r"^[ \t]*(?:pub(?:\([^)]*\))?\s+)?use\s+(?:::)?([a-z]\w*)", re.M)
PATH = re.compile(r"(?<![\w:.])([a-z]\w*)\s*::")
RATTLE = re.compile(r"\bRattle\.(\w+)")
MODULE = re.compile(r"\bmod\s+(\w+)")
OWN = {"std", "crate", "self", "super"}

# A definition, with its constructors and fields.
DEFINED = re.compile(
    r"^[ \t]*(?:(?:abbrev|pub|unfoldable|opaque|private|record|data|ruleset)[ \t]+)*"
    r"([^\s:(){}]+(?:[ \t,]+[^\s:(){}]+)*)[ \t]*(?:[({][^:\n]*)?:(?:\s|$)",
    re.M,
)

LAYER = re.compile(r"^### (\d+)\. ")
ROW = re.compile(r"^\| `(\w+)` \|")
NUMBERED = re.compile(r"^\d+\. ")
BEGINS = re.compile(r"^(?:\d+\. |- |#|\|)")
NAME = re.compile(r"\w+(?:::\w+)*(?:::\{\w+(?:, \w+)*\})?")


class Faults:
    """What was looked at: how much of it passed and failed. A fault is printed."""

    def __init__(self):
        self.passed, self.failed = 0, 0

    def see(self, is_right, fault):
        """Counts what is right, or prints its fault."""
        if is_right:
            self.passed += 1
        else:
            self.failed += 1
            print(fault)


def read(path):
    """Returns the text of a file."""
    with open(path, encoding="utf-8") as file:
        return file.read()


def lines_of(text):
    """Returns the crates of each line, by the crate whose line it is."""
    return {it[1]: it[2].split() for it in LINE.finditer(text)}


def files_of(top, crate):
    """Returns the paths of a crate's sources, specs and proofs."""
    found = []
    for part in ("src", "specs", "proofs"):
        for where, _, names in os.walk(f"{top}/crates/{crate}/{part}"):
            found += [f"{where}/{name}" for name in names if name.endswith((".rt", ".antt"))]
    return sorted(found)


def cited_in(path, known):
    """Returns the crates that a file cites. A word before `::` may be a module, so it counts if it is a known crate."""
    text = read(path)
    if path.endswith(".antt"):
        return set(RATTLE.findall(texts.uncommented(text)))
    blank = texts.hidden(text)
    used = set(USED.findall(blank)) - set(MODULE.findall(blank))
    return used | set(RATTLE.findall(blank)) | known & set(PATH.findall(blank))


def see_citations(top, lines, faults):
    """Compares the lines of crates.txt with what is cited; returns the crates that each crate cites."""
    known = {it for crate, others in lines.items() for it in (crate, *others)}
    uncited = {(crate, other) for crate, others in lines_of(UNCITED).items() for other in others}
    cited = {}
    for crate, others in lines.items():
        places = {}
        for path in files_of(top, crate):
            for other in cited_in(path, known) - OWN - {crate}:
                places.setdefault(other, os.path.relpath(path, top))
        for other in others:
            if (crate, other) in uncited and other not in places:
                uncited.remove((crate, other))
            else:
                faults.see(other in places, f"crates.txt: {crate} has {other}, which none of its files cites")
        for other, path in places.items():
            faults.see(other in others, f"{path}: cites {other}, which the line of {crate} in crates.txt lacks")
        cited[crate] = places
    for crate, other in sorted(uncited):
        faults.see(False, f"layers.py: {other} in the line of {crate} is no edge that nothing cites")
    return cited


def rows_of(page, faults):
    """Returns the layers of each crate that has a row, a number for each row."""
    rows, layer = {}, 0
    for line in page.partition("\n## Layers\n")[2].partition("\n## ")[0].split("\n"):
        number, row = LAYER.match(line), ROW.match(line)
        if number:
            layer += 1
            faults.see(number[1] == str(layer), f"ARCHITECTURE.md: layer {layer} has another number: {line}")
        elif row:
            rows.setdefault(row[1], []).append(layer)
    return rows


def see_layers(rows, cited, faults):
    """Sees that each crate is in one layer, and that it cites none of a higher one."""
    for crate in sorted(cited.keys() | rows.keys()):
        layers = rows.get(crate, [])
        if crate in cited:
            faults.see(len(layers) == 1, f"ARCHITECTURE.md: {crate} has {len(layers)} rows in the layers, and not one")
        else:
            faults.see(False, f"ARCHITECTURE.md: {crate} has a row, and crates.txt has no such crate")
    for crate, places in cited.items():
        for other, path in places.items():
            if other in cited and crate in rows and other in rows:
                low, high = rows[other][0], rows[crate][0]
                faults.see(low <= high, f"{path}: cites {other} of layer {low}, and {crate} is in layer {high}")


def blocks_of(page):
    """Returns the paragraphs, items and rows of a page, each on one line. A block of code is none."""
    blocks, is_open = [], False
    for line in re.sub(r"^```.*?^```", "", page, flags=re.S | re.M).split("\n"):
        if is_open and line.strip() and not BEGINS.match(line):
            blocks[-1] += " " + line.strip()
        elif line.strip():
            blocks.append(line)
        is_open = bool(line.strip())
    return blocks


class Names:
    """What the functions, types and definitions of a crate are called."""

    def __init__(self, top, crate):
        self.functions, self.declared, self.defined = set(), {}, set()
        for path in files_of(top, crate):
            if path.endswith(".antt"):
                found = DEFINED.finditer(texts.uncommented(read(path)))
                self.defined.update(name for it in found for name in re.split(r"[\s,]+", it[1]))
                continue
            file = texts.RustFile(read(path))
            self.functions |= {(it.owner, it.name) for it in file.functions}
            self.declared.update(file.declared)

    def has(self, name):
        """Returns whether there is something of this name: after a type, a function, a variant or a field of it."""
        owner, _, last = name.rpartition("::")
        if owner:
            return (owner, last) in self.functions or bool(re.search(rf"\b{last}\b", self.declared.get(owner, "")))
        return last in self.defined or last in self.declared or any(it == last for _, it in self.functions)


def each_of(name):
    """Returns the names that a name with parts in braces has, or the name itself."""
    front, _, parts = name.partition("{")
    return [front + it for it in parts.rstrip("}").split(", ")] if parts else [name]


def see_names(top, page, crates, faults):
    """Sees that what the page names is there."""
    known = {}
    for block in blocks_of(page):
        crate = None
        for word in re.findall(r"`([^`]+)`", block):
            if word in crates:
                crate = word
            elif not NAME.fullmatch(word):
                continue
            elif crate:
                known.setdefault(crate, None)
                known[crate] = known[crate] or Names(top, crate)
                for name in each_of(word):
                    faults.see(known[crate].has(name), f"ARCHITECTURE.md: {crate} has no {name}")
            elif NUMBERED.match(block):
                faults.see(False, f"ARCHITECTURE.md: {word} has no crate before it, in: {block[:60]}..")


def main(top):
    faults = Faults()
    lines = lines_of(read(f"{top}/crates.txt"))
    page = read(f"{top}/ARCHITECTURE.md")
    for crate in sorted(os.listdir(f"{top}/crates")):
        faults.see(crate in lines, f"crates.txt: there is no line of {crate}, which is in crates/")
    cited = see_citations(top, lines, faults)
    see_layers(rows_of(page, faults), cited, faults)
    see_names(top, page, cited.keys(), faults)
    print(f"{faults.passed} passed, {faults.failed} failed")
    return 1 if faults.failed or not faults.passed else 0


if __name__ == "__main__":
    sys.exit(main(sys.argv[1]))
