"""Reads mutants, applies them, and finds the names that decide whether one is refused."""
import glob
import os
import re

import names
import texts


class Edit:
    """A mutant: its crate, its name, where it is, and its triples of a file, an old text and a new one."""

    def __init__(self, crate, path):
        self.crate, self.path, self.name, self.changes = crate, path, os.path.basename(path), []
        file = old = ""
        with open(path, encoding="utf-8", errors="surrogateescape") as lines:
            for line in lines.read().split("\n"):
                if line.startswith("file: "):
                    file = line[len("file: ") :].strip()
                elif line.startswith("old: "):
                    old = line[len("old: ") :]
                elif line.startswith("new:"):
                    self.changes.append((file, old, re.sub(r"\A ", "", line[len("new:") :])))
                    old = ""

    def key(self):
        """Returns its crate and name, as the notes have them."""
        return f"{self.crate}/{self.name}"


def edits_of(tree, crate):
    """Returns the mutants of a crate, by name."""
    folders = [f"{tree.top}/crates/{crate}/{part}" for part in ("mutants", "must-fail")]
    found = [Edit(crate, path) for it in folders for path in glob.glob(f"{it}/*.edit")]
    return sorted(found, key=lambda it: (it.name, it.path))


def fault(tree, edit):
    """Returns why an edit can't be applied, or nothing."""
    if not re.fullmatch(r"[A-Za-z0-9_-][A-Za-z0-9_.-]*\.edit", edit.name):
        return "its name is not of letters, digits, _, - and ."
    if not edit.changes:
        return "it has no 'old:' and 'new:' pair"
    now = {}
    for file, old, new in edit.changes:
        if not file or not old:
            return "a 'new:' line stands before any 'file:' or 'old:' line"
        if not file.startswith(("src/", "specs/", "proofs/")) or os.path.normpath(file) != file:
            return f"{file} is no file below src/, specs/ or proofs/"
        path = f"crates/{edit.crate}/{file}"
        if path not in now:
            if path not in tree.sources[edit.crate]:
                return f"there is no file {file}"
            now[path] = tree.read(path)
        stands = now[path].count(old)
        if stands != 1:
            return f"an old text stands in {file} {stands} times, and not once: {old[:100]}"
        now[path] = now[path].replace(old, new)
    if all(text == tree.read(path) for path, text in now.items()):
        return "it changes nothing"
    return None


def faults(tree):
    """Returns a line for each edit that can't be applied."""
    lines = []
    for crate in tree.crates:
        edits, seen = edits_of(tree, crate), set()
        for it in edits:
            why = "it stands in mutants/ and in must-fail/" if it.name in seen else fault(tree, it)
            seen.add(it.name)
            if why:
                lines.append(f"{it.key()}: BAD EDIT: {why}")
    return lines


class Wanted:
    """What a crate's mutants reach below it."""

    def __init__(self, tree, crate):
        self.tree, self.crate = tree, crate
        self.edits = edits_of(tree, crate)
        self.whole = None

    def own_sum(self, kit):
        """Returns the sum of what is the crate's own: its files, its flags, its edits and the kit."""
        told = [kit, self.crate, *self.tree.flags[self.crate]]
        for path in self.tree.sources[self.crate]:
            told += [path, texts.plain(path, self.tree.read(path))]
        told += [repr((it.name, it.changes)) for it in self.edits]
        return names.short("\n".join(told))

    def all_names(self):
        """Returns all that is reached from the crate's sources, specs and edits."""
        if self.whole is None:
            seeds, methods = set(), set()
            for path in self.tree.sources[self.crate]:
                if path.endswith(".rt") and "/src/" in path:
                    self.add_body(path, texts.plain_rust(self.tree.read(path)), seeds, methods)
                elif path.endswith(".antt") and "/specs/" in path:
                    seeds |= self.tree.named(path, texts.USE.sub("", texts.uncommented(self.tree.read(path))))
            for edit in self.edits:
                self.add_new(edit, seeds, methods)
            self.whole = self.tree.closure(self.crate, seeds, methods)
        return self.whole

    def add_body(self, path, text, seeds, methods):
        """Adds what a text of a Rust file names, and the methods that it calls."""
        seeds |= self.tree.named(path, text) | self.tree.called(path, text)
        methods |= set(names.METHOD.findall(text))

    def add_new(self, edit, seeds, methods):
        """Adds what the new texts of an edit name."""
        for file, _, new in edit.changes:
            path = f"crates/{self.crate}/{file}"
            if path in self.tree.sources[self.crate] and path.endswith(".rt"):
                self.add_body(path, new, seeds, methods)
            elif path in self.tree.sources[self.crate] and path.endswith(".antt"):
                seeds |= self.tree.named(path, new)

    def names_of(self, edit):
        """Returns all that is reached from the functions that an edit changes, and from its new texts. One that changes
        anything but the bodies of functions may be refused anywhere in the crate."""
        seeds, methods, now = set(), set(), {}
        for file, old, new in edit.changes:
            path = f"crates/{self.crate}/{file}"
            if path not in self.tree.sources[self.crate] or not path.endswith(".rt"):
                return self.all_names()
            cut = now.get(path) or self.tree.file(path)
            at = cut.text.find(old)
            function = cut.around(at, at + len(old)) if at >= 0 and old else None
            if function is None:
                return self.all_names()
            whole = f"{cut.contract(function)} {texts.plain_rust(cut.text[function.body : function.end])}"
            self.add_body(path, " ".join([whole, *cut.models]), seeds, methods)
            now[path] = texts.RustFile(cut.text.replace(old, new)) if len(edit.changes) > 1 else cut
        self.add_new(edit, seeds, methods)
        return self.tree.closure(self.crate, seeds, methods)

    def edit_sum(self, edit):
        """Returns the sum of what decides below the crate whether an edit is refused."""
        return self.tree.sum_below(self.crate, self.names_of(edit))
