"""Finds what is reached by name from a text: definitions, declarations and contracts, in its own crate and below it."""
import glob
import hashlib
import os
import re

import texts

WORD = re.compile(r"[^\s(){}\[\],;:\"&|!#<>=@$`]+")
DOTTED = re.compile(r"([\w'-]+)\.([\w'◌-]+)")
GHOST_USE = re.compile(r"\buse\s+Rattle\.[^;]*;")
INLINE = re.compile(r"Rattle\.(\w+)\.(specs|proofs)((?:\.[^\s.(){}\[\],;]+)+)")
TYPE = re.compile(r"\b[A-Z]\w*")
METHOD = re.compile(r"\.\s*([a-z_]\w*)\s*(?:::<[^()]*?>)?\s*\(")
PATH = re.compile(r"\b(\w+)\s*(?:::\s*<[^<>()]*>)?\s*::\s*([a-z_]\w*)")
QUALIFIED = re.compile(r"\b([a-z_]\w*)\s*::\s*(?:[a-z_]\w*\s*::\s*)*([A-Z]\w*)")
PLAIN = re.compile(r"(?<![\w.:])([a-z_]\w*)")
USES = re.compile(r"^[ \t]*(?:pub(?:\([^)]*\))?\s+)?use\s+([^;]*);", re.M)


def short(text):
    """Returns the sum of a text, as one word."""
    return hashlib.sha256(text.encode()).hexdigest()[:16]


class Tree:
    """A repository: its crates, its files, and where each name of a Rust file is."""

    def __init__(self, top):
        self.top, self.flags, self.lines = top, {}, {}
        self.cut, self.imports, self.known = {}, {}, {}
        self.types, self.owned, self.free = {}, {}, {}
        with open(f"{top}/crates.txt", encoding="utf-8") as listed:
            for line in listed:
                it = re.match(r"([a-z][a-z0-9_]*)([^:]*):(.*)", line)
                if it:
                    self.flags[it[1]], self.lines[it[1]] = it[2].split(), it[3].split()
        self.crates = list(self.lines)
        self.views = {name: self.view(name) for name in self.crates}
        self.sources = {name: self.files(name) for name in self.crates}
        for name in self.crates:
            for path in self.sources[name]:
                if path.endswith(".rt"):
                    self.index(name, path)

    def view(self, crate):
        """Returns a crate and the crates of the repository below it: those of its line, of their lines, and so on."""
        found = [crate]
        for name in found:
            for it in self.lines[name]:
                if it in self.lines and it not in found:
                    found.append(it)
        return found

    def files(self, crate):
        """Returns the paths of a crate's sources, specs and proofs."""
        folders = [f"{self.top}/crates/{crate}/{part}" for part in ("src", "specs", "proofs")]
        paths = [path for it in folders for path in glob.glob(f"{it}/**", recursive=True)]
        return sorted(os.path.relpath(path, self.top) for path in paths if os.path.isfile(path))

    def read(self, path):
        """Returns the text of a file."""
        with open(f"{self.top}/{path}", encoding="utf-8", errors="surrogateescape") as file:
            return file.read()

    def file(self, path):
        """Returns a file, cut."""
        if path not in self.cut:
            self.cut[path] = (texts.RustFile if path.endswith(".rt") else texts.AnttFile)(self.read(path))
        return self.cut[path]

    def index(self, crate, path):
        """Notes what is in a Rust file, by name."""
        file = self.file(path)
        for name, text in file.declared + file.told:
            self.types.setdefault((crate, name), []).append((path, text))
        for it in file.functions:
            self.owned.setdefault((crate, it.owner), {}).setdefault(it.name, []).append((path, file.contract(it)))

    def seen_from(self, crate):
        """Returns the crates of the repository that a crate may name."""
        return self.views[crate]

    # What a file imports.

    def ghosts(self, path):
        """Returns the names and the modules that a file imports from specs and proofs, each with its targets."""
        if path not in self.imports:
            names, modules = {}, {}
            for it in texts.USE.finditer(self.read(path)):
                target = (it["crate"], it["part"], tuple(it["path"].split(".")[1:]))
                if it["crate"] not in self.lines or not target[2]:
                    continue
                if it["list"] is None:
                    modules.setdefault(it["alias"] or target[2][-1], []).append(target)
                for entry in re.split(r"\s*,\s*", (it["list"] or "").strip()):
                    source, _, alias = entry.partition(" as ")
                    source, name = source.strip(), (alias or source).strip()
                    if source:
                        names.setdefault(name, []).append((target, source))
                        modules.setdefault(name, []).append((*target[:2], (*target[2], source)))
            self.imports[path] = self.without_places(names), modules
        return self.imports[path]

    @staticmethod
    def without_places(names):
        """Adds the words of operators to imported names."""
        for name in [name for name in names if "◌" in name]:
            for word in name.split("◌"):
                if word:
                    names.setdefault(word, []).extend(names[name])
        return names

    def rust_uses(self, path):
        """Returns the crates that a file imports each word from, a word's other names, and the crates of its `*`."""
        key = (path, "rust")
        if key not in self.imports:
            crate, words, other, stars = path.split("/")[1], {}, {}, []
            for it in USES.finditer(self.file(path).blank):
                first = re.match(r"\w*", it[1])[0]
                source = first if first in self.lines else crate if first in ("crate", "self", "super") else None
                for word in re.findall(r"\w+", it[1]) if source else []:
                    words.setdefault(word, set()).add(source)
                for word, alias in re.findall(r"(\w+)\s+as\s+(\w+)", it[1]):
                    other.setdefault(alias, set()).add(word)
                if source and "*" in it[1]:
                    stars.append(source)
            self.imports[key] = words, other, stars
        return self.imports[key]

    # Where a name leads.

    def resolve(self, target, name, trail=()):
        """Returns the keys that a name leads to in what `use` names: those of a whole file where it isn't there."""
        crate, part, path = target
        if part == "specs" and path[0] in ("declared", "contracts"):
            return self.resolve_rust(crate, path, name)
        for size in range(len(path), 0, -1):
            file = f"crates/{crate}/{part}/{'/'.join(path[:size])}.antt"
            if file in self.sources[crate]:
                break
        else:
            return self.keys_of_part(crate, part)
        items = self.file(file)
        for word in [it for it in (name, *reversed(path[size:])) if it]:
            if items.find(word):
                return {("antt", file, items.find(word))}
            names, _ = self.ghosts(file)
            if word in names and file not in trail:
                return {key for entry in names[word] for key in self.resolve(*entry, (*trail, file))}
        return {("antt", file, item) for item in items.items}

    def keys_of_part(self, crate, part):
        """Returns the keys of all that is in a crate's specs or proofs."""
        folder = f"crates/{crate}/{part}/"
        files = [it for it in self.sources[crate] if it.startswith(folder) and it.endswith(".antt")]
        return {("antt", it, item) for it in files for item in self.file(it).items}

    def resolve_rust(self, crate, path, name):
        """Returns the keys of what is declared, or of a contract, in a Rust source: all of the crate where it isn't."""
        words = [it for it in (*path[1:], name) if it]
        keys = {("type", crate, word) for word in words if (crate, word) in self.types}
        if path[0] == "contracts":
            owners = [word for word in words if (crate, word) in self.owned] or [""]
            for owner in owners:
                keys |= {("fn", crate, owner, word) for word in words if word in self.owned.get((crate, owner), {})}
        return keys or {("type", crate, it) for home, it in self.types if home == crate}

    def type_keys(self, path, word):
        """Returns the keys of the types, traits and constants that a word of a Rust file may mean."""
        crate = path.split("/")[1]
        words, other, _ = self.rust_uses(path)
        keys = set()
        for name in {word} | other.get(word, set()):
            homes = [it for it in words.get(word, ()) if (it, name) in self.types]
            if not homes and name in [it for it, _ in self.file(path).declared]:
                homes = [crate]
            keys |= {("type", it, name) for it in homes or self.seen_from(crate) if (it, name) in self.types}
        return keys

    def qualified_keys(self, path, first, name):
        """Returns the keys of the types, traits and constants that a name may mean after a path that begins so."""
        crate = path.split("/")[1]
        words, other, _ = self.rust_uses(path)
        homes = {first} & self.lines.keys() | ({crate} if first in ("crate", "self", "super") else set())
        for word in {first} | other.get(first, set()):
            homes |= words.get(word, set())
        found = {("type", it, name) for it in homes if (it, name) in self.types}
        return found or {("type", it, name) for it in self.seen_from(crate) if (it, name) in self.types}

    def free_keys(self, path, word, module=None):
        """Returns the keys of the functions outside `impl` that a word may mean, after a module or by itself."""
        crate = path.split("/")[1]
        words, other, stars = self.rust_uses(path)
        homes = set(words.get(module or word, ()))
        if module:
            homes |= {module} if module in self.lines else {crate} if module in ("crate", "self", "super") else set()
        elif any(it.name == word and not it.owner for it in self.file(path).functions):
            homes.add(crate)
        keys = set()
        for name in {word} | other.get(word, set()):
            near = [it for it in [*homes, *([] if module or homes else stars)] if name in self.owned.get((it, ""), {})]
            far = self.seen_from(crate) if module or homes else []
            keys |= {("fn", it, "", name) for it in near or far if name in self.owned.get((it, ""), {})}
        return keys

    def called(self, path, text):
        """Returns the keys of the functions that the text of a body names, but for methods."""
        crate, keys = path.split("/")[1], set()
        for module, name in PATH.findall(text):
            if module == "Self":
                owners = {it[2] for it in self.file(path).blocks}
            else:
                owners = {module} | self.rust_uses(path)[1].get(module, set())
            if not module[0].isupper():
                keys |= self.free_keys(path, name, module)
            for home in self.seen_from(crate):
                keys |= {("fn", home, it, name) for it in owners if it and name in self.owned.get((home, it), {})}
        for name in set(PLAIN.findall(text)):
            keys |= self.free_keys(path, name)
        return keys

    def named(self, path, text):
        """Returns the keys of the definitions, types and constants that a text names, by what its file imports."""
        names, modules = self.ghosts(path)
        text = GHOST_USE.sub("", text) if path.endswith(".rt") else text
        words = set()
        for word in WORD.findall(text):
            words.add(word)
            words.update(re.split(r"[.+*/%?-]", word) if not word.isidentifier() else ())
        keys = {key for word in words & names.keys() for entry in names[word] for key in self.resolve(*entry)}
        for module, name in DOTTED.findall(text):
            keys |= {key for target in modules.get(module, ()) for key in self.resolve(target, name)}
        for crate, part, rest in INLINE.findall(text):
            if crate in self.lines:
                keys |= self.resolve((crate, part, tuple(rest.split(".")[1:])), None)
        if path.endswith(".rt"):
            keys |= {key for word in set(TYPE.findall(text)) for key in self.type_keys(path, word)}
            keys |= {key for entry in set(QUALIFIED.findall(text)) for key in self.qualified_keys(path, *entry)}
        else:
            found = (self.file(path).find(word) for word in words)
            keys |= {("antt", path, item) for item in found if item}
        return keys

    def pieces(self, key):
        """Returns the texts of what a key stands for, each with its file."""
        if key[0] == "antt":
            return [(key[1], self.file(key[1]).items[key[2]])]
        return self.types[key[1:]] if key[0] == "type" else self.owned[key[1:3]][key[3]]

    def reaches(self, key):
        """Returns the keys that one names itself, and the sum of its texts and of these."""
        if key not in self.known:
            keys, told = set(), []
            for path, text in self.pieces(key):
                keys |= self.named(path, text)
                told.append(text)
            keys.discard(key)
            told = ["/".join(key), *sorted(told), *sorted("/".join(it) for it in keys)]
            self.known[key] = keys, short("\n".join(told))
        return self.known[key]

    def closure(self, crate, seeds, methods):
        """Returns all keys that are reached from these. A method of one of these names is where its type is."""
        seen, todo = set(seeds), list(seeds)
        homes = self.seen_from(crate)
        while todo:
            key = todo.pop()
            new = self.reaches(key)[0] - seen
            if key[0] == "type":
                for home in homes:
                    there = self.owned.get((home, key[2]))
                    new |= {("fn", home, key[2], name) for name in methods & there.keys()} - seen if there else set()
            todo.extend(new)
            seen |= new
        return seen

    def home(self, key):
        """Returns the crate that a key is in."""
        return key[1].split("/")[1] if key[0] == "antt" else key[1]

    def sum_below(self, crate, keys):
        """Returns the sum of those keys that are outside the crate."""
        return short("\n".join(sorted(self.reaches(key)[1] for key in keys if self.home(key) != crate)))
