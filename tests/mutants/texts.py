"""Reads sources: strips their comments and layout, and cuts them into definitions, declarations and functions."""
import re

# A string or a character of Rust, and a comment of it.
LITERAL = r'(?<!\w)b?r(?P<marks>#*)".*?"(?P=marks)|"(?:\\.|[^"\\])*"|' r"'(?:\\u\{\w+\}|\\x\w\w|\\.|[^'\\\n])'"
COMMENT = r"//[^\n]*|/\*.*?\*/"
RUST = re.compile(rf"(?P<literal>{LITERAL})|(?P<space>(?:\s|{COMMENT})+)", re.S)
ANTT = re.compile(r'(?P<literal>"(?:\\.|[^"\\\n])*")|(?P<space>(?:\s|(?<!\S)--(?=[\s-]|\Z)[^\n]*)+)')
HIDDEN = re.compile(rf"{LITERAL}|{COMMENT}", re.S)

CLAUSE = re.compile(r"\b(?:requires|ensures)\*?(?:\s+\w+)?\s*\Z")
FUNCTION = re.compile(r"(?<![\w#])fn\s+(\w+)")
IMPL = re.compile(r"^[ \t]*(?:unsafe\s+)?impl\b[^{};]*", re.M)
DECLARED = re.compile(
    r"(?:^[ \t]*#\[[^\n]*\][ \t]*\n\s*)*^[ \t]*(?:pub(?:\([^)]*\))?\s+)?(?:unsafe\s+)?"
    r"(?P<kind>struct|enum|union|type|trait|const|static)\s+(?:mut\s+)?(?!fn\b|unsafe\b)(?P<name>\w+)",
    re.M,
)


def plain_rust(text):
    """Returns a Rust text without comments, each stretch of space as one space."""
    return RUST.sub(lambda it: it["literal"] or " ", text).strip()


def plain_antt(text):
    """Returns an antt text without comments, a line for each that begins at its margin and the lines below it."""
    parts = []
    for line in text.split("\n"):
        if "--" in line or '"' in line:
            words = ANTT.sub(lambda it: it["literal"] or " ", line).strip()
        else:
            words = " ".join(line.split())
        if words:
            parts += [" " if line[0].isspace() else "\n", words]
    return "".join(parts).strip()


def plain(path, text):
    """Returns the text of a file without what means nothing."""
    if path.endswith(".rt"):
        return plain_rust(text)
    return plain_antt(text) if path.endswith(".antt") else text


def hidden(text):
    """Returns a Rust text of the same length in which comments and strings are blank."""
    return HIDDEN.sub(lambda it: re.sub(r"[^\n]", " ", it[0]), text)


def closing(text, start):
    """Returns where the bracket ends that opens at the start."""
    depth = 0
    for it in re.compile(r"[(\[{]|[)\]}]").finditer(text, start):
        depth += 1 if it[0] in "([{" else -1
        if depth == 0:
            return it.end()
    return len(text)


def first_of(text, start, marks):
    """Returns where the first of these marks occurs outside brackets, or the end."""
    at = start
    while at < len(text):
        if text[at] in marks:
            return at
        at = closing(text, at) if text[at] in "([{" else at + 1
    return at


class Function:
    """A function of a Rust file: its name, the type or trait that it is of, where its signature, body and end are."""

    def __init__(self, name, owner, head, places):
        self.name, self.owner, self.head = name, owner, head
        self.start, self.body, self.end = places


def body_of(text, start):
    """Returns where the body of the function that starts here is, past the clauses of its contract, and its end."""
    at = start
    while True:
        at = first_of(text, at, "{;")
        if at >= len(text) or text[at] == ";":
            return at, at
        if not CLAUSE.search(text, start, at):
            return at, closing(text, at)
        at = closing(text, at)


def owner_of(head):
    """Returns the type that the head of an `impl` is about."""
    rest = re.sub(r"^\s*(?:unsafe\s+)?impl\b\s*", "", head)
    if rest.startswith("<"):
        depth = 0
        for place, mark in enumerate(rest):
            depth += {"<": 1, ">": -1}.get(mark, 0) if rest[place - 1 : place + 1] != "->" else 0
            if depth == 0:
                rest = rest[place + 1 :]
                break
    rest = re.split(r"\bwhere\b", rest)[0]
    about = re.split(r"\bfor\s+(?!<)", rest)[-1]
    names = re.findall(r"\w+", re.split(r"<", about.strip().lstrip("&"))[0])
    return names[-1] if names else ""


class RustFile:
    """A Rust file, cut: `functions`; `declared`, pairs of a name and a text; `told`, the heads and contracts of what is
    implemented of traits, by type; and `models`, the texts of the Models."""

    def __init__(self, text):
        self.text, self.blank = text, hidden(text)
        self.functions, self.declared, self.told, self.models = [], [], [], []
        self.blocks = []
        self.cut_blocks()
        self.cut_functions()
        self.cut_declared()
        self.tell_traits()

    def cut_blocks(self):
        """Finds the blocks of `impl`."""
        for it in IMPL.finditer(self.blank):
            if it.end() < len(self.blank) and self.blank[it.end()] == "{":
                head = plain_rust(self.text[it.start() : it.end()])
                self.blocks.append((it.start(), closing(self.blank, it.end()), owner_of(head), head))

    def cut_functions(self):
        """Finds the functions, each with the block that it is in."""
        for it in FUNCTION.finditer(self.blank):
            body, end = body_of(self.blank, it.end())
            owner, head = "", ""
            for start, stop, name, text in self.blocks:
                if start <= it.start() < stop:
                    owner, head = name, text
            self.functions.append(Function(it[1], owner, head, (it.start(), body, end)))

    def cut_declared(self):
        """Finds what is declared: types, traits and constants. The bodies of a trait's functions say nothing."""
        for it in DECLARED.finditer(self.blank):
            kind, end = it["kind"], first_of(self.blank, it.end(), "{;")
            if kind in ("const", "static", "type"):
                end = first_of(self.blank, it.end(), ";")
            elif end < len(self.blank) and self.blank[end] == "{":
                end = closing(self.blank, end)
            text = self.contracts(it.start(), end) if kind == "trait" else self.text[it.start() : end]
            self.declared.append((it["name"], plain_rust(text)))

    def contracts(self, start, end):
        """Returns the text from here to there without the bodies of functions."""
        parts, at = [], start
        for it in self.functions:
            if start <= it.start < end and it.start >= at:
                parts.append(self.text[at : it.body])
                at = it.end
        return "".join(parts) + self.text[at:end]

    def tell_traits(self):
        """Takes of each `impl` of a trait for a type its head and contracts."""
        for start, end, owner, head in self.blocks:
            if re.search(r"\bfor\s+(?!<)", head):
                text = plain_rust(self.contracts(start, end))
                self.told.append((owner, text))
                if re.search(r"\bModel for\b", head):
                    self.models.append(text)

    def contract(self, function):
        """Returns the contract of a function, with the head of the block that it is in."""
        return f"{function.head} {plain_rust(self.text[function.start : function.body])}"

    def around(self, start, end):
        """Returns the function whose body has all of this stretch, or nothing."""
        within = [it for it in self.functions if it.body < start and end < it.end]
        return within[-1] if within else None


HEAD = re.compile(
    r"^(?:(?:abbrev|pub|unfoldable|opaque|private)\s+)*"
    r"(?:(?P<kind>record|data|ruleset|mutual)\b\s*)?(?P<name>[^\s:(){}]*)"
)
SAID = re.compile(r"^(?:[^\s:(){}]+(?:\s*,\s*[^\s:(){}]+)*)\s+:(?:\s|$)")
MODIFIED = re.compile(r"^(?:abbrev|pub|unfoldable|opaque|private|record|data|ruleset|mutual)(?:\s|$)")
WITHIN = re.compile(
    r"^\s+(?:(?:abbrev|pub|unfoldable|record|data)\s+)*"
    r"(?P<names>[^\s:(){}]+(?:[ ,]+[^\s:(){}]+)*)\s*(?:[({][^:]*)?:(?:\s|$)"
)
USE = re.compile(
    r"^[ \t]*(?:ghost\s+)?(?:(?:abbrev|pub)\s+)*use\s+Rattle\.(?P<crate>\w+)\.(?P<part>specs|proofs)"
    r"(?P<path>(?:\.[^\s.{;]+)*)"
    r"(?:\s+as\s+(?P<alias>[^\s;]+)|\.\{(?P<list>[^}]*)\})?;?",
    re.M,
)


class AnttFile:
    """An antt file, cut: `items`, texts by name; `part_of`, the item with a constructor, a field or a name of a group.
    """

    def __init__(self, text):
        self.items, self.part_of, self.head = {}, {}, []
        name = None
        for line in uncommented(USE.sub("", text)).split("\n"):
            if not line.strip():
                continue
            if not line[0].isspace() and (MODIFIED.match(line) or SAID.match(line)):
                name = self.begin(line)
            if name is None:
                self.head.append(line)
                continue
            self.items[name].append(line)
            self.note_parts(line, name)
        self.name_groups()
        self.items = {key: plain_antt("\n".join(lines)) for key, lines in self.items.items()}

    def begin(self, line):
        """Begins an item with its first line, or goes on with one of the same name."""
        it = HEAD.match(line)
        name = it["name"] or f"group {len(self.items)}"
        self.items.setdefault(name, [])
        for other in re.findall(r"[^\s,]+", line[it.end("name") :].split(" :")[0]) if it["kind"] is None else []:
            self.note_part(other, name)
        self.note_part(name, name)
        return name

    def note_part(self, part, name):
        """Notes that an item has a name, which may be an operator around its places."""
        for word in (part, *part.split("◌")):
            if word not in ("", name):
                self.part_of.setdefault(word, name)

    def note_parts(self, line, name):
        """Notes the constructors, fields or names of a group that are on a line within an item."""
        it = WITHIN.match(line)
        for part in re.findall(r"[^\s,]+", it["names"]) if it else []:
            self.note_part(part, name)

    def name_groups(self):
        """Names each group by the first of its names, so that its key stays where others are added before it."""
        for key in [key for key in self.items if key.startswith("group ")]:
            name = "group " + next((part for part, item in self.part_of.items() if item == key), key)
            self.items[name] = self.items.pop(key)
            self.part_of.update({part: name for part, item in self.part_of.items() if item == key})

    def find(self, name):
        """Returns the item that has this name, or nothing."""
        return name if name in self.items else self.part_of.get(name)


def uncommented(text):
    """Returns an antt text without its comments, line by line."""
    return re.sub(r'("(?:\\.|[^"\\\n])*")|(?<!\S)--(?=[\s-]|$)[^\n]*', lambda it: it[1] or "", text, flags=re.M)
