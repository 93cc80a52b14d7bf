"""The declarations of crates, each definition and each function's contract, and those of them that texts reach by name.

A name that a `use` brings is looked up in the crate that it comes from, and else in the file itself. A method has no `use`: it is reached where its name
stands, once its type is reached.
"""
import re
from typing import NamedTuple

from sources import Source, files_of

WORD = re.compile(r"[^\W\d][\w'-]*")
# What begins a declaration in a file of definitions; the lines behind one that define it have none of this.
BEGINS = re.compile(r"(?:(?:abbrev|unfoldable|pub|private|record|data|module|infixl|infixr|infix)\b *)+(\S+)|(\S+) :(?: |$)")
# A name that a `use` brings, and the one that it has here, if that is another.
NAMED = re.compile(rf"({WORD.pattern})(?:\s+as\s+({WORD.pattern}))?")
RUST_NAME = re.compile(r"\b(?:fn|struct|enum|trait|const(?! fn)|static|type|union) (\w+)")


class Place(NamedTuple):
    """A file of a crate, and where the names come from that it brings by `use`."""

    crate: str
    path: str
    sources: dict


class Declaration:
    """A declaration: the names by which it is reached, the type that a method belongs to, its file, its text, and the names in it."""

    def __init__(self, names, owner, place, lines):
        self.names, self.owner, self.place = frozenset(names), owner, place
        text = "\n".join(lines)
        self.words = words_of(text)
        self.text = repr((text, sorted((it, place.sources[it]) for it in self.words & place.sources.keys())))


def words_of(text):
    """The names in a text; lines that are comments don't count."""
    return frozenset(word for line in text.splitlines() if not line.lstrip().startswith(("//", "--")) for word in WORD.findall(line))


def place_of(crate, path, text):
    """A file, whose `use` lines are read."""
    found = {}
    for statement in re.findall(r"^ *(?:ghost )?(?:pub )?use ([^;\n{]+(?:\{[^}]*\})?)", text, re.M):
        source, _, names = statement.partition("{")
        for name, alias in NAMED.findall(names) or [(it, "") for it in WORD.findall(source)[-1:]]:
            # (what has another name here is looked up by its own)
            found[alias or name] = f"{source.strip()}.{name}" if alias else source.strip()
    return Place(crate, path, found)


def items(lines, depth):
    """The lines of each item that begins at this depth: attributes stand before it, and what is deeper, or closes it, belongs to it."""
    found, has_begun = [], False
    for line in lines:
        at = line[len(depth) :]
        begins = line.startswith(depth) and at[:1].isalpha() and not at.startswith("where")
        if begins or line.startswith(f"{depth}#"):
            if has_begun or not found:
                found.append([])
            has_begun = begins
        if found:
            found[-1].append(line)
    return found


def declared_in_code(place, lines):
    """The declarations of a file of code of which bodies are left out."""
    for item in items(lines, ""):
        head = "\n".join(it for it in item if not it.startswith("#")).partition("{")[0]
        if re.match(r"(?:ghost )?(?:pub )?(?:use|mod)\b", head):
            continue
        named = RUST_NAME.findall("\n".join(item) if "trait " in head else head)
        if head.startswith("impl") and " for " not in head:
            owner = re.match(r"impl(?:<[^{]*?>)?\s+(\w+)", head)[1]
            within = [it for it in item[1:] if it != "}"]
            for method in items(within, "    "):
                name = RUST_NAME.search("\n".join(method))
                yield Declaration([name[1]] if name else [owner], owner if name else None, place, [head, *method])
        elif head.startswith("impl"):
            yield Declaration(words_of(head.partition(" for ")[2]), None, place, item)
        else:
            yield Declaration(named or words_of(head), None, place, item)


def declared_in_definitions(place, lines):
    """The declarations of a file of definitions."""
    parts = []
    for line in lines:
        if not line.strip() or line.lstrip().startswith("--") or re.match(r"(?:pub )?(?:use|mod)\b", line):
            continue
        begins = None if line[0].isspace() else BEGINS.match(line)
        if begins or not parts:
            parts.append((begins and (begins[1] or begins[2]) or "", []))
        parts[-1][1].append(line)
    for name, part in parts:
        within = [it[1] or it[2] for it in map(BEGINS.match, (line.strip() for line in part)) if it] if part[0].startswith("module") else []
        yield Declaration([name, *within], None, place, part)


def declared(crate, is_own=False):
    """The declarations of a crate that others may rest on; or those that its own functions may."""
    source = Source(crate)
    for path, lines in source.interface(is_own).items():
        yield from declared_in_code(place_of(crate, path, source.texts[path]), lines)
    for path, text in files_of(crate, "specs").items():
        yield from declared_in_definitions(place_of(crate, path, text), text.splitlines())


class Words(NamedTuple):
    """What the names in a text reach by themselves, and those of methods, which are reached once their type is."""

    named: list
    methods: frozenset


class Index:
    """Declarations by the names that reach them, and methods by their types."""

    def __init__(self, declarations):
        self.of_crate, self.of_file, self.named, self.of_type, self.of_method, self.known = {}, {}, {}, {}, {}, {}
        self.crates = {it.place.crate for it in declarations}
        # an operator stands between its arguments, in parts: it counts always
        self.operators = [it for it in declarations if any("◌" in name for name in it.names)]
        for it in declarations:
            for name in it.names:
                if it.owner:
                    self.of_type.setdefault((it.place.crate, it.owner), []).append((name, it))
                    self.of_method.setdefault(name, []).append(((it.place.crate, it.owner), it))
                else:
                    self.of_crate.setdefault((it.place.crate, name), []).append(it)
                    self.of_file.setdefault((it.place.crate, it.place.path, name), []).append(it)
                    self.named.setdefault(name, []).append(it)

    def of_declaration(self, it):
        """What the names in a declaration reach."""
        if id(it) not in self.known:
            self.known[id(it)] = self.of_words(it.place, it.words)
        return self.known[id(it)]

    def of_words(self, place, words):
        """What these words of a file reach."""
        named = []
        for word in words:
            source = place.sources.get(word)
            named += self.imported(source.replace("crate::", f"{place.crate}::"), word) if source else self.of_file.get((place.crate, place.path, word), [])
        return Words(named, frozenset() if place.path.endswith(".antt") else words & self.of_method.keys())

    def imported(self, source, word):
        path = WORD.findall(re.sub(r"[.:]", " ", source))
        crate, *path = path[1:] if path[0] == "Rattle" else path
        if crate not in self.crates:
            return []
        # (a variant or a member stands behind its type)
        names = {word, *path[-1:], *(it for it in path if it[0].isupper())}
        found = [it for name in names for it in self.of_crate.get((crate, name), [])]
        # a crate may hand on what another one declares
        return found if any((crate, name) in self.of_crate for name in (word, *path)) else found + self.named.get(word, [])


class Reach:
    """What is reached of some declarations."""

    def __init__(self, index):
        self.index, self.found, self.types, self.methods, self.new = index, {}, set(), set(), []
        self.add_all(index.operators)

    def add_all(self, declarations):
        for it in declarations:
            if id(it) not in self.found:
                self.found[id(it)] = it
                self.new.append(it)

    def read(self, words):
        """Reaches what these words do."""
        self.add_all(words.named)
        methods = words.methods - self.methods
        self.methods |= methods
        for it in methods:
            self.add_all(method for owner, method in self.index.of_method[it] if owner in self.types)

    def read_types(self, declaration):
        """Reaches the methods of what is declared, where their names stand."""
        types = {(declaration.place.crate, it) for it in declaration.names} & self.index.of_type.keys() - self.types
        self.types |= types
        for it in types:
            self.add_all(method for name, method in self.index.of_type[it] if name in self.methods)

    def settled(self):
        """The texts of what is reached, once nothing more is."""
        while self.new:
            it = self.new.pop()
            self.read_types(it)
            self.read(self.index.of_declaration(it))
        return sorted(it.text for it in self.found.values())


def reached(index, texts):
    """The texts of those declarations that some texts reach, each a file and a text of it."""
    reach = Reach(index)
    for place, text in texts:
        reach.read(index.of_words(place, words_of(text)))
    return reach.settled()
