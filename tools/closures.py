"""What a contract leads to: the definitions and types that its clauses name, those that these name, and so on to the end.

    python3 tools/closures.py asl_exec emulation emulate_texts      prints all that this function's contract leads to, file by file

A name counts where a text names it: what else a file imports doesn't, nor what the text binds by itself (parameters, fields, patterns). Followed are
definitions of specs/, and types of the code: a type that has a model (`impl Model`) is its `Value`, since contracts see nothing else of it; any other
is its fields and what its ghost fields say. What the kit defines ends the way.
"""
import os
import re
import sys
from functools import cache
from typing import NamedTuple

from crates import TOP
from sources import text_of

TOKEN = re.compile(r'"(?:[^"\\]|\\.)*"|(?:--|//).*|[()\[\]{};,]|[^\s()\[\]{};,"]+')
OPENING, CLOSING, BRACKETS = "([{", ")]}", "()[]{};,"


def tokens_of(text):
    """The words and brackets of a text, without comments and quoted texts."""
    return [it for it in TOKEN.findall(text) if not it.startswith(('"', "--", "//"))]


def behind(tokens, at):
    """Where the bracket that opens at a place is closed."""
    depth = 0
    for number in range(at, len(tokens)):
        depth += (tokens[number] in OPENING) - (tokens[number] in CLOSING)
        if not depth:
            return number
    return len(tokens)


class Term:
    """The names that a term leaves free, each with what stands behind its dot, as `("World", None)` or `("mocks", "Case")`. Read in parts, it keeps
    in mind what the parts before have bound. `is_constructor` says of a name in a pattern that it isn't a variable."""

    def __init__(self, bound=(), is_constructor=lambda *_: False):
        self.scopes, self.names, self.is_constructor = [set(bound)], {}, is_constructor

    def name(self, word):
        """Notes a word outside of patterns."""
        head, _, rest = word.partition(".")
        if head and not any(head in it for it in self.scopes):
            self.names[head, rest.partition(".")[0] or None] = True

    def pattern(self, tokens):
        """Reads patterns: constructors are named, all else is bound."""
        for word in tokens:
            head, _, rest = word.partition(".")
            if word not in BRACKETS and self.is_constructor(head, rest or None):
                self.name(word)
            elif word not in BRACKETS:
                self.scopes[-1].add(head)

    def pattern_of_type(self, tokens):
        """Reads patterns behind λ, one of which may have a type: `(x : A)`."""
        before, _, behind = (tokens, [], []) if ":" not in tokens else (tokens[: tokens.index(":")], ":", tokens[tokens.index(":") + 1 :])
        self.pattern(before)
        self.read([it for it in behind if it not in BRACKETS])

    def read(self, tokens):
        """Reads a term, or a part of one."""
        at = 0
        while at < len(tokens):
            at = self.step(tokens, at)
        return self

    def step(self, tokens, at):
        """Reads what begins at a place, and says where it ends."""
        word, ahead = tokens[at], tokens[at + 1 : at + 2]
        if word in OPENING:
            inside = tokens[at + 1 : behind(tokens, at)]
            if ":" in inside and not any(it in BRACKETS for it in inside[: inside.index(":")]):
                self.pattern(inside[: inside.index(":")])  # (x y : A)
                at += inside.index(":")
            self.scopes.append(set())
        elif word in CLOSING:
            self.scopes[1:] = self.scopes[1:-1]
        elif word == "λ":
            last = next(number for number in range(at, len(tokens)) if tokens[number].endswith("."))
            self.pattern_of_type([it for it in (*tokens[at + 1 : last], tokens[last][:-1]) if it])
            at = last
        elif word == "let":
            self.pattern(ahead)
            at += 1
        elif word in ("[", "|", "by") and (arrow := self.arrow(tokens, at)):
            self.pattern(tokens[at + 1 : arrow])
            at = arrow
        elif not (ahead == ["="] and tokens[at - 1] in ("{", ";")):  # (a field that is written)
            self.name(word)
        return at + 1

    @staticmethod
    def arrow(tokens, at):
        """Where the pattern that begins behind a place ends, if one does."""
        ends = {"by": ("=",)}.get(tokens[at], ("↦",))
        return next((it for it in range(at + 1, min(at + 20, len(tokens))) if tokens[it] in ends), None)


class Definition(NamedTuple):
    """A definition of specs/ or a type of the code: where it stands, how many lines it has with its comment, and what it names."""

    crate: str
    path: str
    name: str
    lines: int
    names: frozenset

    @property
    def is_private(self):
        return self.path.startswith("specs/private/")


HEAD = re.compile(r"((?:(?:abbrev|pub|unfoldable) )*)(?:(record|data) )?([^\s()\[\]{};,]+)")


class Specs:
    """A file of definitions: what its names stand for, and what it defines."""

    def __init__(self, crate, module):
        self.crate, self.path = crate, f"specs/{module.replace('.', '/')}.antt"
        lines = text_of(f"{TOP}/crates/{crate}/{self.path}").splitlines()
        self.scope, self.modules = imports(it for it in lines if re.match(r" *(pub )?use ", it))
        self.texts, self.constructors, self.bound = {}, {}, set()
        for name, sort, lines in self.blocks(lines):
            self.texts.setdefault(name, []).append((sort, lines))
            for it in self.members(lines) if sort == "data" else []:
                self.constructors[it] = name

    def blocks(self, lines):
        """The definitions: each one's name, its sort, and its lines with its comment."""
        comment, block, deep = [], None, False
        for line in lines:
            if re.match(r"(abbrev )?mutual$|module ", line):
                self.bound.update(*(it[1].split() for it in re.finditer(r"\((.*?) : ", line)))
                deep = True
                continue
            deep = deep and (not line or line.startswith("  "))
            line = line[2:] if deep else line
            if not line or re.match(r"(pub )?(use|mod) |-- ----", line):
                comment = []
            elif line.startswith("--"):
                comment.append(line)
            elif line[0] in " }":
                block[2].append(line)
            else:
                keywords, sort, name = HEAD.match(line).groups()
                if block and not keywords and not sort and block[0] == name and self.is_clause(line):
                    block[2].append(line)
                    continue
                if block:
                    yield block
                block, comment = (name, sort, [*comment, line]), []
        if block:
            yield block

    @staticmethod
    def is_clause(line):
        return tokens_of(line)[1:2] != [":"]

    @staticmethod
    def members(lines):
        """The constructors or fields of a definition, which stand deeper where its head takes more than a line."""
        return [found[2] for found in (re.match(r"  (?:  )?(pub )?([^\s()\[\]{};,]+) :", it) for it in lines) if found]

    def target(self, head, member=None):
        """What a name stands for here: a definition's key, or nothing."""
        if head in self.modules and member:
            return target_of(self.modules[head], member)
        if head in self.texts or head in self.constructors:
            return ("specs", self.crate, self.path[6:-5].replace("/", "."), self.constructors.get(head, head))
        return self.scope.get(head) and target_of(*self.scope[head])

    def is_constructor(self, head, member):
        """Whether a name in a pattern is a constructor, and no variable."""
        if head in self.constructors or member and head in self.modules:
            return True
        path, name = self.scope.get(head, ("", ""))
        if is_own(path):
            found = spot(path) if ".declared." not in path else None
            return ".TheVariants" in path or bool(found) and name in specs(*found).constructors
        return path != "" and not re.match(r"[a-z]\w+$", head) or head in ("true", "false", "zero", "suc")

    def definition(self, name):
        """A definition by its name."""
        texts = self.texts[name]
        names = {it for sort, lines in texts for it in (self.of_type if sort else self.of_function)(lines)}
        lines = sum(len(lines) for _, lines in texts)
        keys = {it and self.target(*it) for it in names} - {None, self.target(name)}
        return Definition(self.crate, self.path, name, lines, frozenset(keys))

    def of_type(self, lines):
        """What a record or a data type names: the fields before are known to those behind."""
        whole = "\n".join(it for it in lines if not it.startswith("--"))
        head, _, body = whole.partition("where")
        term = Term(self.bound, self.is_constructor).read(tokens_of(re.sub(r".*?(record|data) \S+", "", head, count=1)))
        members = set(self.members(body.splitlines()))
        for part in re.split(r"\n(?=  (?:  )?(?:pub )?[^\s()\[\]{};,]+ :)", body):
            tokens = tokens_of(part)
            first = next((number for number, it in enumerate(tokens) if it in members), None)
            if first is not None:
                term.read(tokens[first + 2 :])
                term.scopes[0].add(tokens[first])
        return term.names

    def of_function(self, lines):
        """What a function's type and its clauses name."""
        found, part = {}, []
        for line in [*lines, "\0"]:
            if part and line[0] not in " }":
                found.update(self.of_part(tokens_of("\n".join(part))))
                part = []
            if not line.startswith("--") and not line.strip().startswith("unfolding"):
                part.append(line)
        return found

    def of_part(self, tokens):
        """What a signature or a clause names."""
        term = Term(self.bound, self.is_constructor)
        tokens = [it for it in tokens if it not in ("abbrev", "pub", "unfoldable")][1:]
        if tokens[0] == ":":
            return term.read(tokens[1:]).names
        depth = 0
        for at, word in enumerate(tokens):
            depth += (word in OPENING) - (word in CLOSING)
            if word == "=" and not depth:
                term.pattern(tokens[:at])
                return term.read(tokens[at + 1 :]).names
        return term.read(tokens).names


def imports(lines):
    """What the names of `use` lines stand for: of each a path and its name there; and the modules that have a name."""
    scope, modules = {}, {}
    for line in lines:
        found = re.match(r" *(?:pub )?(?:ghost )?use ([^\s{;]+?)(?:\.\{(.*)\}| as (\w[^\s;]*));?$", line)
        if found and found[3]:
            modules[found[3]] = found[1]
        elif found:
            for it in found[2].split(","):
                name, _, other = it.strip().partition(" as ")
                scope[other or name] = (found[1], name)
    return scope, modules


@cache
def is_own(path):
    """Whether a path leads into a crate of the repository."""
    return os.path.isdir(f"{TOP}/crates/{path.split('.')[1]}") if path.startswith("Rattle.") else False


def spot(path):
    """The crate and the module of specs/ to which a path leads, if it does."""
    _, crate, part, *rest = path.split(".")
    while part == "specs" and rest:
        if os.path.isfile(f"{TOP}/crates/{crate}/specs/{'/'.join(rest)}.antt"):
            return crate, ".".join(rest)
        rest.pop()
    return None


@cache
def target_of(path, name):
    """The key of what a path's name stands for: a definition, a type or constant of the code, or a word of the kit."""
    if not is_own(path):
        return ("kit", path, name)
    _, crate, part, *rest = path.split(".")
    if rest and rest[0] in ("declared", "contracts"):
        return of_code(crate, rest[1:], name)
    found = spot(path)
    return found and (specs(*found).target(name) or found[1] != path and specs(*found).target(path.rpartition(".")[2])) or None


def of_code(crate, modules, name):
    """The key of a type or a constant of the code, by its module and what is named behind it. A variant stands for its type."""
    part = next((number for number, it in enumerate(modules) if it in ("TheVariants", "TheInside", "TheImpl")), None)
    for it in (name, *reversed(modules)) if part is None else (modules[part - 1],):
        for wanted in (it, re.sub(r"^out-|^deep-", "", it), re.sub(r"(PartialEq|Eq|Clone|Drop)$", "", it)):
            if found := in_crate(crate, wanted, modules):
                return found
    return None


DECLARES = re.compile(r"^ *(?:pub(?:\([^)]*\))? )?(struct|enum|trait|type|const) (\w+)\b", re.M)


@cache
def declared(crate):
    """The types, traits and constants of a crate, by name: in which files."""
    found = {}
    for at, _, files in sorted(os.walk(f"{TOP}/crates/{crate}/src")):
        for file in sorted(it for it in files if it.endswith(".rt")):
            path = os.path.relpath(f"{at}/{file}", f"{TOP}/crates/{crate}")
            for it in DECLARES.finditer(text_of(f"{at}/{file}")):
                found.setdefault(it[2], []).append(path)
    return found


def in_crate(crate, name, modules=()):
    """The key of a type, trait or constant that a crate declares or passes on."""
    if paths := declared(crate).get(name):
        return ("code", crate, next((it for it in paths if any(f"/{module}." in it or f"/{module}/" in it for module in modules)), paths[0]), name)
    other = os.path.isfile(f"{TOP}/crates/{crate}/src/lib.rt") and code(crate, "src/lib.rt").uses.get(name)
    return other and other[0] != crate and in_crate(*other) or None


def uses_in(text, crate):
    """What the names of Rust's `use` items stand for: of each the crate and its name there."""
    found = {}
    for it in re.finditer(r"^(?:pub(?:\([^)]*\))? )?use ([^;]+);", text, re.M):
        for path in spread(it[1]):
            path, _, other = path.partition(" as ")
            first, *_, last = path.split("::")
            found[other or last] = (crate if first in ("crate", "self", "super") else first, last)
    return found


def spread(tree):
    """The paths of a `use` tree."""
    tree = re.sub(r"\s+", " ", tree.strip())
    front, brace, rest = tree.partition("{")
    if not brace:
        return [tree]
    parts, depth, part = [], 0, ""
    for char in rest[: rest.rindex("}")]:
        depth += (char == "{") - (char == "}")
        if char == "," and not depth:
            parts.append(part)
            part = ""
        else:
            part += char
    return [front + path for it in (*parts, part) if it.strip() for path in spread(it)]


class Code:
    """A file of code: what the names of its items and of its clauses stand for."""

    def __init__(self, crate, path):
        self.crate, self.path = crate, path
        text = text_of(f"{TOP}/crates/{crate}/{path}")
        self.lines, self.uses = text.splitlines(), uses_in(text, crate)
        self.scope, self.modules = imports(it for it in self.lines if it.startswith(("ghost use", "pub ghost use")))

    def item(self, name):
        """The key of a type, trait or constant that the code names."""
        if self.path in declared(self.crate).get(name, []):
            return ("code", self.crate, self.path, name)
        return in_crate(*self.uses.get(name, (self.crate, name)))

    def items(self, text):
        """The keys of the types and constants in a text of the code."""
        words = re.findall(r"[A-Za-z_]\w*", re.sub(r"//.*|^ *#\[.*", "", text, flags=re.M))
        return {it for it in map(self.item, dict.fromkeys(words)) if it}

    def clause(self, text, block=(), bound=()):
        """The keys of what a clause names, by the imports of its file and of its block. A name that these don't know is the code's."""
        scope, modules = imports(block)
        scope, modules = {**self.scope, **scope}, {**self.modules, **modules}
        found = set()
        for head, member in Term(bound).read(tokens_of(text)).names:
            if head in modules and member:
                found.add(target_of(modules[head], member))
            elif head in scope:
                found.add(target_of(*scope[head]))
            else:
                found.add(self.item(head))
        return found - {None}

    def end(self, first):
        """The last line of the item that begins at a line."""
        depth = re.match(" *", self.lines[first])[0]
        if self.lines[first].endswith((";", "}")):
            return first
        return next(number for number in range(first, len(self.lines)) if self.lines[number].startswith((f"{depth}}}", f"{depth});")))

    def declaration(self, name):
        """The lines of a type, trait or constant, with its comment and without its attributes. Of a type with a model the fields are left out, and what
        contracts see of it stands there."""
        pattern = re.compile(rf" *(?:pub(?:\([^)]*\))? )?(struct|enum|trait|type|const) {name}\b")
        first = next(number for number, it in enumerate(self.lines) if pattern.match(it))
        front = first
        while self.lines[front - 1].lstrip().startswith(("///", "#[")):
            front -= 1
        value = self.value(name)
        body = self.lines[first : self.end(first) + 1] if value is None else [f"{self.lines[first].rstrip(' {;')}; // in contracts: {value}"]
        return [it for it in (*self.lines[front:first], *body) if it.strip() and not it.lstrip().startswith("#[")]

    def definition(self, name):
        """A type, trait or constant by its name."""
        lines, value = self.declaration(name), self.value(name)
        if value is not None:
            return Definition(self.crate, self.path, name, len(lines), frozenset(self.clause(value, self.imported(self.model(name)))))
        return Definition(self.crate, self.path, name, len(lines), frozenset(self.named("\n".join(lines), name)))

    def named(self, text, name):
        """The keys of what a type or trait names: its parts, and what its ghost fields or the contracts of its functions say."""
        found, at = set(), 0
        for it in re.finditer(r"(?:^|\s)(?:ghost(?: \w+)?[:=]?|ensures\*?(?: \w+)?|requires(?: \w+)?|ghost \w+ =)\s*(?=\{)", text):
            if it.start() >= at:
                last = closed(text, it.end())
                found |= self.clause(text[it.end() : last], bound=["self", "result"])
                found |= self.items(text[at : it.start()])
                at = last + len((re.match(r"\s*by\s*(?=\{)", text[last:]) or [""])[0])
                at = closed(text, at) if at > last else at
        return (found | self.items(text[at:])) - {("code", self.crate, self.path, name)}

    def model(self, name):
        """The lines of a type's model, if it has one."""
        pattern = re.compile(rf"impl(<.*?>)? Model for {name}\b")
        first = next((number for number, it in enumerate(self.lines) if pattern.match(it)), None)
        return [] if first is None else self.lines[first : self.end(first) + 1]

    def value(self, name):
        """What contracts see of a type with a model, or nothing where it has none."""
        text = "\n".join(self.model(name))
        found = re.search(r"ghost Value = (?=\{)", text)
        return found and re.sub(r"\s+", " ", text[found.end() + 1 : closed(text, found.end()) - 1]).strip()

    @staticmethod
    def imported(block):
        return [it for it in block if it.lstrip().startswith("ghost use")]

    def contract(self, name, clauses=()):
        """The keys of what the functions of a name say in their contracts, or in some clauses of these, and in their signatures."""
        found = set()
        for at in [number for number, line in enumerate(self.lines) if re.match(rf" *pub fn {name}\b", line)]:
            depth = re.match(" *", self.lines[at])[0]
            owner = next((number for number in range(at, -1, -1) if depth and self.lines[number].startswith(("impl", "pub trait"))), at)
            braces = (f"{depth}{{", f"{depth}{{}}")
            last = next(it for it in range(at, len(self.lines)) if self.lines[it] in braces or it == at and self.lines[it].endswith("{"))
            text = re.sub(r"//.*", "", "\n".join(self.lines[at : last + (last == at)]))
            front = re.split(r"\n *(?:ensures|requires)", text)[0]
            bound = {"self", "result", *re.findall(r"(\w+): ", front)}
            found |= self.items(front) | (self.items(self.lines[owner]) if owner < at else set())
            for it in re.finditer(r"\s(ensures\*?|requires)(?: (\w+))? (?=\{)", text):
                if not clauses or it[1] == "requires" or it[2] in clauses:
                    found |= self.clause(text[it.end() : closed(text, it.end())], self.imported(self.lines[owner:at]), bound)
        return found


def closed(text, at):
    """Where the brace that opens at a place of a text is closed."""
    depth = 0
    for number in range(at, len(text)):
        depth += (text[number] == "{") - (text[number] == "}")
        if not depth:
            return number + 1
    return len(text)


specs = cache(Specs)
code = cache(Code)


@cache
def definition(key):
    """What a key stands for."""
    sort, crate, where, name = key
    return (specs(crate, where) if sort == "specs" else code(crate, where)).definition(name)


@cache
def closure(keys):
    """All that a set of keys leads to: their definitions, those that these name, and so on; and the words of the kit that are named on the way."""
    found, kit, left = {}, set(), [*keys]
    while left:
        key = left.pop()
        if key[0] == "kit":
            kit.add(key)
        elif key not in found:
            found[key] = definition(key)
            left += found[key].names
    return [found[it] for it in sorted(found)], kit


def roots(crate, module, name, clauses=()):
    """The keys of what the contracts of the functions of a name say, or some clauses of them."""
    return frozenset(code(crate, f"src/{module}.rt").contract(name, clauses))


def main(words):
    found, kit = closure(roots(*words[:3], words[3:]))
    files = {}
    for it in found:
        files.setdefault((it.crate, it.path), []).append(it)
    for (crate, path), its in files.items():
        print(f"{crate} {path} {sum(it.lines for it in its)}: {' '.join(it.name for it in its)}")
    private = [it for it in found if it.is_private]
    print(f"{len(found)} definitions, {sum(it.lines for it in found)} lines, {len(files)} files, {len({it.crate for it in found})} crates;"
          f" private {len(private)}, {sum(it.lines for it in private)} lines; words of the kit {len(kit)}")


if __name__ == "__main__":
    main(sys.argv[1:])
