"""The functions of a crate's texts: where each begins and ends, what proves it, and what crates above may rest on."""
import os
import re
from typing import NamedTuple

from crates import TOP

# The folders of a crate's texts.
PARTS = ("src", "specs", "proofs")


def text_of(path):
    with open(path, encoding="utf-8") as file:
        return file.read()


def files_of(crate, *parts):
    """The texts of some folders of a crate, by their paths in it."""
    folder = f"{TOP}/crates/{crate}"
    paths = (f"{at}/{it}" for part in parts for at, _, files in os.walk(f"{folder}/{part}") for it in files)
    return {os.path.relpath(it, folder): text_of(it) for it in sorted(paths)}


FUNCTION = re.compile(r"( *)(pub(?:\([^)]*\))? )?(?:const |unsafe )*fn (\w+)")


class Function(NamedTuple):
    """A function of a crate: its name as the prover says it, its cycle of calls if it has one, its file, and the lines of its first
    attribute and of its body's braces."""

    name: str
    cycle: str | None
    of_trait: bool
    is_public: bool
    has_contract: bool
    path: str
    head: int
    body: int
    last: int

    def copied(self, number):
        """The name of a copy of it."""
        return f"{self.name}_edit{number}"


class Source:
    """The functions of a crate's texts."""

    def __init__(self, crate):
        self.folder = f"{TOP}/crates/{crate}"
        self.texts = files_of(crate, "src")
        self.functions = {path: [*self.functions_of(path, text.splitlines())] for path, text in self.texts.items()}

    def functions_of(self, path, lines):
        for head, line in enumerate(lines):
            named = FUNCTION.match(line)
            if named:
                depth, public, name = named.groups()
                first = head
                while lines[first - 1].startswith(f"{depth}#["):
                    first -= 1
                cycle = next((it[1] for it in (re.match(r" *#\[cycle\((\w+)\)\]", it) for it in lines[first:head]) if it), None)
                body, last = self.braces(lines, head, depth)
                # (a trait's own contract has nothing to prove)
                has_contract = any(it.lstrip().startswith("ensures") for it in lines[head:body]) and not any(it.endswith(";") for it in lines[head:body])
                module, of_trait = self.module_of(path, lines, head, depth)
                yield Function(module + name, cycle, of_trait, bool(public), has_contract, path, first, body, last)

    def module_of(self, path, lines, head, depth):
        """What the prover says before a function's name: its module, and its type and trait; and whether it is a trait's."""
        owner, is_of_trait = "", False
        if depth:
            top = next(line for line in reversed(lines[:head]) if re.match(r"impl|(pub(\([^)]*\))? )?trait ", line))
            found = re.match(r"impl(?:<[^{]*?>)? (?:(?:\w+::)*(\w+)(?:<.*?>)? for )?&?(?:'\w+ )?(\w+)", top)
            of_trait, of_type = found.groups() if found else (None, re.search(r"trait (\w+)", top)[1])
            owner, is_of_trait = f"{of_type}{of_trait or ''}::", not found or bool(of_trait)
            path = of_trait and path or self.declared(of_type) or path
        module = path[4:-3].replace("/", "::")
        return ("" if module in ("lib", "main") else f"{module}::") + owner, is_of_trait

    def declared(self, name):
        """The file that declares a type, since the prover names a method by that."""
        declares = re.compile(rf"^(pub(\([^)]*\))? )?(struct|enum) {name}\b", re.M)
        return next((path for path, text in self.texts.items() if declares.search(text)), None)

    @staticmethod
    def braces(lines, head, depth):
        """The numbers of the lines of the braces around a function's body."""
        whole = (f"{depth}{{", f"{depth}{{}}")
        opens = lambda number: lines[number] in whole or lines[number].endswith("{") and (number == head or lines[number].startswith(f"{depth})"))
        body = next((number for number in range(head, len(lines)) if opens(number)), len(lines))
        return body, next((number for number in range(body, len(lines)) if lines[number] == f"{depth}}}"), body)

    def interface(self, is_own=False):
        """The code by which crates above may be judged, by its files: all but comments, the bodies of functions, and functions that are private,
        unless it is for the crate's own functions."""
        return {path: self.without_bodies(path, text.splitlines(), is_own) for path, text in self.texts.items()}

    def without_bodies(self, path, lines, is_own):
        gone = set()
        for it in self.functions[path]:
            if is_own or it.is_public or it.of_trait:
                gone.update(range(it.body + 1, it.last))
            elif sum(map(bool, map(FUNCTION.match, lines[it.head : it.body]))) == 1:
                gone.update(range(it.head, it.last + 1))
        return [line for number, line in enumerate(lines) if number not in gone and line.strip() and not line.lstrip().startswith("//")]

    def function(self, path, old):
        """The function whose body has this text."""
        lines = self.texts.get(path, "").splitlines()
        at = next((number for number, line in enumerate(lines) if old in line), -1)
        return next((it for it in self.functions.get(path, []) if it.body < at < it.last), None)

    def group(self, function):
        """The names of the functions that are proved together with this one."""
        others = {it.name for every in self.functions.values() for it in every if it.cycle and it.cycle == function.cycle}
        return frozenset(others | {function.name})

    def text(self, function):
        """The text of a function, behind the line of the impl or trait that it is in."""
        lines = self.texts[function.path].splitlines()
        depth = lines[function.head].startswith(" ")
        within = [next(it for it in reversed(lines[: function.head]) if it[:1].isalpha())] if depth else []
        return "\n".join([*within, *lines[function.head : function.last + 1]])

    def copy(self, function, number, pairs):
        """The lines of a copy of a function with these changes, or None where one of their texts doesn't stand there exactly once."""
        text = "\n".join(self.texts[function.path].splitlines()[function.head : function.last + 1])
        for _, old, new in pairs:
            if text.count(old) != 1:
                return None
            text = text.replace(old, new)
        name, new_name = (it.rpartition("::")[2] for it in (function.name, function.copied(number)))
        text = re.sub(rf"\bfn {name}\b", f"fn {new_name}", text, count=1)
        return (re.sub(rf"\b{name}\(", f"{new_name}(", text) if self.is_recursive(function) else text).split("\n")

    @staticmethod
    def proofs_of(name):
        """The folder of a function's proof files."""
        return f"proofs/{name.replace('::', '/')}"

    def is_recursive(self, function):
        """Whether a function calls itself: the folder of its proof files has a plus then."""
        module, _, name = function.name.rpartition("::")
        return os.path.isdir(f"{self.folder}/{self.proofs_of(f'{module}::+{name}')}")

    def control(self, edits):
        """The name of the shortest function with a contract that none of these edits changes, if there is one."""
        edited = {name for it in edits for name in it.group or [it.function]}
        found = [it for every in self.functions.values() for it in every if it.has_contract and it.name not in edited]
        return min(found, key=lambda it: it.last - it.body).name if found else None
