"""The commands of the program, their arguments and options, as the stored helps of tools/help tell them.

    python3 tools/helps.py WORD..     says what is wrong with a command line, in a line, with status 2; nothing where the program may take it
"""
from __future__ import annotations

import os
import re
import sys
from typing import NamedTuple

HELPS = f"{os.path.dirname(os.path.realpath(__file__))}/help"
OPTION = re.compile(r" +(?:(-\w), |    )(--[\w-]+)(?: <([^>]+)>)? +(.*)")
ARGUMENT = re.compile(r" +([<\[])([A-Z]+)[>\]](\.\.\.)? +(.*)")
COMMAND = re.compile(r"  (\w+) +(.*)")
# The words that name files. Each option whose value is a FILE does, too.
FILES = ("DEF", "MOCKS", "INPUT", "SCRIPT", "EXPECT", "FILE")
# The words that each command needs which runs something; an option may stand for each, and a test for the last two.
OF_A_RUN = ("MOCKS", "CHOSEN", "INPUT")
# Options of lint that say what a file is.
ROLES = ("--mocks", "--expect", "--input", "--steps", "--script")
# Options that name files that are written.
WRITTEN = ("--junit", "--json")
# The words that `test` needs beside a definition.
OF_A_SUITE = ("MOCKS", "EXPECT")


class Option(NamedTuple):
    """An option: its names, what its value is called, if it has one, what it does, and which values are possible, if they are listed."""

    short: str | None
    name: str
    value: str | None
    about: str
    choices: list


class Argument(NamedTuple):
    """A word without a dash: what it is called, whether it has to be there, whether there may be more of it, and what it is."""

    name: str
    is_required: bool
    may_repeat: bool
    about: str


class Help(NamedTuple):
    """What a help tells: what the program or a command does, how it is used, its commands, its arguments, its options and its examples."""

    about: str
    usage: str
    commands: dict
    arguments: list
    options: list
    examples: list


def parts_of(lines):
    """The sections of a help, by their headings; what stands in front of them is under the empty one."""
    parts, heading = {"": []}, ""
    for line in lines:
        if line.endswith(":") and not line.startswith(" "):
            heading = line[:-1]
            parts[heading] = []
        else:
            parts[heading].append(line)
    return parts


def option_of(line):
    short, name, value, about = OPTION.fullmatch(line).groups()
    choices = re.search(r" ?\[possible values: (.*?)\]", about)
    return Option(short, name, value, about.replace(choices[0], "") if choices else about, choices[1].split(", ") if choices else [])


def help_of(name):
    """The stored help of a command, or of the program itself."""
    with open(f"{HELPS}/{name}.txt", encoding="utf-8") as file:
        lines = [line for line in file.read().splitlines() if line]
    parts = parts_of(lines)
    arguments = [Argument(it[2], it[1] == "<", bool(it[3]), it[4]) for it in map(ARGUMENT.fullmatch, parts.get("Arguments", []))]
    commands = dict(COMMAND.fullmatch(line).groups() for line in parts.get("Commands", []))
    usage = next(line for line in lines if line.startswith("Usage: "))[len("Usage: ") :]
    return Help(parts[""][0], usage, commands, arguments, [*map(option_of, parts["Options"])], [line.strip() for line in parts.get("Examples", [])])


def commands():
    """The helps of the commands, by their names, in the order of the program's help."""
    return {name: help_of(name) for name in help_of("asl").commands if name != "help"}


def wrong_value(option, value):
    """What is wrong with the value of an option, or None."""
    if value is None:
        return f"{option.name} wants a value: {option.name} <{option.value}>"
    if option.choices and value not in option.choices:
        return f"{option.name} is one of {', '.join(option.choices)}"
    return None


def parted(words, told):
    """The plain words of a command line behind its command, and the options by their names, each with its value; or what is wrong with the first bad one."""
    options = {name: it for it in told.options for name in (it.name, it.short)}
    plain, given, left = [], {}, list(words)
    while left:
        word = left.pop(0)
        if word == "--":
            return None, plain + left, given
        if word == "-" or not word.startswith("-"):
            plain.append(word)
            continue
        name, has_value, value = word.partition("=")
        option = options.get(name)
        if not option:
            return f"there is no option {name}", [], {}
        if option.value:
            given[name] = value if has_value else left.pop(0) if left else None
            wrong = wrong_value(option, given[name])
        else:
            given[name] = None
            wrong = f"{name} takes no value" if has_value else None
        if wrong:
            return wrong, [], {}
    return None, plain, given


def is_chosen(name, plain, given):
    """Whether a workflow of a project is meant: the project is named, or the first word is a case of a machine and nothing else is chosen."""
    if "--test" in given:
        return False
    return name in ("run", "debug", "explore") and ("--project" in given or "--case" not in given and len(plain) < 3 and "#" in "".join(plain[:1]))


def is_of_project(name, plain, given):
    """Whether a command is done for each workflow of a project."""
    if name == "lint":
        return not plain and given.keys().isdisjoint(ROLES)
    if name == "explore":
        return not plain and given.keys().isdisjoint(("--mocks", "--case", "--input", "--test", "--errors", "--error", "--always", "--undo", "--witness", "--format"))
    return name in ("check", "test") and not plain


def is_definition_alone(plain, given):
    """Whether errors are put in and no mock file is named, so that a definition is enough."""
    return "--errors" in given and len(plain) == 1 and given.keys().isdisjoint(("--mocks", "--case", "--test"))


def is_machine(plain, given):
    """Whether the last of the words of lint names a machine: the third of three, if it can't be the name of a file and none is named besides."""
    return len(plain) == 3 and "--machine" not in given and plain[2] != "-" and not set(plain[2]) & set('./{["')


def lacking(name, plain, given, told):
    """The first word that a command needs and that is neither there nor given by the option that stands for it, or None."""
    is_enough = is_of_project(name, plain, given) or is_chosen(name, plain, given) or is_definition_alone(plain, given)
    needs_run = name in ("run", "debug", "explore") and not is_enough or "--run" in given
    needs_suite = name == "test" and plain
    of_a_run = OF_A_RUN[:1] if "--test" in given else OF_A_RUN
    stands = {it.about.rpartition("Stands for the word ")[2]: it.name for it in told.options}
    for it in told.arguments[len(plain) :]:
        if it.is_required or needs_suite and it.name in OF_A_SUITE or needs_run and it.name in of_a_run and stands.get(it.name) not in given:
            return it.name
    return None


def complaint(words):
    """What is wrong with a command line, or None."""
    known = commands()
    name = words[1] if words[0] == "help" and len(words) > 1 else words[0]
    if name not in known:
        return f"asl: there is no command {name!r}; the commands are {', '.join(known)}"
    told = known[name]
    wrong, plain, given = parted(words[1:], told)
    if words[0] == "help" or not given.keys().isdisjoint(("-h", "--help")):
        return None
    lacks = None if wrong else lacking(words[0], plain, given, told)
    if lacks:
        wrong = f"{lacks} is missing"
    elif not wrong and len(plain) > len(told.arguments) and not any(it.may_repeat for it in told.arguments):
        wrong = f"{plain[len(told.arguments)]!r} is one word too many"
    if wrong:
        return f"asl: {wrong}\nUsage: {told.usage}"
    if is_chosen(name, plain, given) or is_of_project(name, plain, given):
        files = [given.get("--project", "asl.toml"), *plain[1:2]]
    elif name == "lint":
        files = plain[:2] if is_machine(plain, given) else plain
    else:
        files = [word for word, it in zip(plain, told.arguments) if it.name in FILES]
    files += [given["--test"].partition("#")[0]] if given.get("--test") else []
    files += [value for it in told.options if it.value == "FILE" and it.name not in WRITTEN and (value := given.get(it.name)) is not None]
    # A JSON text in place of a name is the file's text itself.
    named = [it for it in files if it != "-" and not it.startswith(("{", "[", '"'))]
    missing = next((it for it in named if it.isprintable() and not os.path.lexists(it)), None)
    return f"fault: file {missing}" if missing is not None else None


if __name__ == "__main__":
    said = complaint(sys.argv[1:])
    if said:
        print(said, file=sys.stderr)
        sys.exit(2)
