"""The must-fail edits of crates: what each changes, and in which function."""
import os

from crates import TOP
from sources import text_of


def edits_of(crate):
    """The texts of a crate's edits, by their names."""
    folder = f"{TOP}/crates/{crate}/must-fail"
    names = sorted(os.listdir(folder)) if os.path.isdir(folder) else []
    return {f"{crate}/{it}": text_of(f"{folder}/{it}") for it in names if it.endswith(".edit")}


class Edit:
    """An edit: its texts by file, the function that has to be refused, and its group, where it may share a check with other edits."""

    def __init__(self, name, text, source):
        self.name, self.pairs, self.function = name, [], None
        for line in text.splitlines():
            word, _, rest = line.partition(": ")
            if word == "file":
                path = rest
            elif word == "old":
                old = rest
            elif word == "new":
                self.pairs.append((path, old, rest))
            elif word == "in":
                self.function = rest
        found = {source.function(path, old) for path, old, _ in self.pairs}
        edited = found.pop() if len(found) == 1 and not self.function else None
        self.edited, self.group = edited, source.group(edited) if edited else None
        if edited:
            self.function = edited.name

    def applied(self, texts, folder):
        """The texts with this edit too, or None where one of its texts doesn't stand there exactly once."""
        texts = dict(texts)
        for path, old, new in self.pairs:
            text = texts.get(path) or text_of(f"{folder}/{path}")
            if text.count(old) != 1:
                return None
            texts[path] = text.replace(old, new)
        return texts
