"""What each must-fail edit was last tried over: tools/tried.txt has a digest for each of them.

The verdict on an edit depends on the function that it changes, and on those contracts and definitions, of its own crate and below, that the function
reaches: a prover that is sound never proves a body that breaks its contract, whatever kit it comes with and however other functions are proved. So an
edit that was refused once is refused until one of these changes. The function's own proof files count too, since what doesn't stand
in the contract may be refused by them alone. An edit that isn't inside of one function depends on all texts of its crate.
"""
import hashlib
import os
import subprocess
import threading

from crates import TOP
from declared import Index, declared, place_of, reached, words_of
from mustfail import Edit, edits_of
from sources import PARTS, Source, files_of, text_of

PATH = f"{TOP}/tools/tried.txt"
HEAD = """# For each must-fail edit a digest of what it was last tried over, and refused by the prover. tools/edits writes it: by
# `tools/edits`, those edits are tried whose digest differs, and by `tools/edits --all` all of them.
"""
# Of the edits that haven't changed one of so many is tried, and at least so many.
ONE_OF, LEAST = 20, 30


def digest_of(parts):
    """The first digits of the SHA-256 of some texts."""
    return hashlib.sha256(repr(parts).encode()).hexdigest()[:16]


def kept():
    """The digests that are kept, by their edits."""
    lines = text_of(PATH).splitlines() if os.path.isfile(PATH) else []
    return dict(line.rsplit(" ", 1) for line in lines if line and not line.startswith("#"))


def sources_in(place, text):
    """Where those names of a text come from that its file brings by `use`."""
    return sorted((it, place.sources[it]) for it in words_of(text) & place.sources.keys())


def proofs_of(source, function, files):
    """A function's own proof files."""
    owns = (f"{source.proofs_of(it)}/" for it in (function.name, "::+".join(function.name.rsplit("::", 1))))
    return {path: it for own in owns for path, it in files.items() if path.startswith(own)}


class Tried:
    """The digests that are kept, and those of the edits as they are now."""

    def __init__(self, below):
        self.below, self.declared, self.known, self.lock = below, {}, {}, threading.RLock()
        self.kept = kept()

    def index(self, crate):
        """The declarations that a crate's functions may reach: its own, and those of the crates that it stands on."""
        for it in self.below(crate):
            if it not in self.declared:
                self.declared[it] = [*declared(it)]
        return Index([*declared(crate, is_own=True), *(one for it in sorted(self.below(crate)) for one in self.declared[it])])

    def computed(self, crate):
        source, files, index = Source(crate), files_of(crate, *PARTS), self.index(crate)
        places = {path: place_of(crate, path, text) for path, text in files.items()}
        known, found = {}, {}
        for name, text in edits_of(crate).items():
            edit = Edit(name, text, source)
            texts, counting = [(places[path], it) for path, it in files.items()], files
            if edit.edited:
                place, own = places[edit.edited.path], source.text(edit.edited)
                texts, counting = [(place, own)], (own, sources_in(place, own), proofs_of(source, edit.edited, files))
            added = frozenset(word for _, old, new in edit.pairs for word in words_of(new) - words_of(old))
            if (edit.edited, added) not in known:
                known[edit.edited, added] = reached(index, [*texts, *((places[path], " ".join(sorted(added))) for path, _, _ in edit.pairs)])
            found[name] = digest_of((text, counting, known[edit.edited, added]))
        return found

    def digests(self, crate):
        """For each edit of a crate a digest of all that the verdict on it depends on, as it is now."""
        with self.lock:
            if crate not in self.known:
                self.known[crate] = self.computed(crate)
            return self.known[crate]

    def has(self, crate, edit):
        """Whether an edit was tried over what stands now."""
        return self.kept.get(edit) == self.digests(crate)[edit]

    def keep(self, crate, refused):
        """Writes that edits of a crate were refused, those that still depend on what they were tried over: on these digests."""
        with self.lock:
            self.known.pop(crate, None)
            self.declared.clear()
            after = self.digests(crate)
            # (another run may have written others meanwhile)
            self.kept = {**kept(), **{it: digest for it, digest in refused.items() if after.get(it) == digest}}
            self.write()

    def write(self):
        rows = (f"{name} {it}\n" for name, it in sorted(self.kept.items()) if os.path.isfile(f"{TOP}/crates/{name.replace('/', '/must-fail/')}"))
        with open(PATH, "w", encoding="utf-8") as file:
            file.write("".join([HEAD, *rows]))


def sampled(names):
    """Of these edits those that are tried although nothing has changed: others for each commit."""
    asked = subprocess.run(["git", "rev-parse", "HEAD"], cwd=TOP, stdout=subprocess.PIPE, stderr=subprocess.DEVNULL, text=True, check=False)
    order = sorted(names, key=lambda it: digest_of((asked.stdout, it)))
    return order[: max(LEAST, -(-len(order) // ONE_OF))]
