"""The crates of crates.txt, and what each stands on.

    python3 tools/crates.py NAME      prints the lines of the crate, and of each that it stands on
"""
import os
import sys

TOP = os.path.dirname(os.path.dirname(os.path.realpath(__file__)))


class Crates:
    """The crates in the order of crates.txt, each with what it names and with its line."""

    def __init__(self):
        with open(f"{TOP}/crates.txt", encoding="utf-8") as file:
            lines = [it for it in (line.split("#")[0].strip() for line in file) if it]
        self.lines = {line.partition(":")[0].split()[0]: line for line in lines}
        self.named = {name: line.partition(":")[2].split() for name, line in self.lines.items()}
        self.known_below, self.known_ways = {}, {}

    def own(self, name):
        """The crates of the repository that a crate names."""
        return [it for it in self.named[name] if it in self.named]

    def below(self, name):
        """The crates of the repository that a crate stands on."""
        if name not in self.known_below:
            own = self.own(name)
            self.known_below[name] = {*own}.union(*map(self.below, own))
        return self.known_below[name]

    def ways(self, name):
        """How many ways lead down from a crate, the one that stays with it among them: each crate is met once on each."""
        if name not in self.known_ways:
            self.known_ways[name] = 1 + sum(map(self.ways, self.own(name)))
        return self.known_ways[name]


if __name__ == "__main__":
    crates = Crates()
    wanted = crates.below(sys.argv[1]) | {sys.argv[1]}
    print("\n".join(line for name, line in crates.lines.items() if name in wanted))
