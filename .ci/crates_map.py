"""crates.txt, read: what each crate stands on, and under which heading. A module for the scripts beside it."""
import os
import re

TOP = os.path.dirname(os.path.dirname(os.path.realpath(__file__)))


class Map:
    """The rows of a crates.txt. A heading is a comment line that begins with its words in small letters and a colon."""

    def __init__(self, path=f"{TOP}/crates.txt"):
        self.rows, self.uses, self.heading, self.headings = {}, {}, {}, set()
        under = "no heading"
        with open(path, encoding="utf-8") as lines:
            for line in lines:
                named = re.match(r"#\s*([a-z][a-z ]*):", line)
                if named:
                    under = named[1]
                    self.headings.add(under)
                row = line.partition("#")[0].strip()
                if row:
                    name, _, below = row.partition(":")
                    name = name.split()[0]
                    self.rows[name], self.uses[name], self.heading[name] = row, below.split(), under
        # libraries of the kit have no row
        self.uses = {name: [it for it in below if it in self.rows] for name, below in self.uses.items()}

    def below(self, name):
        """Returns the crates that this one stands on, each after those that it stands on itself."""
        found = []
        for low in self.uses[name]:
            found += [it for it in [*self.below(low), low] if it not in found]
        return found

    def lowest_first(self):
        found = []
        for name in self.rows:
            found += [it for it in [*self.below(name), name] if it not in found]
        return found
