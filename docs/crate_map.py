"""What docs/map, docs/check-map and docs/check-sessions share: the top of the repository, and crates.txt read as rooms, each with
its name, its text, the rooms that it may use and its crates, and the crates' edges: which crates of the repository a crate names,
and which of these no other one implies."""
import os
import re

TOP = os.path.join(os.path.dirname(os.path.abspath(__file__)), "..")


def text_of(name):
    with open(os.path.join(TOP, name), encoding="utf-8") as file:
        return file.read()


class Room:
    def __init__(self, name):
        self.name, self.text, self.uses, self.crates = name, [], [], []


def read_rooms():
    """The rooms of crates.txt in their order, and of each crate the names on its line."""
    rooms, named = [], {}
    for line in text_of("crates.txt").splitlines():
        if line.startswith("# == "):
            rooms.append(Room(line[5:].strip()))
        elif line.startswith("# uses: ") and rooms:
            rooms[-1].uses = [it for it in line[8:].split() if it != "nothing"]
        elif line.startswith("#") and rooms:
            rooms[-1].text.append(line[1:].strip())
        elif line and not line.startswith("#"):
            name, _, rest = line.partition(":")
            named[name] = rest.split()
            if not rooms:
                rooms.append(Room("(none)"))
            rooms[-1].crates.append(name)
    return rooms, named


def edges_of(named):
    """Of each crate the crates of the repository on which it stands, without those that another of them stands on."""
    below = {}

    def all_below(crate):
        if crate not in below:
            ours = [it for it in named[crate] if it in named]
            below[crate] = set(ours).union(*(all_below(it) for it in ours))
        return below[crate]

    found = {}
    for crate in named:
        ours = [it for it in named[crate] if it in named]
        found[crate] = [it for it in ours if not any(it in all_below(other) for other in ours)]
    return found


def chain_of(named):
    """The longest chain of crates, from the lowest one up: the first of those that are as long."""
    longest = {}

    def up_to(crate):
        if crate not in longest:
            chains = [up_to(it) for it in named[crate] if it in named]
            longest[crate] = max(chains, key=len, default=[]) + [crate]
        return longest[crate]

    return max((up_to(it) for it in named), key=len)


def cells_of(line):
    """The cells of a row of a table, or none where the line is no row."""
    return [it.strip() for it in line.strip().strip("|").split(" | ")] if re.match(r"\|.*\|$", line.strip()) else []
