"""Databases with many entries, for the scripts of this folder: images of both databases, and the label of a database file. The entries of
an image were made one after the other, so each stands in front of those before it in each of its chains."""
import struct
import sys
from pathlib import Path

sys.path.insert(0, str(Path(__file__).resolve().parent.parent / "tools"))
from plain_blocks import Blocks
from plain_registry import Registry

# The label of a database file, of version 1.1.
LABEL = struct.pack(">IIII", 0x354545, 64, 1, 1).ljust(64, b"\0")

USER, GROUP, ADMINISTRATORS, PALS = 131072, 131584, -204, -206
FIXED = [("system:anyuser", GROUP, -101), ("system:authuser", GROUP, -102), ("system:ptsviewers", GROUP, -203),
         ("system:administrators", GROUP, ADMINISTRATORS), ("system:backup", GROUP, -205), ("anonymous", USER, 32766)]


def even_name(number):
    """A name the sum of whose bytes is that number modulo 256, so that the chains of such names are as long as those of ids. (Names that
    differ in their digits alone, as a1 to a30000, have few sums, and chains of 1,330 names where those of ids have 118.)"""
    digits = str(number)
    more = (number - sum(digits.encode()) - 11 * 97) % 256
    return digits + "z" * (more // 25) + chr(97 + more % 25) + "a" * (10 - more // 25)


class Chains:
    """The 256 chains of names or of ids, as an image is made: the first words in the head."""

    def __init__(self):
        self.first = [0] * 256

    def put(self, key, word):
        """Puts a word in front of its chain, and returns the one behind it, or 0."""
        behind, self.first[key % 256] = self.first[key % 256], word
        return behind

    def words(self):
        return struct.pack(">256I", *self.first)


def name_key(name):
    return sum(name.encode())


def person(name, flags, number, chained, creator=ADMINISTRATORS, quota=0, paired=()):
    """The block of an entry that system:administrators owns, with its four words of chains and the ids that it is paired with."""
    fields = struct.pack(">IIiiiiII", 1, flags, number, ADMINISTRATORS, creator, quota, len(paired), 0)
    ids = b"".join(struct.pack(">i", it) for it in paired)
    return (fields + name.encode().ljust(64, b"\0") + struct.pack(">4I", *chained) + ids).ljust(192, b"\0")


def protection_image(users, members=0, name="a{}".format):
    """An image with so many users beside the fixed entries, and behind them a group in which the last ones are, where it has members."""
    inside = range(users - members + 1, users + 1)
    people = [(name(n), USER, n, 32766, 20, (PALS,) if n in inside else ()) for n in range(1, users + 1)]
    group = [("pals", GROUP, PALS, ADMINISTRATORS, 0, inside)] if members else []
    entries = [*((*it, ADMINISTRATORS, 0, ()) for it in FIXED), *people, *group]
    names, ids, owned, chained = Chains(), Chains(), Chains(), []
    for block, (name_of, flags, number, *_) in enumerate(entries, 1):
        next_owned = owned.put(ADMINISTRATORS, block) if flags == GROUP else 0
        chained.append([names.put(name_key(name_of), block), ids.put(number, block), next_owned, 0])
    # The fourth block is that of the owner of all groups.
    chained[3][3] = owned.first[ADMINISTRATORS % 256]
    blocks = [person(name_of, flags, number, words, *rest) for (name_of, flags, number, *rest), words in zip(entries, chained)]
    head = struct.pack(">IIiiI", 0x50524442, 1, users, PALS if members else -205, len(entries)).ljust(64, b"\0")
    return head + names.words() + ids.words() + b"".join(blocks)


def full_protection_image():
    """An image of 1,110 users and 4,410 groups. The user 1 and the group -1001 have 100 pairs, 2 and -1002 have 1,000; 3 and -1003 own 100
    groups, 4 and -1004 own 1,000; after 5 are named 10 groups, after 6 100."""
    registry = Registry(Blocks())
    for n in range(1, 1111):
        registry.enter(even_name(n), n, ADMINISTRATORS)
    for n in range(1001, 3101):
        registry.enter("g" + even_name(n), -n, 0)
    owned = [3] * 100 + [4] * 1000 + [-1003] * 100 + [-1004] * 1000
    for n, owner in enumerate(owned, 4001):
        registry.enter("o" + even_name(n), -n, owner)
    for n, owner in enumerate([5] * 10 + [6] * 100, 7001):
        registry.enter(registry.name_of(owner) + ":" + even_name(n), -n, owner)
    for user, many in ((1, 100), (2, 1000)):
        registry.pairs |= {(user, -2000 - n) for n in range(many)}
    for group, many in ((-1001, 100), (-1002, 1000)):
        registry.pairs |= {(10 + n, group) for n in range(many)}
    for id in (1, 2, -1001, -1002):
        registry.follower.fit(registry, id)
    return registry.follower.image(registry)


def volume(name, number, by_name, by_id):
    """The block of an entry with this read-write id, one site at the first address, and the next words of its two chains."""
    numbers = struct.pack(">9I", 1, 0x1000, number, 0, 0, 0, 0, 0, 1) + struct.pack(">2I", by_name, by_id)
    sites = b"".join(bytes([first]).ljust(13, b"\0") for first in (1, 0, 4))
    return (numbers.ljust(52, b"\0") + name.encode().ljust(64, b"\0") + sites).ljust(192, b"\0")


def location_image(entries, name="v{}".format):
    """An image of the location database with so many entries and one address."""
    names, ids = Chains(), Chains()
    blocks = [volume(name(n), n, names.put(name_key(name(n)), n), ids.put(n, 4 * n)) for n in range(1, entries + 1)]
    head = struct.pack(">IIII", 0x564C4442, 1, 0x20000000, entries).ljust(64, b"\0") + struct.pack(">I", 0x0A000001)
    return head.ljust(1084, b"\0") + names.words() + ids.words() + b"".join(blocks)
