"""Where the entries of a registry (tools/plain_registry.py) stand in an image, and in which order in its chains, which are lists here.
Written from docs/FORMATS.md, "The protection image" and "Chains of the protection image"."""
import struct

HEAD_LEN, BLOCK_LEN, KEYS = 2112, 192, 256
IN_ENTRY, IN_MORE = 19, 44
# the kind of a block, beside the id of its entry; none where it is free
ENTRY, MORE = 1, 2


def words(numbers):
    return b"".join(struct.pack(">I", number % 2**32) for number in numbers)


def name_key(name):
    return sum(name.encode()) % KEYS


def id_key(id):
    return id % 2**32 % KEYS


def chained(chains):
    """The word behind each block that stands in one of these chains."""
    return {n: chain[at + 1] for chain in chains for at, n in enumerate(chain[:-1])}


def first(chain):
    return chain[0] if chain else 0


class Blocks:
    """Blocks by their numbers, from 1; chains of names and ids by their keys, owned chains by the block of the owner, continuation blocks
    by the id of their entry."""

    def __init__(self):
        self.blocks, self.place = [], {}
        self.names, self.ids = [[] for _ in range(KEYS)], [[] for _ in range(KEYS)]
        self.owned, self.more = {}, {}

    def begin(self, registry):
        """The first image: the fixed entries, first by names and ids, then by owners."""
        for id, entry in registry.entries.items():
            self.enter(id, entry, 0)
        for id, entry in registry.entries.items():
            self.own(id, entry.owner)

    def take(self, kind, id):
        """The first free block, or one more at the end."""
        n = self.blocks.index(None) + 1 if None in self.blocks else len(self.blocks) + 1
        self.blocks[n - 1:n] = [(kind, id)]
        return n

    def free(self, n):
        self.blocks[n - 1] = None

    def enter(self, id, entry, owner):
        n = self.take(ENTRY, id)
        self.place[id], self.owned[n], self.more[id] = n, [], []
        self.names[name_key(entry.name)].insert(0, n)
        self.ids[id_key(id)].insert(0, n)
        self.own(id, owner)

    def entered(self, id, entry):
        self.enter(id, entry, entry.owner)

    def own(self, id, owner):
        """A group comes into the owned chain of its owner."""
        if id < 0 and owner != 0:
            self.owned[self.place[owner]].insert(0, self.place[id])

    def disown(self, id, owner):
        if id < 0 and owner != 0:
            self.owned[self.place[owner]].remove(self.place[id])

    def fit(self, registry, id):
        """As many continuation blocks as the pairs of an entry want."""
        more = self.more[id]
        wanted = max(0, -(-(len(registry.elements(id)) - IN_ENTRY) // IN_MORE))
        while len(more) < wanted:
            more.append(self.take(MORE, id))
        while len(more) > wanted:
            self.free(more.pop())

    def joined(self, registry, user, group):
        """A pair came or went: the list of the user is changed first."""
        self.fit(registry, user)
        self.fit(registry, group)

    def left(self, registry, id, entry, others):
        """An entry goes, whose pairs are gone."""
        for other in others:
            self.fit(registry, other)
        self.fit(registry, id)
        self.disown(id, entry.owner)
        n = self.place.pop(id)
        self.names[name_key(entry.name)].remove(n)
        self.ids[id_key(id)].remove(n)
        del self.owned[n], self.more[id]
        self.free(n)

    def rename(self, n, old, new):
        if old != new:
            self.names[name_key(old)].remove(n)
            self.names[name_key(new)].insert(0, n)

    def turned(self, id, names, old_owner, owner, moved):
        """An entry gets its name, its owner and its id; then the others theirs, in the order of their blocks."""
        n = self.place[id]
        if id in names:
            self.rename(n, *names[id])
        if owner != old_owner:
            self.disown(id, old_owner)
            self.own(id, owner)
        if moved != id:
            self.ids[id_key(id)].remove(n)
            self.ids[id_key(moved)].insert(0, n)
            self.place[moved], self.more[moved] = self.place.pop(id), self.more.pop(id)
            self.blocks = [(block[0], moved) if block is not None and block[1] == id else block for block in self.blocks]
        for other in sorted(names, key=lambda other: self.place.get(other, 0)):
            if other != id:
                self.rename(self.place[other], *names[other])

    # ---- bytes

    def image(self, registry):
        free = [n for n, block in enumerate(self.blocks, 1) if block is None]
        head = [0x50524442, 1, registry.max_user, registry.max_group, len(self.blocks), first(free)] + [0] * 10
        chains = [first(chain) for chain in self.names] + [first(chain) for chain in self.ids]
        by_name, by_id, by_owner = chained(self.names), chained(self.ids), chained(self.owned.values())
        bytes = words(head + chains)
        for n, block in enumerate(self.blocks, 1):
            if block is None:
                bytes += words([0, chained([free]).get(n, 0)]).ljust(BLOCK_LEN, b"\0")
            elif block[0] == ENTRY:
                links = [next.get(n, 0) for next in (by_name, by_id, by_owner)] + [first(self.owned[n])]
                bytes += self.entry_bytes(registry, block[1], links)
            else:
                bytes += self.more_bytes(registry, n, block[1])
        return bytes

    def entry_bytes(self, registry, id, links):
        it, pairs = registry.entries[id], registry.elements(id)
        fields = words([ENTRY, it.flags, id, it.owner, it.creator, it.quota, len(pairs), first(self.more[id])])
        return (fields + it.name.encode().ljust(64, b"\0") + words(links + pairs[:IN_ENTRY])).ljust(BLOCK_LEN, b"\0")

    def more_bytes(self, registry, n, id):
        more = self.more[id]
        at = more.index(n)
        pairs = registry.elements(id)[IN_ENTRY + IN_MORE * at:][:IN_MORE]
        return words([MORE, id, (more + [0])[at + 1]] + pairs).ljust(BLOCK_LEN, b"\0")

    def rows(self, registry):
        """Rows that tell each byte of the image."""
        image = self.image(registry)
        told = [f"= size {len(image)}"]
        for at in range(0, len(image), 32):
            part = image[at:at + 32]
            if any(part):
                told.append(f"= {at} {part.hex()}")
        return told + ["= zero"]
