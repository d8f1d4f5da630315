"""The protection database as a plain list of entries and a set of pairs, for tools/protection_rows. Written from docs/FORMATS.md ("The
numbers of refusals", "Calls as bytes") and from what the calls mean; it shares nothing with the crates. A follower is told what changes."""
from dataclasses import dataclass

EXISTS, ID_EXISTS, NO_IDS, NO_ENTRY, NOT_PERMITTED = 267264, 267265, 267266, 267268, 267269
NOT_GROUP, NOT_USER, BAD_NAME, BAD_ARGUMENT = 267270, 267271, 267272, 267273
ADMINISTRATORS, ANONYMOUS, ANYUSER, AUTHUSER = -204, 32766, -101, -102
USER_FLAGS, GROUP_FLAGS, LAST_ID = 131072, 131584, 2147483647
FIXED = [
    ("system:anyuser", -101), ("system:authuser", -102), ("system:ptsviewers", -203), ("system:administrators", -204),
    ("system:backup", -205), ("anonymous", 32766),
]


class Rule(Exception):
    """The rule that a call is refused by."""


@dataclass
class Entry:
    """An entry, whose id is its key in the list."""
    name: str
    flags: int
    owner: int
    creator: int
    quota: int


def front(name):
    """The text before the `:`, or the whole name."""
    return name.split(":")[0]


def with_front(text, name):
    return text + ":" + name.split(":", 1)[1]


def is_text(name):
    return name != "" and all(33 <= byte <= 126 and chr(byte) not in ":@" for byte in name.encode())


def is_name(group, name):
    """A user's name is a text but `system`, a group's such a text, or two texts joined by one `:`; 63 bytes at most."""
    if len(name.encode()) > 63 or name == "system":
        return False
    parts = name.split(":")
    return len(parts) <= (2 if group else 1) and all(is_text(part) for part in parts)


def lowered(token):
    """The name of a token: none of its capitals stays. Two quote marks name the empty one."""
    name = "" if token == '""' else token
    return "".join(chr(ord(c) + 32) if "A" <= c <= "Z" else c for c in name)


def word(name):
    return name if name != "" else '""'


class Registry:
    """Entries by ids, pairs of a user and a group, and the two maxima."""

    def __init__(self, follower):
        self.entries, self.pairs = {}, set()
        self.max_user, self.max_group = 0, -205
        for name, id in FIXED:
            self.entries[id] = Entry(name, USER_FLAGS if id > 0 else GROUP_FLAGS, ADMINISTRATORS, ADMINISTRATORS, 0)
        self.follower = follower
        follower.begin(self)

    def ask(self, call, fields):
        """The words of the answer; a refusal is raised."""
        return getattr(self, "call_" + call)(*fields)

    # ---- looks

    def entry(self, id):
        if id not in self.entries:
            raise Rule(NO_ENTRY)
        return self.entries[id]

    def name_of(self, id):
        return self.entries[id].name if id in self.entries else str(id)

    def front_of(self, id):
        return front(self.entries[id].name)

    def owner_of(self, id):
        return self.entries[id].owner if id in self.entries else 0

    def named(self, name):
        """The ids of the entries of this name: one, or none."""
        return [id for id, entry in self.entries.items() if entry.name == name]

    def owned(self, owner):
        return sorted(id for id, entry in self.entries.items() if id < 0 and entry.owner == owner)

    def elements(self, id):
        return sorted([group for user, group in self.pairs if user == id] + [user for user, group in self.pairs if group == id])

    def page(self, kinds, after):
        return sorted(id for id in self.entries if id > after and kinds & (2 if id < 0 else 1))[:100]

    def told(self, id):
        it = self.entries[id]
        return [it.flags, id, it.owner, it.creator, it.quota, len(self.elements(id)), it.name]

    def call_nametoid(self, count, *names):
        return [count] + [(self.named(lowered(name)) + [ANONYMOUS])[0] for name in names]

    def call_idtoname(self, count, *given):
        return [count] + [self.name_of(id) for id in given]

    def call_listmax(self):
        return [self.max_user, self.max_group]

    def call_listentry(self, id):
        self.entry(id)
        return self.told(id)

    def call_listentries(self, kinds, after):
        if kinds not in (1, 2, 3):
            raise Rule(BAD_ARGUMENT)
        page = self.page(kinds, after)
        return [len(page)] + [field for id in page for field in self.told(id)]

    def call_listelements(self, id):
        self.entry(id)
        return self.listed(self.elements(id))

    def call_listowned(self, id):
        if id != 0:
            self.entry(id)
        return self.listed(self.owned(id))

    def call_getcps(self, id):
        self.entry(id)
        counted = {id}
        if id > 0:
            counted |= set(self.elements(id)) | {ANYUSER} | ({AUTHUSER} if id != ANONYMOUS else set())
        return self.listed(sorted(counted))

    def call_ismemberof(self, user, group):
        self.check_pair(user, group)
        return [int((user, group) in self.pairs)]

    @staticmethod
    def listed(given):
        return [len(given)] + given

    # ---- maxima, fields, pairs

    def call_setmax(self, id, group):
        if not (-LAST_ID <= id <= -1 if group else id >= 0):
            raise Rule(BAD_ARGUMENT)
        if group:
            self.max_group = id
        else:
            self.max_user = id
        return []

    def raise_maximum(self, id):
        if id > 0:
            self.max_user = max(self.max_user, id)
        if id < 0:
            self.max_group = min(self.max_group, id)

    def call_setfields(self, id, mask, flags, quota):
        it = self.entry(id)
        places = [flags >> 16, flags >> 12 & 15, flags >> 8 & 15, flags >> 4 & 15, flags & 15]
        allowed = [(1, 2), (0, 2), (0, 1, 2), (0, 1, 2), (0, 1)]
        if mask > 3 or mask & 1 and not all(place in these for place, these in zip(places, allowed)) or mask & 2 and quota < 0:
            raise Rule(BAD_ARGUMENT)
        if mask & 1:
            it.flags = flags
        if mask & 2:
            it.quota = quota
        return []

    def check_pair(self, user, group):
        self.entry(user)
        self.entry(group)
        if group > 0:
            raise Rule(NOT_GROUP)
        if user < 0:
            raise Rule(NOT_USER)

    def call_addtogroup(self, user, group):
        self.check_pair(user, group)
        if group in (ANYUSER, AUTHUSER):
            raise Rule(NOT_PERMITTED)
        if (user, group) in self.pairs:
            raise Rule(ID_EXISTS)
        self.pairs.add((user, group))
        self.follower.joined(self, user, group)
        return []

    def call_removefromgroup(self, user, group):
        self.check_pair(user, group)
        if (user, group) not in self.pairs:
            raise Rule(NO_ENTRY)
        self.pairs.remove((user, group))
        self.follower.joined(self, user, group)
        return []

    # ---- new entries

    def owner_for(self, group, name, given):
        """The owner of a new entry."""
        if not is_name(group, name):
            raise Rule(BAD_NAME)
        owner = given
        if given != 0:
            theirs = self.entry(given)
            if ":" in name and front(name) != front(theirs.name):
                raise Rule(BAD_NAME)
        elif ":" in name and front(name) != "system":
            found = self.named(front(name))
            if not found:
                raise Rule(BAD_NAME)
            owner = found[0]
        else:
            owner = ADMINISTRATORS
        if self.named(name):
            raise Rule(EXISTS)
        return owner

    def enter(self, name, id, owner):
        group = id < 0
        self.entries[id] = Entry(name, GROUP_FLAGS if group else USER_FLAGS, owner, ANONYMOUS, 0 if group else 20)
        self.raise_maximum(id)
        self.follower.entered(id, self.entries[id])

    def next_id(self, group):
        step = -1 if group else 1
        id = (self.max_group if group else self.max_user) + step
        while id in self.entries:
            id += step
        if abs(id) > LAST_ID:
            raise Rule(NO_IDS)
        return id

    def call_newentry(self, name, kind, owner):
        if kind not in (0, 2):
            raise Rule(BAD_ARGUMENT)
        owner = self.owner_for(kind == 2, lowered(name), owner)
        id = self.next_id(kind == 2)
        self.enter(lowered(name), id, owner)
        return [id]

    def call_inewentry(self, name, id, owner):
        if id == 0 or id < -LAST_ID:
            raise Rule(BAD_ARGUMENT)
        owner = self.owner_for(id < 0, lowered(name), owner)
        if id in self.entries:
            raise Rule(ID_EXISTS)
        self.enter(lowered(name), id, owner)
        return []

    # ---- entries that leave or turn

    @staticmethod
    def check_not_fixed(id):
        if id in [fixed for _, fixed in FIXED]:
            raise Rule(NOT_PERMITTED)

    def call_delete(self, id):
        it = self.entry(id)
        self.check_not_fixed(id)
        others = self.elements(id)
        self.pairs = {pair for pair in self.pairs if id not in pair}
        self.follower.left(self, id, it, others)
        del self.entries[id]
        for entry in self.entries.values():
            if entry.owner == id:
                entry.owner = 0
        return []

    def new_name(self, it, name, owner):
        if name != "":
            return name
        if ":" in it.name and owner not in (0, it.owner):
            return with_front(self.front_of(owner), it.name)
        return it.name

    def names_after(self, id, new):
        """The names of all entries, once one has a new name."""
        old = self.entries[id].name
        after = {}
        for other, entry in self.entries.items():
            follows = ":" in entry.name and front(entry.name) == old
            after[other] = new if other == id else with_front(front(new), entry.name) if follows else entry.name
        return after

    def check_turn(self, id, name, owner, new_id):
        """The names after it, where none of the reasons holds."""
        it = self.entries[id]
        if name != "" and not is_name(id < 0, name):
            raise Rule(BAD_NAME)
        if owner != 0:
            self.entry(owner)
        if new_id != 0 and ((new_id < 0) != (id < 0) or new_id < -LAST_ID):
            raise Rule(BAD_ARGUMENT)
        under = owner or it.owner
        if id < 0 and ":" in name and under != 0 and front(name) != self.front_of(under):
            raise Rule(BAD_NAME)
        new = self.new_name(it, name, owner)
        if ":" in it.name and front(new) != front(it.name) and [group for group in self.owned(id) if group != id]:
            raise Rule(NOT_PERMITTED)
        after = self.names_after(id, new)
        if any(len(name) > 63 for name in after.values()):
            raise Rule(BAD_NAME)
        if len(set(after.values())) < len(after):
            raise Rule(EXISTS)
        if new_id not in (0, id) and new_id in self.entries:
            raise Rule(ID_EXISTS)
        return after

    def call_changeentry(self, id, name, owner, new_id):
        it = self.entry(id)
        self.check_not_fixed(id)
        after = self.check_turn(id, lowered(name), owner, new_id)
        names = {other: (entry.name, after[other]) for other, entry in self.entries.items() if entry.name != after[other]}
        moved = new_id or id
        self.follower.turned(id, names, it.owner, owner or it.owner, moved)
        it.owner = owner or it.owner
        for other, entry in self.entries.items():
            entry.name = after[other]
            entry.owner = moved if entry.owner == id else entry.owner
            entry.creator = moved if entry.creator == id else entry.creator
        self.entries = {moved if other == id else other: entry for other, entry in self.entries.items()}
        self.pairs = {(moved if user == id else user, moved if group == id else group) for user, group in self.pairs}
        self.raise_maximum(new_id)
        return []
