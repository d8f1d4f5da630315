"""Clients that make users in a cell of running servers, one after the other, and note what became of each: for the campaigns of bench/."""
import random
import struct
import threading
import time

from running_cell import LINE_FULL, NO_QUORUM, NOT_SYNC, PORTS, Connection, Failed, Refused, listed_words, name_to_id, new_entry

KIND = "ptserver"
# What nametoid gives for a name that nobody has.
NOBODY = 32766
# (a server looks at all its entries for each name)
NAMES_AT_ONCE, TRIES = 50, 10
# Seconds until a client that was refused asks the next server.
TURN = 0.1


class Client(threading.Thread):
    """Makes users by names of its own until it is told to end. A call that may have been made is not made again: its name is in doubt."""

    def __init__(self, number, addresses, pause, wait, begins_at):
        super().__init__(daemon=True)
        self.number, self.addresses, self.pause, self.wait, self.begins_at = number, addresses, pause, wait, begins_at
        # The id of each name that was acknowledged, the names in doubt, the seconds of the slowest ok, and what went wrong.
        self.acknowledged, self.in_doubt, self.slowest, self.fault = {}, set(), 0, None
        self.ends, self.at, self.server = threading.Event(), number, None

    def run(self):
        try:
            while not self.ends.is_set():
                self.make(f"user{self.number}x{len(self.acknowledged) + len(self.in_doubt)}")
                time.sleep(random.uniform(0, 2 * self.pause))
        except (Failed, Refused, struct.error) as why:
            self.fault = f"client {self.number}: {why}"
        finally:
            self.leave()

    def leave(self):
        if self.server:
            self.server.socket.close()
        self.server = None

    def go_on(self):
        """Turns to the next server."""
        self.leave()
        self.at += 1
        time.sleep(TURN)

    def make(self, name):
        """Asks one server after the other, until the user is made or may be."""
        while not self.ends.is_set():
            try:
                if not self.server:
                    self.server = Connection(self.addresses[self.at % len(self.addresses)], PORTS[KIND], self.wait, self.begins_at)
            except OSError:
                self.go_on()
                continue
            began = time.monotonic()
            try:
                self.acknowledged[name] = int.from_bytes(self.server.call(*new_entry(name)), "big")
                self.slowest = max(self.slowest, time.monotonic() - began)
                return
            except Refused as why:
                if self.is_made_in_doubt(why):
                    self.in_doubt.add(name)
                    return
                self.go_on()
            except OSError:
                self.in_doubt.add(name)
                self.go_on()
                return

    @staticmethod
    def is_made_in_doubt(refused):
        """Whether the call may have been made. Fails where the database refuses it, which has no cause to."""
        if refused.tag == NO_QUORUM:
            return struct.unpack(">4I", refused.fields)[3] == 1
        if refused.tag in (NOT_SYNC, LINE_FULL):
            return False
        raise refused


class Clients:
    """Some clients at once."""

    def __init__(self, many, addresses, pause, wait=90, begins_at=""):
        self.all = [Client(number, addresses, pause, wait, begins_at) for number in range(many)]
        for it in self.all:
            it.start()

    def count(self):
        """Returns how many users were acknowledged so far, or fails where something went wrong."""
        for it in self.all:
            if it.fault:
                raise Failed(it.fault)
        return sum(len(it.acknowledged) for it in self.all)

    def begin_anew(self):
        """Forgets the slowest oks, and returns how many users were acknowledged so far."""
        for it in self.all:
            it.slowest = 0
        return self.count()

    def slowest(self):
        """Returns the seconds of the slowest ok since."""
        return max(it.slowest for it in self.all)

    def wait_for_one(self, cell, since, seconds):
        """Waits until more than so many were acknowledged, and returns how many."""
        end = time.monotonic() + seconds
        while self.count() <= since:
            cell.look()
            if time.monotonic() > end:
                raise Failed(f"no write was acknowledged for {seconds:.0f} seconds")
            time.sleep(0.005)
        return self.count()

    def end(self):
        for it in self.all:
            it.ends.set()
        for it in self.all:
            it.join(it.wait + 5)
        self.count()

    def compare(self, find_site):
        """Looks for each name at the sync site. Returns how many were acknowledged, of these found with their id and lost, and how many in
        doubt were found and not."""
        acknowledged = {name: number for it in self.all for name, number in it.acknowledged.items()}
        in_doubt = [name for it in self.all for name in it.in_doubt]
        found = {}
        for some in cut([*acknowledged, *in_doubt]):
            found.update(zip(some, ask_site(find_site, name_to_id(*some))))
        lost = [name for name, number in acknowledged.items() if found[name] != number]
        kept = [name for name in in_doubt if found[name] != NOBODY]
        return len(acknowledged), len(acknowledged) - len(lost), lost, len(kept), len(in_doubt) - len(kept)


def ask_site(find_site, call):
    """Returns the words that the sync site answers, which is looked for anew where it gives no answer."""
    for tries in range(TRIES):
        try:
            with Connection(find_site(), PORTS[KIND], 60) as server:
                return listed_words(server.call(*call))
        except (OSError, Refused) as why:
            if tries == TRIES - 1:
                raise Failed(f"the sync site does not answer: {why}") from why
    return []


def cut(names):
    return [names[at:at + NAMES_AT_ONCE] for at in range(0, len(names), NAMES_AT_ONCE)]
