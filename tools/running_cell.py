"""Servers as processes on this machine, for the scripts of examples/ and bench/: started over folders of their own, asked by the client or
over connections that are kept, and ended."""
import functools
import signal
import socket
import struct
import subprocess
import sys
import time
from pathlib import Path

TOP = Path(__file__).resolve().parent.parent
PORTS = {"ptserver": 7002, "vlserver": 7003}
# Kinds of frames, and tags of replies: docs/FORMATS.md, "Frames".
PACKET, ASK, REPLY, DEBUG, DEBUG_ANSWER = range(5)
OK, NO_QUORUM, NOT_SYNC, LINE_FULL, READY = 0, 2, 3, 4, 5


class Failed(Exception):
    """What did not go as it has to, in words for who runs the script."""


class Refused(Exception):
    """A reply that is not ok: its tag and what follows it."""

    def __init__(self, tag, fields):
        super().__init__(f"reply with tag {tag}: {fields.hex(' ')}")
        self.tag, self.fields = tag, fields


def program(crate):
    """Returns the path of a proved program, or says how to prove it and ends with 70."""
    path = TOP / "crates" / crate / "out" / crate
    check = [str(TOP / "tools" / "proved_by_rt"), str(TOP / "crates" / crate)]
    if not path.is_file() and subprocess.run(check, stdout=subprocess.DEVNULL, check=False).returncode != 0:
        print(f"{crate} is not proved here yet: ./run --prove {crate.removesuffix('_main')} proves and builds it", file=sys.stderr)
        sys.exit(70)
    return str(path)


def count(text):
    """Writes over the last line of a terminal."""
    if sys.stdout.isatty():
        print("\r\x1b[K" + text, end="", flush=True)


class Cell:
    """A cell of servers as processes, each over a folder of its own below one folder. Several cells of other addresses may share that.
    `around` gives the words before those of the server at an address, and its environment, where that is not this script's."""

    def __init__(self, folder, addresses, around=lambda address: ([], None)):
        self.server = program("afs_dbserver")
        self.folder, self.addresses, self.running = Path(folder), addresses, {}
        self.hosts, self.around = ",".join(addresses), around

    @functools.cached_property
    def client(self):
        return program("afs_client_main")

    def folder_of(self, kind, address):
        return self.folder / f"{kind}-{address}"

    def log_of(self, kind, address):
        return (self.folder / f"{kind}-{address}.log").read_text(errors="replace")

    def start(self, kind, address):
        folder = self.folder_of(kind, address)
        folder.mkdir(exist_ok=True)
        with open(self.folder / f"{kind}-{address}.log", "ab") as log:
            before, environment = self.around(address)
            words = [*before, self.server, kind, str(folder), address, self.hosts]
            self.running[kind, address] = subprocess.Popen(words, stdin=subprocess.DEVNULL, stdout=log, stderr=log, env=environment)

    def start_all(self, *kinds):
        for kind in kinds:
            for address in self.addresses:
                self.start(kind, address)

    def kill(self, kind, address):
        it = self.running.pop((kind, address))
        it.send_signal(signal.SIGKILL)
        it.wait()

    def end(self):
        for kind, address in list(self.running):
            self.kill(kind, address)

    def look(self):
        """Fails where a server has ended by itself."""
        for (kind, address), it in self.running.items():
            if it.poll() is not None:
                raise Failed(f"{kind} at {address} ended with {it.returncode}: {self.log_of(kind, address).strip()}")

    def ask(self, *words):
        """Runs a command of the client, and returns its status, its text and what it said of its end."""
        done = subprocess.run([self.client, self.hosts, *words], stdin=subprocess.DEVNULL, capture_output=True, text=True, timeout=120, check=False)
        return done.returncode, done.stdout, done.stderr.strip()

    def want(self, *words):
        """Runs a command that has to end well, and returns its text."""
        status, text, said = self.ask(*words)
        if status != 0:
            raise Failed(f"{' '.join(words)}: status {status}: {said}")
        return text

    def sync_site(self, kind):
        """Returns the address of the server that says of itself that it is the ready sync site, or None."""
        for kind_of, address in self.running:
            if kind_of == kind:
                try:
                    with Connection(address, PORTS[kind], 2) as server:
                        if server.is_ready():
                            return address
                except OSError:
                    pass
        return None

    def wait_for(self, kind, seconds, but=None, every=1):
        """Waits until a server other than `but` is the sync site, and counts down meanwhile. Returns its address."""
        end = time.monotonic() + seconds
        while True:
            self.look()
            found = self.sync_site(kind)
            left = int(end - time.monotonic())
            if found and found != but:
                count("")
                return found
            if left <= 0:
                raise Failed(f"no sync site of {kind} after {seconds} seconds")
            count(f"  waiting for a sync site of {kind}: at most {left} seconds more ")
            time.sleep(every)


class Connection:
    """A connection to a server that is kept, over which frames go and come. It may begin at another address of this machine."""

    def __init__(self, address, port, seconds=20, begins_at=""):
        self.socket = socket.create_connection((address, port), timeout=seconds, source_address=(begins_at, 0) if begins_at else None)
        self.socket.setsockopt(socket.IPPROTO_TCP, socket.TCP_NODELAY, 1)
        self.number, self.came = 0, b""

    def __enter__(self):
        return self

    def __exit__(self, *_):
        self.socket.close()

    def send(self, kind, fields):
        self.socket.sendall(struct.pack(">II", 4 + len(fields), kind) + fields)

    def receive(self):
        """Returns the kind and the fields of the next frame."""
        length = 4 + struct.unpack(">I", self.some(4)[:4])[0]
        frame = self.some(length)[:length]
        self.came = self.came[length:]
        return struct.unpack(">I", frame[4:8])[0], frame[8:]

    def some(self, length):
        """Reads until so many bytes wait."""
        while len(self.came) < length:
            more = self.socket.recv(65536)
            if not more:
                raise ConnectionError("the server has closed the connection")
            self.came += more
        return self.came

    def call(self, number, *fields):
        """Makes a call, and returns the fields of its answer. Raises Refused where the reply is not ok."""
        self.number += 1
        self.send(ASK, struct.pack(">II", self.number, number) + b"".join(fields))
        kind, reply = self.receive()
        of, tag = struct.unpack(">II", reply[:8])
        if (kind, of) != (REPLY, self.number):
            raise Failed(f"a frame of kind {kind} to {of} in place of the reply to {self.number}")
        if tag != OK:
            raise Refused(tag, reply[8:])
        return reply[8:]

    def state(self):
        """Returns what the server says of itself: host, moment, epoch, counter, phase, lease's end, sync host, voted host, and when."""
        self.number += 1
        self.send(DEBUG, word(self.number))
        kind, says = self.receive()
        if kind != DEBUG_ANSWER:
            raise Failed(f"a frame of kind {kind} in place of what a server says of itself")
        return struct.unpack(">9I", says[4:])

    def is_ready(self):
        """Whether the server is the ready sync site. A phase outlives its lease, until the server makes a step."""
        _, now, _, _, phase, until = self.state()[:6]
        return phase == READY and now <= until

    def version(self):
        return self.state()[2:4]


def word(number):
    """Returns a 32-bit word, the high byte first."""
    return struct.pack(">I", number & 0xFFFFFFFF)


def string(text):
    """Returns a string as XDR spells it."""
    data = text.encode()
    return word(len(data)) + data + bytes(-len(data) % 4)


def listed(*items):
    return word(len(items)) + b"".join(items)


def listed_words(answer):
    """Returns the words of a list of 32-bit words."""
    return list(struct.unpack(f">{len(answer) // 4}I", answer))[1:]


# What `call` takes: the number of a call of the protection database, and its fields (docs/FORMATS.md, "Calls as bytes").


def new_entry(name, kind=0, owner=0):
    """A user, or a group (kind 2) with its owner."""
    return 1, string(name), word(kind), word(owner)


def name_to_id(*names):
    return 3, listed(*map(string, names))


def id_to_name(*numbers):
    return 4, listed(*map(word, numbers))


def rename(number, name):
    """Another name; the owner and the id stay."""
    return 13, word(number), string(name), word(0), word(0)


def set_quota(number, quota):
    """How many groups a user may yet make."""
    return 14, word(number), word(2), word(0), word(quota)


def owned(number):
    """The groups of an owner."""
    return 17, word(number)
