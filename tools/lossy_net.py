"""A network of this machine's own that is slow and loses packets: each host in a network namespace, a relay between them. It wants root and
/dev/net/tun; nothing of it is left when it ends."""
import contextlib
import fcntl
import heapq
import os
import random
import select
import struct
import subprocess
import threading
import time

from running_cell import Failed

# linux/if_tun.h: the call that names an interface, and its flags for IP packets without a head of their own.
TUNSETIFF, IFF_TUN, IFF_NO_PI = 0x400454CA, 1, 0x1000
NETWORK, OWN = "10.99.77", "10.99.77.254"
LONGEST = 65_536


class LossyNet:
    """So many hosts, 10.99.77.1 and on. Each packet from one to another, or this machine, takes some seconds or is lost by a chance."""

    def __init__(self, many, seconds, loss):
        self.addresses = [f"{NETWORK}.{number + 1}" for number in range(many)]
        self.seconds, self.loss = seconds, loss
        self.spaces, self.files, self.ends = {}, {}, threading.Event()
        self.passed = self.lost = 0
        self.relay = threading.Thread(target=self.carry, daemon=True)

    def __enter__(self):
        with contextlib.ExitStack() as undo:
            undo.callback(self.close)
            try:
                self.open(OWN, None)
                for number, address in enumerate(self.addresses, 1):
                    self.open(address, f"cavygold{number}")
            except (OSError, subprocess.CalledProcessError) as why:
                raise Failed(f"no network namespaces here: {why}") from why
            self.relay.start()
            undo.pop_all()
        return self

    def __exit__(self, *_):
        self.ends.set()
        self.relay.join()
        self.close()

    def close(self):
        for space in self.spaces.values():
            subprocess.run(["ip", "netns", "del", space], check=False)
        for file in self.files.values():
            os.close(file)
        self.spaces, self.files = {}, {}

    def open(self, address, space):
        """Makes the interface of an address, in a namespace of this name or in none."""
        name = f"cavy{address.rsplit('.', 1)[1]}"
        file = self.files[address] = os.open("/dev/net/tun", os.O_RDWR | os.O_NONBLOCK)
        fcntl.ioctl(file, TUNSETIFF, struct.pack("16sH22x", name.encode(), IFF_TUN | IFF_NO_PI))
        inside = []
        if space:
            subprocess.run(["ip", "netns", "add", space], check=True)
            self.spaces[address] = space
            inside = self.around(address)[0]
            subprocess.run(["ip", "link", "set", name, "netns", space], check=True)
            subprocess.run([*inside, "ip", "link", "set", "lo", "up"], check=True)
        subprocess.run([*inside, "ip", "addr", "add", f"{address}/24", "dev", name], check=True)
        subprocess.run([*inside, "ip", "link", "set", name, "up"], check=True)

    def around(self, address):
        """The words before those of a program that is to run at an address, and no environment of its own."""
        return ["ip", "netns", "exec", self.spaces[address]], None

    def carry(self):
        """Carries packets until the end."""
        of_file = {file: address for address, file in self.files.items()}
        under_way, number = [], 0
        while not self.ends.is_set():
            left = max(0, under_way[0][0] - time.monotonic()) if under_way else 0.1
            for file in select.select(list(of_file), [], [], min(left, 0.1))[0]:
                packet = os.read(file, LONGEST)
                if packet[:1] and packet[0] >> 4 == 4:
                    to = ".".join(map(str, packet[16:20]))
                    number += 1
                    if random.random() < self.loss:
                        self.lost += 1
                    elif to in self.files:
                        heapq.heappush(under_way, (time.monotonic() + self.seconds, number, to, packet))
            while under_way and under_way[0][0] <= time.monotonic():
                _, _, to, packet = heapq.heappop(under_way)
                with contextlib.suppress(OSError):
                    os.write(self.files[to], packet)
                self.passed += 1
