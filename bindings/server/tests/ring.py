#!/usr/bin/env python3
"""Three servers behind a ketama ring; one is killed, and comes back empty. Counts stale reads, with leases and without.

    ring.py [SECONDS]

Eight threads read and change rows. A change is committed in the database, and then the row's key is deleted, until that is
answered. A reader who misses loads the row, which takes a while, and stores it. A read is stale where its row is older than a
change whose delete was answered before the read began. A server that isn't there is a miss: its keys go to no other one, where
they would be found again, and old, the next time that it is away.

With leases who misses asks by `mg KEY N30 c v`: the one who is told W loads and stores by `ms KEY .. C<unique>`, and the others
(Z) load, and don't store. Without, who misses loads and stores by `set`. The status is 0 where the first has no stale read and the
second has some, so that it is seen that there was something to be found.
"""
import bisect
import hashlib
import random
import sys
import threading
import time

from servers import Client, free_port, kilambosetryd

ROWS = 40
THREADS = 8
POINTS = 40


class Ring:
    """Which server a key is of: 160 points a server, four of each digest, as ketama makes them."""

    def __init__(self, names):
        self.points = sorted(
            (int.from_bytes(hashlib.md5(f"{name}-{number}".encode()).digest()[at : at + 4], "little"), place)
            for place, name in enumerate(names)
            for number in range(POINTS)
            for at in range(0, 16, 4)
        )

    def place(self, key):
        """Returns the number of the key's server."""
        point = int.from_bytes(hashlib.md5(key).digest()[:4], "little")
        return self.points[bisect.bisect_left(self.points, (point, -1)) % len(self.points)][1]


class Database:
    """Rows, each with a version, which are slow to load."""

    def __init__(self):
        self.versions = [0] * ROWS
        self.least = [0] * ROWS
        self.lock = threading.Lock()

    def load(self, row):
        """Returns the row of the moment at which it is asked for."""
        version = self.versions[row]
        time.sleep(random.random() * 0.008)
        return version

    def change(self, row):
        """Commits a change, and returns the new version."""
        with self.lock:
            self.versions[row] += 1
            return self.versions[row]

    def answered(self, row, version):
        """From now on a row that is older is stale."""
        with self.lock:
            self.least[row] = max(self.least[row], version)


class Servers:
    """A thread's connections to the servers."""

    def __init__(self, ring, ports):
        self.ring, self.ports, self.clients = ring, ports, {}

    def ask(self, key, command):
        """Returns a server's answer and the value with it, or None where it isn't there."""
        place = self.ring.place(key)
        try:
            if place not in self.clients:
                self.clients[place] = Client(self.ports[place], 2)
            return self.clients[place].ask(command)
        except (OSError, EOFError):
            self.clients.pop(place, None)
            return None


class Trial:
    """A run, with leases or without."""

    def __init__(self, has_leases, ports):
        self.has_leases = has_leases
        self.ports = ports
        self.ring = Ring([f"127.0.0.1:{port}" for port in ports])
        self.database = Database()
        self.ends = False
        self.reads = self.stale = self.changes = self.hits = self.failed = 0
        self.lock = threading.Lock()

    def loaded(self, servers, row, key, unique):
        """Loads a row, and stores it as it may be."""
        version = self.database.load(row)
        value = b"%d" % version
        if unique:
            servers.ask(key, b"ms %s %d C%s\r\n%s" % (key, len(value), unique, value))
        elif not self.has_leases:
            servers.ask(key, b"ms %s %d\r\n%s" % (key, len(value), value))
        return version

    def read(self, servers, row):
        """Reads a row, and judges it."""
        key = b"row:%d" % row
        least = self.database.least[row]
        said = servers.ask(key, b"mg %s %s c v" % (key, b"N30" if self.has_leases else b""))
        if said is None:
            version = self.database.load(row)
        elif said[1]:
            version = int(said[1])
        else:
            words = said[0].split()
            unique = next((it[1:] for it in words if it[:1] == b"c"), None) if b"W" in words else None
            version = self.loaded(servers, row, key, unique)
        with self.lock:
            self.reads += 1
            self.failed += said is None
            self.hits += bool(said and said[1])
            self.stale += version < least

    def change(self, servers, row):
        """Changes a row, and deletes its key."""
        version = self.database.change(row)
        key = b"row:%d" % row
        while servers.ask(key, b"md %s" % key) is None and not self.ends:
            time.sleep(0.01)
        if not self.ends:
            self.database.answered(row, version)
        self.changes += 1

    def work(self, seed):
        """What a thread does."""
        draw, servers = random.Random(seed), Servers(self.ring, self.ports)
        while not self.ends:
            row = min(int(draw.expovariate(1 / 6)), ROWS - 1)
            if draw.random() < 0.15:
                self.change(servers, row)
            else:
                self.read(servers, row)

    def run(self, seconds):
        """Runs it: one server is killed twice, and comes back empty."""
        servers = [kilambosetryd("--memory", 10, port=port) for port in self.ports]
        threads = [threading.Thread(target=self.work, args=(seed,)) for seed in range(THREADS)]
        for thread in threads:
            thread.start()
        for _ in range(2):
            time.sleep(seconds / 4)
            servers[1].process.kill()
            servers[1].process.wait()
            time.sleep(seconds / 8)
            servers[1] = kilambosetryd("--memory", 10, port=self.ports[1])
        time.sleep(seconds / 4)
        self.ends = True
        for thread in threads:
            thread.join()
        return [server.end() for server in servers]


def main():
    """Runs both."""
    seconds = float(sys.argv[1]) if len(sys.argv) > 1 else 8
    stale = []
    for has_leases in (True, False):
        trial = Trial(has_leases, [free_port() for _ in range(3)])
        assert trial.run(seconds) == [0, 0, 0]
        stale.append(trial.stale)
        print(
            f"{'with leases' if has_leases else 'without':12} {trial.reads} reads, {trial.hits} hits, {trial.changes} changes, "
            f"{trial.failed} without a server, {trial.stale} stale"
        )
    sys.exit(0 if stale[0] == 0 and stale[1] > 0 else 1)


if __name__ == "__main__":
    main()
