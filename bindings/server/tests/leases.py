#!/usr/bin/env python3
"""Leases by the classic commands, of the clients in bindings/examples/python: three servers, one of which is killed and brought back.

    leases.py [SECONDS]

Eight threads read and change rows of a database that takes a millisecond. A read is stale where its row is older than a change that
was answered, with its delete, before it began. Each client must have none. In runs of ten seconds and more the same is tried by plain
sets, which must have some, or this shows nothing. Ends with status 77 where neither client is there.
"""
import os
import random
import sys
import threading
import time

from servers import kilambosetryd

sys.path.insert(0, os.path.join(os.path.dirname(os.path.realpath(__file__)), "../../examples/python"))
SECONDS = float(sys.argv[1]) if len(sys.argv) > 1 else 6
ROWS, THREADS, TTL = 300, 8, 60


def clients():
    """Returns the clients that this machine has: a name, and what makes one of the addresses of servers."""
    found = []
    try:
        from leases_pymemcache import Rows
        found.append(("pymemcache", lambda ports, rows=Rows: rows([("127.0.0.1", port) for port in ports])))
    except ImportError:
        print("skipped: no pymemcache (Debian's python3-pymemcache)")
    try:
        from leases_pylibmc import Rows
        found.append(("pylibmc", lambda ports, rows=Rows: rows([f"127.0.0.1:{port}" for port in ports])))
    except ImportError:
        print("skipped: no pylibmc (Debian's python3-pylibmc)")
    return found


class Plain:
    """The same client by plain sets."""

    def __init__(self, rows):
        self.rows = rows
        self.client = rows.client if hasattr(rows, "client") else rows.reads

    def get_or_load(self, key, load, ttl):
        """Returns the row, and stores what was loaded, whatever was changed meanwhile."""
        row = None
        try:
            row = self.client.get(key)
            if row is None:
                row = load()
                self.client.set(key, row, ttl)
        except Exception:  # (its server is away)
            pass
        return row or load()

    def delete(self, key):
        """Deletes the row."""
        self.rows.delete(key)


class Trial:
    """Threads that read and change rows, and judge what they read."""

    def __init__(self, name, make):
        self.name, self.make = name, make
        self.servers = [kilambosetryd() for _ in range(3)]
        self.versions, self.least = [0] * ROWS, [0] * ROWS
        self.lock, self.until, self.failed = threading.Lock(), 0, None
        self.reads = self.changes = self.stale = 0

    def load(self, row):
        """Returns the row as it is committed at some moment."""
        version = self.versions[row]
        time.sleep(0.001)
        return b"%d" % version

    def change(self, rows, row):
        """Commits a change of the row, and deletes its key."""
        with self.lock:
            self.versions[row] += 1
            version = self.versions[row]
        rows.delete(f"row:{row}")
        with self.lock:
            self.least[row] = max(self.least[row], version)
            self.changes += 1

    def work(self, seed):
        """Reads and changes rows until the time is up."""
        draw, rows = random.Random(seed), self.make([it.port for it in self.servers])
        while time.time() < self.until:
            row = min(int(draw.expovariate(10) * ROWS), ROWS - 1)
            if draw.random() < 0.2:
                self.change(rows, row)
                continue
            least = self.least[row]
            found = int(rows.get_or_load(f"row:{row}", lambda: self.load(row), TTL))
            with self.lock:
                self.reads += 1
                self.stale += found < least

    def try_to_work(self, seed):
        """The same; what goes wrong is kept."""
        try:
            self.work(seed)
        except Exception as failed:  # whatever it is, it is the trial's
            self.failed = failed

    def run(self):
        """Runs it, while a server is killed twice, and comes back each time, and returns how many reads were stale."""
        self.until = time.time() + SECONDS
        threads = [threading.Thread(target=self.try_to_work, args=(seed,)) for seed in range(THREADS)]
        for it in threads:
            it.start()
        for _ in range(2):
            time.sleep(SECONDS / 4)
            port = self.servers[1].port
            self.servers[1].process.kill()
            self.servers[1].process.wait()
            time.sleep(SECONDS / 8)
            self.servers[1] = kilambosetryd(port=port)
        for it in threads:
            it.join()
        for it in self.servers:
            it.end()
        if self.failed:
            raise self.failed
        print(f"{self.name}: {self.reads} reads, {self.changes} changes, {self.stale} stale")
        assert self.reads > 100 and self.changes > 20, self.name
        return self.stale


def main():
    """Tries each client, with leases and without."""
    found = clients()
    if not found:
        sys.exit(77)
    for name, make in found:
        assert Trial(f"leases by {name}", make).run() == 0, name
        if SECONDS >= 10:
            plain = Trial(f"plain sets by {name}", lambda ports, make=make: Plain(make(ports)))
            assert plain.run() > 0, f"{name}: the trial shows nothing"


main()
