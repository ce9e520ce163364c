#!/usr/bin/env python3
"""Fills a server that may have less memory (`ulimit -v`) than it was told to use: it refuses, and goes on.

    memory.py [REFUSALS]

Values of 100 bytes to 300 KB come over several connections until so many were refused, in memory and over flash, under several
limits (of up to 100 refusals under one each). Each answer is one that the pages name; who asks is answered in time; what is found is whole and never older than what was
tried to be stored last. Behind it more clients come, set bars, ask for much and stay: each is served, or told that there is no memory,
and so are those who came first.
"""
import http.client
import os
import random
import shutil
import sys
import tempfile
import urllib.error
import urllib.request

from servers import Client, Server, binary, free_port

SIZES = (100, 1000, 3000, 30_000, 300_000)
KEYS = 30_000
REFUSALS = (b"SERVER_ERROR out of memory storing object", b"SERVER_ERROR out of memory")
CLIENTS = 8
MORE = 300
# What one of those who come last asks for, and how its answer begins.
ASKED = (
    (b"mn", b"MN"),
    (b"md bar B300", b"HD B"),
    (b"stats", b"STAT "),
    (b"get " + b"key " * 5000, b"END"),
    (b"set small 0 0 100\r\n" + b"x" * 100, b"STORED"),
)


def value(key, number):
    """Returns the value of a key's store of this number."""
    size = SIZES[(key + number) % len(SIZES)]
    return (b"%d " % number).ljust(size, b"v")


class Load:
    """What the clients did."""

    def __init__(self, port, seed):
        self.random = random.Random(seed)
        self.clients = [Client(port, 60) for _ in range(CLIENTS)]
        self.last = {}
        self.stored = self.refused = self.found = self.bytes = 0

    def store(self, client):
        """Stores a value, and notes that nothing older may be found."""
        key = self.random.randrange(KEYS)
        number = self.last.get(key, 0) + 1
        self.last[key] = number
        data = value(key, number)
        line, _ = client.ask(b"set key%d 0 0 %d\r\n%s" % (key, len(data), data))
        assert line == b"STORED" or line in REFUSALS, line
        self.stored += line == b"STORED"
        self.bytes += len(data)
        self.refused += line != b"STORED"

    def find(self, client):
        """Looks for a value."""
        key = self.random.randrange(KEYS)
        line, data = client.ask(b"mg key%d v" % key)
        assert line == b"EN" or data == value(key, self.last[key]), (key, line, data[:20] if data else data)
        self.found += data is not None

    def run(self, refusals, most):
        """Goes on until so many stores were refused; where none was behind so many bytes, the limit is none."""
        while self.refused < refusals:
            if self.bytes > most and not self.refused:
                print("skipped: this system sets no limit to a process' memory")
                sys.exit(77)
            client = self.random.choice(self.clients)
            self.random.choice((self.store, self.store, self.find))(client)


def more_come(port):
    """Clients come and stay, and each asks for something. Returns how many were served."""
    clients = [Client(port, 60) for _ in range(MORE)]
    served = 0
    for number, client in enumerate(clients):
        command, answer = ASKED[number % len(ASKED)]
        line = client.line_of(command)
        is_refused = line is None or line.startswith(b"SERVER_ERROR out of memory")
        assert is_refused or line.startswith(answer), (command[:20], line)
        served += not is_refused
    for client in clients:
        client.close()
    return served


def pages(port):
    """Asks for its pages, each of which is answered, or not where there is no memory. Returns how many were."""
    answered = 0
    for path in ("/", "/metrics") * 20:
        try:
            with urllib.request.urlopen(f"http://127.0.0.1:{port}{path}", timeout=60) as answer:
                answered += answer.read().endswith(b"\n")
        except urllib.error.HTTPError as error:
            assert error.code == 503, error
        except (http.client.HTTPException, OSError) as error:
            assert not isinstance(error, TimeoutError), error
    return answered


def check(limit, refusals, *words):
    """Fills a server under a limit of its megabytes."""
    port, page_port = free_port(), free_port()
    words = ["--memory", "2000", "--metrics-port", str(page_port), *words]
    with Server(["prlimit", f"--as={limit * 1_000_000}", binary(), "--port", str(port), *words], port) as server:
        load = Load(port, limit)
        load.run(refusals, 4_000_000 * limit)
        answered = pages(page_port)
        assert server.process.poll() is None, server.said()
        let_in = more_come(port)
        for client in load.clients:
            assert client.ask(b"mn") == (b"MN", None)
        assert server.end() == 0, server.said()[-2000:]
    done = f"{load.stored} stored, {load.refused} refused, {load.found} found"
    return f"{limit} MB: {done}, {answered} of 40 pages answered, and {let_in} of {MORE} let in"


def main():
    """Runs it in memory and over flash."""
    refusals = int(sys.argv[1]) if len(sys.argv) > 1 else 1000
    folder = tempfile.mkdtemp()
    flash = ["--flash", os.path.join(folder, "flash"), "--flash-size", "200"]
    in_memory, over_flash = ((250, 300, 400), (600, 700)) if refusals > 100 else ((250,), (600,))
    said = [check(limit, refusals) for limit in in_memory] + [check(limit, refusals, *flash) for limit in over_flash]
    shutil.rmtree(folder)
    print("little memory: nothing ended, nothing stale; " + "; ".join(said))


if __name__ == "__main__":
    main()
