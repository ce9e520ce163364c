#!/usr/bin/env python3
"""A server that keeps what it has ends again and again, in order or not, while clients read and change rows. Counts stale reads.

    restarts.py [COUNT] [SEED]

Threads read and change rows by leases, as `ring.py` says. The server has its flash in a file, and `--keep`. COUNT times it ends at a
random moment: killed while it serves, as it opens or as it closes; told to end, and told again; or told to end once, which it does with
status 0. It is started anew at once. A delete that isn't answered is repeated until it is, also over a restart. Nothing that is read may
be older than a change whose delete was answered before the read began; and what was kept by an end in order is there again.
"""
import collections
import os
import random
import shutil
import signal
import subprocess
import sys
import tempfile
import threading
import time

from servers import Client, binary, free_port, kilambosetryd

ROWS = 400
THREADS = 6
PADDING = b"." * 2000
HOWS = ("killed", "killed as it closes", "told twice", "in order", "in order")


class Rows:
    """The database, and which version of each row is the oldest that may be read."""

    def __init__(self):
        self.versions = [0] * ROWS
        self.least = [0] * ROWS
        self.lock = threading.Lock()

    def change(self, row):
        """Commits a change."""
        with self.lock:
            self.versions[row] += 1
            return self.versions[row]

    def answered(self, row, version):
        """The delete behind that change was answered."""
        with self.lock:
            self.least[row] = max(self.least[row], version)


class Load:
    """Clients, until they are told to end."""

    def __init__(self, port, seed):
        self.port, self.rows, self.ends = port, Rows(), False
        self.counts = collections.Counter()
        self.lock = threading.Lock()
        self.threads = [threading.Thread(target=self.work, args=(seed * 100 + number,)) for number in range(THREADS)]
        for thread in self.threads:
            thread.start()

    def count(self, name):
        """Counts one."""
        with self.lock:
            self.counts[name] += 1

    def work(self, seed):
        """What a thread does."""
        draw, clients = random.Random(seed), []

        def ask(command):
            try:
                if not clients:
                    clients.append(Client(self.port, 5))
                return clients[0].ask(command)
            except (OSError, EOFError):
                clients.clear()
                return None

        while not self.ends:
            row = min(int(draw.expovariate(8 / ROWS)), ROWS - 1)
            if draw.random() < 0.1:
                self.change(ask, row)
            else:
                self.read(ask, row)

    def change(self, ask, row):
        """Changes a row, and deletes its key until that is answered."""
        version = self.rows.change(row)
        while ask(b"md row:%d" % row) is None:
            if self.ends:
                return
            time.sleep(0.005)
        self.rows.answered(row, version)
        self.count("changes")

    def read(self, ask, row):
        """Reads a row, and judges it."""
        key, least = b"row:%d" % row, self.rows.least[row]
        said = ask(b"mg %s N30 c v" % key)
        if said is None:
            self.count("without")
            time.sleep(0.005)
            return
        self.count("reads")
        words = said[0].split()
        if said[1]:
            self.count("hits")
            self.count("stale") if int(said[1].split(b".")[0]) < least else None
        elif b"W" in words:
            version = self.rows.versions[row]
            time.sleep(0.001)
            value = b"%d" % version + PADDING
            unique = next(it[1:] for it in words if it[:1] == b"c")
            ask(b"ms %s %d C%s\r\n%s" % (key, len(value), unique, value))

    def end(self):
        """Ends it."""
        self.ends = True
        for thread in self.threads:
            thread.join()


class Restarts:
    """Servers, one after the other, over the same files."""

    def __init__(self, folder, seed):
        self.draw = random.Random(seed)
        self.port, self.words = free_port(), ["--memory", 2, "--flash", f"{folder}/flash", "--flash-size", 20]
        self.words += ["--keep", f"{folder}/kept", "--threads", 2, "--drain", 1, "--mean-value", 2000, "--shards", 4]
        self.folder, self.began = folder, collections.Counter()

    def start(self):
        """Starts one, and returns it with what it began with."""
        server = kilambosetryd(*self.words, port=self.port)
        began = None
        while began is None:
            began = next((line for line in server.said().splitlines() if line.startswith(("kept: ", "empty: "))), None)
        assert not os.path.exists(f"{self.folder}/kept"), "it is used once"
        self.began[began.split(":")[0] if began.startswith("kept") else began] += 1
        return server, began

    def kill_as_it_opens(self):
        """Starts one that is killed at once."""
        command = [binary(), "--port", str(self.port), *map(str, self.words)]
        with subprocess.Popen(command, stdout=subprocess.DEVNULL, stderr=subprocess.DEVNULL) as process:
            time.sleep(self.draw.random() ** 2 * 0.1)
            process.kill()

    def end(self, server, how):
        """Ends it so, and returns whether what it had is to be there again."""
        process = server.process
        time.sleep(self.draw.random() * 0.6)
        if how == "killed":
            process.kill()
        else:
            process.send_signal(self.draw.choice((signal.SIGTERM, signal.SIGINT)))
        if how == "killed as it closes":
            time.sleep(self.draw.random() ** 2 * 1.2)
            process.kill()
        if how == "told twice":
            time.sleep(self.draw.random() ** 2 * 1.2)
            process.send_signal(signal.SIGTERM)
        status = process.wait(60)
        assert how.startswith("killed") or status == 0, server.said()
        said = server.said()
        has_kept = any(line.startswith("kept: ") for line in said.split("ready")[-1].splitlines())
        assert has_kept or how != "in order", said
        return has_kept


def main():
    """Runs it."""
    words = [word for word in sys.argv[1:] if not word.startswith("-")]
    count, seed = int(words[0]) if words else 20, int(words[1]) if len(words) > 1 else 1
    folder = tempfile.mkdtemp()
    restarts = Restarts(folder, seed)
    load, hows = Load(restarts.port, seed), collections.Counter()
    # whether what the last one had is to be there: None, where it may be
    is_kept = False
    try:
        for number in range(count):
            server, began = restarts.start()
            if is_kept is not None:
                assert is_kept == began.startswith("kept"), f"{began}, and it is to be kept: {is_kept}"
            how = "in order" if number == 0 else restarts.draw.choice(HOWS)
            hows[how] += 1
            is_kept = restarts.end(server, how)
            if how == "killed as it closes" or how == "told twice":
                is_kept = is_kept or None
            while restarts.draw.random() < 0.3:
                restarts.kill_as_it_opens()
                hows["killed as it opens"] += 1
                is_kept = None if is_kept is not False else False
    finally:
        load.end()
        shutil.rmtree(folder)
    counts = load.counts
    print(f"{count} restarts ({', '.join(f'{times} {how}' for how, times in sorted(hows.items()))}): ", end="")
    print(f"{counts['reads']} reads, {counts['hits']} hits, {counts['changes']} changes, {counts['stale']} stale; ", end="")
    print("; ".join(f"{times} began {began}" for began, times in sorted(restarts.began.items())))
    sys.exit(0 if counts["stale"] == 0 and counts["hits"] > 0 else 1)


if __name__ == "__main__":
    main()
