#!/usr/bin/env python3
"""What a restart costs the database: of all reads, how many asked it in the seconds before, and in those behind.

    warm.py [SECONDS]

Four threads read rows by Zipf 0.9 out of 20,000 of 1,000 bytes, and store what they miss by leases. The server has 5 MB of memory and
20 of flash. After 150,000 reads, and twice as many seconds, it is counted how many ask the database, for so many seconds. Then the
server is told to end, and started anew, once with `--keep` and once without. A read for which no server is there asks the
database too. The status is 0 where with `--keep` no more than 12 of 100 asked it behind the restart, or as many as before it, where those
are more.
"""
import bisect
import itertools
import random
import shutil
import sys
import tempfile
import threading
import time

from servers import Client, free_port, kilambosetryd

ROWS = 20_000
READS = 150_000
THREADS = 4
VALUE = b"." * 1000
WEIGHTS = list(itertools.accumulate((rank + 1) ** -0.9 for rank in range(ROWS)))


class Load:
    """Readers, who count how many of their reads asked the database, for each phase."""

    def __init__(self, port):
        self.port, self.phase, self.ends = port, "first", False
        self.asked, self.reads, self.lock = {}, {}, threading.Lock()
        self.threads = [threading.Thread(target=self.work, args=(seed,)) for seed in range(THREADS)]
        for thread in self.threads:
            thread.start()

    def work(self, seed):
        """What a thread does."""
        draw, clients = random.Random(seed), []
        while not self.ends:
            key = b"row:%d" % bisect.bisect_left(WEIGHTS, draw.random() * WEIGHTS[-1])
            phase, asks = self.phase, 1
            try:
                if not clients:
                    clients.append(Client(self.port, 5))
                line, value = clients[0].ask(b"mg %s N30 c v" % key)
                asks = 0 if value else 1
                words = line.split()
                if b"W" in words:
                    unique = next(it[1:] for it in words if it[:1] == b"c")
                    clients[0].ask(b"ms %s %d C%s\r\n%s" % (key, len(VALUE), unique, VALUE))
            except (OSError, EOFError):
                clients.clear()
                time.sleep(0.001)
            with self.lock:
                self.reads[phase] = self.reads.get(phase, 0) + 1
                self.asked[phase] = self.asked.get(phase, 0) + asks

    def wait_for(self, reads):
        """Waits until so many were made."""
        while sum(self.reads.values()) < reads:
            time.sleep(0.1)

    def share(self, phase):
        """How many of 100 reads of a phase asked the database."""
        return 100 * self.asked.get(phase, 0) / max(1, self.reads.get(phase, 0))

    def end(self):
        """Ends it."""
        self.ends = True
        for thread in self.threads:
            thread.join()


def run(keeps, seconds):
    """Runs it, and returns the shares before and behind the restart, and how long no server was there."""
    folder, port = tempfile.mkdtemp(), free_port()
    words = ["--memory", 5, "--flash", f"{folder}/flash", "--flash-size", 20, "--drain", 1, "--shards", 2]
    words += ["--keep", f"{folder}/kept"] if keeps else []
    server = kilambosetryd(*words, port=port)
    load = Load(port)
    try:
        time.sleep(2 * seconds)
        load.wait_for(READS)
        load.phase = "before"
        time.sleep(seconds)
        load.phase = "away"
        begin = time.monotonic()
        assert server.end() == 0
        server = kilambosetryd(*words, port=port)
        away = time.monotonic() - begin
        load.phase = "behind"
        time.sleep(seconds)
    finally:
        load.end()
        server.process.kill()
        server.process.wait()
        shutil.rmtree(folder)
    print(
        f"{'kept' if keeps else 'not kept':9} of 100 reads asked the database: {load.share('before'):.1f} before, {load.share('behind'):.1f} "
        f"in the {seconds:.0f} s behind; {away:.2f} s without a server; {sum(load.reads.values())} reads"
    )
    return load.share("before"), load.share("behind")


def main():
    """Runs both."""
    seconds = float(sys.argv[1]) if len(sys.argv) > 1 else 10
    before, behind = run(True, seconds)
    run(False, seconds)
    sys.exit(0 if behind <= max(12, before) else 1)


if __name__ == "__main__":
    main()
