#!/usr/bin/env python3
"""Counts up from many connections, over a memory that holds few of the counters and a flash file that is harmed.

    counting.py [SECONDS]

No number is answered twice. A counter that is lost begins anew, at a number that none had; meanwhile other clients store what takes
its place in memory, and pages of the file are swapped and bytes of it changed.
"""
import os
import random
import shutil
import sys
import tempfile
import threading
import time

from program import stats_of
from servers import Client, kilambosetryd

COUNTERS = 4000
TOGETHER = 20
STEP = 10**6
# It goes on until they were counted so often, on a machine that is busy too, for so many seconds more at most.
LEAST = 2000
PATIENCE = 120
PAGE = 4096


class Trial:
    """What all threads share."""

    def __init__(self, port, path):
        self.port, self.path = port, path
        self.ends = threading.Event()
        self.lock = threading.Lock()
        self.seen = [set() for _ in range(COUNTERS)]
        self.begun = self.counted = self.twice = 0
        self.faults = []

    def note(self, counter, number):
        """Notes a number that was answered."""
        with self.lock:
            self.counted += 1
            self.twice += number in self.seen[counter]
            self.seen[counter].add(number)

    def begin(self, client, counter):
        """Begins a counter that isn't there, unless another does."""
        with self.lock:
            self.begun += 1
            first = self.begun * STEP
        client.ask(b"ms counter%d 13 ME\r\n%013d" % (counter, first))

    def count(self, seed):
        """Counts."""
        draw, client = random.Random(seed), Client(self.port, 60)
        while not self.ends.is_set():
            counters = [draw.randrange(COUNTERS) for _ in range(TOGETHER)]
            client.send(b"".join(b"incr counter%d 1\r\n" % counter for counter in counters))
            answers = [client.line() for _ in counters]
            for counter, answer in zip(counters, answers):
                if answer == b"NOT_FOUND":
                    self.begin(client, counter)
                else:
                    self.note(counter, int(answer))

    def fill(self, seed):
        """Stores values, of which the memory holds few."""
        draw, client = random.Random(seed), Client(self.port, 60)
        while not self.ends.is_set():
            for _ in range(10):
                assert client.ask(b"ms fill%d 3000\r\n%s" % (draw.randrange(8000), b"v" * 3000)) == (b"HD", None)

    def harm(self):
        """Writes old pages, and bytes, to the file."""
        draw, file = random.Random(5), os.open(self.path, os.O_RDWR)
        size = os.fstat(file).st_size
        while not self.ends.is_set():
            if draw.random() < 0.5:
                page = os.pread(file, PAGE, draw.randrange(size // PAGE) * PAGE)
                os.pwrite(file, page, draw.randrange(size // PAGE) * PAGE)
            else:
                os.pwrite(file, draw.randbytes(1), draw.randrange(size))
            time.sleep(0.002)
        os.close(file)

    def guarded(self, work, *words):
        """Does a thread's work; what ends it ends the trial."""
        try:
            work(*words)
        except BaseException as fault:
            self.faults.append(repr(fault))
            self.ends.set()

    def run(self, seconds):
        """Runs all threads for so long, or longer where the machine is slow."""
        works = [(self.count, seed) for seed in range(6)] + [(self.fill, seed) for seed in (100, 101)] + [(self.harm,)]
        threads = [threading.Thread(target=self.guarded, args=work) for work in works]
        for thread in threads:
            thread.start()
        self.ends.wait(seconds)
        until = time.monotonic() + PATIENCE
        while self.counted < LEAST and time.monotonic() < until:
            if self.ends.wait(0.1):
                break
        self.ends.set()
        for thread in threads:
            thread.join()


def main():
    """Runs it."""
    seconds = float(sys.argv[1]) if len(sys.argv) > 1 else 30
    folder = tempfile.mkdtemp()
    path = os.path.join(folder, "flash")
    with kilambosetryd("--memory", 2, "--flash", path, "--flash-size", 100, "--mean-value", 1000) as server:
        trial = Trial(server.port, path)
        trial.run(seconds)
        from_flash = int(stats_of(Client(server.port))[b"hits_from_flash"])
        status = server.end()
    shutil.rmtree(folder)
    print(f"counted {trial.counted} times, begun anew {trial.begun}, {from_flash} found on flash: {trial.twice} numbers twice")
    assert not trial.faults, trial.faults
    assert status == 0 and trial.counted >= LEAST and from_flash > 0
    sys.exit(1 if trial.twice else 0)


if __name__ == "__main__":
    main()
