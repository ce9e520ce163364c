#!/usr/bin/env python3
"""Measures kilambosetryd beside memcached, with flash and without: the table of docs/SERVER.md.

    measure.py [SECONDS [ROUNDS]]

In memory: memcaslap (nine gets to a set, 1,024 bytes), and the load of examples/load.rs, all of whose keys fit, one command at a
time and 32 at once. On flash: the same loads over four times as many bytes as the memory has, beside memcached's extstore where
memcached has it; of both files the system has copies in memory. Servers take turns, each anew for each load, with four threads; the best of the rounds
stands.
"""
import os
import re
import shutil
import subprocess
import sys
import tempfile

from servers import TARGET, kilambosetryd, memcached

SECONDS = sys.argv[1] if len(sys.argv) > 1 else "5"
ROUNDS = int(sys.argv[2]) if len(sys.argv) > 2 else 3
THREADS = ["--threads", 4]


def numbers(text):
    """Returns the numbers of the load's line."""
    return [float(it) for it in re.search(r"([\d.]+) operations/s, p50 ([\d.]+) us, p99 ([\d.]+) us, ([\d.]+) %", text).groups()]


def by_load(*words):
    """Returns a load, by its words."""

    def run(server):
        command = [f"{TARGET}/release/examples/load", f"127.0.0.1:{server.port}", *map(str, words)]
        return numbers(subprocess.run(command, capture_output=True, check=True).stdout.decode())

    return run


def by_memcaslap(server):
    """Runs memcaslap, and returns the same, as far as it tells them."""
    command = ["memcaslap", "-s", f"127.0.0.1:{server.port}", "-T", "2", "-c", "32", "-t", f"{SECONDS}s", "-X", "1024"]
    said = subprocess.run(command, capture_output=True, check=True).stdout.decode()
    return [float(re.search(r"TPS: (\d+)", said)[1]), 0, 0, 0]


def on_flash(folder):
    """Returns how each server is started with 64 MB of memory, and flash behind it."""
    ours = [*THREADS, "--memory", 64, "--flash", f"{folder}/flash", "--flash-size", 1000, "--mean-key", 16, "--mean-value", 1000]
    return {
        "memcached, extstore": lambda: memcached("-t", 4, "-m", 64, "-o", f"ext_path={folder}/ext:1g"),
        "kilambosetryd, flash": lambda: kilambosetryd(*ours),
    }


def in_memory():
    """Returns how each server is started with 512 MB of memory."""
    ours = [*THREADS, "--memory", 512, "--mean-key", 16, "--mean-value", 1000]
    return {"memcached": lambda: memcached("-t", 4, "-m", 512), "kilambosetryd": lambda: kilambosetryd(*ours)}


def measured(start, run):
    """Returns what a server did under a load, and its resident memory."""
    with start() as server:
        return [*run(server), server.resident()]


def compare(name, servers, run):
    """Prints a row for each server, with the best of its rounds."""
    rows = {}
    for _ in range(ROUNDS):
        for server, start in servers.items():
            rows.setdefault(server, []).append(measured(start, run))
    for server, all_rows in rows.items():
        best = max(all_rows)
        words = [f"{best[0]:,.0f}", *(f"{it:,.0f} us" if it else "" for it in best[1:3]), f"{best[3]:.1f} %" if best[3] else ""]
        print(f"| {name} | {server} | {' | '.join(words)} | {best[4]:,.0f} MB |", flush=True)


def main():
    """Measures all."""
    print("| load | server | operations/s | p50 | p99 | hits | resident |\n|---|---|---|---|---|---|---|")
    small, large = 100_000, 256_000
    if shutil.which("memcaslap"):
        compare("memcaslap, 32 connections", in_memory(), by_memcaslap)
    compare("Zipf in memory, 32 connections", in_memory(), by_load(small, 1000, 32, 1, SECONDS))
    compare("the same, 5 % sets", in_memory(), by_load(small, 1000, 32, 1, SECONDS, 5))
    compare("the same, 32 commands at once", in_memory(), by_load(small, 1000, 8, 32, SECONDS))
    folder = tempfile.mkdtemp()  # (the system keeps copies of what the files have, so that it is the servers that are measured)
    os.chmod(folder, 0o777)
    compare("Zipf, four times the memory", on_flash(folder), by_load(large, 1000, 32, 1, SECONDS))
    compare("the same, 32 commands at once", on_flash(folder), by_load(large, 1000, 8, 32, SECONDS))
    shutil.rmtree(folder)


if __name__ == "__main__":
    main()
