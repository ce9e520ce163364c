#!/usr/bin/env python3
"""Flushes all amid stores: once a flush is answered, nothing of before it is found.

    flushes.py [SECONDS]

First amid stores by leases that were handed out before the flush: each is stored before it, and gone, or refused. Then amid `incr`,
`append` and `md I` of several clients, which store what they find anew.
"""
import sys
import threading
import time

from servers import Client, kilambosetryd

LEASES = 200
CHANGES = (b"incr number 1\r\n", b"append text 0 0 1\r\nx\r\n", b"md mark I\r\n", b"ma number\r\n", b"prepend text 0 0 1\r\nx\r\n")
TOGETHER = 100


def until_noop(client, data):
    """Sends commands and `mn`, and returns all answers."""
    client.send(data + b"mn\r\n")
    while not client.buffer.endswith(b"MN\r\n"):
        assert client.more(), "the connection is closed"
    answers, client.buffer = client.buffer, b""
    return answers


def by_leases(port, seconds):
    """Flushes amid stores by leases, and returns how often, how many were stored, and how many of these are found."""
    loader, other = Client(port, 60), Client(port, 60)
    keys = [b"lease%d" % number for number in range(LEASES)]
    rounds = stored = found = 0
    until = time.monotonic() + seconds
    while time.monotonic() < until:
        handed = until_noop(loader, b"".join(b"mg %s N30 c\r\n" % key for key in keys))
        uniques = [line.split()[1][1:] for line in handed.split(b"\r\n") if line.startswith(b"HD")]
        assert len(uniques) == LEASES, handed[:200]
        stores = b"".join(b"ms %s 3 C%s\r\nold\r\n" % pair for pair in zip(keys, uniques))
        answers = []
        storing = threading.Thread(target=lambda: answers.append(until_noop(loader, stores)))
        storing.start()
        assert other.ask(b"flush_all") == (b"OK", None)
        storing.join()
        found += until_noop(other, b"get " + b" ".join(keys) + b"\r\n").count(b"VALUE")
        stored += answers[0].count(b"HD")
        rounds += 1
        assert other.ask(b"flush_all") == (b"OK", None)
    return rounds, stored, found


def change(port, command, ends):
    """Sends a change again and again."""
    client = Client(port, 60)
    while not ends.is_set():
        until_noop(client, command * TOGETHER)


def by_changes(port, seconds):
    """Flushes amid changes, and returns how often, and how many items are found behind a flush."""
    ends = threading.Event()
    changing = [threading.Thread(target=change, args=(port, command, ends)) for command in CHANGES * 2]
    for thread in changing:
        thread.start()
    client = Client(port, 60)
    rounds = found = 0
    until = time.monotonic() + seconds
    while time.monotonic() < until:
        until_noop(client, b"ms number 1\r\n5\r\nms text 1\r\ny\r\nms mark 1\r\nz\r\n")
        time.sleep(0.0005)
        assert client.ask(b"flush_all") == (b"OK", None)
        found += until_noop(client, b"get number text mark\r\n").count(b"VALUE")
        rounds += 1
    ends.set()
    for thread in changing:
        thread.join()
    return rounds, found


def main():
    """Runs both."""
    seconds = float(sys.argv[1]) if len(sys.argv) > 1 else 20
    with kilambosetryd() as server:
        leases, stored, of_leases = by_leases(server.port, seconds)
        changes, of_changes = by_changes(server.port, seconds)
    print(f"{leases} flushes amid {stored} stores by leases: {of_leases} found behind them; {changes} amid changes: {of_changes}")
    assert leases and changes
    sys.exit(1 if of_leases or of_changes else 0)


if __name__ == "__main__":
    main()
