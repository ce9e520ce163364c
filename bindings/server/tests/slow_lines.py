#!/usr/bin/env python3
"""A list of keys that comes byte by byte: each byte costs the server what one of a short line does, however long the list is by then.

Else a client could have a thread of the server to itself by a line of a megabyte, of which it sends a byte now and then. The time that
the server has had on a processor is compared, so that a machine that is busy with other things changes nothing.
"""
import fcntl
import os
import shutil
import socket
import struct
import tempfile
import termios
import time

from servers import kilambosetryd

PIECES = 1000


def unread(client):
    """Returns how much of what was sent the server hasn't read yet (of a unix socket, with what the system adds to it)."""
    return struct.unpack("i", fcntl.ioctl(client, termios.TIOCOUTQ, b"\0" * 4))[0]


def wait_until_read(client):
    """Waits until the server has read all."""
    while unread(client):
        time.sleep(0)


def on_processor(pid):
    """Returns how long all threads of a process have run, in microseconds."""
    total = 0
    for task in os.listdir(f"/proc/{pid}/task"):
        with open(f"/proc/{pid}/task/{task}/schedstat", encoding="ascii") as it:
            total += int(it.read().split()[0])
    return total / 1000


def cost_of_a_byte(server, path, line):
    """Sends the begin of a line, and more of it byte by byte. Returns what each of these cost, in microseconds."""
    with socket.socket(socket.AF_UNIX) as client:
        client.connect(path)
        client.sendall(line)
        wait_until_read(client)
        before = on_processor(server.process.pid)
        for _ in range(PIECES):
            client.sendall(b"k")
            wait_until_read(client)
        return (on_processor(server.process.pid) - before) / PIECES


def main():
    """Compares a long line with a short one."""
    folder = tempfile.mkdtemp()
    path = os.path.join(folder, "socket")
    with kilambosetryd("--unix", path, "--threads", 1, "--command", 3600, "--stall", 3600) as server:
        short = cost_of_a_byte(server, path, b"get ")
        long = cost_of_a_byte(server, path, b"get " + b"key " * 250_000)
        assert server.end() == 0, server.said()
    shutil.rmtree(folder)
    said = f"a byte of a line costs {short:.0f} us, behind a million others {long:.0f} us"
    assert long < 2.5 * short, said
    print(said)


if __name__ == "__main__":
    main()
