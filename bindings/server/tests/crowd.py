#!/usr/bin/env python3
"""Many connections: all are answered, whatever others do, and nothing of those that have gone is left.

    crowd.py [CONNECTIONS]

They come one after the other, and then a thousand more at once. A third is reset in the midst of a set, and a third is half closed
behind a get. Fewer come where a process may not have as many file handles.
"""
import os
import resource
import selectors
import socket
import struct
import sys
import time

from program import stats_of
from servers import Client, kilambosetryd

AT_ONCE = 1000
VALUE = b"STORED\r\nVALUE key 0 3\r\nabc\r\nEND\r\n"
RESET = struct.pack("ii", 1, 0)


def wait_until(what, seconds=60):
    """Waits for what is to come soon, on a machine that is busy too."""
    until = time.monotonic() + seconds
    while not what():
        assert time.monotonic() < until, "it doesn't come"
        time.sleep(0.05)


def all_are_answered(clients):
    """Each stores and gets, all of them before the first reads its answer."""
    for client in clients:
        client.send(b"set key 0 0 3\r\nabc\r\nget key\r\n")
    for client in clients:
        while len(client.buffer) < len(VALUE):
            assert client.more(), client.buffer
        assert client.buffer == VALUE, client.buffer
        client.buffer = b""


def some_leave(clients):
    """A third is reset in the midst of a set, and a third half closed in the midst of one, behind a get that is answered."""
    for client in clients[::3]:
        client.send(b"set reset 0 0 100\r\nabc")
        client.socket.setsockopt(socket.SOL_SOCKET, socket.SO_LINGER, RESET)
        client.close()
    for client in clients[1::3]:
        client.send(b"get key\r\nset half 0 0 100\r\nabc")
        client.socket.shutdown(socket.SHUT_WR)
    for client in clients[1::3]:
        while client.more():
            pass
        assert client.buffer == VALUE.removeprefix(b"STORED\r\n"), client.buffer
        client.close()


def come_at_once(port):
    """A thousand connect at once, and each is answered."""
    with selectors.DefaultSelector() as selector:
        clients = []
        for _ in range(AT_ONCE):
            client = socket.socket()
            client.setblocking(False)
            client.connect_ex(("127.0.0.1", port))
            selector.register(client, selectors.EVENT_WRITE)
            clients.append(client)
        left = AT_ONCE
        until = time.monotonic() + 120
        while left and time.monotonic() < until:
            for key, events in selector.select(1):
                if events & selectors.EVENT_WRITE:
                    key.fileobj.send(b"mn\r\n")
                    selector.modify(key.fileobj, selectors.EVENT_READ)
                else:
                    assert key.fileobj.recv(100) == b"MN\r\n"
                    selector.unregister(key.fileobj)
                    left -= 1
        assert left == 0, f"{left} had no answer"
        for client in clients:
            client.close()


def main():
    """Runs it."""
    wanted = int(sys.argv[1]) if len(sys.argv) > 1 else 10_000
    _, most = resource.getrlimit(resource.RLIMIT_NOFILE)
    resource.setrlimit(resource.RLIMIT_NOFILE, (most, most))
    count = min(wanted, most - AT_ONCE - 200)
    if count < 100:
        print(f"skipped: a process may have {most} file handles here")
        sys.exit(77)
    with kilambosetryd("--connections", count + AT_ONCE) as server:
        watch = Client(server.port, 60)
        clients = [Client(server.port, 60) for _ in range(count)]
        all_are_answered(clients)
        resident = server.resident()
        some_leave(clients)
        stay = len(clients[2::3]) + 1
        wait_until(lambda: int(stats_of(watch)[b"curr_connections"]) == stay)
        come_at_once(server.port)
        wait_until(lambda: int(stats_of(watch)[b"curr_connections"]) == stay)
        all_are_answered(clients[2::3])
        found = stats_of(watch)
        assert (found[b"curr_items"], found[b"in_flight_free"]) == (b"1", b"256000000"), found
        handles = len(os.listdir(f"/proc/{server.process.pid}/fd"))
        assert handles < stay + 64, f"{handles} handles of {stay} connections"
        assert server.end() == 0, server.said()
    print(f"{count} connections, and {AT_ONCE} at once: all answered, {resident:.0f} MB resident; {stay} stayed, {handles} handles")


if __name__ == "__main__":
    main()
