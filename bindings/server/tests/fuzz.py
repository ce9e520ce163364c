#!/usr/bin/env python3
"""Sends a server random lines, half of them damaged, and looks that it goes on, as it should, in bounded memory.

    fuzz.py [LINES [SEED]]

Between them, over other connections, it is looked that its answers are right. Where VALGRIND is set, the server runs under it, and
an error of memory, or a loss, is one of the run.
"""
import os
import random
import socket
import sys
import threading

from differential import Lines
from servers import Client, Server, binary, free_port

CHUNK = 250
CHECKED = 40


class Damaged(Lines):
    """Lines of which every second is damaged, anywhere."""

    def any_line(self):
        """Returns a line."""
        line = self.line(self.random.random() < 0.3).replace(b"<U", b"1")
        if self.random.random() < 0.5:
            return line
        for _ in range(self.random.randrange(1, 4)):
            at = self.random.randrange(len(line))
            line = line[:at] + self.piece(line[at : at + 1]) + line[at + 1 :]
        return line

    def piece(self, byte):
        """Returns what comes in place of a byte."""
        return self.one(
            lambda: b"",
            lambda: byte * 2,
            lambda: bytes([self.random.randrange(256)]),
            lambda: self.one(b"\r\n", b" ", b"\0", b"\n", b"-", b"99999"),
            lambda: self.random.randbytes(self.random.randrange(30)),
        )()


def drop(client):
    """Reads all that is answered, until the connection is closed."""
    try:
        while client.recv(1 << 16):
            pass
    except OSError:
        pass


def send(port, data):
    """Sends the lines over a connection of their own, whose answers nobody looks at."""
    with socket.create_connection(("127.0.0.1", port)) as client:
        reader = threading.Thread(target=drop, args=(client,))
        reader.start()
        try:
            client.sendall(data)
            client.shutdown(socket.SHUT_WR)
        except OSError:
            pass
        reader.join()


def check(port, number):
    """Looks that the server's answers are right."""
    client = Client(port, 60)
    key = b"checked%d" % number
    asked = [
        (b"set %s 3 0 5\r\nvalue" % key, b"STORED"),
        (b"append %s 0 0 1\r\ns" % key, b"STORED"),
        (b"mg %s s f v" % key, b"VA 6 s6 f3"),
        (b"incr %s 1" % key, b"CLIENT_ERROR cannot increment or decrement non-numeric value"),
        (b"ms %s 2\r\n41" % key, b"HD"),
        (b"incr %s 1" % key, b"42"),
        (b"md %s" % key, b"HD"),
        (b"mg %s v" % key, b"EN"),
    ]
    for command, answer in asked:
        found = client.ask(command)
        assert found[0] == answer, (command, found)
    client.close()


def main():
    """Runs it."""
    count = int(sys.argv[1]) if len(sys.argv) > 1 else 1_000_000
    lines = Damaged(int(sys.argv[2]) if len(sys.argv) > 2 else 1)
    lines.random = random.Random(lines.random.random())
    port = free_port()
    command = [binary(), "--port", str(port), "--memory", "20", "--threads", "2"]
    if valgrind := os.environ.get("VALGRIND"):
        command = [*valgrind.split(), *command]
    with Server(command, port) as server:
        resident = []
        for number in range(count // CHUNK):
            send(port, b"".join(lines.any_line() for _ in range(CHUNK)))
            if number % CHECKED == 0:
                check(port, number)
                resident.append(server.resident())
        assert server.process.poll() is None, server.said()
        check(port, count)
        settled = max(resident[len(resident) // 4 : len(resident) // 2 + 1])
        latest = max(resident[len(resident) * 3 // 4 :])
        status = server.end()
        said = server.said()
    print(f"{count} lines: {len(resident)} checks, resident {settled:.0f} MB, and {latest:.0f} MB in the end, status {status}")
    if status != 0 or (not valgrind and latest > settled + 10):
        print(said[-3000:])
        sys.exit(1)


if __name__ == "__main__":
    main()
