"""Servers and clients for the other scripts of this folder."""
import os
import socket
import subprocess
import tempfile
import time

TARGET = os.environ.get("CARGO_TARGET_DIR", os.path.join(os.path.dirname(os.path.realpath(__file__)), "../target"))


def free_port():
    """Returns a port of this machine that is free just now."""
    with socket.socket() as it:
        it.bind(("127.0.0.1", 0))
        return it.getsockname()[1]


def binary():
    """Returns the path of the server: of KILAMBOSETRYD, or else the newest that was built."""
    if named := os.environ.get("KILAMBOSETRYD"):
        return named
    built = [it for kind in ("release", "debug") if os.path.exists(it := f"{TARGET}/{kind}/kilambosetryd")]
    return max(built, key=os.path.getmtime)


class Server:
    """A server that was started, and is ended with its block."""

    def __init__(self, command, port):
        self.port = port
        self.output = tempfile.TemporaryFile()
        self.process = subprocess.Popen(command, stdout=self.output, stderr=subprocess.STDOUT)
        for _ in range(500):
            try:
                socket.create_connection(("127.0.0.1", port)).close()
                return
            except OSError:
                if self.process.poll() is not None:
                    break
                time.sleep(0.02)
        raise RuntimeError(f"{command[0]} doesn't listen: {self.said()}")

    def said(self):
        """Returns what it has printed."""
        self.output.seek(0)
        return self.output.read().decode(errors="replace")

    def resident(self):
        """Returns its resident memory in megabytes."""
        with open(f"/proc/{self.process.pid}/status", encoding="ascii") as it:
            line = next(line for line in it if line.startswith("VmRSS"))
        return int(line.split()[1]) / 1000

    def end(self):
        """Tells it to end, and returns its status."""
        self.process.terminate()
        return self.process.wait(30)

    def __enter__(self):
        return self

    def __exit__(self, *_):
        if self.process.poll() is None:
            self.process.kill()
            self.process.wait()
        self.output.close()


def kilambosetryd(*words, port=None):
    """Starts the server."""
    port = port or free_port()
    return Server([binary(), "--port", str(port), *map(str, words)], port)


def memcached(*words, port=None):
    """Starts memcached."""
    port = port or free_port()
    user = ["-u", "nobody"] if os.getuid() == 0 else []
    return Server(["memcached", "-l", "127.0.0.1", "-p", str(port), "-U", "0", *user, *map(str, words)], port)


class Client:
    """A connection that sends bytes and reads answers."""

    def __init__(self, port, timeout=10):
        self.socket = socket.create_connection(("127.0.0.1", port))
        self.socket.setsockopt(socket.IPPROTO_TCP, socket.TCP_NODELAY, 1)
        self.socket.settimeout(timeout)
        self.buffer = b""

    def send(self, data):
        """Sends bytes."""
        self.socket.sendall(data)

    def more(self):
        """Reads what has come; nothing where the server has closed the connection."""
        try:
            more = self.socket.recv(1 << 18)
        except ConnectionError:
            more = b""
        self.buffer += more
        return more

    def line(self):
        """Reads a line, without its end."""
        while b"\r\n" not in self.buffer:
            if not self.more():
                raise EOFError(self.buffer)
        line, self.buffer = self.buffer.split(b"\r\n", 1)
        return line

    def value(self, length):
        """Reads a value with its end."""
        while len(self.buffer) < length + 2:
            if not self.more():
                raise EOFError(self.buffer)
        value, end, self.buffer = self.buffer[:length], self.buffer[length : length + 2], self.buffer[length + 2 :]
        assert end == b"\r\n", end
        return value

    def ask(self, command):
        """Sends a command, and returns the line of its answer, with the value where there is one."""
        self.send(command + b"\r\n")
        line = self.line()
        if line.startswith(b"VA "):
            return line, self.value(int(line.split()[1]))
        return line, None

    def line_of(self, command):
        """Sends a command, and returns the line of its answer, or None where the server closes the connection instead."""
        try:
            return self.ask(command)[0]
        except (EOFError, OSError) as error:
            if isinstance(error, TimeoutError):
                raise
            return None

    def close(self):
        """Closes the connection."""
        self.socket.close()
