#!/usr/bin/env python3
"""Tries the program: that it ends when it is told to, its sockets, the page for Prometheus, what it refuses, and memccapable."""
import glob
import os
import resource
import shutil
import signal
import socket
import subprocess
import sys
import tempfile
import threading
import time
import urllib.error
import urllib.request

from servers import Client, Server, binary, free_port, kilambosetryd

VALUE = b"VALUE key 0 5\r\nvalue\r\nEND\r\n"


def drains(number):
    """A pipelined client has all its answers when the process is told to end, which it does with status 0."""
    with kilambosetryd("--threads", 2, "--drain", 60) as server:
        idle, client = Client(server.port), Client(server.port)
        assert client.ask(b"set key 0 0 5\r\nvalue") == (b"STORED", None)
        client.send(b"get key\r\n" * 20_000)
        client.more()
        server.process.send_signal(number)
        while client.more():
            pass
        assert client.buffer == VALUE * 20_000, len(client.buffer)
        assert server.process.wait(60) == 0, server.said()
        assert server.said().rstrip().endswith("ended")
        assert not idle.more()


def ends_in_the_midst_of_a_load():
    """Connections that are being served have whole answers, up to the last."""
    with kilambosetryd() as server:
        ends, broken = [], []

        def load():
            client = Client(server.port)
            try:
                while True:
                    client.send(b"set key 0 0 5\r\nvalue\r\nget key\r\n" * 10)
                    got = b""
                    while len(got) < len(b"STORED\r\n" + VALUE) * 10:
                        client.buffer = b""
                        if not client.more():
                            if len(got) % len(b"STORED\r\n" + VALUE):
                                broken.append(got)
                            return
                        got += client.buffer
            except OSError:
                ends.append(1)

        threads = [threading.Thread(target=load) for _ in range(8)]
        for thread in threads:
            thread.start()
        time.sleep(0.5)
        assert server.end() == 0
        for thread in threads:
            thread.join()
        assert not broken, broken[:1]


def has_a_unix_socket():
    """It listens on a unix socket, which is its user's alone, also where an old one is in the way."""
    folder = tempfile.mkdtemp()
    path = os.path.join(folder, "socket")
    with socket.socket(socket.AF_UNIX) as old:
        old.bind(path)
    with kilambosetryd("--unix", path) as server:
        assert os.stat(path).st_mode & 0o777 == 0o700
        with socket.socket(socket.AF_UNIX) as client:
            client.connect(path)
            client.sendall(b"mn\r\n")
            assert client.recv(100) == b"MN\r\n"
            # a server that lives isn't put out by another
            second = subprocess.run([binary(), "--port", "0", "--unix", path], capture_output=True)
            assert second.returncode != 0 and f"{path} is there already".encode() in second.stderr, second
            client.sendall(b"mn\r\n")
            assert client.recv(100) == b"MN\r\n"
        assert os.listdir(folder) == ["socket"], os.listdir(folder)
        assert server.end() == 0
        assert not os.listdir(folder), "its name is left behind"
    long = os.path.join(folder, "s" * 108)
    ran = subprocess.run([binary(), "--port", "0", "--unix", long], capture_output=True, timeout=20, check=False)
    assert ran.returncode == 1 and b"more than 107 bytes" in ran.stderr, ran
    shutil.rmtree(folder)


def has_a_socket_of_its_own_from_the_first():
    """The unix socket never has other rights than its user's, whatever umask says."""
    folder = tempfile.mkdtemp()
    before = os.umask(0)
    try:
        for number in range(10):
            path, modes, ends = os.path.join(folder, f"socket{number}"), set(), threading.Event()
            watch = threading.Thread(target=watch_modes, args=(path, modes, ends))
            watch.start()
            with kilambosetryd("--unix", path):
                ends.set()
                watch.join()
            assert modes == {0o700}, modes
    finally:
        os.umask(before)
    shutil.rmtree(folder)


def watch_modes(path, modes, ends):
    """Adds the rights that a file has as long as it is watched, and once more behind that."""
    is_over = False
    while not is_over:
        is_over = ends.is_set()
        try:
            modes.add(os.stat(path).st_mode & 0o777)
        except FileNotFoundError:
            pass


def page_of(port, path="/"):
    """The page for the eye: its head's kind, and its text."""
    with urllib.request.urlopen(f"http://127.0.0.1:{port}{path}", timeout=10) as answer:
        return answer.headers["Content-Type"], answer.read().decode()


def has_a_page():
    """Prometheus finds its page, the eye its own, and nobody another."""
    port = free_port()
    with kilambosetryd("--metrics-port", port) as server:
        Client(server.port).ask(b"mg none")
        page = urllib.request.urlopen(f"http://127.0.0.1:{port}/metrics").read().decode()
        lines = dict(line.split() for line in page.splitlines() if not line.startswith("#"))
        assert lines["kilambosetryd_get_misses_total"] == "1", page
        misses = {reason: lines[f'kilambosetry_misses_total{{reason="{reason}"}}'] for reason in ("absent", "expired", "fault")}
        assert misses == {"absent": "1", "expired": "0", "fault": "0"}, page
        try:
            urllib.request.urlopen(f"http://127.0.0.1:{port}/other")
            raise AssertionError("it has another page")
        except urllib.error.HTTPError as error:
            assert error.code == 404
        assert urllib.request.urlopen(f"http://127.0.0.1:{port}/metrics?x=1").status == 200
        head = urllib.request.Request(f"http://127.0.0.1:{port}/metrics", method="HEAD")
        assert urllib.request.urlopen(head).read() == b""
        kind, page = page_of(port)
        assert kind == "text/html; charset=utf-8" and f"<h1>kilambosetryd on 127.0.0.1:{server.port}</h1>" in page, page
        assert "<script" not in page and page.endswith("</html>\n"), page
        # clients that say nothing keep nobody out
        silent = [socket.create_connection(("127.0.0.1", port)) for _ in range(40)]
        assert urllib.request.urlopen(f"http://127.0.0.1:{port}/metrics", timeout=4).status == 200
        for client in silent:
            client.close()


def has_pictures_behind_two_samples():
    """Its page has pictures behind two samples, and none once it was killed and begins anew; a port that is taken is an error."""
    port = free_port()
    with kilambosetryd("--metrics-port", port) as server:
        assert "There is no picture yet" in page_of(port)[1]
        until = time.monotonic() + 60
        while "<svg" not in page_of(port, "/?every=10")[1]:
            assert time.monotonic() < until, "no sample comes"
            time.sleep(0.5)
        words = [binary(), "--port", "0", "--metrics-port", str(port)]
        ran = subprocess.run(words, capture_output=True, timeout=20, check=False)
        assert ran.returncode == 1 and b"Address already in use" in ran.stderr, ran
        server.process.kill()
    with kilambosetryd("--metrics-port", port):
        assert "There is no picture yet" in page_of(port)[1]


def under(limits, port, *words):
    """Starts the server under these limits of `prlimit`."""
    return Server(["prlimit", *limits, binary(), "--port", str(port), *map(str, words)], port)


def clients_let_in(port, most):
    """Returns how many clients are answered at once, of so many that come, and what the next is told."""
    clients = []
    for _ in range(most):
        client = Client(port)
        line, _ = client.ask(b"mn")
        if line != b"MN":
            return len(clients), line
        clients.append(client)
    return len(clients), b""


def raises_its_handles():
    """It has a handle for each connection that it lets in: it raises its limit, or lets fewer in and says so."""
    port = free_port()
    with under(["--nofile=128:4096"], port, "--connections", 300) as server:
        assert clients_let_in(port, 301) == (300, b"ERROR Too many open connections"), server.said()
        assert "no more file handles" not in server.said()
    if os.getuid() == 0:
        # (a user who may not raise the limit itself)
        copy = os.path.join(tempfile.mkdtemp(), "kilambosetryd")
        shutil.copy(binary(), copy)
        os.chmod(os.path.dirname(copy), 0o755)
        words = ["setpriv", "--reuid=nobody", "--clear-groups", copy, "--port", str(port), "--connections", "300"]
    else:
        words = [binary(), "--port", str(port), "--connections", "300"]
    with Server(["prlimit", "--nofile=200:200", *words], port) as server:
        said = [line for line in server.said().splitlines() if "file handles" in line]
        assert len(said) == 1, server.said()
        count = int(said[0].split()[0])
        assert f"maxconns {count}" in server.said()
        assert 0 < count < 200 and clients_let_in(port, 300) == (count, b"ERROR Too many open connections"), said


def has_a_long_queue():
    """A thousand clients that come at once are let in at once, also where it is busy."""
    with open("/proc/sys/net/core/somaxconn", encoding="ascii") as it:
        if int(it.read()) < 1024:
            print("skipped: this system's queues are shorter than 1,024")
            return
    with kilambosetryd() as server:
        server.process.send_signal(signal.SIGSTOP)
        clients = [socket.socket() for _ in range(600)]
        for client in clients:
            client.settimeout(10)
            client.connect(("127.0.0.1", server.port))
        server.process.send_signal(signal.SIGCONT)
        for client in clients:
            client.sendall(b"mn\r\n")
            assert client.recv(100) == b"MN\r\n"
            client.close()


def is_told_that_its_file_is_too_long():
    """Where a file may not be as long as the flash, that is an error of its start, and no signal ends it."""
    folder = tempfile.mkdtemp()
    words = [binary(), "--port", str(free_port()), "--flash", os.path.join(folder, "flash"), "--flash-size", "50"]
    ran = subprocess.run(["prlimit", "--fsize=1000000", *words], capture_output=True, timeout=20, check=False)
    assert ran.returncode == 1 and b"File too large" in ran.stderr, ran
    shutil.rmtree(folder)


def stats_of(client):
    """What the command `stats` tells."""
    client.send(b"stats\r\n")
    stats = {}
    while (line := client.line()) != b"END":
        stats[line.split()[1]] = line.split()[2]
    return stats


def written(client):
    """What `stats` tells, once nothing waits to be written to flash."""
    while (stats := stats_of(client))[b"flash_shards_behind"] != b"0":
        time.sleep(0.001)
    return stats


def keeps_time():
    """Times to live are kept where the date is set, back and forth: none ends sooner or later for that."""
    fakes = glob.glob("/usr/lib/*/faketime/libfaketime.so.1")
    if not fakes:
        print("skipped: no libfaketime (Debian's faketime)")
        return
    folder, port = tempfile.mkdtemp(), free_port()
    path = os.path.join(folder, "date")

    def set_off(seconds):
        with open(path + ".new", "w", encoding="ascii") as it:
            it.write(f"{seconds:+d}\n")
        os.rename(path + ".new", path)

    set_off(0)
    fake = [f"LD_PRELOAD={fakes[0]}", f"FAKETIME_TIMESTAMP_FILE={path}", "FAKETIME_NO_CACHE=1", "DONT_FAKE_MONOTONIC=1"]
    with Server(["env", *fake, binary(), "--port", str(port)], port) as server:
        client = Client(port)
        assert client.ask(b"ms lasts 1 T3000\r\nx") == (b"HD", None)
        steps = (3600, 0, -3600, 86_400, -86_400, 10**8, 0, -(10**8), 0)
        for number, seconds in enumerate(steps):
            set_off(seconds)
            assert client.ask(b"mg lasts v") == (b"VA 1", b"x"), seconds
            assert client.ask(b"ms brief%d 1 T%d\r\nx" % (number, 2)) == (b"HD", None)
        time.sleep(3.2)
        for number, seconds in enumerate(steps):
            assert client.ask(b"mg brief%d t" % number) == (b"EN", None), seconds
        line, _ = client.ask(b"mg lasts t")
        assert 2900 < int(line.removeprefix(b"HD t")) < 3000, line
        assert server.end() == 0
    shutil.rmtree(folder)


def filled(client):
    """Stores more keys than memory has room for, and returns them."""
    keys = [b"key%d" % it for it in range(8000)]
    for at in range(0, len(keys), 100):
        client.send(b"".join(b"ms %s 1000 q\r\n%s\r\n" % (key, key.ljust(1000)) for key in keys[at : at + 100]) + b"mn\r\n")
        assert client.line() == b"MN"
        written(client)
    return keys


def outlives_a_limit_of_its_file():
    """Where its file may be written no further from some moment on, that is counted, what is found is right, and no signal ends it."""
    folder = tempfile.mkdtemp()
    words = ["--memory", 2, "--flash", os.path.join(folder, "flash"), "--flash-size", 50, "--mean-value", 1000]
    with kilambosetryd(*words) as server:
        resource.prlimit(server.process.pid, resource.RLIMIT_FSIZE, (100_000, 100_000))
        client = Client(server.port)
        keys = filled(client)
        values = [client.ask(b"mg %s v" % key)[1] for key in keys]
        assert all(value in (None, key.ljust(1000)) for key, value in zip(keys, values))
        assert values[-1] is not None and values[0] is None, "they are in memory, or on flash"
        stats = written(client)
        assert int(stats[b"flash_write_failures"]) > 0, stats
        # what it has is whole once more
        client.send(b"set key0 0 0 5\r\nvalue\r\n")
        assert client.line() == b"STORED" and client.ask(b"mg key0 v") == (b"VA 5", b"value")
        assert server.end() == 0, server.said()
    shutil.rmtree(folder)


def has_flash():
    """Its flash is a file that is locked, and what leaves memory is found there."""
    folder = tempfile.mkdtemp()
    path = os.path.join(folder, "flash")
    words = ["--memory", 2, "--flash", path, "--flash-size", 50, "--mean-value", 1000]
    with kilambosetryd(*words) as server:
        other = subprocess.run([binary(), "--port", str(free_port()), *map(str, words)], capture_output=True, check=False)
        assert other.returncode == 1 and b"another has the file open" in other.stderr
        client = Client(server.port)
        keys = filled(client)
        found = sum(client.ask(b"mg %s v" % key)[1] == key.ljust(1000) for key in keys)
        stats = written(client)
        assert found > 7000 and int(stats[b"hits_from_flash"]) > 4000, (found, stats)
        assert stats[b"flash_queue_length"] == b"0", stats
        assert server.end() == 0
    shutil.rmtree(folder)


def looks_whose_its_flash_is():
    """It takes no file that has anything and is no cache's, unless it is told to; and leaves none where its flash has no name."""
    folder = tempfile.mkdtemp()
    path = os.path.join(folder, "flash")
    with open(path, "wb") as it:
        it.write(b"somebody's" * 1000)
    words = ["--flash-size", 50]
    ran = subprocess.run([binary(), "--port", "0", "--flash", path, "--flash-size", "50"], capture_output=True, timeout=20, check=False)
    assert ran.returncode == 1 and ran.stderr, ran
    with open(path, "rb") as it:
        assert it.read() == b"somebody's" * 1000
    for more in (["--flash", path, "--overwrite"], ["--flash", path]):
        with kilambosetryd(*words, *more) as server:
            assert Client(server.port).ask(b"mn") == (b"MN", None)
            assert server.end() == 0
    os.remove(path)
    with kilambosetryd(*words, "--flash", folder, "--unnamed") as server:
        assert Client(server.port).ask(b"mn") == (b"MN", None)
        assert not os.listdir(folder)
    shutil.rmtree(folder)


def refuses():
    """It says what is wrong with its command line, and ends with another status than 0."""
    most = str(2**64 - 1)
    many = (["--connections", str(2**61)], ["--connections", "0"], ["--mean-value", most], ["--fillers", most], ["--memory", most])
    wrong = (["--shards", "4097"], ["--memory", "0"], ["--port", "x"], ["--flash", "/"], ["--threads", "0"])
    for words in wrong + many:
        ran = subprocess.run([binary(), *words, "--metrics-port", "0"], capture_output=True, timeout=20, check=False)
        assert ran.returncode in (1, 2) and ran.stderr, (words, ran)


def runs_as_a_plain_user():
    """It wants no rights."""
    if os.getuid() == 0:
        port = free_port()
        copy = os.path.join(tempfile.mkdtemp(), "kilambosetryd")
        shutil.copy(binary(), copy)
        os.chmod(os.path.dirname(copy), 0o755)
        with Server(["setpriv", "--reuid=nobody", "--clear-groups", copy, "--port", str(port)], port) as server:
            assert Client(port).ask(b"mn") == (b"MN", None)
            assert server.end() == 0
        shutil.rmtree(os.path.dirname(copy))


def is_capable():
    """All of memccapable's checks of the text protocol pass."""
    if not shutil.which("memccapable"):
        print("skipped: no memccapable (Debian's libmemcached-tools)")
        return
    with kilambosetryd() as server:
        ran = subprocess.run(
            ["memccapable", "-a", "-h", "127.0.0.1", "-p", str(server.port)], capture_output=True, timeout=100, check=False
        )
        assert b"All tests passed" in ran.stdout, ran.stdout.decode()
        print(f"memccapable: {ran.stdout.count(b'[pass]')} checks pass")


def main():
    """Tries all of it."""
    drains(signal.SIGTERM)
    drains(signal.SIGINT)
    sockets = (has_a_unix_socket, has_a_socket_of_its_own_from_the_first, has_a_page, has_pictures_behind_two_samples, has_a_long_queue)
    limits = (raises_its_handles, is_told_that_its_file_is_too_long, keeps_time)
    flash = (has_flash, outlives_a_limit_of_its_file, looks_whose_its_flash_is)
    for check in (ends_in_the_midst_of_a_load, *sockets, *flash, *limits, refuses, runs_as_a_plain_user, is_capable):
        check()
    print("the program: does what it says")


if __name__ == "__main__":
    sys.exit(main())
