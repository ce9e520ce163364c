"""Rows behind one or more kilambosetryd, by Python's pylibmc, on libmemcached's ring: none is stored that was loaded before a
change of it."""
import secrets
import time

import pylibmc

ROW, STUB = b"r", b"s"  # the first byte of a value: a row, or a stub that says that somebody loads it
LOAD_SECONDS = 30  # behind which the next one loads
TURNS, TURN_SECONDS = 200, 0.005  # how often, and in which steps, who finds a stub looks again

# no server's keys are handed to another one, and one that was away is asked again behind a second
BEHAVIORS = {"ketama": True, "cas": True, "tcp_nodelay": True, "retry_timeout": 1, "connect_timeout": 1000}


class Rows:
    """A cache of rows, for one thread at a time."""

    def __init__(self, servers):
        self.client = pylibmc.Client(servers, binary=False, behaviors=BEHAVIORS)

    def get_or_load(self, key, load, ttl):
        """Returns the row, or else what `load` returns, which is kept for `ttl` seconds unless the row is changed meanwhile."""
        try:
            for _ in range(TURNS):
                value = self.client.get(key)
                if value is None:
                    return self._load(key, load, ttl)
                if value.startswith(ROW):
                    return value[len(ROW) :]
                time.sleep(TURN_SECONDS)
        except pylibmc.Error:
            pass  # (its server is away)
        return load()

    def _load(self, key, load, ttl):
        stub = STUB + secrets.token_bytes(16)
        is_ours = self.client.add(key, stub, time=LOAD_SECONDS)
        value, unique = self.client.gets(key) if is_ours else (None, None)
        row = load()  # (behind the stub)
        try:
            if value == stub:
                self.client.cas(key, ROW + row, unique, time=ttl)  # unless it was deleted, or replaced
        except pylibmc.Error:
            pass
        return row

    def delete(self, key):
        """Deletes the row, once its change is committed. It is tried until that is answered."""
        while True:
            try:
                return self.client.delete(key)
            except pylibmc.Error:
                time.sleep(0.1)
