"""Rows behind one or more kilambosetryd, by Python's pymemcache: none is stored that was loaded before a change of it."""
import secrets
import time

from pymemcache.client.hash import HashClient
from pymemcache.exceptions import MemcacheError

ROW, STUB = b"r", b"s"  # the first byte of a value: a row, or a stub that says that somebody loads it
LOAD_SECONDS = 30  # behind which the next one loads
TURNS, TURN_SECONDS = 200, 0.005  # how often, and in which steps, who finds a stub looks again

# no server's keys are handed to another one, and each answer is waited for
OPTIONS = {"retry_attempts": 10**9, "retry_timeout": 0, "default_noreply": False, "no_delay": True}


class Rows:
    """A cache of rows, for one thread at a time."""

    def __init__(self, servers):
        self.reads = HashClient(servers, ignore_exc=True, **OPTIONS)  # a server that is away is a miss
        self.deletes = HashClient(servers, **OPTIONS)  # a delete that fails raises

    def get_or_load(self, key, load, ttl):
        """Returns the row, or else what `load` returns, which is kept for `ttl` seconds unless the row is changed meanwhile."""
        for _ in range(TURNS):
            value = self.reads.get(key)
            if value is None:
                return self._load(key, load, ttl)
            if value.startswith(ROW):
                return value[len(ROW) :]
            time.sleep(TURN_SECONDS)
        return load()  # (who loads it takes too long)

    def _load(self, key, load, ttl):
        stub = STUB + secrets.token_bytes(16)
        is_ours = self.reads.add(key, stub, expire=LOAD_SECONDS)
        value, unique = is_ours and self.reads.gets(key) or (None, None)
        row = load()  # (behind the stub)
        if value == stub:
            self.reads.cas(key, ROW + row, unique, expire=ttl)  # unless it was deleted, or replaced
        return row

    def delete(self, key):
        """Deletes the row, once its change is committed. It is tried until that is answered."""
        while True:
            try:
                return self.deletes.delete(key)
            except (OSError, MemcacheError):
                time.sleep(0.1)
