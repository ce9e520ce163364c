#!/usr/bin/env python3
"""Speaks to kilambosetryd by a client that Debian packs: python3-pymemcache, also by its HashClient, which spreads keys.

Ends with status 0 where each answer is as it should be, and with 77 where there is no such client.
"""
import sys
import time
import unittest

from servers import kilambosetryd

try:
    from pymemcache.client.base import Client, PooledClient
    from pymemcache.client.hash import HashClient
except ImportError:
    print("skipped: no pymemcache (Debian's python3-pymemcache)")
    sys.exit(77)


class Suite:
    """What holds of each of the clients."""

    def test_values_come_back(self):
        for value in (b"value", b"", b"\r\n", bytes(range(256)), b"x" * 1_000_000):
            self.assertTrue(self.client.set("key", value, noreply=False))
            self.assertEqual(self.client.get("key"), value)
        self.assertIsNone(self.client.get("none"))
        self.assertEqual(self.client.get("none", "other"), "other")

    def test_store_only_where_asked(self):
        self.client.delete("add", noreply=False)
        self.assertFalse(self.client.replace("add", b"x", noreply=False))
        self.assertTrue(self.client.add("add", b"1", noreply=False))
        self.assertFalse(self.client.add("add", b"2", noreply=False))
        self.assertTrue(self.client.replace("add", b"3", noreply=False))
        self.assertTrue(self.client.append("add", b"4", noreply=False))
        self.assertTrue(self.client.prepend("add", b"2", noreply=False))
        self.assertEqual(self.client.get("add"), b"234")

    def test_compare_and_set(self):
        self.client.set("cas", b"1", noreply=False)
        value, unique = self.client.gets("cas")
        self.assertEqual(value, b"1")
        self.assertTrue(self.client.cas("cas", b"2", unique, noreply=False))
        self.assertFalse(self.client.cas("cas", b"3", unique, noreply=False))
        self.assertIsNone(self.client.cas("none", b"3", unique, noreply=False))
        self.assertEqual(self.client.get("cas"), b"2")

    def test_count(self):
        self.client.set("count", b"9", noreply=False)
        self.assertEqual(self.client.incr("count", 2, noreply=False), 11)
        self.assertEqual(self.client.decr("count", 20, noreply=False), 0)
        self.assertIsNone(self.client.incr("none", 1, noreply=False))

    def test_many(self):
        values = {f"many{it}": b"%d" % it for it in range(200)}
        self.assertEqual(self.client.set_many(values, noreply=False), [])
        self.assertEqual(self.client.get_many(list(values)), values)
        self.assertEqual(len(self.client.gets_many(list(values))), 200)
        self.assertTrue(self.client.delete_many(list(values), noreply=False))
        self.assertEqual(self.client.get_many(list(values)), {})

    def test_quietly(self):
        for it in range(100):
            self.client.set(f"quiet{it}", b"%d" % it, noreply=True)
            self.client.touch(f"quiet{it}", 100, noreply=True)
        self.assertEqual(self.client.get("quiet99"), b"99")
        self.client.delete("quiet99", noreply=True)
        self.assertIsNone(self.client.get("quiet99"))

    def test_times(self):
        self.assertTrue(self.client.set("time", b"x", expire=1, noreply=False))
        self.assertTrue(self.client.set("long", b"x", expire=int(time.time()) + 100, noreply=False))
        self.assertTrue(self.client.set("past", b"x", expire=-1, noreply=False))
        self.assertTrue(self.client.touch("long", 200, noreply=False))
        self.assertFalse(self.client.touch("none", 200, noreply=False))
        self.assertIsNone(self.client.get("past"))
        time.sleep(1.1)
        self.assertIsNone(self.client.get("time"))
        self.assertEqual(self.client.get("long"), b"x")

    def test_flush(self):
        self.client.set("flush", b"x", noreply=False)
        self.client.flush_all(noreply=False)
        self.assertIsNone(self.client.get("flush"))


class Plain(Suite, unittest.TestCase):
    """One connection."""

    @classmethod
    def setUpClass(cls):
        cls.server = kilambosetryd()
        cls.client = Client(("127.0.0.1", cls.server.port))

    @classmethod
    def tearDownClass(cls):
        assert cls.server.end() == 0

    def test_what_it_tells(self):
        self.assertTrue(self.client.version().startswith(b"1.6.18-kilambosetry"))
        stats = self.client.stats()
        for name in ("pid", "uptime", "time", "curr_connections", "cmd_get", "get_hits", "limit_maxbytes", "threads"):
            self.assertIn(name.encode(), stats)
        self.assertIn(b"maxconns", self.client.stats("settings"))
        self.assertEqual(self.client.stats("slabs"), {})
        self.client.set("hit", b"x", noreply=False)
        before = int(self.client.stats()[b"get_hits"])
        self.client.get("hit")
        self.assertEqual(int(self.client.stats()[b"get_hits"]), before + 1)


class Pool(Plain):
    """A pool of connections."""

    @classmethod
    def setUpClass(cls):
        cls.server = kilambosetryd()
        cls.client = PooledClient(("127.0.0.1", cls.server.port), max_pool_size=4)

    def test_what_it_tells(self):
        self.assertIn(b"pid", self.client.stats())


class Spread(Suite, unittest.TestCase):
    """Three servers, over which the client spreads keys."""

    @classmethod
    def setUpClass(cls):
        cls.servers = [kilambosetryd() for _ in range(3)]
        cls.client = HashClient([("127.0.0.1", it.port) for it in cls.servers])

    @classmethod
    def tearDownClass(cls):
        assert [it.end() for it in cls.servers] == [0, 0, 0]


class Dead(unittest.TestCase):
    """A server that is away, to the clients that docs/SERVER.md names: its keys are misses, and no other server has them."""

    def test_no_key_is_handed_to_another_server(self):
        servers = [kilambosetryd() for _ in range(3)]
        addresses = [("127.0.0.1", it.port) for it in servers]
        options = {"retry_attempts": 10**9, "retry_timeout": 0, "default_noreply": False, "no_delay": True}
        reads = HashClient(addresses, ignore_exc=True, **options)
        deletes = HashClient(addresses, **options)
        keys = [f"key{it}" for it in range(30)]
        self.assertEqual(servers[0].end(), 0)
        for key in keys:
            reads.set(key, b"one")
        refused = [key for key in keys if reads.get(key) is None]
        self.assertTrue(0 < len(refused) < len(keys), refused)
        with self.assertRaises(OSError):
            for key in refused:
                deletes.delete(key)
        servers[0] = kilambosetryd(port=servers[0].port)
        for key in keys:
            reads.set(key, b"two")
        self.assertEqual([reads.get(key) for key in keys], [b"two"] * len(keys))
        self.assertEqual(servers[0].end(), 0)
        self.assertEqual([reads.get(key) for key in keys], [None if key in refused else b"two" for key in keys])
        self.assertEqual([it.end() for it in servers[1:]], [0, 0])


if __name__ == "__main__":
    unittest.main()
