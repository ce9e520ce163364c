#!/usr/bin/env python3
"""Speaks to three servers behind libmemcached's ketama ring, by a client that Debian packs: python3-pylibmc.

A server that is killed is a miss for its keys alone, and serves them again once it is back. Ends with status 0 where each answer is
as it should be, and with 77 where there is no such client.
"""
import sys
import unittest

from servers import Client, free_port, kilambosetryd

try:
    import pylibmc
except ImportError:
    print("skipped: no pylibmc (Debian's python3-pylibmc)")
    sys.exit(77)

KEYS = [f"key:{number}" for number in range(300)]
BEHAVIORS = {"ketama": True, "cas": True, "tcp_nodelay": True, "retry_timeout": 1, "connect_timeout": 1000}


class Ring(unittest.TestCase):
    """Three servers, over which libmemcached spreads keys."""

    def setUp(self):
        self.servers = [kilambosetryd() for _ in range(3)]
        self.client = self.connect()

    def tearDown(self):
        self.client.disconnect_all()
        self.assertEqual([it.end() for it in self.servers], [0, 0, 0])

    def connect(self):
        """Returns a client of the three, by the ring."""
        return pylibmc.Client([f"127.0.0.1:{it.port}" for it in self.servers], binary=False, behaviors=BEHAVIORS)

    def places(self):
        """Returns for each key the number of the server that has it. No key is on two."""
        clients = [Client(it.port) for it in self.servers]
        held = {key: [at for at, it in enumerate(clients) if it.ask(b"mg " + key.encode())[0] != b"EN"] for key in KEYS}
        self.assertEqual({len(it) for it in held.values()}, {1})
        return {key: places[0] for key, places in held.items()}

    def test_each_server_has_its_part(self):
        self.assertEqual(self.client.set_multi({key: key for key in KEYS}), [])
        self.assertEqual(self.client.get_multi(KEYS), {key: key for key in KEYS})
        places = self.places()
        shares = [list(places.values()).count(at) for at in range(3)]
        self.assertGreater(min(shares), len(KEYS) // 10, shares)
        # another client finds them by the same ring
        self.assertEqual(self.connect().get_multi(KEYS), {key: key for key in KEYS})

    def test_calls_find_the_key_where_it_is(self):
        for key in KEYS[:30]:
            self.assertTrue(self.client.add(key, "1"))
            self.assertFalse(self.client.add(key, "2"))
            self.assertTrue(self.client.replace(key, "3"))
            self.assertTrue(self.client.append(key, "4"))
            self.assertEqual(self.client.get(key), "34")
            value, unique = self.client.gets(key)
            self.assertTrue(self.client.cas(key, value + "5", unique))
            self.assertFalse(self.client.cas(key, "6", unique))
            self.assertEqual(self.client.get(key), "345")
            self.assertTrue(self.client.touch(key, 100))
            self.assertTrue(self.client.delete(key))
            self.assertIsNone(self.client.get(key))
            self.client.set(key, 7)
            self.assertEqual(self.client.incr(key, 3), 10)
            self.assertEqual(self.client.decr(key, 4), 6)

    def test_a_dead_server_is_a_miss_for_its_keys_alone(self):
        self.client.set_multi({key: key for key in KEYS})
        places = self.places()
        port = self.servers[1].port
        self.servers[1].process.kill()
        self.servers[1].process.wait()
        self.assertEqual(self.found(), {key for key in KEYS if places[key] != 1})
        # it comes back empty, and is asked for its keys again
        self.servers[1] = kilambosetryd(port=port)
        self.client = self.connect()
        self.assertEqual(self.found(), {key for key in KEYS if places[key] != 1})
        self.assertEqual(self.client.set_multi({key: key for key in KEYS}), [])
        self.assertEqual(self.places(), places)

    def found(self):
        """Returns the keys that are found, with their values."""
        found = set()
        for key in KEYS:
            try:
                value = self.client.get(key)
            except pylibmc.Error:
                continue
            if value is not None:
                self.assertEqual(value, key)
                found.add(key)
        return found


if __name__ == "__main__":
    unittest.main(warnings="ignore")  # (sockets that the end closes)
