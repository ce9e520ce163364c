#!/usr/bin/env python3
"""Sends the same random lines to memcached and to kilambosetryd, and compares the answers.

    differential.py [LINES [SEED]]

The lines are commands of both kinds over a few keys, some of them with bad words or damaged bytes. Answers are the same but for
what `normal` leaves out, each for a reason that docs/SERVER.md gives. `known` is the list of the differences that stay: each with
what memcached answers, and what kilambosetryd does. The status is 1 where anything else differs, or where one of these no longer
does.
"""
import base64
import os
import random
import re
import sys
import time

from servers import Client, kilambosetryd, memcached

KEYS = [b"a", b"b", b"c", b"key:four", b"k" * 250, b"n1", b"n2", b"Zm9v"]
BATCH = 25
SHOWN = 20
# So many seconds without an answer mean that there is none: a value of a wrong length has taken the lines behind it in.
QUIET = 1.5
# (where these two bytes are beside digits, only memcached counts: see `known`)
NOISE = random.Random(0).randbytes(1 << 16).translate(None, b"\0\x0b")
LONG_OPAQUE = b"O" + b"o" * 32
TOO_LARGE = b"SERVER_ERROR object too large for cache"
NO_NUMBER = b"CLIENT_ERROR cannot increment or decrement non-numeric value"
# The longest value here; memcached's is a little shorter.
LONGEST = 1_048_555
# (a number that no server of this run has as a cas unique: lower than all, and higher)
LOWEST, HIGHEST = b"1", b"18446744073709551615"


class Side:
    """One of the two servers, with the cas uniques that it has told, in the order in which they came."""

    def __init__(self, server):
        self.server = server
        self.client = Client(server.port, QUIET)
        self.uniques = []
        self.places = {}

    def again(self):
        """Connects anew."""
        self.client.close()
        self.client = Client(self.server.port, QUIET)
        self.uniques = []
        self.places = {}

    def place(self, unique):
        """Returns which one of the uniques it is."""
        if unique in (b"0", LOWEST):
            return unique
        if unique not in self.places:
            self.places[unique] = len(self.uniques)
            self.uniques.append(unique)
        return b"U%d" % self.places[unique]

    def written(self, line):
        """Returns a line with this server's own uniques, each of as many digits: a value of a wrong length may take lines in."""
        return re.sub(rb"<U(\d+)>", lambda it: (self.uniques[int(it[1]) % len(self.uniques)] if self.uniques else b"1").zfill(20), line)

    def send(self, data, cuts):
        """Sends lines in pieces that are cut at these shares of them, unless the connection is closed while it does."""
        ends = [int(len(data) * cut) for cut in cuts] + [len(data)]
        try:
            for start, end in zip([0] + ends, ends):
                self.client.send(data[start:end])
        except ConnectionError:
            pass

    def answers(self, count):
        """Reads the answers of so many commands, each of which ends with that of `mn`, and what comes behind them."""
        self.is_closed = False
        while self.client.buffer.count(b"MN\r\n") < count and not self.is_closed:
            try:
                self.is_closed = not self.client.more()
            except TimeoutError:
                break
        data, self.client.buffer = self.client.buffer, b""
        return data.split(b"MN\r\n")


def parsed(data):
    """Yields the lines of an answer, each with its value."""
    while data:
        line, _, data = data.partition(b"\r\n")
        words = line.split(b" ")  # (a key may have tabs)
        length = {b"VALUE": 3, b"VA": 1}.get(words[0]) if words else None
        if length and len(words) > length and words[length].isdigit():
            size = int(words[length])
            yield line, data[:size]
            data = data[size + 2 :]
        else:
            yield line, None


def normal_flag(side, flag, marks_differ):
    """Returns a flag of an answer as it is compared."""
    name = flag[:1]
    if name == b"c":
        return b"c" + side.place(flag[1:])
    if name == b"t" and flag[1:].isdigit():
        left = int(flag[1:]) if len(flag) < 10 else 0  # (what is past is below 0 in memcached, without a sign)
        return b"t~%d" % ((left + 5) // 10)  # to ten seconds
    if name in (b"h", b"l"):
        return name
    if marks_differ and flag in (b"W", b"X", b"Z"):
        return b""
    return flag


def normal(side, data, marks_differ):
    """Returns the answer as it is compared: see docs/SERVER.md for each thing that is left out."""
    out = []
    for line, value in parsed(data):
        words = line.split(b" ")
        if words[0] == b"STAT":
            continue
        if words[0] == b"VERSION":
            words = words[:1]
        elif words[0] == b"VALUE" and len(words) == 5:
            words[4] = side.place(words[4])
        elif words[0] in (b"HD", b"VA", b"EN", b"NS", b"EX", b"NF"):
            start = 2 if words[0] == b"VA" else 1
            if words[-1] != b"b" and b"b" in words:
                words = words[: words.index(b"b")] + words[words.index(b"b") + 1 :] + [b"b"]
            if words[-1] == b"b":  # (whether the key comes in base64 is looked at by `known`)
                words = [b"k" + base64.b64decode(it[1:]) if it[:1] == b"k" else it for it in words[:-1]]
            words[start:] = [normal_flag(side, it, marks_differ) for it in words[start:]]
        elif words[0] == b"ME":
            words = words[:1]
        if value is not None and value.rstrip(b" ").isdigit():
            # (memcached pads a number that has lost digits unless somebody holds the item just then, its own threads among them)
            value = value.rstrip(b" ")
            words[3 if words[0] == b"VALUE" else 1] = b"n"
            words = [it for it in words if it[:1] != b"s"]
        out.append((b" ".join(it for it in words if it), value))
    return out


class Lines:
    """Random lines."""

    def __init__(self, seed):
        self.random = random.Random(seed)
        self.known = 0

    def one(self, *of):
        return self.random.choice(of)

    def maybe(self, chance, word):
        return word if self.random.random() < chance else b""

    def key(self):
        if self.random.random() < 0.01:
            return self.one(b"x" * 251, b"", b"\x80\xff", b"tab\tkey")
        return self.one(*KEYS)

    def time(self):
        return self.one(b"0", b"0", b"0", b"-1", b"5000", b"100", b"%d" % (int(time.time()) + 5000), b"3000000", b"1x", b"")

    def flags(self):
        return self.one(b"0", b"0", b"7", b"65536", b"4294967295", b"-1", b"x")

    def number(self):
        return self.one(b"0", b"1", b"2", b"9", b"10", b"99", b"1000000000000", b"5", b"x", b"-3", b"1.5")

    def unique(self):
        if self.known and self.random.random() < 0.8:
            return b"<U%d>" % self.random.randrange(max(0, self.known - 12), self.known)
        return self.one(b"0", LOWEST, HIGHEST, b"x", b"-1")

    def data(self):
        kind = self.random.random()
        if kind < 0.4:
            # (of a number from 2^63 on memcached looks for a minus sign in the memory behind it)
            return b"%d" % self.one(0, 1, 9, 10, 99, 100, 12345, 1234567890123456789)
        if kind < 0.5:
            return self.one(b"12 ", b" 7", b"5 five", b"", b"007", b"+3")
        if kind < 0.503:
            return b"z" * self.one(1_000_000, 1_048_576, 1_100_000)
        size, at = self.random.randrange(200), self.random.randrange(len(NOISE) - 200)
        return NOISE[at : at + size].replace(b"MN", b"mn").replace(b"-", b"_").replace(b"<U", b"<u")

    def body(self, line, data):
        """Returns a line with its value, whose length may be wrong."""
        if len(data) > LONGEST and LEAVES_OTHERWISE.match(line):  # (see `known`)
            data = data[:1_000_000]
        length, end = len(data), b"\r\n"
        chance = self.random.random()
        if chance < 0.01:
            length = max(0, length - self.random.randrange(1, 4))
        elif chance < 0.02:
            end = b"__" + self.one(b"\r\n", b"\n", b"")
        elif chance < 0.023:
            length = -1
        return line.replace(b"<LEN>", b"%d" % length) + b"\r\n" + data + end

    def store(self, joins=True):
        names = [b"set", b"set", b"add", b"replace", b"cas"] + [b"append", b"prepend"] * joins
        name = self.one(*names)
        unique = b" " + self.unique() if name == b"cas" else b""
        words = b"%s %s %s %s <LEN>%s%s" % (name, self.key(), self.flags(), self.time(), unique, self.maybe(0.1, b" noreply"))
        return self.body(words, self.data())

    def get(self):
        name = self.one(b"get", b"gets", b"get", b"gets", b"gat", b"gats")
        is_touch = name.startswith(b"gat")
        words = [name] + ([self.time()] if is_touch else [])
        # (a key that is too long comes after others have been touched in memcached, see `known`)
        words += [self.one(*KEYS) if is_touch else self.key() for _ in range(self.one(0, 1, 1, 1, 2, 5, 30))]
        return b" ".join(words)

    def plain(self):
        quiet = self.maybe(0.1, b" noreply")
        return self.one(
            lambda: b"delete %s%s" % (self.key(), self.one(b"", b"", b" 0", b" 1", b" noreply", b" 0 noreply", b" 0 1")),
            lambda: b"touch %s %s%s" % (self.key(), self.time(), quiet),
            lambda: self.one(b"version", b"verbosity 0", b"verbosity", b"verbosity x", b"stats", b"stats nothing", b"stats settings"),
            lambda: self.one(b"flush_all", b"flush_all noreply", b"flush_all -1", b"flush_all x", b"flush_all 0 noreply"),
        )()

    def count(self):
        quiet = self.maybe(0.1, b" noreply")
        if self.random.random() < 0.5:
            return b"%s %s %s%s" % (self.one(b"incr", b"decr"), self.key(), self.number(), quiet)
        flags = self.meta_flags("bCNJDMqtcvkO").replace(LONG_OPAQUE, b"O")  # (no T, and no long opaque: see `known`)
        return b"ma %s%s" % (self.meta_key(flags), flags)

    def meta_flags(self, of, most=5):
        given = [self.flag(it) for it in self.random.sample(of, self.random.randrange(min(len(of), most) + 1))]
        if self.random.random() < 0.01 and not any(it[:1] in b"NT" for it in given):  # (see `known`)
            given.append(self.one(b"!", b"v", b"\xff", b"S10", b"E5", b"Nx", b"Tx", b"Rx", b"Fx", b"MM", LONG_OPAQUE, b"Cx"))
        return b"".join(b" " + it for it in given)

    def flag(self, name):
        tokens = {
            "N": lambda: self.one(b"0", b"5000", b"30"),
            "T": lambda: self.one(b"0", b"-1", b"5000", b"100"),
            "R": lambda: self.one(b"0", b"50", b"1000"),
            "C": self.unique,
            "F": lambda: self.one(b"0", b"9", b"4294967295"),
            "M": lambda: self.one(b"E", b"A", b"P", b"R", b"S", b"I", b"D", b"+", b"-", b"X", b""),
            "J": self.number,
            "D": self.number,
            "O": lambda: b"%d" % self.random.randrange(100),
        }
        return name.encode() + tokens.get(name, lambda: b"")()

    def meta_key(self, flags):
        """Returns a key, in base64 where the flags say so."""
        key = self.key() or b"a"
        return base64.b64encode(key) if b" b" in flags and len(key) < 180 and self.random.random() < 0.95 else key

    def meta(self):
        name = self.one(b"mg", b"mg", b"mg", b"ms", b"ms", b"md", b"me", b"mx")
        if name == b"mx":
            return name
        # (of a stub no key in base64: see `known`)
        of = {b"mg": "NTRbcfhklOqstuv", b"ms": "bcCFIkOqTM", b"md": "bCIkOqT", b"me": "b"}[name]
        if name == b"mg":
            of = of.replace(self.one("N", "b"), "")
        flags = self.meta_flags(of)
        key = self.meta_key(flags)
        if name == b"ms":
            return self.body(b"ms %s <LEN>%s" % (key, flags), self.data())
        return b"%s %s%s" % (name, key, flags)

    def damaged(self, line):
        """Returns the line with a byte of its first line changed, doubled or left out. Its end stays."""
        head, end, rest = line.partition(b"\r\n")
        if not head or len(head) > 1500 or b"<U" in head:
            return line
        if head.startswith((b"flush_all", b"gat")):  # (a delay, or a key that is too long, would come of it: see `known`)
            return line
        at = self.random.randrange(len(head))
        if head[at : at + 1].isdigit():  # (more digits may be more than 32 bits, see `known`)
            piece = self.one(b"", b" ", b"-", b"\xff")
        else:
            piece = self.one(b"", head[at : at + 1] * 2, bytes([self.random.randrange(256)]).replace(b"\n", b" "))
        return head[:at] + piece + head[at + 1 :] + end + rest

    def line(self, counts):
        """Returns a line. Those that count come where none gets an item, or joins a value to it: memcached doesn't pad a number that
        somebody holds."""
        of = (lambda: self.store(False), self.count, self.count) if counts else (self.store, self.get, self.plain, self.meta, self.meta)
        line = self.one(*of)()
        if self.random.random() < 0.02:
            line = self.damaged(line)
        line = line if line.endswith(b"\n") else line + b"\r\n"
        return self.line(counts) if line.lstrip().startswith(b"mn") or line.startswith(b"quit") else line


# Stores whose value, where it is too long, takes the item that is there in one of the two, and leaves it in the other.
LEAVES_OTHERWISE = re.compile(rb"replace|ms .* (C|M[AEPaep])")
# Commands behind which the marks of an item (won, stale, in base64) are memcached's no more.
JOINS = re.compile(rb"(append|prepend|incr|decr|ma|ms .* M[AP])\b")


class Run:
    """The run of both sides."""

    def __init__(self, sides, seed):
        self.sides = sides
        self.lines = Lines(seed)
        self.done = self.differences = 0
        self.marks_differ = set()
        self.before = []
        self.counts = False

    def batch(self):
        """Sends some lines and compares their answers."""
        self.counts = self.lines.random.random() < 0.25
        lines = [self.lines.line(self.counts) for _ in range(BATCH)]
        all_answers = []
        # (a line of more than 2,048 bytes ends a connection or not, as its end has come or not)
        is_short = all(len(line.partition(b"\r\n")[0]) < 2000 for line in lines)
        cuts = sorted(self.lines.random.random() for _ in range(self.lines.one(0, 0, 1, 5) if is_short else 0))
        for side in self.sides:
            side.send(b"".join(side.written(line) + b"mn\r\n" for line in lines), cuts)
        for side in self.sides:
            all_answers.append(side.answers(BATCH))
        for at, line in enumerate(lines):
            if any(at >= len(it) - 1 for it in all_answers):
                break
            self.note_marks(line)
            answers = [normal(side, it[at], bool(self.marks_differ)) for side, it in zip(self.sides, all_answers)]
            self.compare(lines, at, answers)
        self.compare_ends(lines, all_answers)
        self.lines.known = min(len(side.uniques) for side in self.sides)
        self.before = (self.before + lines)[-8 * BATCH :]
        self.done += len(lines)

    def compare_ends(self, lines, all_answers):
        """Compares how far both came: where a value has taken lines in, or the connection is closed, there are fewer answers."""
        there, here = self.sides
        if there.is_closed and here.is_closed:
            is_same = len(all_answers[0]) <= len(all_answers[1])  # (memcached drops what it hasn't written yet)
        else:
            ends = [(len(it), normal(side, it[-1], True)) for side, it in zip(self.sides, all_answers)]
            # (here a value that is too long is refused before it has come whole)
            ends = [(count, [it for it in end if it[0] != TOO_LARGE]) for count, end in ends]
            is_same = there.is_closed == here.is_closed and ends[0] == ends[1]
        if not is_same:
            self.differ(lines, len(lines) - 1, [f"{len(it)} answers, {it[-1:]}" for it in all_answers])
        elif len(all_answers[0]) <= BATCH:
            for side in self.sides:
                side.again()

    def note_marks(self, line):
        if JOINS.match(line):
            self.marks_differ.add(line.split(b" ")[1] if b" " in line else b"")

    def compare(self, lines, at, answers):
        if answers[0] != answers[1]:
            self.differ(lines, at, answers)

    def differ(self, lines, at, answers):
        self.differences += 1
        if self.differences <= SHOWN:
            pairs = list(zip(*answers))
            while len(pairs) > 1 and pairs[0][0] == pairs[0][1]:
                pairs.pop(0)
                answers = [it[1:] for it in answers]
            if named := os.environ.get("DIFFERENCES"):
                with open(named, "ab") as it:
                    it.write(repr(lines[max(0, at - 2) : at + 1]).encode() + b"\n")
            print(f"line {self.done + at}: {lines[at][:200]!r}\n  memcached    {str(answers[0])[:300]}\n  kilambosetryd {str(answers[1])[:300]}")
            keys = [it for it in KEYS if it in lines[at].partition(b"\r\n")[0].split()]
            keys += [base64.b64encode(key) for key in keys] + [b"flush_all"]
            history = [it.partition(b"\r\n")[0] for it in self.before + lines[:at]]
            for before in [it for it in history if set(it.split()) & set(keys)][-8:]:
                print(f"    behind {before[:120]!r}")
        # (from here on both have the same again)
        for side in self.sides:
            side.again()
            side.client.send(b"".join(b"delete %s\r\n" % key for key in [*KEYS, b"foo"]))
            for _ in [*KEYS, b"foo"]:
                side.client.line()

    def clear(self):
        """Deletes all keys, so that both sides have the same marks, and the same spaces behind numbers."""
        self.marks_differ.clear()
        for side in self.sides:
            side.client.socket.settimeout(30)
            side.client.send(b"flush_all\r\n")
            side.client.line()
            side.client.socket.settimeout(QUIET)


# Rows of `stats` and `stats settings` that memcached has, and kilambosetryd hasn't (docs/SERVER.md).
LACKING = re.compile(
    "crawler_|direct_reclaims|libevent|log_|lru|malloc_fails|moves_|read_buf_|reserved_fds|response_obj_|round_robin_fallback"
    "|slab_|unexpected_napi_ids|chunk_size|ext_|growth_factor|hash_algorithm|hashpower_init|hot_|inline_ascii_response|memory_file"
    "|num_napi_ids|num_threads_per_udp|oldest|ssl_|tail_repair_time|temp|warm_|watcher_logbuf_size|worker_logbuf_size"
)


def check_rows(servers):
    """Returns how many rows memcached has in its statistics that kilambosetryd hasn't, without its being said."""
    lacking = 0
    for command in (b"stats\r\n", b"stats settings\r\n"):
        names = []
        for server in servers:
            client = Client(server.port, 5)
            client.send(command)
            names.append(set())
            while (line := client.line()) != b"END":
                names[-1].add(line.split()[1].decode())
            client.close()
        for name in sorted(names[0] - names[1]):
            if not LACKING.match(name):
                print(f"known: {command.strip().decode()} lacks {name}")
                lacking += 1
    return lacking


def known():
    """Returns the differences that stay: why, lines, and what memcached and kilambosetryd answer to them."""
    store = b"set %s 0 0 1\r\n9\r\n"
    return [
        (
            "a number of more than 32 bits is cut by memcached, and refused here",
            b"set w 4294967296 0 1\r\nx\r\n",
            b"STORED",
            b"CLIENT_ERROR bad command line format|ERROR",
        ),
        (
            "what was flushed comes back in memcached, where a delayed flush follows",
            store % b"f" + b"flush_all\r\nflush_all 1000\r\nmg f\r\n",
            b"STORED|OK|OK|HD",
            b"STORED|OK|OK|EN",
        ),
        (
            "an append takes the mark of a stale item away in memcached",
            store % b"s" + b"md s I\r\nappend s 0 0 1\r\ny\r\nmg s\r\n",
            b"STORED|HD|STORED|HD",
            b"STORED|HD|STORED|HD X W",
        ),
        (
            "so does counting that makes the number longer",
            store % b"s" + b"md s I\r\nincr s 1\r\nmg s\r\n",
            b"STORED|HD|10|HD",
            b"STORED|HD|10|HD X W",
        ),
        (
            "counting that makes the number longer sets no time to live in memcached",
            store % b"m" + b"ma m T100\r\nmg m t\r\n",
            b"STORED|HD|HD t-1",
            b"STORED|HD|HD t100",
        ),
        (
            "a refused command may have made a stub in memcached",
            b"mg o N30 " + LONG_OPAQUE + b"\r\nmg o\r\n",
            b"CLIENT_ERROR opaque token too long|HD",
            b"CLIENT_ERROR opaque token too long|EN",
        ),
        (
            "so it may have touched the keys before one that is too long, and drops the answers that it hasn't written yet",
            store % b"t" + b"gat 100 t " + b"x" * 251 + b"\r\nmg t t\r\n",
            b"|CLIENT_ERROR bad command line format|HD t100",
            b"STORED|CLIENT_ERROR bad command line format|HD t-1",
        ),
        (
            "the key of a stub comes back as its bytes in memcached, and in base64 here",
            b"mg Zm9v b k N30\r\n",
            b"HD kfoo W",
            b"HD kZm9v b W",
        ),
        (
            "a get marks an item as fetched in memcached; here a meta get does that asks for it",
            store % b"h" + b"get h\r\nmg h h\r\nmg h h\r\n",
            b"STORED|VALUE h 0 1|9|END|HD h1|HD h1",
            b"STORED|VALUE h 0 1|9|END|HD h0|HD h1",
        ),
        (
            "what is past has a time to live of 0 here",
            store % b"p" + b"mg p T-1 v t\r\n",
            None,
            b"STORED|VA 1 t0|9",
        ),
        (
            "a number is one to memcached where a zero byte follows, or a vertical tab comes first",
            b"set z 0 0 3\r\n4\0x\r\nincr z 1\r\nset z 0 0 2\r\n\x0b4\r\nincr z 1\r\n",
            b"STORED|5|STORED|5",
            b"STORED|" + NO_NUMBER + b"|STORED|" + NO_NUMBER,
        ),
        (
            "a replace that is too long takes what there is here, and leaves it in memcached",
            store % b"r" + b"replace r 0 0 1100000\r\n" + bytes(1_100_000) + b"\r\nmg r v\r\n",
            b"STORED|" + TOO_LARGE + b"|VA 1|9",
            b"STORED|" + TOO_LARGE + b"|EN",
        ),
        *(
            (
                "a meta set that is too long takes what there is in memcached, also where it was to add to it, or compares",
                store % b"r" + b"ms r 1100000 " + flag + b"\r\n" + bytes(1_100_000) + b"\r\nmg r v\r\n",
                b"STORED|" + TOO_LARGE + b"|EN",
                b"STORED|" + TOO_LARGE + b"|VA 1|9",
            )
            for flag in (b"MA", b"MP", b"ME", b"C" + LOWEST)
        ),
        (
            "there are no slabs, and no list of items",
            b"lru mode flat\r\ncache_memlimit 64\r\nslabs automove 0\r\nlru_crawler sleep 100\r\nbget a\r\n",
            b"OK|OK|OK|OK|END",
            b"ERROR|ERROR|ERROR|ERROR|ERROR",
        ),
        (
            "statistics by slab are empty, and unknown ones an error",
            b"stats sizes\r\nstats nothing\r\n",
            b"STAT sizes_status disabled|END|ERROR",
            b"END|ERROR",
        ),
    ]


def check_known(servers):
    """Returns how many of the known differences aren't as they are said to be."""
    wrong = 0
    for why, lines, *expected in known():
        found = []
        for server in servers:
            client = Client(server.port, 5)
            client.send(b"flush_all\r\n" + lines + b"mn\r\n")
            said = b""
            while not said.endswith(b"|MN"):
                said += b"|" + client.line()
            found.append(said.removeprefix(b"|OK|").removesuffix(b"|MN"))
            client.close()
        if any(it not in (None, answer) for it, answer in zip(expected, found)):
            wrong += 1
            print(f"known: {why}: {found}, and not {expected}")
    return wrong


def main():
    """Runs both."""
    count = int(sys.argv[1]) if len(sys.argv) > 1 else 100_000
    seed = int(sys.argv[2]) if len(sys.argv) > 2 else 1
    with memcached("-m", 256) as there, kilambosetryd("--memory", 256) as here:
        for server in (there, here):  # (memcached's first cas unique is 1)
            Client(server.port).ask(b"set first 0 0 1\r\nx")
        run = Run([Side(there), Side(here)], seed)
        while run.done < count and run.differences < SHOWN:
            run.batch()
            if run.counts or run.done % (BATCH * 8) == 0:
                run.clear()
        wrong = check_known([there, here])
        wrong += check_rows([there, here])
    print(f"{run.done} lines, seed {seed}: {run.differences} differences, {wrong} of {len(known())} known ones not as they were")
    sys.exit(1 if run.differences or wrong else 0)


if __name__ == "__main__":
    main()
