#!/usr/bin/env python3
"""Compares what the checker of traces says with a pool written from the rules alone.

usage: mutate.py PROGRAM [SECONDS] [SEED]      (default: 60 1)

PROGRAM is bench/traces, built. Random legal traces are made, each of which is about one thing: all events, pages that are
written and loaded, trackers that come and go, or loans. Each is tried as it is, and then with a line dropped, doubled or
exchanged with the next, with a number, a maker, a letter or a name changed, with a byte changed, put in or taken out, and
with an entry planted that can't follow. Each text is judged here and by PROGRAM. It prints how many were tried, what the
answers were, and each text whose answers differ, which stays in a folder that is named.
"""
import collections
import os
import random
import re
import subprocess
import sys
import tempfile
import time

U32 = 2**32 - 1
U64 = 2**64 - 1
BATCH = 1500

# The greatest value of each number of an event. Under the root a tracker has a quota too.
FORMS = {
    b"Ask": [], b"CloseTracker": [U32], b"Increase": [U32, U64], b"IncreaseToFit": [U32, U64],
    b"Decrease": [U32, U64], b"MoveReservation": [U32, U32, U64], b"Create": [U64, U32, U32],
    b"Alloc": [U32, U32, U32], b"ReadStale": [U64, U64, U32, U64, U64, U32], b"Extract": [U64, U32],
    b"Free": [U32], b"MoveBuffer": [U32, U32],
    b"Refused pin": [U64, U64], b"Refused pin_again": [U64, U64], b"Refused create": [U32, U32, U64],
    b"Refused alloc": [U32, U32, U64], b"Refused give_back": [U32, U64, U64],
    b"Refused move_reservation": [U32, U32, U64, U64], b"Refused move_buffer": [U32, U32, U64],
}
for of_pages in (b"PinHere PinLoad PinAgain ReadOk ReadFailed Unpin UnpinOnce UnpinRefused Destroy StartWrite WriteOk"
                 b" WriteFailed Evict").split():
    FORMS[of_pages] = [U64]
WRITES = {b"StartWrite", b"WriteOk", b"WriteFailed"}
NUMBER = rb"(?:0|[1-9][0-9]*)"
ENTRY = re.compile(rb"([sw])(" + NUMBER + rb") ([A-Za-z]+(?: [a-z_]+)?)((?: " + NUMBER + rb")*)\n")
OPENING = re.compile(rb"pool (" + NUMBER + rb") (" + NUMBER + rb") (" + NUMBER + rb")\n")


class Tracker:
    def __init__(self, parent, limit):
        self.parent, self.limit, self.reservation = parent, limit, 0


class Session:
    def __init__(self, query, quota):
        self.query, self.quota = query, quota


class Page:
    def __init__(self, session, client, blocks):
        self.session, self.client, self.blocks = session, client, blocks
        self.place, self.pins, self.writer = "Pinned", 1, None
        self.has_slots, self.version = False, 0


class Pool:
    """What is live, and the history. Sums are made anew each time they are asked for."""

    def __init__(self, blocks, block_len, first_name):
        self.block_len, self.first_name, self.creates = block_len, first_name, 0
        self.memory = blocks * block_len
        self.trackers = {0: Tracker(None, self.memory)}
        self.sessions, self.pages, self.buffers = {}, {}, {}
        self.left_dirty, self.left_clean = {}, {}
        self.history = []

    # Sums, in bytes.
    def length(self, blocks):
        return blocks * self.block_len

    def buffers_of(self, c):
        return sum(self.length(blocks) for client, blocks in self.buffers.values() if client == c)

    def charge(self, c):
        times = {"Pinned": lambda x: x.pins, "Loading": lambda x: 1}
        pages = (x for x in self.pages.values() if x.client == c and x.place in times)
        return sum(times[x.place](x) * self.length(x.blocks) for x in pages) + self.buffers_of(c)

    def held(self, c):
        waiting = (x for x in self.pages.values() if x.client == c and x.place in ("Dirty", "Flying"))
        return self.charge(c) + sum(self.length(x.blocks) for x in waiting)

    def free(self):
        pages = sum(self.length(x.blocks) for x in self.pages.values() if x.place != "Evicted")
        return self.memory - pages - sum(self.length(blocks) for _, blocks in self.buffers.values())

    def children(self, t):
        return [x for x in self.trackers.values() if x.parent == t]

    def unused(self, t):
        under = sum(x.reservation for x in self.children(t))
        return self.trackers[t].reservation - self.charge(t) - under

    def free_slots(self, maker):
        used = sum(x.blocks for x in self.pages.values() if x.session == maker and x.has_slots)
        return self.sessions[maker].quota - used

    # Whose things are whose.
    def is_client(self, maker, c):
        session = self.sessions.get(maker)
        return session is not None and c in self.trackers and self.trackers[c].parent == session.query

    def is_own(self, maker, t):
        return maker in self.sessions and self.sessions[maker].query == t or self.is_client(maker, t)

    def own_page(self, maker, p):
        page = self.pages.get(p)
        return page if page is not None and page.session == maker else None

    def has_room(self, c, bytes_):
        return c in self.trackers and self.held(c) + bytes_ <= self.trackers[c].reservation

    # Trackers.
    def growths(self, t, bytes_):
        """Each tracker on the way up and by how much it grows, or None where a limit refuses."""
        steps = []
        while t is not None:
            tracker = self.trackers[t]
            if bytes_ > tracker.limit - tracker.reservation:
                return None
            steps.append((t, bytes_))
            if tracker.parent is not None:
                bytes_ = max(0, bytes_ - self.unused(tracker.parent))
            t = tracker.parent
        return steps

    def way(self, t):
        ways = []
        while t is not None:
            ways.append(t)
            t = self.trackers[t].parent
        return ways

    def can_lose(self, t, bytes_):
        return bytes_ <= self.unused(t) and self.held(t) <= self.trackers[t].reservation - bytes_

    def moves(self, a, b):
        """Those that fall and those that rise, below the nearest tracker above both."""
        falls, rises = self.way(a), self.way(b)
        return [t for t in falls if t not in rises], [t for t in rises if t not in falls]

    # The history.
    def entries_since(self, begins):
        at = max((i for i, e in enumerate(self.history) if begins(e)), default=None)
        return [] if at is None else list(enumerate(self.history))[at + 1:]

    def has_asked(self, maker):
        opened = max((i for i, e in enumerate(self.history) if e[1] == maker and e[2] == b"AddTracker" and len(e[3]) == 4),
                     default=-1)
        return any(e[1] == maker and e[2] == b"Ask" for e in self.history[opened + 1:])

    def first_failure(self, maker, c):
        """The first failure on a page of this client, since the maker's last Ask and since the client is live."""
        since = self.entries_since(lambda e: e[1] == maker and e[2] == b"Ask" or
                                   e[2] in (b"AddTracker", b"CloseTracker") and e[3][0] == c)
        asked = self.entries_since(lambda e: e[1] == maker and e[2] == b"Ask")
        for i, e in since if len(since) < len(asked) else asked:
            if e[2] in (b"WriteFailed", b"ReadFailed") and e[4] == (maker, c):
                return i
        return None

    def last_misread(self, maker, p):
        found = [i for i, e in self.entries_since(lambda e: e[1] == maker and e[2] == b"Ask")
                 if e[1] == maker and e[2] in (b"ReadFailed", b"ReadStale") and e[3][0] == p]
        return found[-1] if found else None

    # Which entry may come.
    def may(self, writer, maker, name, n):
        if writer:
            return 1000 <= maker < 1008 and name in WRITES and self.may_write(None, maker, name, n[0])
        if maker >= 240:
            return False
        if name in WRITES:
            return self.may_write(maker, maker, name, n[0])
        if name.startswith(b"Refused "):
            return self.may_refuse(maker, name[8:], n[:-1], n[-1])
        return getattr(self, "may_" + name.decode())(maker, *n)

    def may_write(self, session, maker, name, p):
        page = self.pages.get(p)
        if page is None:
            return False
        if name == b"StartWrite":
            dirty = [q for q, x in self.pages.items() if x.place == "Dirty" and x.client == page.client]
            newest = max(dirty, key=lambda q: self.left_dirty[q], default=None)
            return newest == p and (session is None or page.session == session)
        return page.place == "Flying" and page.writer == maker

    def may_Ask(self, maker):
        return True

    def may_AddTracker(self, maker, t, parent, limit, quota=None):
        if t in self.trackers:
            return False
        if parent == 0:
            return maker not in self.sessions
        return maker in self.sessions and self.sessions[maker].query == parent

    def may_CloseTracker(self, maker, t):
        return (self.is_own(maker, t) and self.trackers[t].reservation == 0 and not self.children(t)
                and all(x.client != t for x in self.pages.values())
                and all(client != t for client, _ in self.buffers.values()))

    def may_Increase(self, maker, t, bytes_):
        return self.is_own(maker, t) and self.growths(t, bytes_) is not None

    def may_IncreaseToFit(self, maker, t, bytes_):
        return self.is_own(maker, t) and self.growths(t, max(0, bytes_ - self.unused(t))) is not None

    def may_Decrease(self, maker, t, bytes_):
        return self.is_own(maker, t) and self.can_lose(t, bytes_)

    def may_MoveReservation(self, maker, a, b, bytes_):
        if not (self.is_own(maker, a) and self.is_own(maker, b) and self.can_lose(a, bytes_)):
            return False
        rising = (self.trackers[t] for t in self.moves(a, b)[1])
        return all(bytes_ <= x.limit - x.reservation for x in rising)

    def can_take(self, c, blocks):
        return self.has_room(c, self.length(blocks)) and self.length(blocks) <= self.free()

    def may_Create(self, maker, p, c, blocks):
        return (p == self.first_name + self.creates and p < U64 and self.is_client(maker, c)
                and self.can_take(c, blocks))

    def may_Alloc(self, maker, f, c, blocks):
        return f not in self.buffers and self.is_client(maker, c) and self.can_take(c, blocks)

    def may_PinHere(self, maker, p):
        x = self.own_page(maker, p)
        return x is not None and (x.place == "Dirty" or
                                  x.place == "Clean" and self.has_room(x.client, self.length(x.blocks)))

    def may_PinLoad(self, maker, p):
        x = self.own_page(maker, p)
        return x is not None and x.place == "Evicted" and self.can_take(x.client, x.blocks)

    def may_ReadOk(self, maker, p):
        x = self.own_page(maker, p)
        return x is not None and x.place == "Loading"

    may_ReadFailed = may_ReadOk

    def may_ReadStale(self, maker, p, version, block, *found):
        x = self.own_page(maker, p)
        return (x is not None and x.place == "Loading" and version == x.version and block < x.blocks
                and found != (p, version, block))

    def may_PinAgain(self, maker, p):
        x = self.own_page(maker, p)
        return x is not None and x.place == "Pinned" and self.has_room(x.client, self.length(x.blocks))

    def may_UnpinOnce(self, maker, p):
        x = self.own_page(maker, p)
        return x is not None and x.place == "Pinned" and x.pins >= 2

    def pinned_once(self, maker, p):
        x = self.own_page(maker, p)
        return x if x is not None and x.place == "Pinned" and x.pins == 1 else None

    def may_Unpin(self, maker, p):
        x = self.pinned_once(maker, p)
        return x is not None and (x.has_slots or self.free_slots(maker) >= x.blocks)

    def may_UnpinRefused(self, maker, p):
        x = self.pinned_once(maker, p)
        return x is not None and not x.has_slots and self.free_slots(maker) < x.blocks

    def may_Extract(self, maker, p, f):
        return self.pinned_once(maker, p) is not None and f not in self.buffers

    def may_Destroy(self, maker, p):
        x = self.own_page(maker, p)
        return x is not None and x.place not in ("Flying", "Loading")

    def own_buffer(self, maker, f):
        return f in self.buffers and self.is_client(maker, self.buffers[f][0])

    def may_Free(self, maker, f):
        return self.own_buffer(maker, f)

    def may_MoveBuffer(self, maker, f, c):
        return (self.own_buffer(maker, f) and self.is_client(maker, c) and self.buffers[f][0] != c
                and self.has_room(c, self.length(self.buffers[f][1])))

    def may_Evict(self, maker, p):
        clean = [q for q, x in self.pages.items() if x.place == "Clean"]
        return bool(clean) and min(clean, key=lambda q: self.left_clean[q]) == p

    def may_refuse(self, maker, call, n, entry):
        if not self.has_asked(maker):
            return False
        if call in (b"pin", b"pin_again"):
            x = self.own_page(maker, n[0])
            if x is None:
                return False
            if call == b"pin" and self.last_misread(maker, n[0]) == entry:
                return True
            here = call == b"pin" and x.place in ("Dirty", "Flying")
            client, enabled = x.client, here or self.has_room(x.client, self.length(x.blocks))
        elif call in (b"create", b"alloc"):
            client, enabled = n[0], self.has_room(n[0], self.length(n[1]))
        elif call == b"give_back":
            client, enabled = n[0], self.has_room(n[0], n[1])
        elif call == b"move_reservation":
            if not self.is_own(maker, n[1]):
                return False
            client, enabled = n[0], self.has_room(n[0], n[2])
        else:
            if not self.own_buffer(maker, n[0]):
                return False
            client, enabled = n[1], self.has_room(n[1], self.length(self.buffers[n[0]][1]))
        return self.is_client(maker, client) and not enabled and self.first_failure(maker, client) == entry

    # What an entry does.
    def apply(self, writer, maker, name, n):
        at = len(self.history)
        failed = None
        page = self.pages.get(n[0]) if n else None
        if name in (b"WriteFailed", b"ReadFailed"):
            failed = (page.session, page.client)
        if name == b"AddTracker":
            self.trackers[n[0]] = Tracker(n[1], n[2])
            if n[1] == 0:
                self.sessions[maker] = Session(n[0], n[3])
        elif name == b"CloseTracker":
            del self.trackers[n[0]]
            if self.sessions[maker].query == n[0]:
                del self.sessions[maker]
        elif name in (b"Increase", b"IncreaseToFit"):
            bytes_ = n[1] if name == b"Increase" else max(0, n[1] - self.unused(n[0]))
            for t, growth in self.growths(n[0], bytes_):
                self.trackers[t].reservation += growth
        elif name == b"Decrease":
            for t in self.way(n[0]):
                self.trackers[t].reservation -= n[1]
        elif name == b"MoveReservation":
            falls, rises = self.moves(n[0], n[1])
            for t in falls:
                self.trackers[t].reservation -= n[2]
            for t in rises:
                self.trackers[t].reservation += n[2]
        elif name == b"Create":
            self.pages[n[0]] = Page(maker, n[1], n[2])
            self.creates += 1
        elif name == b"Alloc":
            self.buffers[n[0]] = (n[1], n[2])
        elif name == b"Free":
            del self.buffers[n[0]]
        elif name == b"MoveBuffer":
            self.buffers[n[0]] = (n[1], self.buffers[n[0]][1])
        elif name == b"Extract":
            del self.pages[n[0]]
            self.buffers[n[1]] = (page.client, page.blocks)
        elif name == b"Destroy":
            del self.pages[n[0]]
        elif name in (b"PinHere", b"ReadOk"):
            page.place, page.pins = "Pinned", 1
        elif name == b"PinAgain":
            page.pins += 1
        elif name == b"UnpinOnce":
            page.pins -= 1
        elif name == b"PinLoad":
            page.place = "Loading"
        elif name in (b"ReadFailed", b"ReadStale", b"Evict"):
            page.place = "Evicted"
        elif name == b"Unpin":
            page.place, page.has_slots = "Dirty", True
            self.left_dirty[n[0]] = at
        elif name == b"WriteFailed":
            page.place = "Dirty"
            self.left_dirty[n[0]] = at
        elif name == b"StartWrite":
            page.place, page.writer, page.version = "Flying", maker, at
        elif name == b"WriteOk":
            page.place = "Clean"
            self.left_clean[n[0]] = at
        self.history.append((writer, maker, name, n, failed))


def opened(text):
    """The pool of the first line, and what is behind it."""
    found = OPENING.match(text)
    if found is None:
        return None
    blocks, block_len, first_name = (int(word) for word in found.groups())
    lens = {64 << i for i in range(11)}
    if not 1 <= blocks <= 1048576 or block_len not in lens or blocks * block_len > 2**31 or first_name > U64:
        return None
    return Pool(blocks, block_len, first_name), text[found.end():]


def entry_at(line):
    """The entry of a line, or None where it is out of form."""
    found = ENTRY.fullmatch(line)
    if found is None:
        return None
    maker, name = int(found[2]), found[3]
    n = tuple(int(word) for word in found[4].split())
    if name == b"AddTracker":
        limits = [U32, U32, U64] + ([U32] if len(n) > 1 and n[1] == 0 else [])
    else:
        limits = FORMS.get(name)
    if limits is None or len(limits) != len(n) or maker > U32 or any(a > b for a, b in zip(n, limits)):
        return None
    return found[1] == b"w", maker, name, n


def judged(text):
    begun = opened(text)
    if begun is None:
        return "syntax 1"
    pool, rest = begun
    while True:
        end = rest.find(b"\n") + 1
        entry = entry_at(rest[:end]) if end else None
        if entry is None:
            break
        if not pool.may(*entry):
            return f"illegal {len(pool.history)}"
        pool.apply(*entry)
        rest = rest[end:]
    if rest in (b"end\n", b"cut\n"):
        return f"entries {len(pool.history)} " + ("whole" if rest == b"end\n" else "cut")
    return f"syntax {len(pool.history) + 2}"


def spelled(entry):
    writer, maker, name, n = entry
    return (b"w" if writer else b"s") + b" ".join([b"%d" % maker, name] + [b"%d" % x for x in n]) + b"\n"


IDS = [1, 2, 3, 4, 5, 6, 7, 8, 9, U32]
MAKERS = [0, 1, 7, 239]
WRITERS = [1000, 1003, 1007]


def weighed(text):
    """Names as often as the numbers behind them say."""
    words = text.split()
    return [name for name, count in zip(words[::2], words[1::2]) for _ in range(int(count))]


# What a trace is about.
THEMES = [weighed(text) for text in (
    """AddTracker 2 Increase 1 IncreaseToFit 1 Decrease 1 MoveReservation 1 CloseTracker 1 Ask 1 Create 3 Unpin 3
    StartWrite 3 WriteOk 2 WriteFailed 1 Evict 3 PinLoad 2 ReadOk 1 ReadFailed 1 ReadStale 1 PinHere 1 PinAgain 1
    UnpinOnce 1 UnpinRefused 1 Extract 1 Destroy 1 Alloc 1 Free 1 MoveBuffer 1 Refused 4 Shrink 1""",
    """Ask 1 Create 3 Unpin 5 StartWrite 5 WriteOk 5 WriteFailed 1 Evict 6 PinLoad 6 ReadOk 2 ReadFailed 2 ReadStale 2
    PinHere 2 PinAgain 1 Destroy 1 Refused 6 IncreaseToFit 1""",
    """Ask 1 AddTracker 4 CloseTracker 4 Increase 4 Shrink 4 Create 3 Unpin 3 StartWrite 3 WriteFailed 3 Destroy 4
    Refused 6 MoveReservation 2""",
    """Ask 1 AddTracker 1 Increase 2 Create 3 Alloc 4 Extract 3 MoveBuffer 4 Free 2 Unpin 3 StartWrite 3 WriteFailed 2
    PinAgain 2 UnpinOnce 1 UnpinRefused 1 MoveReservation 1 Refused 8""",
)]


# How a trace may begin: P is the first page's name, M all memory, and R four blocks, in bytes.
OPENED = "s0 AddTracker 1 0 M 8, s0 Increase 1 R, s0 AddTracker 2 1 M, s0 Increase 2 R"
FAILED = "s0 Create P 2 3, s0 Unpin P, w1000 StartWrite P, w1000 WriteFailed P"
STORIES = [
    # A failure of a client that ended, and came again with its number.
    f"{OPENED}, s0 Ask, {FAILED}, s0 Destroy P, s0 Decrease 2 R, s0 CloseTracker 2, s0 AddTracker 2 1 M, s0 Increase 2 R",
    # A failure of a session that asked before it came, or of one that came again.
    f"s0 Ask, {OPENED}, {FAILED}",
    f"{OPENED}, s0 Ask, {FAILED}, s0 Destroy P, s0 Decrease 2 R, s0 CloseTracker 2, s0 CloseTracker 1, {OPENED}",
    # A page that is flying once more after a failure, and one that fails twice.
    f"{OPENED}, s0 Ask, {FAILED}, s0 StartWrite P",
    f"{OPENED}, s0 Ask, {FAILED}, w1003 StartWrite P, w1003 WriteFailed P",
    # A page that is loaded, after a failure and after none.
    f"{OPENED}, s0 Ask, {FAILED}, s0 StartWrite P, s0 WriteOk P, s0 Evict P, s0 PinLoad P, s0 ReadFailed P, s0 PinLoad P",
    f"{OPENED}, s0 Ask, s0 Create P 2 1, s0 Unpin P, s0 StartWrite P, s0 WriteOk P, s0 Evict P, s0 PinLoad P",
    # Two clients, of which one may have no more than it has.
    f"{OPENED}, s0 AddTracker 3 1 R, s0 MoveReservation 2 3 R, s0 Increase 2 R",
]


def told(pool, story):
    words = {"P": pool.first_name, "M": pool.memory, "R": pool.length(4)}
    for line in story.split(", "):
        yield entry_at(" ".join(str(words.get(word, word)) for word in line.split()).encode() + b"\n")


def begun(pool, dice):
    """Entries by which some sessions have clients with reservations."""
    if dice.random() < 0.5:
        yield from told(pool, dice.choice(STORIES))
        return
    for maker in dice.sample(MAKERS, dice.choice([0, 1, 1, 2])):
        ids = dice.sample([t for t in IDS if t not in pool.trackers], 3)
        share = pool.memory // 4
        yield False, maker, b"AddTracker", (ids[0], 0, pool.memory, dice.choice([2, 8, 8, U32]))
        for client in ids[1:]:
            yield False, maker, b"AddTracker", (client, ids[0], pool.memory)
            yield False, maker, b"Increase", (client, share)
        yield False, maker, b"Ask", ()


def guess(pool, dice, theme):
    """An entry that may perhaps come."""
    pages, buffers, trackers = list(pool.pages), list(pool.buffers), list(pool.trackers)
    maker = dice.choice(MAKERS)
    sessions = list(pool.sessions)
    if sessions and dice.random() < 0.85:
        maker = dice.choice(sessions)
    own = [t for t in trackers if pool.is_own(maker, t)] or trackers
    clients = [t for t in trackers if pool.is_client(maker, t)] or trackers
    page = dice.choice(pages) if pages else 0
    mine = [p for p in pages if pool.pages[p].session == maker] or [page]
    name = dice.choice(theme)
    places = {"PinLoad": ["Evicted"], "PinHere": ["Clean", "Dirty"], "Unpin": ["Pinned"], "Extract": ["Pinned"]}
    if dice.random() < 0.9:
        wanted = ["Loading"] if name.startswith("Read") else places.get(name)
        mine = [p for p in mine if p in pages and pool.pages[p].place in (wanted or [pool.pages[p].place])] or mine
    amount = pool.length(dice.choice([0, 1, 1, 2, 3, 4])) + dice.choice([0, 0, 0, 1, 17])
    blocks = dice.choice([0, 1, 1, 1, 2, 2, 3])
    client = dice.choice(clients)
    of = {
        "Ask": (), "CloseTracker": (dice.choice(own),), "Increase": (dice.choice(own), amount),
        "IncreaseToFit": (dice.choice(own), amount), "Decrease": (dice.choice(own), amount),
        "MoveReservation": (dice.choice(own), dice.choice(own), amount),
        "Create": (pool.first_name + pool.creates, client, blocks), "Alloc": (dice.choice(IDS), client, blocks),
        "Extract": (dice.choice(mine), dice.choice(IDS)), "Free": (dice.choice(buffers or [0]),),
        "MoveBuffer": (dice.choice(buffers or [0]), client),
    }
    if name == "AddTracker":
        if maker in pool.sessions:
            n = (dice.choice(IDS), pool.sessions[maker].query, dice.choice([pool.length(2), pool.memory, 2 * pool.memory, U64]))
        else:
            n = (dice.choice(IDS), 0, dice.choice([pool.memory // 2, pool.memory, U64]), dice.choice([0, 2, 4, 8, U32]))
    elif name == "Shrink":
        t = dice.choice(own)
        if not pool.is_own(maker, t):
            return None
        return False, maker, b"Decrease", (t, max(0, pool.trackers[t].reservation - pool.held(t)))
    elif name == "ReadStale":
        p = dice.choice(mine)
        version = pool.pages[p].version if p in pool.pages else 0
        version = dice.choice([version, version, max(0, version - 1), version + 1, 0])
        n = (p, version, 0) + dice.choice([(p, version, 1), (p, 0, 0), (p + 1, version, 0), (0, 0, 0)])
    elif name == "Refused":
        return guess_refusal(pool, dice, maker, own, clients, mine, buffers)
    elif name.encode() in WRITES:
        flying = [p for p in pages if pool.pages[p].place == "Flying"]
        if name != "StartWrite" and flying:
            p = dice.choice(flying)
            return pool.pages[p].writer >= 1000, pool.pages[p].writer, name.encode(), (p,)
        dirty = [p for p in pages if pool.pages[p].place == "Dirty"]
        p = max(dirty, key=lambda q: pool.left_dirty[q], default=page)
        if dice.random() < 0.3:
            return False, pool.pages[p].session if p in pool.pages else maker, name.encode(), (p,)
        return True, dice.choice(WRITERS), name.encode(), (p,)
    elif name == "Evict":
        clean = [p for p in pages if pool.pages[p].place == "Clean"]
        n = (min(clean, key=lambda q: pool.left_clean[q], default=page),)
    else:
        n = of.get(name, (dice.choice(mine),))
    return False, maker, name.encode(), n


def guess_refusal(pool, dice, maker, own, clients, mine, buffers):
    p = dice.choice(mine)
    full = [c for c in clients if pool.first_failure(maker, c) is not None]
    client = dice.choice(full or clients)
    lent = [f for f in buffers if pool.own_buffer(maker, f)] or [0]
    call, n, of = dice.choice([
        (b"pin", (p,), None), (b"pin", (p,), None), (b"pin_again", (p,), None), (b"create", (client, dice.choice([1, 2, 9])), client),
        (b"alloc", (client, dice.choice([1, 2, 9])), client), (b"give_back", (client, dice.choice([64, 512, 4096])), client),
        (b"move_reservation", (client, dice.choice(own), dice.choice([64, 512, 4096])), client),
        (b"move_buffer", (dice.choice(lent), client), client),
        (b"move_buffer", (dice.choice(lent), client), client),
    ])
    if of is None:
        of = pool.pages[p].client if p in pool.pages else client
    entry = pool.first_failure(maker, of)
    if call == b"pin" and dice.random() < 0.5:
        entry = pool.last_misread(maker, p)
    if dice.random() < 0.5:
        entry = dice.choice([i for i, e in enumerate(pool.history) if e[4] or e[2] == b"ReadStale"] or [0])
    return None if entry is None else (False, maker, b"Refused " + call, n + (entry,))


def made(dice, tally):
    """The lines of a legal trace, and entries that can't follow: each with the place of the line that it would have."""
    first = dice.choice([0, 0, 5, U64 - 2])
    blocks, block_len = dice.choice([4, 6, 9, 16]), dice.choice([64, 64, 4096])
    lines = [b"pool %d %d %d\n" % (blocks, block_len, first)]
    pool = Pool(blocks, block_len, first)
    wanted, theme = dice.choice([30, 60, 120]), dice.choice(THEMES)
    first_ones, misses = begun(pool, dice), collections.defaultdict(list)
    for _ in range(80 * wanted):
        if len(lines) > wanted:
            break
        entry = next(first_ones, None) or guess(pool, dice, theme)
        if entry is None:
            continue
        if not pool.may(*entry):
            misses[entry[2]].append((len(lines), spelled(entry)))
        else:
            pool.apply(*entry)
            tally[entry[2].decode()] += 1
            lines.append(spelled(entry))
    lines.append(dice.choice([b"end\n", b"cut\n"]))
    chosen = [miss for of_name in misses.values() for miss in dice.sample(of_name, min(6, len(of_name)))]
    return lines, chosen


def other_number(dice, word):
    value = int(word)
    return b"%d" % dice.choice([value + 1, max(0, value - 1), 0, 1, 2, 64, U32, U32 + 1, U64, U64 + 1, dice.randrange(12)])


def mutations(dice, lines):
    """The name of each change, and the text."""
    for i in range(len(lines)):
        yield "dropped", b"".join(lines[:i] + lines[i + 1:])
        yield "doubled", b"".join(lines[:i + 1] + lines[i:])
        if i + 1 < len(lines):
            yield "exchanged", b"".join(lines[:i] + [lines[i + 1], lines[i]] + lines[i + 2:])
        line = lines[i]
        places = list(re.finditer(rb"(?<= )[0-9]+", line))
        for _ in range(2 if places else 0):
            at = dice.choice(places)
            changed = line[:at.start()] + other_number(dice, at[0]) + line[at.end():]
            yield "number", b"".join(lines[:i] + [changed] + lines[i + 1:])
        found = ENTRY.fullmatch(line)
        if found:
            rest = line[found.start(3):]
            maker = b"%d" % dice.choice(MAKERS + WRITERS + [2, 240, 1001, 1008, U32])
            letter = dice.choice([found[1], found[1], b"w", b"s"])
            yield "maker", b"".join(lines[:i] + [letter + maker + b" " + rest] + lines[i + 1:])
            alike = [name for name, form in FORMS.items() if len(form) == len(found[4].split())]
            renamed = line[:found.start(3)] + dice.choice(alike + [b"Grow"]) + line[found.end(3):]
            yield "name", b"".join(lines[:i] + [renamed] + lines[i + 1:])
    text = b"".join(lines)
    for _ in range(2 * len(lines)):
        at = dice.randrange(len(text))
        byte = bytes([dice.choice([dice.randrange(256), *b"0123456789 \nsw"])])
        yield "byte", dice.choice([text[:at] + byte + text[at + 1:], text[:at] + byte + text[at:], text[:at] + text[at + 1:]])
    at = dice.randrange(len(text))
    yield "cut off", text[:at]


def answers(program, folder, texts):
    paths = []
    for i, text in enumerate(texts):
        path = os.path.join(folder, str(i))
        with open(path, "wb") as out:
            out.write(text)
        paths.append(path)
    ran = subprocess.run([program] + paths, capture_output=True, text=True)
    said = ran.stdout.splitlines()
    if ran.returncode != 0 or len(said) != len(texts):
        sys.exit(f"{program} ended with {ran.returncode} after {len(said)} of {len(texts)} texts: {folder}")
    return said


def main():
    program = sys.argv[1]
    seconds = float(sys.argv[2]) if len(sys.argv) > 2 else 60
    dice = random.Random(int(sys.argv[3]) if len(sys.argv) > 3 else 1)
    kept = tempfile.mkdtemp(prefix="traces_")
    end = time.time() + seconds
    events, tried, said_of, different = (collections.Counter() for _ in range(4))
    traces, batch = 0, []

    def try_batch():
        if not batch:
            return
        with tempfile.TemporaryDirectory(dir="/dev/shm" if os.path.isdir("/dev/shm") else None) as folder:
            for (kind, text), said in zip(batch, answers(program, folder, [text for _, text in batch])):
                mine = judged(text)
                tried[kind] += 1
                said_of[kind, said.split()[0]] += 1
                if kind == "whole" and not mine.startswith("entries"):
                    sys.exit(f"a trace that was made is refused here: {mine}")
                if mine != said:
                    different[kind] += 1
                    path = os.path.join(kept, f"{sum(different.values())}")
                    with open(path, "wb") as out:
                        out.write(text)
                    print(f"DIFFERENT after '{kind}': the program says '{said}', the rules '{mine}': {path}", flush=True)
        batch.clear()

    while time.time() < end:
        lines, misses = made(dice, events)
        traces += 1
        batch.append(("whole", b"".join(lines)))
        batch.extend(mutations(dice, lines))
        batch.extend(("planted", b"".join(lines[:at] + [line] + lines[at:])) for at, line in misses)
        if len(batch) >= BATCH:
            try_batch()
    try_batch()
    print(f"{traces} traces with {sum(events.values())} entries, {sum(tried.values())} texts tried,"
          f" {sum(different.values())} answers differ")
    for kind, count in tried.items():
        row = ", ".join(f"{said_of[kind, word]} {word}" for word in ("entries", "illegal", "syntax", "large", "memory"))
        print(f"{kind}: {count} tried: {row}; {different[kind]} differ")
    print("entries made: " + ", ".join(f"{name} {count}" for name, count in sorted(events.items())))
    if different:
        sys.exit(1)
    os.rmdir(kept)


main()
