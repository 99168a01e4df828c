"""Messages and their bytes, as docs/messages.md has them.

`encode` writes version 2. `decode` reads both versions and raises the first fault, counted from the left.
"""
from dataclasses import dataclass
from typing import NamedTuple

NODES = 16
LOCKS = 64
MOST_BODY = 16_777_216
# Of version 2; version 1 has 64 pages of 64 words.
PAGES = 1024
WORDS_OF_PAGE = (64, 256)


class Fault(Exception):
    """Why bytes are no message: Short, Long, BadVersion, BadKind, BadNode, BadCount or NotAscending."""


class Interval(NamedTuple):
    """An interval with its write notices: whose it is, its stamp (a vector time), the pages written in it, ascending."""

    node: int
    stamp: tuple
    pages: tuple

    @property
    def index(self):
        return self.stamp[self.node]


# What the eleven kinds say. A time is a tuple with an entry for each node, changes are a tuple of pairs (offset, value), both ascending.
@dataclass(frozen=True)
class LockRequest:
    lock: int
    time: tuple


@dataclass(frozen=True)
class LockForward:
    lock: int
    asker: int
    time: tuple


@dataclass(frozen=True)
class LockGrant:
    lock: int
    time: tuple
    intervals: tuple


@dataclass(frozen=True)
class Arrive:
    episode: int
    collects: bool
    time: tuple
    intervals: tuple


@dataclass(frozen=True)
class Depart:
    episode: int
    collects: bool
    time: tuple
    intervals: tuple


@dataclass(frozen=True)
class Clean:
    episode: int


@dataclass(frozen=True)
class Discard:
    episode: int


@dataclass(frozen=True)
class ChangesRequest:
    page: int
    indices: tuple


@dataclass(frozen=True)
class ChangesReply:
    page: int
    parts: tuple  # of pairs (index, changes)


@dataclass(frozen=True)
class PageRequest:
    page: int


@dataclass(frozen=True)
class PageReply:
    page: int
    values: tuple


# Kind 1 is the first.
KINDS = (LockRequest, LockForward, LockGrant, Arrive, Depart, Clean, Discard, ChangesRequest, ChangesReply, PageRequest, PageReply)


class Envelope(NamedTuple):
    """A message with its header: the sender, the receiver, and its place among the messages from this sender to this receiver."""

    source: int
    target: int
    number: int
    message: object


def number(value, size):
    return value.to_bytes(size, "big")


# Writing.


def time_bytes(time):
    return number(len(time), 1) + b"".join(number(entry, 4) for entry in time)


def intervals_bytes(intervals):
    parts = [number(len(intervals), 4)]
    for it in intervals:
        parts += [number(it.node, 1), time_bytes(it.stamp), number(len(it.pages), 2)]
        parts += [number(page, 2) for page in it.pages]
    return b"".join(parts)


def runs_of(changes):
    """The changes cut where an offset is left out: lists of pairs (offset, value)."""
    runs = []
    for offset, value in changes:
        if not runs or runs[-1][-1][0] + 1 != offset:
            runs.append([])
        runs[-1].append((offset, value))
    return runs


def changes_bytes(changes):
    runs = runs_of(changes)
    parts = [number(len(runs), 2)]
    for run in runs:
        parts += [number(run[0][0], 1), number(len(run) - 1, 1)]
        parts += [number(value, 8) for _, value in run]
    return b"".join(parts)


def body_bytes(it):
    match it:
        case LockRequest():
            return number(it.lock, 1) + time_bytes(it.time)
        case LockForward():
            return number(it.lock, 1) + number(it.asker, 1) + time_bytes(it.time)
        case LockGrant():
            return number(it.lock, 1) + time_bytes(it.time) + intervals_bytes(it.intervals)
        case Arrive() | Depart():
            return number(it.episode, 4) + number(it.collects, 1) + time_bytes(it.time) + intervals_bytes(it.intervals)
        case Clean() | Discard():
            return number(it.episode, 4)
        case ChangesRequest():
            return number(it.page, 2) + number(len(it.indices), 4) + b"".join(number(index, 4) for index in it.indices)
        case ChangesReply():
            parts = b"".join(number(index, 4) + changes_bytes(changes) for index, changes in it.parts)
            return number(it.page, 2) + number(len(it.parts), 4) + parts
        case PageRequest():
            return number(it.page, 2)
        case PageReply():
            return number(it.page, 2) + number(len(it.values), 2) + b"".join(number(value, 8) for value in it.values)


def encode(envelope):
    """The bytes of an envelope, in version 2."""
    body = body_bytes(envelope.message)
    if len(body) > MOST_BODY:
        raise ValueError("a body may have no more than 16,777,216 bytes")
    kind = KINDS.index(type(envelope.message)) + 1
    return bytes([2, kind, envelope.source, envelope.target]) + number(envelope.number, 4) + number(len(body), 4) + body


# Reading.


def check(holds, fault):
    if not holds:
        raise Fault(fault)


class Reader:
    """Reads fields from the left. Each field is checked as soon as it is read."""

    def __init__(self, data, version):
        self.data, self.version, self.at = data, version, 0

    def number(self, size):
        check(self.at + size <= len(self.data), "Short")
        self.at += size
        return int.from_bytes(self.data[self.at - size : self.at], "big")

    def at_least_one(self):
        value = self.number(4)
        check(value >= 1, "BadCount")
        return value

    def below(self, limit, size=1, fault="BadCount"):
        value = self.number(size)
        check(value < limit, fault)
        return value

    def page(self):
        return self.below(64 if self.version == 1 else PAGES, size=2)

    def time(self):
        entries = self.number(1)
        check(1 <= entries <= NODES, "BadCount")
        return tuple(self.number(4) for _ in range(entries))

    def stamp(self, node, entries):
        """A time with so many entries, the one of the node itself at least 1."""
        check(self.number(1) == entries, "BadCount")
        return tuple(self.at_least_one() if it == node else self.number(4) for it in range(entries))

    def intervals(self, entries):
        found, before = [], None
        for _ in range(self.number(4)):
            node = self.below(entries, fault="BadNode")
            stamp = self.stamp(node, entries)
            check(before is None or before < (node, stamp[node]), "NotAscending")
            before = (node, stamp[node])
            found.append(Interval(node, stamp, self.ascending(self.number(2), self.page)))
        return tuple(found)

    def ascending(self, count, read):
        """So many elements, each above the one before."""
        found = []
        for _ in range(count):
            element = read()
            check(not found or found[-1] < element, "NotAscending")
            found.append(element)
        return tuple(found)

    def parts(self):
        """Of each index the changes, the indices ascending."""
        found = []
        for _ in range(self.at_least_one()):
            index = self.at_least_one()
            check(not found or found[-1][0] < index, "NotAscending")
            found.append((index, self.listed() if self.version == 1 else self.runs()))
        return tuple(found)

    def listed(self):
        """Changes in version 1: each with its offset."""
        found = []
        for _ in range(self.below(65)):
            offset = self.below(64)
            check(not found or found[-1][0] < offset, "NotAscending")
            found.append((offset, self.number(8)))
        return tuple(found)

    def runs(self):
        """Changes in version 2: runs, of which no two touch."""
        found = []
        for _ in range(self.below(129, size=2)):
            first = self.number(1)
            check(not found or found[-1][0] + 2 <= first, "NotAscending")
            last = first + self.number(1)
            check(last <= 255, "BadCount")
            found += [(offset, self.number(8)) for offset in range(first, last + 1)]
        return tuple(found)

    def values(self):
        count = 64 if self.version == 1 else self.number(2)
        check(count in WORDS_OF_PAGE, "BadCount")
        return tuple(self.number(8) for _ in range(count))

    def news(self):
        time = self.time()
        return time, self.intervals(len(time))

    def message(self, kind):
        if kind is LockRequest:
            return kind(self.below(LOCKS), self.time())
        if kind is LockForward:
            return kind(self.below(LOCKS), self.below(NODES, fault="BadNode"), self.time())
        if kind is LockGrant:
            return kind(self.below(LOCKS), *self.news())
        if kind in (Arrive, Depart):
            return kind(self.at_least_one(), self.below(2) == 1, *self.news())
        if kind in (Clean, Discard):
            return kind(self.at_least_one())
        if kind is ChangesRequest:
            return kind(self.page(), self.ascending(self.at_least_one(), self.at_least_one))
        if kind is ChangesReply:
            return kind(self.page(), self.parts())
        if kind is PageRequest:
            return kind(self.page())
        return kind(self.page(), self.values())


def decode(data):
    """The envelope of these bytes. Raises the first `Fault` where they are none."""
    check(len(data) >= 12, "Short")
    version, kind, source, target = data[:4]
    place, length = int.from_bytes(data[4:8], "big"), int.from_bytes(data[8:12], "big")
    check(version in (1, 2), "BadVersion")
    check(1 <= kind <= len(KINDS), "BadKind")
    check(source < NODES and target < NODES, "BadNode")
    check(length <= MOST_BODY, "BadCount")
    check(len(data) >= 12 + length, "Short")
    check(len(data) == 12 + length, "Long")
    reader = Reader(data[12:], version)
    message = reader.message(KINDS[kind - 1])
    check(reader.at == length, "Long")
    return Envelope(source, target, place, message)
