#!/usr/bin/env python3
"""A node of a lazy release consistent shared memory, written from docs/protocol.md, docs/messages.md and docs/language.md alone.

    node.py FILE --node N --nodes N [--page 64|256] [--collect N] [--steps N]

It executes the program in FILE as one of the nodes. On standard input it reads one line for each turn:

    run          execute the next statement
    take HEX     take the message with these bytes

To each it answers on standard output, in this order:

    act DEED     if the turn makes an act: what is done
    send Q HEX   for each message that it sends: the receiver, and the bytes
    .            the turn is over

    node.py --decode

reads lines `decode HEX` instead, and answers each with `ok`, or with `fault` and the fault's name, and then `.`.
"""
import argparse
import sys

sys.dont_write_bytecode = True  # a folder of examples stays as it is

from messages import (  # noqa: E402
    KINDS, Arrive, ChangesReply, ChangesRequest, Clean, Depart, Discard, Envelope, Fault, Interval, LockForward, LockGrant, LockRequest,
    PageReply, PageRequest, decode, encode,
)  # fmt: skip
from program import Parser, Thread, Trap  # noqa: E402


class Refused(Exception):
    """A turn that a node does not make: it is not ready, or the message is not expected. Nothing has changed."""


def expect(holds, what):
    if not holds:
        raise Refused(what)


# Vector times: tuples with an entry for each node.


def joined(one, other):
    return tuple(map(max, one, other))


def covers(time, other):
    return all(a >= b for a, b in zip(time, other))


def knows(time, interval):
    return time[interval.node] >= interval.index


class Lock:
    """What a node keeps of one lock: where the token is, who gets it next, and the time that goes with it.

    The token is `away`, `awaited`, `free` (here, with the time of the last release here) or `held`.
    """

    def __init__(self, here, manager, zeros):
        self.token = "free" if here else "away"
        self.released = zeros
        self.successor = None  # a pair: the requester, and the time of its request
        self.last = manager  # who requested it last; only its manager looks at that


class Copy:
    """A node's copy of a page: `valid`, `written` (with a twin), `invalid` (it lacks what `since` does not cover) or `absent`."""

    def __init__(self, size):
        self.state = "valid"
        self.values = [0] * size
        self.twin = None
        self.since = None


class Need:
    """What a page still waits for: the base copy from its keeper, and changes: of each writer the indices of intervals."""

    def __init__(self, keeper, writers):
        self.keeper, self.writers = keeper, writers
        self.base = None

    def is_met(self):
        return self.keeper is None and not self.writers


class Manager:
    """Node 0's part in the barriers: how many episodes are over, who has arrived at the next one, and who has sent its Clean."""

    def __init__(self, nodes):
        self.over = 0
        self.sent = [0] * nodes  # of each node its own entry in the time of its newest arrival
        self.arrivals = {}
        self.cleans = None  # the nodes that have sent their Clean, during a collection


class Node:
    def __init__(self, program, me, nodes, page_size=64, collect=0, steps=1_000_000):
        self.me, self.nodes, self.size, self.collect, self.steps = me, nodes, page_size, collect, steps
        self.thread = Thread(program, me, nodes)
        self.stopped = False
        # What it waits for: ("grant", lock), ("page", page), ("depart", episode), ("pages", episode) or ("discard", episode).
        self.waits = None
        self.time = (0,) * nodes
        self.locks = [Lock(it % nodes == me, it % nodes, self.time) for it in range(program.locks)]
        self.arrived = 0
        self.sent_own = 0  # its newest interval that went out with an arrival
        self.manager = Manager(nodes) if me == 0 else None
        pages = (program.words + page_size - 1) // page_size
        self.copies = [Copy(page_size) for _ in range(pages)]
        self.keepers = [0] * pages
        self.bases = {page: [0] * page_size for page in range(pages)} if me == 0 else {}
        self.collected = self.time
        self.intervals = {}  # by node and index
        self.changes = {}  # by node, index and page: pairs (offset, value)
        self.needs = {}  # by page
        self.named = []  # during a collection, the pages that were named and that it keeps
        self.sent = [0] * nodes
        self.taken = [set() for _ in range(nodes)]
        self.outbox = []

    # Turns.

    def run(self):
        """A turn by itself: its act, if it makes one, and the messages that it sends."""
        step = self.thread.next()
        expect(not self.stopped and not self.waits, "the node is not ready")
        expect(step is None or self.steps > 0, "the steps are used up")
        self.outbox = []
        if step is None:
            self.stopped = True
            return "end", self.outbox
        try:
            return self.execute(step), self.outbox
        except Trap as trap:
            self.stopped = True
            return f"trap {trap.number}", self.outbox

    def take(self, data):
        """A turn that takes a message: its act, if it makes one, and the messages that it sends."""
        envelope = decode(data)
        source, message = envelope.source, envelope.message
        expect(envelope.target == self.me and source < self.nodes, "the message is not for this node")
        self.outbox = []
        if envelope.number in self.taken[source]:
            return None, self.outbox  # a repeat
        handler = HANDLERS[KINDS.index(type(message))]
        act = handler(self, source, message)
        self.taken[source].add(envelope.number)
        return act, self.outbox

    def send(self, target, message):
        self.outbox.append((target, encode(Envelope(self.me, target, self.sent[target], message))))
        self.sent[target] += 1

    def done(self, deed, to=None):
        """The statement is over: it costs a step, and the thread goes on."""
        self.steps -= 1
        self.waits = None
        self.thread.go_on(to)
        return deed

    def execute(self, step):
        match step:
            case ("quiet", name, value):
                self.thread.names[name] = self.thread.value(value)
                return self.done("quiet")
            case ("test", condition, otherwise):
                return self.done("quiet", None if self.thread.value(condition) else otherwise)
            case ("print", value):
                return self.done(f"print {self.thread.value(value)}")
            case ("read" | "write", _, _):
                return self.access(step)
            case ("acquire", lock):
                return self.acquire(self.thread.lock(lock))
            case ("release", lock):
                return self.release(self.thread.lock(lock))
            case ("barrier",):
                return self.arrive()

    # Intervals.

    def close(self):
        """Closes the open interval: it names the pages that were written, and their changes are what differs from the twins."""
        written = [page for page, copy in enumerate(self.copies) if copy.state == "written"]
        self.time = tuple(entry + (it == self.me) for it, entry in enumerate(self.time))
        interval = Interval(self.me, self.time, tuple(written))
        self.intervals[self.me, interval.index] = interval
        for page in written:
            copy = self.copies[page]
            pairs = zip(copy.twin, copy.values)
            self.changes[self.me, interval.index, page] = tuple((offset, new) for offset, (old, new) in enumerate(pairs) if new != old)
            copy.state, copy.twin = "valid", None

    def unknown_to(self, time, known):
        """The stored intervals that `time` covers and `known` does not, by node and index."""
        return tuple(it for _, it in sorted(self.intervals.items()) if knows(time, it) and not knows(known, it))

    def expect_news(self, time, intervals):
        """That the node can learn this: just the intervals that it lacks up to that time, and none of its own."""
        self.expect_times(time, intervals)
        lacked = [(node, index) for node in range(self.nodes) for index in range(self.time[node] + 1, time[node] + 1)]
        expect([(it.node, it.index) for it in intervals] == lacked, "the news have other intervals than the node lacks")
        expect(time[self.me] <= self.time[self.me], "the news know more of this node than itself")

    def expect_times(self, time, intervals=()):
        expect(len(time) == self.nodes, "a time has an entry for each node")
        expect(all(covers(time, it.stamp) for it in intervals), "the time does not cover a stamp")
        expect(all(page < len(self.copies) for it in intervals for page in it.pages), "there is no such page")

    def learn(self, time, intervals):
        """Stores intervals, makes the copies of their pages invalid, and joins the times."""
        for it in intervals:
            self.intervals[it.node, it.index] = it
            for page in it.pages:
                copy = self.copies[page]
                if copy.state == "valid":
                    copy.state, copy.since = "invalid", self.time
        self.time = joined(self.time, time)

    # Pages.

    def access(self, step):
        """A read or a write. Both expressions of a write are evaluated before its word is looked at."""
        value = self.thread.value(step[2]) if step[0] == "write" else None
        page, offset = divmod(self.thread.word(step[1] if step[0] == "write" else step[2]), self.size)
        copy = self.copies[page]
        if copy.state not in ("valid", "written"):
            self.ask(page)
            if not self.needs[page].is_met():
                self.waits = ("page", page)
                return None
            self.repair(page)
        word = page * self.size + offset
        if step[0] == "read":
            self.thread.names[step[1]] = copy.values[offset]
            return self.done(f"read {word} {copy.values[offset]}")
        if copy.state == "valid":
            copy.state, copy.twin = "written", list(copy.values)
        copy.values[offset] = value
        return self.done(f"write {word} {value}")

    def lacked(self, page):
        """The intervals whose changes a copy lacks."""
        copy = self.copies[page]
        since = {"invalid": copy.since, "absent": self.collected}.get(copy.state)
        return [it for it in self.intervals.values() if page in it.pages and not knows(since, it)] if since else []

    def ask(self, page):
        """Asks for what a page needs: the base copy of an absent one, then the changes of each writer, ascending."""
        keeper = self.keepers[page] if self.copies[page].state == "absent" else None
        unknown = sorted((it.node, it.index) for it in self.lacked(page) if (it.node, it.index, page) not in self.changes)
        writers = {}
        for node, index in unknown:
            writers.setdefault(node, []).append(index)
        self.needs[page] = Need(keeper, writers)
        if keeper is not None:
            self.send(keeper, PageRequest(page))
        for node, indices in writers.items():
            self.send(node, ChangesRequest(page, tuple(indices)))

    def repair(self, page):
        """Makes a copy valid: applies the changes that it lacks, by weight of their interval, then by node, then by index."""
        copy, need = self.copies[page], self.needs.pop(page)
        lacked = sorted(self.lacked(page), key=lambda it: (sum(it.stamp), it.node, it.index))
        if need.base is not None:
            copy.values = list(need.base)
        for it in lacked:
            for offset, value in self.changes[it.node, it.index, page]:
                copy.values[offset] = value
        copy.state, copy.since = "valid", None

    def repaired(self):
        """After a reply: with the last one the access is made, or the node's part of a collection is done."""
        if not all(it.is_met() for it in self.needs.values()):
            return None
        for page in list(self.needs):
            self.repair(page)
        if self.waits[0] == "page":
            return self.access(self.thread.next())
        self.clean()
        return None

    def take_changes_request(self, source, message):
        names = [self.intervals.get((self.me, index)) for index in message.indices]
        expect(all(it and message.page in it.pages for it in names), "no such changes are stored")
        self.send(source, ChangesReply(message.page, tuple((it, self.changes[self.me, it, message.page]) for it in message.indices)))

    def take_changes_reply(self, source, message):
        need = self.needs.get(message.page)
        expect(need and need.writers.get(source) == [index for index, _ in message.parts], "these changes are not awaited")
        expect(all(offset < self.size for _, changes in message.parts for offset, _ in changes), "there is no such offset")
        for index, changes in message.parts:
            self.changes[source, index, message.page] = changes
        del need.writers[source]
        return self.repaired()

    def take_page_request(self, source, message):
        expect(source != self.me and message.page in self.bases, "no base copy of this page is kept here")
        self.send(source, PageReply(message.page, tuple(self.bases[message.page])))

    def take_page_reply(self, source, message):
        need = self.needs.get(message.page)
        expect(need and need.keeper == source and len(message.values) == self.size, "this page is not awaited")
        need.keeper, need.base = None, message.values
        return self.repaired()

    # Locks.

    def acquire(self, number):
        lock = self.locks[number]
        if lock.token == "held":
            raise Trap(4)
        self.close()
        if lock.token == "free":
            lock.token = "held"
            return self.done(f"acquire {number}")
        lock.token = "awaited"
        self.waits = ("grant", number)
        self.send(number % self.nodes, LockRequest(number, self.time))
        return None

    def release(self, number):
        lock = self.locks[number]
        if lock.token != "held":
            raise Trap(5)
        self.close()
        lock.token, lock.released = "free", self.time
        if lock.successor:
            self.grant(number, *lock.successor)
        return self.done(f"release {number}")

    def grant(self, number, requester, known):
        """Passes the token on, with the time of the last release here and the intervals up to it that the requester lacks."""
        lock = self.locks[number]
        lock.token, lock.successor = "away", None
        self.send(requester, LockGrant(number, lock.released, self.unknown_to(lock.released, known)))

    def take_lock_request(self, source, message):
        self.expect_times(message.time)
        expect(message.lock < len(self.locks) and message.lock % self.nodes == self.me, "this node does not manage the lock")
        lock = self.locks[message.lock]
        self.send(lock.last, LockForward(message.lock, source, message.time))
        lock.last = source

    def take_lock_forward(self, source, message):
        self.expect_times(message.time)
        expect(message.lock < len(self.locks) and source == message.lock % self.nodes, "its sender does not manage the lock")
        expect(message.asker < self.nodes and message.asker != self.me, "the requester is no other node")
        lock = self.locks[message.lock]
        expect(lock.token != "away" and not lock.successor, "the token is away, or promised")
        if lock.token == "free":
            self.grant(message.lock, message.asker, message.time)
        else:
            lock.successor = (message.asker, message.time)

    def take_lock_grant(self, _source, message):
        expect(self.waits == ("grant", message.lock), "this lock is not awaited")
        self.expect_news(message.time, message.intervals)
        self.learn(message.time, message.intervals)
        self.locks[message.lock].token = "held"
        return self.done(f"acquire {message.lock}")

    # Barriers.

    def arrive(self):
        self.close()
        own = tuple(self.intervals[self.me, index] for index in range(self.sent_own + 1, self.time[self.me] + 1))
        self.sent_own = self.time[self.me]
        self.arrived += 1
        collects = 0 < self.collect <= len(self.intervals)
        self.send(0, Arrive(self.arrived, collects, self.time, own))
        self.done("arrive")
        self.waits = ("depart", self.arrived)
        return "arrive"

    def take_arrive(self, source, message):
        manager = self.manager
        expect(manager and manager.cleans is None and message.episode == manager.over + 1, "this is another episode")
        expect(source not in manager.arrivals, "the node has arrived already")
        self.expect_times(message.time, message.intervals)
        own = [(source, index) for index in range(manager.sent[source] + 1, message.time[source] + 1)]
        expect([(it.node, it.index) for it in message.intervals] == own, "it brings other intervals than its own new ones")
        manager.arrivals[source] = message
        manager.sent[source] = message.time[source]
        if len(manager.arrivals) == self.nodes:
            self.depart_all(manager)

    def depart_all(self, manager):
        """With the last arrival the episode is over: each node gets what its own arrival did not know."""
        manager.over += 1
        arrivals = manager.arrivals
        collects = any(it.collects for it in arrivals.values())
        time, news = (0,) * self.nodes, []
        for node in range(self.nodes):
            time = joined(time, arrivals[node].time)
            news += arrivals[node].intervals
        for node in range(self.nodes):
            lacked = tuple(it for it in news if not knows(arrivals[node].time, it))
            self.send(node, Depart(manager.over, collects, time, lacked))
        manager.arrivals = {}
        manager.cleans = set() if collects else None

    def take_depart(self, source, message):
        expect(source == 0 and self.waits == ("depart", message.episode), "this departure is not awaited")
        self.expect_news(message.time, message.intervals)
        expect(covers(message.time, self.time), "the departure knows less than this node")
        self.learn(message.time, message.intervals)
        if message.collects:
            self.begin_collection(message.episode)
            return None
        self.waits = None
        return "depart"

    # Collections.

    def begin_collection(self, episode):
        """The lowest node that named a page keeps it from now on, and makes its copy of it valid."""
        named = {}
        for it in self.intervals.values():
            for page in it.pages:
                named[page] = min(it.node, named.get(page, it.node))
        self.waits = ("pages", episode)
        for page, keeper in sorted(named.items()):
            if keeper == self.me and self.lacked(page):
                self.ask(page)
            self.keepers[page] = keeper
        self.named = [page for page, keeper in named.items() if keeper == self.me]
        self.repaired()

    def clean(self):
        for page in self.named:
            self.bases[page] = list(self.copies[page].values)
        episode = self.waits[1]
        self.waits = ("discard", episode)
        self.send(0, Clean(episode))

    def take_clean(self, source, message):
        manager = self.manager
        expect(manager and manager.cleans is not None and message.episode == manager.over, "this is another episode")
        expect(source not in manager.cleans, "the node has sent its Clean already")
        manager.cleans.add(source)
        if len(manager.cleans) == self.nodes:
            manager.cleans = None
            for node in range(self.nodes):
                self.send(node, Discard(message.episode))

    def take_discard(self, source, message):
        expect(source == 0 and self.waits == ("discard", message.episode), "this is not awaited")
        self.collected = self.time
        self.intervals, self.changes = {}, {}
        self.bases = {page: values for page, values in self.bases.items() if self.keepers[page] == self.me}
        for copy in self.copies:
            if copy.state == "invalid":
                copy.state, copy.since = "absent", None
        self.waits = None
        return "depart"


# In the order of `KINDS`.
HANDLERS = (
    Node.take_lock_request, Node.take_lock_forward, Node.take_lock_grant, Node.take_arrive, Node.take_depart, Node.take_clean,
    Node.take_discard, Node.take_changes_request, Node.take_changes_reply, Node.take_page_request, Node.take_page_reply,
)  # fmt: skip


def answer(node, line):
    """The lines that answer one turn."""
    word, _, rest = line.strip().partition(" ")
    act, sends = node.run() if word == "run" else node.take(bytes.fromhex(rest))
    return ([f"act {act}"] if act else []) + [f"send {target} {data.hex()}" for target, data in sends]


def decoded(line):
    try:
        decode(bytes.fromhex(line.split()[1]) if len(line.split()) > 1 else b"")
        return ["ok"]
    except Fault as fault:
        return [f"fault {fault}"]


def main():
    words = argparse.ArgumentParser(description="A node behind standard input and output.")
    words.add_argument("file", nargs="?")
    words.add_argument("--decode", action="store_true", help="decode messages, and nothing else")
    words.add_argument("--node", type=int, default=0, help="which node this is")
    words.add_argument("--nodes", type=int, default=1, help="how many nodes there are")
    words.add_argument("--page", type=int, choices=(64, 256), default=64, help="words in a page")
    words.add_argument("--collect", type=int, default=0, help="a node with so many intervals asks for a collection; 0: never")
    words.add_argument("--steps", type=int, default=1_000_000, help="how many statements the node may begin")
    chosen = words.parse_args()
    if chosen.decode:
        play = decoded
    else:
        with open(chosen.file, encoding="latin-1") as text:
            program = Parser(text.read())
        node = Node(program, chosen.node, chosen.nodes, chosen.page, chosen.collect, chosen.steps)

        def play(line):
            return answer(node, line)

    for line in sys.stdin:
        try:
            print(*play(line), ".", sep="\n", flush=True)
        except (Refused, Fault) as why:
            raise SystemExit(f"node.py: {line.strip()}: {why!r}")


if __name__ == "__main__":
    main()
