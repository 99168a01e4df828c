"""Random programs from fixed seeds, each with options: for tests that need programs which no file has."""
import random

NAMES = "a b c i j k".split()
COMPARED = "== != < <= > >=".split()


class Generator:
    """Makes one program of a seed."""

    def __init__(self, seed):
        self.random = random.Random(seed)
        pick = self.random
        self.nodes = pick.choice([1, 2, 2, 3, 3, 3, 4, 4, 5, 7])
        self.page = pick.choice([64, 256])
        self.words = pick.choice([1, 3, self.page, self.page + 1, 3 * self.page, 5 * self.page - 7])
        self.locks = pick.choice([0, 1, 1, 2, 3, 5])
        self.collect = pick.choice([0, 1, 2, 4, 9])
        self.loops = 0

    def options(self):
        """What the nodes have to know."""
        steps = ["--steps", str(self.random.choice([9, 30, 70]))] if self.random.random() < 0.2 else []
        return ["--nodes", str(self.nodes), "--page", str(self.page), "--collect", str(self.collect), *steps]

    def order(self, seed):
        """In which order messages come."""
        return self.random.choice([["oldest"], ["newest"], ["twice"], ["twice"], ["random", "--seed", str(seed)], ["random", "--seed", str(seed)]])

    def expression(self, depth=2):
        pick = self.random
        if depth == 0 or pick.random() < 0.3:
            return pick.choice(["me", "nodes", str(pick.randrange(10)), str(pick.randrange(2**64)), *pick.sample(NAMES, 3)])
        one, other = self.expression(depth - 1), self.expression(depth - 1)
        kind = pick.random()
        if kind < 0.7:
            return f"({one} {pick.choice('+-*')} {other})"
        if kind < 0.85:
            return f"({one} {pick.choice(COMPARED)} {other})"
        # seldom a division that may be by zero
        return f"({one} {pick.choice('/%')} {other if pick.random() < 0.05 else pick.randrange(1, 9)})"

    def word(self):
        """A word that is there, but for a few: near the beginning, the node's own, or anywhere."""
        pick = self.random
        if pick.random() < 0.01:
            return str(self.words)
        return pick.choice([
            str(pick.randrange(self.words)),
            str(pick.randrange(min(self.words, 4))),
            f"me % {self.words}",
            f"(me * {self.page} + {pick.randrange(9)}) % {self.words}",
            f"(i * {pick.randrange(1, 70)} + {pick.randrange(9)}) % {self.words}",
        ])  # fmt: skip

    def piece(self, depth, held):
        pick = self.random
        kind = pick.random()
        if kind < 0.22:
            return f"{pick.choice(NAMES)} = [{self.word()}];"
        if kind < 0.5:
            return f"[{self.word()}] = {self.expression()};"
        if kind < 0.56:
            return f"print {self.expression(1)};"
        if kind < 0.62 or depth == 0:
            return f"{pick.choice(NAMES)} = {self.expression()};"
        if kind < 0.7:
            return f"if {self.expression(1)} {{ {self.pieces(depth - 1, held)} }} else {{ {self.pieces(depth - 1, held)} }}"
        if kind < 0.78:
            return f"if me {pick.choice(COMPARED)} {pick.randrange(self.nodes)} {{ {self.pieces(depth - 1, held)} }}"
        if kind < 0.86:
            self.loops += 1
            count = f"n{self.loops}"
            return f"while {count} < {pick.randrange(2, 5)} {{ {count} = {count} + 1; i = {count}; {self.pieces(depth - 1, held)} }}"
        if kind > 0.995:
            return f"release {pick.randrange(self.locks + 1)};"
        # locks are taken in rising order, so that most programs do not get stuck
        lock = pick.choice([it for it in range(self.locks) if it > held] or [None])
        return "barrier;" if lock is None and depth == 2 else self.locked(lock, depth)

    def locked(self, lock, depth):
        if lock is None:
            return self.piece(0, self.locks)
        return f"acquire {lock}; {self.pieces(depth - 1, lock)} release {lock};"

    def pieces(self, depth, held):
        return " ".join(self.piece(depth, held) for _ in range(self.random.randrange(1, 4)))

    def text(self):
        parts = [f"words {self.words}; locks {self.locks};"]
        for _ in range(self.random.randrange(1, 5)):
            parts += [self.piece(2, -1) for _ in range(self.random.randrange(1, 4))] + ["barrier;"]
        return "\n".join(parts + [f"a = [{self.word()}]; print a;"]) + "\n"


def program(seed):
    """A text, what its nodes have to know, and the order of its messages."""
    it = Generator(seed)
    text = it.text()
    return text, it.options(), ["--order", *it.order(seed)]
