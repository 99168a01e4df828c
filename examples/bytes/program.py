"""Programs, as docs/language.md has them: a text becomes a list of steps, and a thread goes through it."""
import re

LARGEST = 2**64 - 1
END = "<end>"
KEYWORDS = set("words locks acquire release barrier print if else while me nodes".split())
TOKEN = re.compile(r"[ \t\r\n]+|#[^\n]*|([0-9]+(?![A-Za-z_0-9]))|([A-Za-z_][A-Za-z0-9_]*)|(==|!=|<=|>=|[-+*/%<>=;{}()\[\]])")
COMPARED = {
    "==": lambda a, b: a == b, "!=": lambda a, b: a != b, "<": lambda a, b: a < b,
    "<=": lambda a, b: a <= b, ">": lambda a, b: a > b, ">=": lambda a, b: a >= b,
}  # fmt: skip


class Trap(Exception):
    """A statement that cannot be executed. The number is the cause."""

    def __init__(self, number):
        super().__init__(number)
        self.number = number


def tokens_of(text):
    found, at = [], 0
    while at < len(text):
        token = TOKEN.match(text, at)
        if not token:
            raise SystemExit(f"the text is no program, from {text[at:at + 20]!r} on")
        if token.lastindex:
            found.append(token[0])
        at = token.end()
    return found + [END]


class Parser:
    """Turns a text into steps, a tuple each:

    ("quiet", name, e), ("read", name, e), ("write", e, e), ("acquire", e), ("release", e), ("barrier",), ("print", e),
    ("test", e, where to go on if it does not hold) and ("jump", where), which is no statement.

    An expression is a number, a name, or a tuple (operator, left, right).
    """

    def __init__(self, text):
        self.tokens, self.at, self.steps = tokens_of(text), 0, []
        self.take("words")
        self.words = int(self.token())
        self.take(";", "locks")
        self.locks = int(self.token())
        self.take(";")
        self.statements(END)

    def seen(self, token):
        return self.tokens[self.at] == token

    def token(self):
        self.at += 1
        return self.tokens[self.at - 1]

    def take(self, *expected):
        for token in expected:
            if self.token() != token:
                raise SystemExit(f"the text is no program: token {self.at} is {self.tokens[self.at - 1]!r}, and {token!r} is missing")

    def statements(self, last):
        while not self.seen(last):
            self.statement(self.token())
        self.take(last)

    def block(self):
        self.take("{")
        self.statements("}")

    def statement(self, first):
        if first == "if":
            test = self.test()
            self.block()
            if self.seen("else"):
                self.take("else")
                jump = self.jump()
                self.leads_here(test)
                self.block()
                self.leads_here(jump)
            else:
                self.leads_here(test)
        elif first == "while":
            start = len(self.steps)
            test = self.test()
            self.block()
            self.steps.append(("jump", start))
            self.leads_here(test)
        else:
            self.steps.append(self.simple(first))
            self.take(";")

    def simple(self, first):
        if first in ("acquire", "release", "print"):
            return (first, self.expression())
        if first == "barrier":
            return (first,)
        if first == "[":
            word = self.expression()
            self.take("]", "=")
            return ("write", word, self.expression())
        if not re.match(r"[A-Za-z_]", first) or first in KEYWORDS or first == END:
            raise SystemExit(f"the text is no program: {first!r} begins no statement")
        self.take("=")
        if self.seen("["):
            self.take("[")
            word = self.expression()
            self.take("]")
            return ("read", first, word)
        return ("quiet", first, self.expression())

    def test(self):
        """A step that tests a condition; `leads_here` says later where it leads if that does not hold."""
        self.steps.append(("test", self.expression()))
        return len(self.steps) - 1

    def jump(self):
        self.steps.append(("jump",))
        return len(self.steps) - 1

    def leads_here(self, step):
        self.steps[step] += (len(self.steps),)

    def expression(self):
        left = self.sum()
        if self.tokens[self.at] in COMPARED:
            return (self.token(), left, self.sum())
        return left

    def grouped(self, operators, part):
        """Operators of one level group to the left."""
        left = part()
        while self.tokens[self.at] in operators:
            left = (self.token(), left, part())
        return left

    def sum(self):
        return self.grouped("+-", self.term)

    def term(self):
        return self.grouped("*/%", self.factor)

    def factor(self):
        token = self.token()
        if token == "(":
            inner = self.expression()
            self.take(")")
            return inner
        if token.isdigit():
            return int(token)
        if not re.match(r"[A-Za-z_]", token) or (token in KEYWORDS and token not in ("me", "nodes")):
            raise SystemExit(f"the text is no program: {token!r} begins no expression")
        return token


class Thread:
    """Where a node is in the steps of a program, and its private names."""

    def __init__(self, program, me, nodes):
        self.program, self.at = program, 0
        self.names = {"me": me, "nodes": nodes}

    def next(self):
        """The step that comes next; None at the end of the text."""
        steps = self.program.steps
        while self.at < len(steps) and steps[self.at][0] == "jump":
            self.at = steps[self.at][1]
        return steps[self.at] if self.at < len(steps) else None

    def go_on(self, to=None):
        self.at = self.at + 1 if to is None else to

    def value(self, expression):
        """What an expression gives. Division by zero is trap 1."""
        if isinstance(expression, int):
            return expression
        if isinstance(expression, str):
            return self.names.get(expression, 0)
        operator, left, right = expression[0], self.value(expression[1]), self.value(expression[2])
        if operator in COMPARED:
            return int(COMPARED[operator](left, right))
        if operator in ("/", "%"):
            if right == 0:
                raise Trap(1)
            return left // right if operator == "/" else left % right
        return (left + right if operator == "+" else left - right if operator == "-" else left * right) & LARGEST

    def word(self, expression):
        """The number of a shared word. One that is too large is trap 2."""
        word = self.value(expression)
        if word >= self.program.words:
            raise Trap(2)
        return word

    def lock(self, expression):
        """The number of a lock. One that is too large is trap 3."""
        lock = self.value(expression)
        if lock >= self.program.locks:
            raise Trap(3)
        return lock
