"""What a page shows, and what its lines say that it should show."""

import math
import re

# What a page shows, read from its elements.
SHOWN = """(() => {
  const texts = (of, selector) => [...of.querySelectorAll(selector)].map(element => element.textContent);
  const word = element => [element.querySelector('.name').textContent.split(' ')[0], element.querySelector('.value').textContent];
  const page = element => ({
    title: element.querySelector('h3').textContent,
    lacks: element.querySelector('.notes').textContent.match(/lacks .*/)?.[0] ?? '',
    words: Object.fromEntries([...element.querySelectorAll('.word')].map(word)) });
  const grid = table => ({
    title: table.querySelector('h3 b').textContent, sizes: table.querySelector('h3 .caption').textContent, notes: table.querySelector('.grid-notes').textContent,
    rows: [...table.querySelectorAll('tr')].map(row => texts(row, 'th, td')),
    copies: [...table.querySelectorAll('td')].map(cell => cell.dataset.copy),
    touched: [...table.querySelectorAll('td')].flatMap((cell, k) => cell.matches('.touched') ? [k] : []),
    old: [...table.querySelectorAll('td')].flatMap((cell, k) => cell.matches('.stale') ? [k] : []) });
  const grids = of => [...of.querySelectorAll('.grid')].map(grid);
  const node = panel => ({
    line: panel.querySelector('.line').textContent, time: texts(panel, '.time li'), waits: panel.querySelector('.waits').textContent,
    pages: [...panel.querySelectorAll('.page')].map(page), tokens: texts(panel, '.chips:not(.stored) .chip'),
    grids: grids(panel), names: panel.querySelector('.chips').textContent, stored: panel.querySelector('.stored .caption').textContent,
    isNow: panel.classList.contains('now') });
  return { nodes: [...document.querySelectorAll('section.node')].map(node), arrays: grids(document.querySelector('#arrays')),
    ofNode: document.querySelector('#arrays .badge')?.textContent, flight: texts(document, '#flight li'),
    flightTitle: document.querySelector('#flight h2').textContent, headline: document.querySelector('#headline').textContent, because: document.querySelector('#because').textContent,
    line: texts(document, '#source .now .number'), place: document.querySelector('#place').textContent, hash: location.hash };
})()"""


class Moment:
    """The states of all nodes, and what is in flight, just after a turn; of no turn before the first one."""

    def __init__(self, turn, states, flight):
        self.turn, self.states, self.flight = turn, states, flight


def moments_of(lines):
    """The moments by their turns, the one before the first turn at None."""
    head = next(line for line in lines if "states" in line)
    states, flight = list(head["states"]), list(head["flight"])
    moments = {None: Moment(None, list(states), list(flight))}
    for turn in (line for line in lines if "turn" in line):
        states[turn["node"]] = followed(states[turn["node"]], turn["state"])
        if turn["event"].startswith("deliver"):
            flight.remove(turn["take"])
        flight += turn["sends"]
        moments[turn["turn"]] = Moment(turn, list(states), list(flight))
    return moments


def followed(before, state):
    """A turn's line tells the intervals that are new or changed; those that a collection covers are gone."""
    stored = {entry["interval"]: entry for entry in [*before["intervals"], *state["intervals"]]}

    def is_covered(name):
        node, index = map(int, name.split("."))
        return index <= state["collected"][node]

    return state | {"intervals": [entry for name, entry in stored.items() if not is_covered(name)]}


class Array:
    """A label of several words, with its sizes."""

    def __init__(self, label):
        self.first, self.last, self.name = label["from"], label["to"], label["name"]
        rest = label.get("sizes", [])
        self.sizes = [(self.last - self.first + 1) // math.prod(rest), *rest]

    def word(self, indices):
        place = 0
        for size, index in zip(self.sizes, indices, strict=True):
            place = place * size + index
        return self.first + place

    def has(self, word):
        return self.first <= word <= self.last


def arrays_of(lines):
    """The arrays of a document by their names."""
    return {label["name"]: Array(label) for line in lines for label in line.get("labels", []) if label["of"] == "words"}


def is_ended(headline):
    """Whether a headline says what the run came to; then the turn's own is the first sentence below it."""
    return headline.startswith("Deadlock: ") or re.match(r"Node \d+ trapped at", headline)


class Differs(Exception):
    """The page shows something else."""


class Looks:
    """Compares, and counts how often."""

    def __init__(self):
        self.passed = 0
        # Whether all words in use that are no array's are shown: at most 64.
        self.are_few = True
        self.arrays = {}

    def same(self, what, shown, wanted):
        if shown != wanted:
            raise Differs(f"{what}: shown {shown!r}, wanted {wanted!r}")
        self.passed += 1

    def moment(self, shown, moment, name, place):
        """A page at a moment, of which it is told which turns there are."""
        flight = [f"{message['from']} → {message['to']} {message['message']}" for message in moment.flight]
        self.same(f"{name}: in flight", shown["flightTitle"], f"In flight: {len(flight)}" if flight else "Nothing in flight")
        self.same(f"{name}: messages", shown["flight"] if len(flight) <= 12 else shown["flight"][1:], flight[-12:])
        self.turn(shown, moment.turn, name, place)
        for number, (node, state) in enumerate(zip(shown["nodes"], moment.states)):
            self.same(f"{name}, node {number}: acting", node["isNow"], moment.turn is not None and moment.turn["node"] == number)
            self.node(node, state, f"{name}, node {number}")
            for grid in node["grids"]:
                self.grid(grid, state, f"{name}, node {number}")
        self.touched(shown, moment.turn, name)
        for grid in shown["arrays"]:
            self.grid(grid, moment.states[int(shown["ofNode"])], f"{name}, arrays of node {shown['ofNode']}")

    def touched(self, shown, turn, name):
        """The word of the act, where an array has it, is marked in the panel of its node."""
        kind, *numbers = turn["act"]["deed"].split() if turn and turn["act"] else [""]
        if kind in ("read", "write") and any(array.has(int(numbers[0])) for array in self.arrays.values()):
            grids = shown["arrays"] if len(shown["nodes"]) > 4 else shown["nodes"][turn["node"]]["grids"]
            words = [self.words_of(grid)[place] for grid in grids for place in grid["touched"]]
            # In a table of many nodes grids stand only where there is room; the word is in the table.
            if grids or len(shown["nodes"]) < 5:
                self.same(f"{name}: the word of the act", words, [int(numbers[0])])

    def words_of(self, grid):
        """The words of a grid's cells, by its title and its headings."""
        name, *pages = re.findall(r"[^\[\]]+", grid["title"])
        array = self.arrays[name]
        self.same(f"{name}: sizes", grid["sizes"], " × ".join(map(str, array.sizes)))
        head, *rows = grid["rows"]
        # An array of one size has one row, without a heading.
        headed = [[*map(int, pages), *map(int, row[:1] if len(array.sizes) > 1 else [])] for row in rows]
        return [array.word([*before, int(column)]) for before in headed for column in head[1:]]

    def grid(self, grid, state, name):
        """Each cell has the node's value of its word, and the state of its page's copy; and none is marked as old that is not."""
        pages = {entry["page"]: entry for entry in state["pages"]}
        cells = [text for row in grid["rows"][1:] for text in row[1:]]
        words = self.words_of(grid)
        for word, text, copy in zip(words, cells, grid["copies"], strict=True):
            page = pages.get(word // self.page_size, {"copy": "valid", "words": {}})
            self.same(f"{name}, word {word} in {grid['title']}", (text, copy), ("–" if copy == "absent" else page["words"].get(str(word), "0"), page["copy"]))
        self.same(f"{name}, {grid['title']}: old values are told", bool(grid["old"]), "now " in grid["notes"])

    def turn(self, shown, turn, name, place):
        act = turn and turn["act"]
        self.same(f"{name}: line", shown["line"], [str(act["line"])] if act else [])
        if turn:
            own = shown["because"] if is_ended(shown["headline"]) else shown["headline"]
            self.same(f"{name}: node", re.match(r"Node (\d+)", own)[1], str(turn["node"]))
            self.same(f"{name}: place", f"turn {turn['turn']} {place}" in shown["place"], True)
            self.same(f"{name}: link", shown["hash"], f"#turn={turn['turn']}")

    def node(self, node, state, name):
        is_over = state["waits"].startswith(("ended", "trapped"))
        self.same(f"{name}: at", node["line"], f"{'at' if is_over else 'next'} line {state['at']}")
        self.same(f"{name}: time", node["time"], [str(entry) for entry in state["time"]])
        self.same(f"{name}: waits", bool(node["waits"]), state["waits"] != "no")
        self.same(f"{name}: stored", node["stored"], f"{len(state['intervals'])} stored")
        tokens = [re.match(r"lock (\d+)( \(\S+\))? (\w+)", token).group(1, 3) for token in node["tokens"]]
        self.same(f"{name}: tokens", tokens, [(str(lock["lock"]), lock["token"]) for lock in state["locks"]])
        for private, value in state["names"].items():
            self.same(f"{name}: {private}", f"{private} = {value}" in node["names"], True)
        pages = {entry["page"]: entry for entry in state["pages"]}
        for page in node["pages"]:
            number = int(page["title"].split()[1])
            self.page(page, pages.get(number, {"copy": "valid", "words": {}, "lacks": []}), f"{name}, page {number}")

    def page(self, page, state, name):
        copy = page["title"].split()[2]
        self.same(f"{name}: copy", copy, state["copy"])
        self.same(f"{name}: lacks", bool(page["lacks"]), bool(state["lacks"]))
        for word, value in page["words"].items():
            self.same(f"{name}, word {word}", value, "–" if copy == "absent" else state["words"].get(word, "0"))
        if self.are_few:
            alone = {word for word in state["words"] if not any(array.has(int(word)) for array in self.arrays.values())}
            self.same(f"{name}: words not shown", alone - set(page["words"]), set())
