"""Looks at documents in a browser: looks.py [--program PROGRAM | --lines LINES] [SHOTS]."""

import argparse
import re
import tempfile
import time
from pathlib import Path

import documents
from browser import Browser
from shown import SHOWN, Differs, Looks, arrays_of, moments_of

SIZES = [(1280, 800), (1366, 768), (1920, 1080), (1024, 768)]
SHOT_AT = {"late": 13, "late_part": 12, "front_part": 4, "counter": 33, "sixteen_part": 277, "collecting": 22, "store_buffering": 3, "deadlock": 9,
           "traps": 5, "jacobi": 226, "jacobi_eight": 239, "grids_part": 310, "grids_eight_part": 298, "tours_part": 300, "sort_part": 300,
           "product_part": 200, "arrays": 70, "line": 200, "philosophers": 20}
# Ten steps, drawn and laid out.
TEN_STEPS = "for (let k = 0; k < 10; k++) { go(1000 + k); document.body.getBoundingClientRect(); }"
TEXTS = "(selector => [...document.querySelectorAll(selector)].map(element => element.textContent))"


class Pages:
    """The browser, the documents on a disk, and what was looked at."""

    def __init__(self, browser, folder, shots):
        self.browser, self.folder, self.shots, self.looks = browser, folder, shots, Looks()
        self.same = self.looks.same

    def save(self, name, document):
        path = self.folder / f"{name}.html"
        path.write_bytes(document)
        return f"file://{path.resolve()}"

    def text(self, selector):
        return self.browser.value(f"document.querySelector('{selector}').textContent")

    def texts(self, selector):
        return self.browser.value(f"{TEXTS}('{selector}')")

    def link(self):
        """The turn that is shown, by the link to it; nothing before the first."""
        return self.browser.value("location.hash.slice(6)")

    def at_turn(self, turn):
        self.browser.value(f"location.hash = '#turn={turn}'; new Promise(done => setTimeout(done, 50))")

    def is_quiet(self, name):
        """Nothing was fetched but the page, and nothing was logged."""
        asked = [event["params"]["request"]["url"] for event in self.browser.events if event["method"] == "Network.requestWillBeSent"]
        self.same(f"{name}: fetched", [url for url in asked if not url.startswith("file:") and url != "data:,"], [])
        logs = ("Runtime.exceptionThrown", "Runtime.consoleAPICalled", "Log.entryAdded")
        self.same(f"{name}: logged", [event for event in self.browser.events if event["method"] in logs], [])


def place_of(name, turns):
    return f"(part: {turns[0]} to {turns[-1]})" if name.endswith("_part") else f"of {turns[-1]}"


def words_in_use(lines):
    """The words that acts of the document, and writes before it, touch, but for those of arrays."""
    acts = [line["act"]["deed"].split() for line in lines if line.get("act")]
    words = {int(deed[1]) for deed in acts if deed[0] in ("read", "write")} | {write["word"] for line in lines for write in line.get("written", [])}
    return {word for word in words if not any(array.has(word) for array in arrays_of(lines).values())}


def knows(pages, document):
    """What is compared with the page's words: the arrays, the size of a page, whether few words stand alone."""
    lines = documents.lines_of(document)
    pages.looks.are_few = len(words_in_use(lines)) <= 64
    pages.looks.arrays = arrays_of(lines)
    pages.looks.page_size = next(line["page"] for line in lines if "page" in line)


def states(pages, name, document):
    """At the start and at ten turns the page shows what the lines say, and it is no wider than its window."""
    browser, moments = pages.browser, moments_of(documents.lines_of(document))
    url = pages.save(name, document)
    knows(pages, document)
    browser.size(1280, 800)
    browser.open(url)
    turns = [turn for turn in moments if turn is not None]
    pages.looks.moment(browser.value(SHOWN), moments[None], f"{name} at the start", place_of(name, turns))
    for turn in sorted({turns[k * (len(turns) - 1) // 9] for k in range(10)}):
        pages.at_turn(turn)
        pages.looks.moment(browser.value(SHOWN), moments[turn], f"{name} at {turn}", place_of(name, turns))
    pages.is_quiet(name)
    for width, height in [*SIZES, (390, 844), (3840, 2160)]:
        browser.size(width, height)
        browser.media(prefers_color_scheme="dark" if width == 1920 else "light")
        browser.open(f"{url}#turn={SHOT_AT[name]}")
        beyond = browser.value("[document.documentElement, document.querySelector('#nodes')].map(e => e.scrollWidth - e.clientWidth)")
        # On a phone the table of many nodes scrolls in its own place.
        pages.same(f"{name}: wider than {width}", beyond[:1] if width == 390 else beyond, [0] if width == 390 else [0, 0])
        narrow = browser.value("[...document.querySelectorAll('section.node, .word')].filter(e => e.scrollWidth > e.clientWidth).length")
        pages.same(f"{name}: panels wider than their place, {width}", narrow, 0)
        if pages.shots:
            browser.shoot(pages.shots / f"{name}-{width}x{height}.png")


def frame(pages, document):
    """The document forbids to fetch, names no place of the net, and has its lines in one element."""
    whole = document.decode(errors="replace")
    pages.same("the first bytes", whole.lower().startswith("<!doctype html>"), True)
    pages.same("a policy", len(re.findall(r'<meta http-equiv="Content-Security-Policy" content="default-src \'none\';', whole)), 1)
    pages.same("one element for the lines", whole.count('type="application/json"'), 1)
    named = re.findall(r"https?://[^\s\"']*", whole)
    pages.same("places of the net", set(named) - {"http://www.w3.org/2000/svg", "http://www.w3.org/1999/xhtml"}, set())


def keys(pages, document):
    """Every key, every button, the slider, a link, and a click in the picture."""
    browser = pages.browser
    browser.size(1280, 800)
    browser.open(pages.save("late", document))
    presses = [("ArrowRight", False, "0"), ("PageDown", False, "1"), ("ArrowRight", True, "11"), ("ArrowLeft", False, "10"), ("PageUp", False, "9"),
               ("a", False, "12"), ("End", False, "18"), ("ArrowRight", False, "18"), ("ArrowLeft", True, "8"), ("Home", False, ""),
               ("ArrowLeft", False, ""), ("r", False, "4"), ("r", False, "13"), ("r", False, "13")]
    for key, shift, wanted in presses:
        browser.key(key, shift=shift)
        pages.same(f"key {key}", pages.link(), wanted)
    reasons(pages)
    help_and_play(pages)
    browser.value("const slider = document.querySelector('#slider'); slider.value = 4; slider.dispatchEvent(new Event('input'))")
    pages.same("slider", pages.link(), "3")
    clicks = [("End", "18"), ("Shift+ArrowLeft", "8"), ("ArrowLeft", "7"), ("ArrowRight", "8"), ("Shift+ArrowRight", "18"), ("Home", ""), ("a", "0"),
              ("r", "4")]
    for button, wanted in clicks:
        browser.value(f"document.querySelector('[data-key=\"{button}\"]').click()")
        pages.same(f"button {button}", pages.link(), wanted)
    mark = browser.value("(r => [r.x + r.width / 2, r.y + r.height / 2])(document.querySelector('#timeline .mark').getBoundingClientRect())")
    browser.click(*mark)
    pages.same("a click in the picture", pages.link(), "0")
    for _ in range(3):
        browser.key("Tab")
    pages.same("Tab comes to a button", browser.value("document.activeElement.matches('button, input, [tabindex]')"), True)
    pages.is_quiet("keys")


def printed(pages, document):
    """Print shows the turn without the buttons; a narrow window has one column."""
    browser = pages.browser
    url = pages.save("late", document)
    browser.media(media="print")
    browser.open(f"{url}#turn=13")
    hidden = "['controls', 'headline', 'source', 'node-1', 'why', 'timeline'].filter(id => !document.getElementById(id).getClientRects().length)"
    pages.same("hidden in print", browser.value(hidden), ["controls"])
    browser.media()
    browser.size(600, 900)
    browser.open(f"{url}#turn=13")
    ends = browser.value("['source', 'nodes'].map(id => document.getElementById(id).getBoundingClientRect()).map(({ top, bottom }) => [top, bottom])")
    pages.same("one column", ends[0][1] <= ends[1][0], True)
    browser.size(1280, 800)


def reasons(pages):
    """Of a read that gives an old value."""
    pages.same("race in the headline", pages.text("#headline .race-mark"), "race 1")
    pages.same("why", pages.text("#why .gives").strip().startswith("gives 0"), True)
    pages.same("old", pages.text("#node-1 .stale .note"), "read now 2")
    pages.same("not told of", pages.text("#node-1 .notes"), "not told of 0.3")
    pages.browser.value("document.querySelector('#why a').click(); new Promise(done => setTimeout(done, 50))")
    pages.same("a link to an act", pages.link(), "4")


def help_and_play(pages):
    browser = pages.browser
    browser.key("?", text="?")
    pages.same("help is open", browser.value("document.querySelector('#help').open"), True)
    browser.key("ArrowRight")
    pages.same("keys rest while help is open", pages.link(), "4")
    browser.key("Escape")
    pages.same("help is closed", browser.value("document.querySelector('#help').open"), False)
    browser.key(" ", code="Space", text=" ")
    until = time.time() + 20
    while pages.link() != "6" and time.time() < until:
        time.sleep(0.1)
    browser.key(" ", code="Space", text=" ")
    pages.same("played two turns", pages.link(), "6")
    pages.same("stopped", pages.text("#play"), "Play")


def acts_of(moments):
    return [(turn, moment.turn["node"], moment.turn["act"]) for turn, moment in moments.items() if turn is not None and moment.turn["act"]]


def thing_of(act):
    """The word or the lock that an act touches."""
    kind, *numbers = act["deed"].split()
    return {"read": "word", "write": "word", "acquire": "lock", "release": "lock"}.get(kind), numbers[:1]


def wanted_turns(moments, racing, turn):
    """Where each key that finds something goes from a turn, by the lines; None where there is nothing to go to."""
    acts = acts_of(moments)
    node, act = moments[turn].turn["node"], moments[turn].turn["act"]
    same = [other for other, _, one in acts if act and thing_of(act)[0] and thing_of(one) == thing_of(act)]
    own = [other for other, doer, _ in acts if doer == node]
    wanted = {}
    for back, on, turns in (("[", "]", same), ("{", "}", own), ("R", "r", racing), (None, "a", [other for other, _, _ in acts])):
        wanted[back] = max((other for other in turns if other < turn), default=None)
        wanted[on] = min((other for other in turns if other > turn), default=None)
    return {key: to for key, to in wanted.items() if key}


def finding(pages, name, document):
    """Every key that finds something, with something to go to and with nothing: then the page says so and stays."""
    browser, moments = pages.browser, moments_of(documents.lines_of(document))
    turn_of = {act["position"]: turn for turn, _, act in acts_of(moments)}
    lines = documents.lines_of(document)
    raced = {act for line in lines if "race" in line for pair in line["pairs"] for act in pair}
    raced |= {line["why"] for line in lines if "why" in line and any(it.startswith("  races with") for it in line["lines"])}
    racing = sorted({turn_of[act] for act in raced if act in turn_of})
    browser.size(1280, 800)
    browser.open(pages.save(name, document))
    turns = [turn for turn in moments if turn is not None]
    for turn in sorted({turns[k * (len(turns) - 1) // 11] for k in range(12)} | set(racing[:2])):
        for key, to in wanted_turns(moments, racing, turn).items():
            pages.at_turn(turn)
            browser.key(key, text=key)
            pages.same(f"{name}, {key} from {turn}", (pages.link(), bool(pages.text("#said"))), (str(turn if to is None else to), to is None))
    for key in "[]{}R":
        browser.key("Home")
        browser.key(key, text=key)
        pages.same(f"{name}, {key} at the start", (pages.link(), bool(pages.text("#said"))), ("", True))
    pages.is_quiet(f"finding in {name}")


def asked(pages, key, text):
    """Presses a key, types a text, and gives where the page is then and what it says."""
    browser = pages.browser
    browser.key(key, text=key)
    pages.same(f"{key} asks", browser.value("document.querySelector('#ask').open"), True)
    for sign in text:
        browser.key(sign, text=sign)
    browser.key("Enter", text="\r")
    pages.same(f"{key} has asked", browser.value("document.querySelector('#ask').open"), False)
    return pages.link(), pages.text("#said")


def asking(pages, document):
    """Turns, acts and lines by their numbers, headlines by a text, buttons, a sign typed with AltGr, a link to no turn."""
    browser = pages.browser
    browser.size(1280, 800)
    browser.open(pages.save("late", document))
    outside = "no turn 99: the run has turns 0 to 18"
    for text, wanted in (("13", ("13", "")), ("a4", ("4", "")), ("A 8", ("13", "")), ("l 15", ("15", "")), ("l15", ("15", "no act of line 15 after this turn")),
                         ("99", ("15", outside)), ("a99", ("15", "no act 99")), ("x", ("15", "no number: x")), ("0", ("0", ""))):
        pages.same(f"g {text}", asked(pages, "g", text), wanted)
    headlines = {}
    for turn in range(19):
        pages.at_turn(turn)
        headlines[turn] = pages.text("#headline").lower()
    having = [turn for turn, line in headlines.items() if "acquires" in line]
    pages.same("headlines with acquires", len(having), 2)
    pages.at_turn(having[0])
    pages.same("/ acquires", asked(pages, "/", "Acquires"), (str(having[1]), ""))
    browser.key("n", text="n")
    pages.same("n goes from the end to the start", pages.link(), str(having[0]))
    pages.same("/ with nothing to find", asked(pages, "/", "zebra"), (str(having[0]), "no headline has: zebra"))
    browser.key("n", text="n")
    pages.same("n with nothing to find", pages.text("#said"), "no headline has: zebra")
    pages.at_turn(4)
    for button, wanted in (("]", "13"), ("[", "4"), ("r", "13"), ("R", "4"), ("{", "3"), ("}", "4")):
        browser.value(f"document.querySelector('[data-key=\"{button}\"]').click()")
        pages.same(f"button {button}", pages.link(), wanted)
    for button in ("g", "/"):
        browser.value(f"document.querySelector('[data-key=\"{button}\"]').click()")
        pages.same(f"button {button}", browser.value("document.querySelector('#ask').open"), True)
        browser.key("Escape")
        pages.same(f"button {button}, left", (browser.value("document.querySelector('#ask').open"), pages.link()), (False, "4"))
    browser.value("document.body.dispatchEvent(new KeyboardEvent('keydown', { key: ']', ctrlKey: true, altKey: true, bubbles: true })) && 0")
    pages.same("] with AltGr", pages.link(), "13")
    browser.value("document.body.dispatchEvent(new KeyboardEvent('keydown', { key: 'r', ctrlKey: true, bubbles: true })) && 0")
    pages.same("a chord is the browser's own", pages.link(), "13")
    pages.at_turn(99)
    pages.same("a link to no turn", (pages.link(), pages.text("#said")), ("", outside))
    pages.is_quiet("asking")


def ends(pages, made):
    """The header counts races, traps and deadlocks, each a link; the last turn says what the run came to."""
    browser = pages.browser
    browser.size(1366, 768)
    for name, counts, link, headline in (("late", ["1 group of races"], "13", None), ("deadlock", ["1 deadlock"], None, "Deadlock: node 0 waits for node 1"),
                                         ("philosophers", ["1 deadlock"], None, "Deadlock: node 0 waits for node 1 waits for node 2"),
                                         ("traps", ["3 traps"], None, "Node 0 trapped at line 7: word out of range; Node 1 trapped")):
        url = pages.save(name, made[name])
        last = list(moments_of(documents.lines_of(made[name])))[-1]
        browser.open(url)
        pages.same(f"{name}: counts", pages.texts("#place a"), counts)
        browser.value("document.querySelector('#place a').click(); new Promise(done => setTimeout(done, 50))")
        if name == "traps":
            pages.same("traps: the turn of the first", "traps: word out of range" in pages.text("#headline"), True)
        else:
            pages.same(f"{name}: where its count goes", pages.link(), link or str(last))
        browser.key("End")
        if headline and not (name == "traps" and "traps:" in pages.text("#headline")):
            pages.same(f"{name}: the last turn", pages.text("#headline").startswith(headline), True)
    browser.open(pages.save("jacobi_eight", made["jacobi_eight"]))
    for turn in range(20, 400, 38):
        pages.at_turn(turn)
        seen = browser.value("""(() => { const nodes = document.querySelector('#nodes').getBoundingClientRect();
          return [...document.querySelectorAll('.node.now .word.touched')].every(word => { const box = word.getBoundingClientRect();
            return box.top >= nodes.top - 1 && box.bottom <= nodes.bottom + 1 && box.left >= nodes.left - 1 && box.right <= nodes.right + 1; }); })()""")
        pages.same(f"the word of the act is seen at {turn}", seen, True)
    pages.same("labels above the columns", "grid[" in pages.text("#headings"), True)
    pages.is_quiet("ends")


# Whether the word that the act touches is seen, in the node's own panel or in the table: marked, within its region, between the header and the buttons.
SEEN = """(() => { const of = selector => document.querySelector(selector).getBoundingClientRect(), region = of('#nodes');
  const top = Math.max(region.top, of('header').bottom), bottom = Math.min(region.bottom, of('#controls').top);
  const isSeen = word => { const box = word.getBoundingClientRect();
    return box.top >= top - 1 && box.bottom <= bottom + 1 && box.left >= region.left - 1 && box.right <= region.right + 1; };
  // A phone may have no room for the table of many nodes and for the arrays below it.
  if (innerWidth < 500) return [...document.querySelectorAll('.node.now .touched, #arrays .touched')].some(isSeen);
  const words = [...document.querySelectorAll('.node.now .touched')];
  return words.length > 0 && words.every(isSeen); })()"""


def grids(pages, made):
    """Arrays are grids: of what is shown each value is that of the lines, in every size of the window, and the word of the act is in sight."""
    browser = pages.browser
    for name in ("grids_part", "grids_eight_part", "tours_part", "sort_part", "product_part", "arrays", "line"):
        moments, url = moments_of(documents.lines_of(made[name])), pages.save(name, made[name])
        knows(pages, made[name])
        turns = [turn for turn in moments if turn is not None]
        touching = [turn for turn, _, act in acts_of(moments) if thing_of(act)[0] == "word"]
        for width, height in [(1366, 768), (1920, 1080), (3840, 2160), (390, 844)]:
            browser.size(width, height)
            browser.media(prefers_color_scheme="dark" if width == 1920 else "light")
            browser.open(url)
            for turn in sorted({touching[k * (len(touching) - 1) // 4] for k in range(5)}):
                pages.at_turn(turn)
                pages.looks.moment(browser.value(SHOWN), moments[turn], f"{name} at {turn}, {width}", place_of(name, turns))
                pages.same(f"{name} at {turn}, {width}: the word of the act is seen", browser.value(SEEN), True)
        before = browser.busy()
        browser.value(TEN_STEPS.replace("1000", "20"))
        pages.same(f"{name}: stepped in time", (browser.busy() - before) / 10 < 0.1, True)
        pages.is_quiet(name)
    sizes_of_grids(pages, made)
    opened_at_once(pages, made)


def opened_at_once(pages, made):
    """A page that is opened at a turn shows of the nodes what it shows when one comes to that turn, and in a great window each panel whole."""
    browser = pages.browser
    panels_shown = "[...document.querySelectorAll('section.node, #arrays')].map(element => element.innerHTML)"
    beyond = "(nodes => nodes.scrollHeight - nodes.clientHeight)(document.querySelector('#nodes'))"
    for name, turn in (("grids_part", 310), ("arrays", 70), ("line", 200)):
        url = pages.save(name, made[name])
        for width, height in ((1920, 1080), (3840, 2160)):
            browser.size(width, height)
            browser.open(url)
            pages.at_turn(turn)
            wanted = browser.value(panels_shown)
            browser.open(f"{url}#turn={turn}")
            pages.same(f"{name} opened at {turn}, {width}", browser.value(panels_shown), wanted)
        pages.same(f"{name} at {turn}: panels beyond a great window", max(browser.value(beyond), 12), 12)
    browser.size(3840, 2160)
    browser.open(f"{pages.save('grids_part', made['grids_part'])}#turn=310")
    whole = [[len(grid["rows"]), len(grid["rows"][0])] for grid in browser.value(SHOWN)["nodes"][0]["grids"]]
    pages.same("10 by 10 words are whole in a great window", whole, [[11, 11], [11, 11]])


def sizes_of_grids(pages, made):
    """A small array is shown whole; of a great one as much as there is room for, around the word of the act."""
    browser = pages.browser
    browser.size(1920, 1080)
    browser.open(f"{pages.save('product_part', made['product_part'])}#turn=200")
    whole = [[len(grid["rows"]), len(grid["rows"][0])] for grid in browser.value(SHOWN)["nodes"][0]["grids"]]
    pages.same("4 by 4 words are shown whole", {tuple(size) for size in whole}, {(5, 5)})
    cells = []
    for width, height in ((1366, 768), (3840, 2160)):
        browser.size(width, height)
        browser.open(f"{pages.save('grids_part', made['grids_part'])}#turn=310")
        cells.append(sum(len(grid["copies"]) for grid in browser.value(SHOWN)["nodes"][0]["grids"]))
    pages.same(f"a greater window shows more: {cells}", 9 <= cells[0] < cells[1] <= 200, True)


def part(pages, whole, shorter):
    """A part of a run shows what the whole run shows at the same turns, old values by writes before it too."""
    browser, moments = pages.browser, moments_of(documents.lines_of(whole))
    turns = [turn for turn in moments_of(documents.lines_of(shorter)) if turn is not None]
    knows(pages, whole)
    browser.size(1280, 800)
    panels_shown = "[...document.querySelectorAll('section.node')].map(element => element.outerHTML)"
    panels = {}
    url = pages.save("late", whole)
    for turn in turns[1:]:
        browser.open(f"{url}#turn={turn}")
        panels[turn] = browser.value(panels_shown)
    url = pages.save("late_part", shorter)
    browser.open(url)
    pages.same("the part's headline", pages.text("#headline"), f"Before turn {turns[0]}")
    pages.same("the part's turns", f"part: turns {turns[0]} to {turns[-1]}" in pages.text("#place"), True)
    pages.same("old by writes before the part", pages.texts("#node-1 .stale .note"), [" now 1", " now 2"])
    for turn in turns[1:]:
        browser.open(f"{url}#turn={turn}")
        pages.looks.moment(browser.value(SHOWN), moments[turn], f"part at {turn}", place_of("late_part", turns))
        pages.same(f"part at {turn}: panels", browser.value(panels_shown), panels[turn])
    browser.open(f"{url}#turn=13")
    pages.same("no link to an act that is not shown", pages.texts("#why a").count("act 4"), 0)
    pages.same("what is known ends before the part", pages.text("#timeline text.after"), "known to 0.2")
    browser.key("Home")
    pages.same("the start", pages.link(), "")
    browser.key("r")
    pages.same("a race with an act before the part", pages.link(), "13")
    pages.same("its number", pages.text("#headline .race-mark"), "race 1")
    pages.same("its lines", pages.texts("#source .raced .number"), ["9", "13"])
    pages.same("its line in the picture", browser.value("document.querySelectorAll('#timeline path.racing').length"), 1)
    pages.is_quiet("part")


def hostile(pages, document):
    """A name and a text that would end their element, bytes that are no UTF-8, a value of 64 bits."""
    browser = pages.browser
    browser.size(1280, 800)
    browser.open(pages.save("hostile", document))
    pages.same("the title", browser.value("document.title").startswith(documents.HOSTILE_NAME + ", "), True)
    wanted = (documents.HOSTILE_COMMENT + documents.HOSTILE_PROGRAM).decode(errors="replace")
    pages.same("the text", pages.texts("#source code"), wanted.removesuffix("\n").split("\n") + ["# end"])
    pages.same("markup of the text", browser.value("document.querySelectorAll('#source b, #source script, #place b').length"), 0)
    browser.key("End")
    pages.same("64 bits", "18446744073709551615" in pages.texts("section.node .value, section.node td"), True)
    pages.is_quiet("hostile")


def empty(pages, document):
    """No turns at all."""
    head, tail = document[:document.index(b'{"program"')], documents.constant("script.rt", "CLOSING")
    lines = documents.DATA.search(document)[1].split(b"\n")[:2]
    pages.browser.open(pages.save("empty", head + b"\n".join(lines) + b"\n" + tail))
    pages.same("no turns", pages.text("#headline"), "No turn is shown")
    pages.same("no turns, the place", pages.text("#place").endswith("no turn shown"), True)
    for key in ("End", "ArrowRight", "a", "r"):
        pages.browser.key(key)
        pages.same(f"no turns, {key}", pages.link(), "")
    pages.is_quiet("empty")


def past_the_end(pages, document):
    """No turns either, and nothing is said of the start of the run."""
    knows(pages, document)
    pages.browser.open(pages.save("past_the_end", document))
    pages.looks.moment(pages.browser.value(SHOWN), moments_of(documents.lines_of(document))[None], "past the end", "")
    pages.same("past the end", pages.text("#headline"), "No turn is shown")
    pages.same("past the end, what stands there", "left them" in pages.text("#because"), True)
    pages.is_quiet("past the end")


def large(pages, document):
    """2,000 turns of 16 nodes open in two seconds of a processor, and a step takes less than a tenth of one."""
    browser = pages.browser
    browser.size(1920, 1080)
    url = pages.save("large", document)
    began, before = time.time(), browser.busy()
    browser.open(url)
    opened, after = time.time() - began, browser.busy()
    work = after - before if after > before else after
    browser.value(TEN_STEPS)
    step = (browser.busy() - after) / 10
    print(f"large: {len(document):,} bytes, opened by {work:.2f} s of a processor (in {opened:.2f} s), a step by {step * 1000:.0f} ms")
    pages.same("turns", documents.lines_of(document)[-2]["turn"] if "explain" in documents.lines_of(document)[-1] else 1999, 1999)
    pages.same("opened in time", work < 2, True)
    pages.same("stepped in time", step < 0.1, True)
    pages.is_quiet("large")


def long(pages, document):
    """A document of some 400 turns is small."""
    turns = len(moments_of(documents.lines_of(document))) - 1
    print(f"long: {turns} turns, {len(document):,} bytes")
    pages.same("a small document", turns >= 400 and len(document) < 600_000, True)


def luminance(colour):
    parts = [int(colour[k:k + 2], 16) / 255 for k in (1, 3, 5)]
    red, green, blue = [part / 12.92 if part <= 0.04045 else ((part + 0.055) / 1.055) ** 2.4 for part in parts]
    return 0.2126 * red + 0.7152 * green + 0.0722 * blue


def contrast(pages):
    """Text on its ground has a contrast of 4.5 at least, in light and dark."""
    roots = re.findall(r":root \{(.*?)\}", documents.constant("frame.rt", "OPENING").decode(), re.S)
    light, dark = [dict(re.findall(r"--([\w-]+): (#\w{6})", root)) for root in roots]
    pairs = [("ink", "paper"), ("soft", "paper"), ("off", "paper"), ("now", "paper"), ("race", "paper"), ("ink", "changed"), ("ink", "now-field"),
             ("ink", "field"), ("off", "off-field"), ("soft", "now-field"), ("soft", "off-field")]
    for colours in (light, light | dark):
        for text, ground in pairs:
            high, low = sorted([luminance(colours[text]), luminance(colours[ground])], reverse=True)
            ratio = (high + 0.05) / (low + 0.05)
            pages.same(f"{text} on {ground}, {ratio:.2f}", ratio >= 4.5, True)


def look(pages, source):
    contrast(pages)
    made = {name: source.document(name) for name in documents.WORDS}
    for name, document in made.items():
        frame(pages, document)
        states(pages, name, document)
    keys(pages, made["late"])
    for name in ("late", "late_part", "collecting", "deadlock"):
        finding(pages, name, made[name])
    asking(pages, made["late"])
    ends(pages, made)
    grids(pages, made)
    printed(pages, made["late"])
    part(pages, made["late"], made["late_part"])
    document = source.hostile()
    frame(pages, document)
    hostile(pages, document)
    empty(pages, made["late"])
    if isinstance(source, documents.Program):
        past_the_end(pages, source.past_the_end())
        long(pages, source.long())
    large(pages, source.large())


def main():
    parser = argparse.ArgumentParser(usage="tests/pages [--program PROGRAM | --lines LINES] [SHOTS]")
    parser.add_argument("--program", type=Path, default=documents.TOP / "run")
    parser.add_argument("--lines", type=Path)
    parser.add_argument("shots", nargs="?", type=Path)
    words = parser.parse_args()
    if words.shots:
        words.shots.mkdir(exist_ok=True)
    with tempfile.TemporaryDirectory() as folder:
        source = documents.Lines(words.lines) if words.lines else documents.Program(Path(folder), words.program.resolve())
        browser = Browser()
        pages = Pages(browser, Path(folder), words.shots)
        try:
            look(pages, source)
        except Differs as difference:
            raise SystemExit(f"tests/pages: {difference}")
        finally:
            browser.close()
    print(f"{pages.looks.passed} looks passed")


main()
