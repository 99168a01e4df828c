#!/usr/bin/env python3
"""page.py PROGRAM PAGE [SHOTS]: opens PAGE (play/play.html) in a headless Chromium, goes through each button on five programs, and compares what is
shown with what PROGRAM prints for the command lines shown. Then the editor, keys alone, links, files, haste, stop, long answers, a program without an
end, memory that is refused, a page without its module, sizes and colours. Nothing is logged, and nothing fetched. Screenshots go to the folder SHOTS.
Status 0 where all holds."""

import functools
import glob
import http.server
import itertools
import json
import os
import re
import shlex
import subprocess
import sys
import tempfile
import threading
import time

here = os.path.dirname(os.path.abspath(__file__))
examples = os.path.join(here, "../../examples")
native, page = map(os.path.abspath, sys.argv[1:3])
shots = os.path.abspath(sys.argv[3]) if sys.argv[3:] and sys.argv[3] else None
sys.path.insert(0, os.path.join(here, "../browser"))
from browser import Browser

PROGRAMS = ["late.tm", "litmus/dekker.tm", "litmus/bank.tm", "traps.tm", "named"]
# A program with names.
NAMED = """nodes 2;
const ROUNDS = 2;
shared sum, seen[2];
lock mutex;
for i in 0 .. ROUNDS {
    with mutex { sum += me + i; }
    seen[me] = sum;
}
barrier;
assert sum == 4;
print seen[1 - me];
"""
# A stuck order and a trap; a trap, and an order that can no longer end.
ORDERS = {
    "two.tm": """words 2; locks 2;
if me == 0 { acquire 0; acquire 1; release 1; release 0; }
else { acquire 1; acquire 0; x = [0]; [0] = x + 1; release 0; release 1; y = 1 / (x - x); }
""",
    "hang.tm": """words 2; locks 1;
if me == 1 { acquire 0; n = [0]; release 0; while n == 0 { acquire 0; n = [0]; release 0; } print n; }
if me == 0 { acquire 0; f = [1]; if f == 0 { [1] = 1; [0] = 1; } release 0; acquire 0; [0] = 0; release 0; y = 1 / (f - f); }
""",
}
VIEWS = "run step explore chart why trace races choose guess".split()
# Keeps each document that the page makes, to be read by its address.
KEEP = """(() => { const make = URL.createObjectURL; window.made = new Map();
  URL.createObjectURL = it => { const url = make.call(URL, it); window.made.set(url, it); return url; }; })()"""

held, failed = 0, []


def hold(what, is_so, *seen):
    global held
    if is_so:
        held += 1
    else:
        failed.append(what)
        print(f"FAILS: {what}", *[repr(it)[:400] for it in seen], flush=True)


def same(what, one, other):
    if one == other:
        return hold(what, True)
    place = next((k for k, (a, b) in enumerate(zip(one, other)) if a != b), min(len(one), len(other)))
    hold(what, False, one[max(0, place - 80):place + 80], other[max(0, place - 80):place + 80])


browser = Browser()
value = browser.value
browser.call("Page.addScriptToEvaluateOnNewDocument", source=KEEP)
browser.call("Target.setAutoAttach", autoAttach=True, waitForDebuggerOnStart=False, flatten=True)


def wait(states=("ended",), most=60):
    end = time.time() + most
    while value("document.body.dataset.state") not in states:
        if time.time() > end:
            return hold(f"state {states}", False, value("document.body.dataset.state"))
        time.sleep(0.03)


def settle():
    """Until all is answered, and each frame has its document."""
    time.sleep(0.05)
    wait(("ended", "ready"))
    for _ in range(100):
        if value("[...document.querySelectorAll('iframe')].every(it => it.dataset.state === 'shown')"):
            break
        time.sleep(0.03)


def open_page(fragment="", keeps=False):
    """Anew, with nothing kept of the last one."""
    if not keeps:
        value("(() => { try { localStorage.clear(); } catch {} })()")
    browser.open(f"file://{page}{fragment}")
    wait(("ready", "ended"))


def click(selector):
    value(f"document.querySelector({json.dumps(selector)}).click()")
    settle()


def ask(view):
    click(f"#views [data-view={view}]")


def example(name):
    value(f"""(() => {{ document.getElementById('examples-button').click();
      [...document.querySelectorAll('.example')].find(it => it.querySelector('code').textContent.trim() === {json.dumps(name)}).click(); }})()""")
    time.sleep(0.1)


def set_fields(**fields):
    for name, it in fields.items():
        value(f"(() => {{ const field = document.getElementById('{name}'); field.value = '{it}'; field.dispatchEvent(new Event('change')); }})()")


def drop(name, text):
    """A file is dropped on the page; its text, or that many bytes of it."""
    content = f"[new Uint8Array({text}).fill(35)]" if isinstance(text, int) else json.dumps([text])
    value(f"""(() => {{ const given = new DataTransfer(); given.items.add(new File({content}, {json.dumps(name)}));
      window.dispatchEvent(new DragEvent('drop', {{ dataTransfer: given, bubbles: true, cancelable: true }})); }})()""")
    time.sleep(0.4)
    settle()


def press_text(scope, words):
    """Clicks the button with these words."""
    value(f"[...document.querySelectorAll('{scope} button')].find(it => it.textContent === {json.dumps(words)}).click()")
    settle()


def chosen_events():
    return value("[...document.querySelectorAll('.events button')].map(it => it.textContent)")


def told():
    return value("document.getElementById('told').textContent")


def text_of(selector):
    return value(f"(it => it && [...it.children].map(line => line.textContent).join('\\n') + '\\n')(document.querySelector({json.dumps(selector)}))") or ""


def editor_text():
    return text_of("#text")


class Native:
    """The native program, in a folder with the files that the page has."""

    def __init__(self, text, name, events="", acts=""):
        self.folder = tempfile.TemporaryDirectory()
        for path, content in ((name, text), (name[:-3] + ".events", events), ("told.acts", acts)):
            with open(f"{self.folder.name}/{path}", "w") as file:
                file.write(content)

    def play(self, line, stdin=None):
        """A line for a shell, maybe a pipe of two."""
        for part in line.split(" | "):
            words = shlex.split(part)
            assert words[0] == "treadmarks", line
            done = subprocess.run([native, *words[1:]], cwd=self.folder.name, input=stdin, capture_output=True, text=True)
            stdin = done.stdout
        return done


def shoot(name):
    if shots:
        time.sleep(0.7)
        browser.shoot(f"{shots}/{name}.png")


def heading(scope=""):
    """The command lines and the status shown."""
    return value(f"""[...document.querySelectorAll('#result {scope} .command')].map(it => [it.querySelector('code').textContent, it.dataset.status])""")


def document_text(scope=""):
    return value(f"(async () => (await window.made.get(document.querySelector('#result {scope} iframe').dataset.url)?.text()) ?? '')()")


def embedded():
    """What the page of `step` shows in its frame: its turn, its headline, and how wide its picture is."""
    of = lambda method: [it["params"] for it in browser.events if it.get("method") == f"Target.{method}"]
    gone = {it["sessionId"] for it in of("detachedFromTarget")}
    frames = [it["sessionId"] for it in of("attachedToTarget") if it["targetInfo"]["type"] == "iframe" and it["sessionId"] not in gone]
    page_session, browser.session = browser.session, frames[-1]
    try:
        return value("[location.hash, document.getElementById('headline').textContent, document.getElementById('timeline').viewBox.baseVal.width]")
    finally:
        browser.session = page_session


def check_embedded(name, turn):
    for _ in range(60):
        seen = embedded()
        if seen[0] == turn and seen[2] > 200:
            break
        time.sleep(0.05)
    hold(f"{name}: the page in its frame is at {turn or 'its start'} and drawn", seen[0] == turn and seen[2] > 200, seen)


def check_errors(name, done):
    same(f"{name}: errors", value("document.querySelector('#result .errors')?.textContent ?? ''"), done.stderr)


def check_text(name, machine, selector="#result .printed", scope=""):
    (line, status), = heading(scope)
    done = machine.play(line)
    same(f"{name}: {line}", text_of(selector) if value(f"!!document.querySelector('{selector}')") else "", done.stdout)
    same(f"{name}: status", status, str(done.returncode))
    check_errors(name, done)


def is_named(text):
    return re.match(r"(?:\s|#.*\n)*(?:nodes|const|shared|lock|fn)\b", text) is not None


def check_run(name, machine):
    forms = ("explain", "sim", "plain", "stats", *["core"] * is_named(editor_text()))
    same(f"{name}: forms", tuple(value("[...document.querySelectorAll('#result .choice button')].map(it => it.textContent)")), forms)
    for form in forms:
        value(f"[...document.querySelectorAll('#result .choice button')].find(it => it.textContent === '{form}').click()")
        settle()
        check_text(f"{name} {form}", machine)


def check_step(name, machine):
    (line, status), = heading()
    done = machine.play(line)
    same(f"{name}: {line}", document_text(), done.stdout)
    same(f"{name}: status", status, str(done.returncode))
    check_embedded(name, "")


def check_chart(name, machine):
    for choice in (None, "hide quiet", "with the text", "for a terminal"):
        if choice:
            value(f"[...document.querySelectorAll('#result .fields button')].find(it => it.textContent === '{choice}').click()")
            settle()
        (line, status), = heading()
        done = machine.play(line)
        if choice == "for a terminal":
            same(f"{name}: {line}", value("document.querySelector('#result .plain').textContent"), done.stdout)
        else:
            hold(f"{name}: {line}", done.stdout and document_text().endswith(done.stdout))


def check_why(name, machine, options):
    listed = value("[...document.querySelectorAll('.acts button')].map(it => [it.dataset.act, it.querySelector('.badge').textContent, it.querySelector('.place').textContent].join(' '))")
    acts = [json.loads(line) for line in machine.play(f"treadmarks trace {options} --as json").stdout.splitlines()]
    same(f"{name}: acts", listed, [f"{it['act']} {it['node']} {it['line']}" for it in acts])
    for k in sorted({0, len(acts) // 3, len(acts) // 2, len(acts) - 1}):
        click(f".acts button[data-act='{k}']")
        check_text(f"{name} act {k}", machine, "#result .reasons .printed", ".reasons")
    value("document.querySelector('.acts button[data-act=\"0\"]').dispatchEvent(new MouseEvent('click', { shiftKey: true }))")
    settle()
    hold(f"{name}: two acts", " --and 0" in heading(".reasons")[0][0])
    check_text(f"{name} two acts", machine, "#result .reasons .printed", ".reasons")


def check_trace(name, machine):
    for form in ("acts", "messages", "json", "states", "events", "rapid"):
        value(f"[...document.querySelectorAll('#result .choice button')].find(it => it.textContent === '{form}').click()")
        settle()
        (line, status), = heading()
        done = machine.play(line)
        if form in ("acts", "messages"):
            same(f"{name}: {line}", text_of("#result .printed"), done.stdout)
        else:
            same(f"{name}: {line}", value("document.querySelector('#result .plain')?.textContent ?? ''"), done.stdout)


def check_races(name, machine):
    for form in ("by lines", "each", "sure"):
        press_text("#result .choice", form)
        check_text(f"{name} {form}", machine)


def told_text(scope):
    """What the list of acts and the lines around it show, in the program's form."""
    return value(f"""(() => {{ const lines = [];
      for (const part of document.querySelector('{scope}').children) {{
        if (part.matches('.printed')) lines.push(...[...part.children].map(it => it.textContent));
        if (part.matches('.acts')) lines.push(...[...part.querySelectorAll('button')].map(it => it.querySelector('.badge').textContent + ' ' + it.querySelector('.deed').textContent + ' # line ' + it.querySelector('.place').textContent));
      }}
      return lines.map(it => it + '\\n').join(''); }})()""")


def check_explore(name, machine):
    (told, status), (lists, _) = heading()
    done = machine.play(told)
    same(f"{name}: {told}", told_text(".told"), done.stdout)
    same(f"{name}: status", status, str(done.returncode))
    answers = {re.search(r"--memory (\w+)|$", line)[1] or "flat": machine.play(line) for line in lists.split("\n")}
    for memory, it in answers.items():
        same(f"{name}: {memory}", value(f"document.querySelector('[data-memory={memory}]').textContent"), it.stdout + it.stderr)
    outcomes = {memory: [line.split(" # ")[0] for line in it.stdout.splitlines()[1:] if line.startswith("node")] for memory, it in answers.items()}
    rows = value("[...document.querySelectorAll('.outcomes tr[data-line]')].map(it => [it.dataset.line, it.className])")
    same(f"{name}: rows", sorted(line for line, _ in rows), sorted(set().union(*outcomes.values())))
    for line, kind in rows if not any(it.stderr for it in answers.values()) else []:
        expected = "both" if line in outcomes["flat"] and line in outcomes["lazy"] else "only-flat" if line in outcomes["flat"] else "only-lazy"
        same(f"{name}: {line}", kind, expected)
    check_opened(name, machine, told, lambda: ask("explore"))
    if rows:
        click(".outcomes td.memory button")
        line = heading(".outcome-acts")[0][0]
        acts = machine.play(line).stdout
        same(f"{name}: {line}", told_text(".outcome-acts"), acts)
        click(".outcome-acts .acts button")
        line = heading(".outcome-acts .reasons")[0][0]
        with open(f"{machine.folder.name}/told.acts", "w") as file:
            file.write(acts)
        same(f"{name}: {line}", text_of(".outcome-acts .reasons .printed"), machine.play(line).stdout)
        value("[...document.querySelectorAll('.outcome-acts .hint button')].find(it => it.textContent.startsWith('Chart')).click()")
        settle()
        line = heading(".outcome-acts .reasons")[0][0]
        hold(f"{name}: {line}", document_text(".outcome-acts").endswith(machine.play(line).stdout))
    check_opened_outcome(name, machine)


TELLINGS = {"some order gets stuck:": "stuck", "some order traps:": "trap", "some order can no longer end:": "end"}


def says(*words):
    return subprocess.run([native, "explore", "-", *words, "--as", "events"], input="words 1; locks 0;\n", capture_output=True, text=True).returncode == 0


# Of the runs on which memory the program says events.
SAYS_EVENTS = {"lazy": False, "exact": says("--memory", "exact", "--outcome", "1"), "flat": says()}


def orders_in(text):
    """The orders that `explore` tells: the line before the acts, and these."""
    found = re.findall(r"(?:^|(?<=\n))(?!\d+ [a-z]+[^\n]* # line)([^\n]*\n)((?:\d+ [a-z]+(?: \d+)* # line \d+\n)+)", "\n" + text)
    return [(title.strip(), acts) for title, acts in found]


def check_opened(name, machine, told, again):
    """Each order that is told is opened in Choose, by the events that the program says for it, where it says them; then Explore is asked again."""
    titles = [title for title, _ in orders_in(machine.play(told).stdout)]
    count = value("document.querySelectorAll('.told .opens').length")
    same(f"{name}: which orders can be opened", count, len(titles) if SAYS_EVENTS["flat"] else 0)
    nodes = re.search(r" --nodes \d+|$", told)[0]
    for k in range(count):
        events = machine.play(f"{told} --as events" + (f" --tell {TELLINGS[titles[k]]}" if count > 1 else "")).stdout
        value(f"document.querySelectorAll('.told .opens')[{k}].click()")
        settle()
        with open(f"{machine.folder.name}/found.events", "w") as file:
            file.write(events)
        turns = [json.loads(it) for it in machine.play(f"treadmarks trace {told.split()[2]}{nodes} --events found.events --as states").stdout.splitlines()[1:]]
        hold(f"{name}: order {k} has events", events and value("document.body.dataset.view") == "choose")
        same(f"{name}: order {k} is opened", chosen_events(), [it["event"] for it in turns])
        set_fields(order="oldest")
        again()


def check_orders():
    """Several orders that are told at once, each by itself: its acts, what is asked of them, and its opening."""
    for name, text in ORDERS.items():
        open_page()
        drop(name, text)
        set_fields(nodes=2)
        toggles = ()
        for toggle in (None, "can all end?", "look for races"):
            toggles = (*toggles, toggle) if toggle else ()

            def again():
                ask("explore")
                for it in toggles:
                    press_text("#result .fields", it)

            again()
            machine = Native(text, name)
            told, status = heading(".told")[0]
            done = machine.play(told)
            hold(f"{name}: what is asked", (" --ends" in told) == ("can all end?" in toggles) and (" --ignore-races" in told) == ("look for races" in toggles), told)
            same(f"{name}: {told}", told_text(".told"), done.stdout)
            same(f"{name}: status", status, str(done.returncode))
            orders = orders_in(done.stdout)
            same(f"{name}: lists of acts", value("document.querySelectorAll('.told .acts').length"), len(orders))
            for k, (_, acts) in enumerate(orders):
                place = len(acts.splitlines()) - 1
                value(f"document.querySelectorAll('.told .acts')[{k}].querySelector('[data-act=\"{place}\"]').click()")
                settle()
                machine = Native(text, name, acts=acts)
                line = value(f"document.querySelectorAll('.told .reasons')[{k}].querySelector('code').textContent")
                same(f"{name}: order {k}: {line}", value(f"[...document.querySelectorAll('.told .reasons')[{k}].querySelectorAll('.printed > li')].map(it => it.textContent + '\\n').join('')"), machine.play(line).stdout)
            check_opened(f"{name} {len(toggles)}", machine, told, again)


def check_opened_outcome(name, machine):
    """A run with an outcome is opened likewise, where the program says events of the runs of that memory."""
    for memory in SAYS_EVENTS:
        cell = f"[title*='on the {memory} memory']"
        if value(f"!!document.querySelector({json.dumps(cell)})"):
            click(cell)
            can_be_opened = value("!!document.querySelector('.outcome-acts .opens')")
            hold(f"{name}: whether a {memory} run can be opened", can_be_opened == SAYS_EVENTS[memory], can_be_opened)
    if value("!!document.querySelector('.outcome-acts .opens')"):
        events = machine.play(f"{heading('.outcome-acts')[0][0]} --as events").stdout.splitlines()
        click(".outcome-acts .opens")
        same(f"{name}: a run with an outcome is opened", chosen_events(), events)
        set_fields(order="oldest")
        ask("explore")


def check_choose(name, file, text):
    """From no event on, each time the last that may come; then the first; then undone; then on by the program's own orders."""
    press_text(".side", "Start again")
    events = []
    for k in range(12):
        machine = Native(text, file, "".join(f"{it}\n" for it in events))
        (line, status), = heading()
        done = machine.play(line)
        same(f"{name} after {k}: page", document_text(), done.stdout)
        check_embedded(f"{name} after {k}", f"#turn={len(events) - 1}" if events else "")
        words = line.replace("treadmarks step", "treadmarks trace")
        state = json.loads(machine.play(f"{words} --as states --from 4000000000").stdout)
        may = [f"run {node}" for node, it in enumerate(state["states"]) if it["waits"] == "no"] + [f"deliver {place}" for place in range(len(state["flight"]))]
        same(f"{name} after {k}: what may come", value("[...document.querySelectorAll('.may .next')].map(it => it.dataset.event)"), may)
        same(f"{name} after {k}: events", chosen_events(), events)
        texts = [f"{it['from']} \u2192 {it['to']} {it['message']}" for it in state["flight"]]
        shown = value("[...document.querySelectorAll('.may .next')].filter(it => it.querySelector('small')).map(it => [...it.querySelectorAll('.badge')].map(it => it.textContent).join(' \u2192 ') + ' ' + it.querySelector('small').textContent)")
        same(f"{name} after {k}: the messages in flight", shown, texts)
        if not may:
            break
        events.append(may[-1] if k % 3 else may[0])
        click(f".may [data-event='{events[-1]}']")
    if value("!!document.querySelector('[title^=\"repeat\"]')"):
        click('[title^="repeat"]')
        hold(f"{name}: repeat", chosen_events()[-1].startswith("repeat"))
        click(".undo")
    click(".undo")
    same(f"{name}: undo", chosen_events(), events[:-1])
    events = events[:-1]
    for then, count in (("oldest", 10), ("newest", None), ("twice", 10), ("random", 10), ("random", None)):
        check_goes_on(f"{name} {then} {count}", Native(text, file, "".join(f"{it}\n" for it in events)), events, then, count)


def check_goes_on(name, machine, events, then, count):
    """The first ten of the events that the program adds, or all; and back to where it went on from."""
    words = re.sub(r"^treadmarks step", "treadmarks trace", heading()[0][0])
    going = machine.play(f"{words} --then {then} {'--seed 5 ' if then == 'random' else ''}--as events").stdout.splitlines()
    value(f"(it => {{ it.value = '{then}'; it.dispatchEvent(new Event('change')); }})(document.querySelector('.side select'))")
    if then == "random":
        value("(it => { it.value = '5'; it.dispatchEvent(new Event('change')); })(document.querySelector('.side input[type=number]'))")
    if value("document.querySelector('[data-way=all]').disabled"):
        return same(f"{name}: nothing is left", going, events)
    press_text(".side", "10 events" if count else "all")
    same(f"{name}: events", chosen_events()[-400:], going[:len(events) + count if count else None][-400:])
    if events and len(chosen_events()) == len(going):
        value(f"document.querySelectorAll('.events button')[{len(events) - 1}].click()")
        settle()
    else:
        drop("back.events", "".join(f"{it}\n" for it in events))
    return same(f"{name}: back", chosen_events(), events)


def check_guess(name, machine, options):
    (line, status), = heading()
    same(f"{name}: {line}", document_text(), machine.play(line).stdout)
    acts = [json.loads(it) for it in machine.play(f"treadmarks trace {options} --as json").stdout.splitlines()]
    for k in range(40):
        if not value("!!document.querySelector('.values')"):
            break
        click("button.value")
        said = value("document.querySelector('.guess h2').textContent")
        printed = text_of(".guess .printed")
        act = int(re.match(r"act (\d+)", printed).group(1))
        same(f"{name}: why act {act}", printed, machine.play(f"treadmarks why {options} --act {act}").stdout)
        turns = [json.loads(it) for it in machine.play(f"treadmarks trace {options} --as states").stdout.splitlines()[1:]]
        check_embedded(f"{name} act {act}", f"#turn={next(it['turn'] for it in turns if it['act'] and it['act']['position'] == act)}")
        hold(f"{name}: act {act} gives {acts[act]['value']}", re.search(rf"(Yes: |gets ){acts[act]['value']}\b", said), said)
        if value("document.querySelector('.guess .on').textContent") != "Next read":
            break
        click(".guess .on")
    else:
        hold(f"{name}: ends", False)


def check_programs():
    for program in PROGRAMS:
        file = os.path.basename(program)
        if program == "named":
            file, text = "named.tm", NAMED
            drop("named.tm", NAMED)
            set_fields(nodes="")
        else:
            example(file)
            with open(f"{examples}/{program}") as opened:
                text = opened.read()
        same(f"{file}: text", editor_text(), text)
        for order in ("as chosen", "random"):
            if order == "random":
                if file != "late.tm":
                    continue
                set_fields(order="random", seed=3, page=256)
            events = f"{examples}/{program[:-3]}.events"
            has_events = order == "as chosen" and os.path.exists(events)
            machine = Native(text, file, open(events).read() if has_events else "")
            for view in VIEWS:
                ask(view)
                name = f"{file} {view}{' random' if order == 'random' else ''}"
                options = re.sub(r"^treadmarks \w+ | --act.*| --and.*", "", heading()[0][0]) if heading() else ""
                if view == "why":
                    click(".acts button")
                    options = re.sub(r"^treadmarks \w+ | --as.*", "", heading()[0][0])
                    check_why(name, machine, options)
                elif view == "choose":
                    check_choose(name, file, text)
                    set_fields(order="random" if order == "random" else "oldest")
                elif view == "guess":
                    check_guess(name, Native(text, file), options)
                elif view == "explore":
                    check_explore(name, machine)
                else:
                    globals()[f"check_{view}"](name, machine)
            print(f"{file} {order}: {held} held, {len(failed)} failed", flush=True)


def press(key, code=None, text=None, modifiers=0, number=0, commands=()):
    parameters = {"key": key, "code": code or key, "modifiers": modifiers, "windowsVirtualKeyCode": number}
    browser.call("Input.dispatchKeyEvent", type="keyDown", **parameters, **({"text": text} if text else {}), **({"commands": list(commands)} if commands else {}))
    browser.call("Input.dispatchKeyEvent", type="keyUp", **parameters)


def typed(words):
    for letter in words:
        if letter == "\n":
            press("Enter", text="\r", number=13)
        else:
            press(letter, text=letter)


def undo():
    press("z", "KeyZ", modifiers=2, number=90, commands=["undo"])


def bracket(sign):
    press(sign, {"[": "BracketLeft", "]": "BracketRight"}[sign], modifiers=2, number={"[": 219, "]": 221}[sign])


def check_editor():
    open_page()
    first = editor_text()
    value("(() => { const line = document.getElementById('text').children[12]; document.getElementById('text').focus(); getSelection().collapse(line.firstChild, line.firstChild.length); })()")
    typed("\nif x = 3 {\nprint x;\n}")
    lines = first.split("\n")
    lines[13:13] = ["    if x = 3 {", "        print x;", "    }"]
    same("editor: typed, with indents", editor_text(), "\n".join(lines))
    time.sleep(0.8)
    done = Native(editor_text(), "late.tm").play("treadmarks lint late.tm").stdout.splitlines()
    note = [done[0].split("error: ")[1]] + [line[2:] for line in done[3:]]
    same("editor: lint under its line", value("document.getElementById('text').children[13].dataset.note"), "\n".join(note))
    hold("editor: no other note", value("document.querySelectorAll('#text [data-note]').length") == 1)
    shoot("editor")
    for _ in range(8):
        if editor_text() != first:
            undo()
    same("editor: undone", editor_text(), first)
    example("dekker.tm")
    value("document.getElementById('text').focus()")
    undo()
    same("editor: an example undone", editor_text(), first)
    value("getSelection().selectAllChildren(document.getElementById('text'))")
    press("Delete", number=46)
    same("editor: all deleted", editor_text(), "\n")
    typed("words 1; locks 1;\nacquire 0;\n[0] = cuont + 1;\n")
    time.sleep(0.8)
    same("editor: warnings", value("[...document.getElementById('text').children].map(it => it.dataset.note ?? '')"), ["", "lock 0 is never released", "cuont is read and never set, so it is 0", ""])
    typed("x")
    hold("editor: what was said of an older text goes at once", not value("!!document.querySelector('#text [data-note], #lint > *')"))
    press("Backspace", number=8)
    before = editor_text()
    bracket("]")
    hold("editor: an empty line is indented", editor_text() == before[:-1] + "    \n", editor_text())
    value("(text => getSelection().setBaseAndExtent(text.children[1].firstChild, 3, text.children[2].firstChild, 2))(document.getElementById('text'))")
    bracket("]")
    indented = before.replace("acquire", "    acquire").replace("[0]", "    [0]")[:-1] + "    \n"
    same("editor: two lines are indented", editor_text(), indented)
    bracket("[")
    same("editor: and taken back", editor_text(), before[:-1] + "    \n")
    press("Tab", number=9)
    hold("editor: Tab leaves", not value("document.getElementById('text').contains(document.activeElement)"))
    same("editor: and changes nothing", editor_text(), before[:-1] + "    \n")
    value("""(() => { const paste = new DataTransfer(); paste.setData('text/plain', 'a = <1>;\\n\\nb');
      document.getElementById('text').focus(); getSelection().selectAllChildren(document.getElementById('text'));
      document.getElementById('text').dispatchEvent(new ClipboardEvent('paste', { clipboardData: paste, bubbles: true, cancelable: true })); })()""")
    same("editor: pasted", editor_text(), "a = <1>;\n\nb\n")
    ask("run")
    check_text("a fault", Native(editor_text(), value("document.getElementById('name').value")))


def check_examples():
    """All programs of examples/ are there, each with the sentence that its comment begins with, and with the options and events of its run."""
    open_page()
    listed = value("[...document.querySelectorAll('.example')].map(it => [it.querySelector('code').textContent.trim(), it.querySelector('.says').textContent])")
    every = sorted(glob.glob(f"{examples}/**/*.tm", recursive=True))
    same("examples: all of them", sorted(name for name, _ in listed), sorted(map(os.path.basename, every)))
    comments = {}
    for path in every:
        with open(path) as file:
            comment = " ".join(line[1:].strip() for line in itertools.takewhile(lambda it: it.startswith("#"), file))
        comments.setdefault(os.path.basename(path), []).append(comment)
    for name, says in listed:
        hold(f"examples: {name} has a sentence", says.endswith((".", "?")) and any(it.startswith(says) for it in comments[name]), says, comments[name])
    # Of several that are called so, the one with names stands last.
    files = {os.path.basename(it): it for it in sorted(every, key=lambda it: "/named/" not in it)}
    for name in ("wide.tm", "stopping.tm", "collecting.tm", "late.tm"):
        example(name)
        ask("run")
        with open(files[name]) as file:
            text = file.read()
        events = files[name][:-3] + ".events"
        machine = Native(text, name, open(events).read() if os.path.exists(events) else "")
        check_text(f"the run of {name}", machine)
        line = heading()[0][0]
        words = files[name][:-3] + ".words"
        given = open(words).read().split() if os.path.exists(words) else {"collecting.tm": ["--collect", "3"]}.get(name, [])
        pairs = {(one, other) for one, other in zip(given[::2], given[1::2]) if (one, other) != ("--page", "64")}
        hold(f"examples: {name} with the options of its run", all(f" {one} {other}" in line for one, other in pairs) and ("--events" in line) == os.path.exists(events), line)


def lint_shown(file, text):
    """The notes that stand under lines: those of `lint`, or of a text with names that it does not know the fault that `check` says."""
    lint, check = (Native(text, file).play(f"treadmarks {command} {file}") for command in ("lint", "check"))
    found = re.search(r":(\d+):\d+: (?:error|warning): (\S+)", lint.stdout)
    fault = re.search(r"line (\d+): (\S+)", check.stderr)
    if lint.returncode == 0 or (fault and found and found.groups() == fault.groups()):
        return sorted({int(it) for it in re.findall(r":(\d+):\d+: (?:error|warning): ", lint.stdout)})
    return [int(fault[1])] if fault else []


def check_turns(name, machine):
    """The views that go through a run turn by turn."""
    ask("step")
    check_step(f"{name} step", machine)
    ask("why")
    click(".acts button")
    check_why(f"{name} why", machine, re.sub(r"^treadmarks \w+ | --as.*", "", heading()[0][0]))
    ask("guess")
    check_guess(f"{name} guess", machine, re.sub(r"^treadmarks \w+ ", "", heading()[0][0]))


def check_named():
    """Programs with names are chosen, run on as many nodes as they say, and looked at as what a machine runs; what is wrong with one stands under its line."""
    noted = "[...document.getElementById('text').children].flatMap((it, k) => it.dataset.note ? [k + 1] : [])"
    for path in sorted(glob.glob(f"{examples}/named/*.tm")):
        file = os.path.basename(path)
        with open(path) as opened:
            text = opened.read()
        open_page()
        value(f"""(() => {{ document.getElementById('examples-button').click();
          [...document.querySelectorAll('.example')].filter(it => it.querySelector('code').textContent.trim() === {json.dumps(file)}).at(-1).click(); }})()""")
        time.sleep(0.1)
        same(f"{file}: named", editor_text(), text)
        ask("run")
        line = heading()[0][0]
        hold(f"{file}: nodes as the text says", "--nodes" not in line, line)
        check_run(f"{file} named", Native(text, file))
        same(f"{file}: notes", value(noted), lint_shown(file, text))
        if file in ("bank.tm", "peterson.tm"):
            check_turns(f"{file} named", Native(text, file))
            continue
        press_text("#result .fields", "Open it")
        same(f"{file}: its core is opened", editor_text(), Native(text, file).play(f"treadmarks core {file}").stdout)
        ask("step")
        (line, status), = heading()
        core = f"{file[:-3]}_core.tm"
        asked = f"treadmarks step {core} --nodes {re.search(r'^nodes (.*);', text, re.M)[1]}"
        same(f"{file}: its core on as many nodes", line[:len(asked)], asked)
        done = Native(editor_text(), core).play(line)
        check_errors(f"{file}: its core", done)
        same(f"{file}: its core turn by turn", document_text() if done.stdout else "", done.stdout)
    for fault, place in (("conut = sum;\nprint conut + cuont;\n", 13), ("sum = ;\n", 12), ("mutex = 1;\n", 12), ("if sum > 1 and { }\n", 12)):
        open_page()
        drop("faulty.tm", NAMED + fault)
        time.sleep(1)
        same(f"named: the line of a fault: {fault!r}", value(noted), [place])
        same(f"named: the notes: {fault!r}", value(noted), lint_shown("faulty.tm", NAMED + fault))


def check_keys():
    open_page()
    for key, view in zip("rsxcwtdng", VIEWS):
        value("document.activeElement.blur()")
        press(key, text=key)
        settle()
        hold(f"key {key}", value("document.body.dataset.view") == view)
    value("document.activeElement.blur()")
    press("1", text="1")
    settle()
    hold("key 1 answers", value("!!document.querySelector('.guess .right, .guess .wrong')"))
    value("document.activeElement.blur()")
    press("o", text="o")
    for _ in range(3):
        press("ArrowDown", number=40)
    chosen = value("document.activeElement.querySelector('code')?.textContent.trim()")
    press("Enter", text="\r", number=13)
    settle()
    hold("an example by keys alone", chosen and value("document.getElementById('name').value") == chosen, chosen)
    press("e", text="e")
    typed("rsx")
    hold("what is typed in the text is no command", value("document.body.dataset.view") == "guess" or not value("document.body.dataset.view"), value("document.body.dataset.view"))
    hold("it is text", "rsx" in editor_text())
    seen = set()
    for _ in range(60):
        press("Tab", number=9)
        seen.add(value("document.activeElement.id || document.activeElement.textContent"))
    hold("Tab comes to each part", {"Run", "Guess", "nodes", "order", "examples-button"} <= seen, seen)
    hold("names of fields and buttons", value("[...document.querySelectorAll('button, input, select')].every(it => it.textContent.trim() || it.ariaLabel || it.labels?.length)"))


def check_keys_alone():
    """A lesson without a pointer: why an act, a run of chosen events, and a guess."""
    open_page()
    value("document.activeElement.blur()")
    press("o", text="o")
    typed("lost upd")
    press("Tab", number=9)
    press("ArrowDown", number=40)
    press("Enter", text="\r", number=13)
    settle()
    same("keys: an example is found by its name", value("document.getElementById('name').value"), "lost_updates.tm")
    press("w", text="w")
    settle()
    for _ in range(60):
        press("Tab", number=9)
        if value("!!document.activeElement.closest('.acts')"):
            break
    for _ in range(4):
        press("ArrowDown", number=40)
    press("Enter", text="\r", number=13)
    settle()
    machine = Native(editor_text(), "lost_updates.tm")
    check_text("keys: why", machine, "#result .reasons .printed", ".reasons")
    hold("keys: of the act that was gone to", " --act 4" in heading(".reasons")[0][0], heading(".reasons"))
    press("n", text="n")
    settle()
    for key in ("1", "2", "1", "3"):
        first = value(f"document.querySelectorAll('button.next')[{int(key) - 1}].dataset.event")
        press(key, text=key)
        settle()
        same(f"keys: {key} chooses", chosen_events()[-1], first)
    press("u", text="u")
    settle()
    same("keys: undone", len(chosen_events()), 3)
    press("g", text="g")
    settle()
    press("1", text="1")
    settle()
    hold("keys: a guess", value("!!document.querySelector('.guess .right, .guess .wrong')"))


def check_link():
    open_page()
    example("dekker.tm")
    set_fields(order="newest")
    ask("why")
    click(".acts button[data-act='3']")
    time.sleep(0.2)
    before = [editor_text(), heading(), text_of(".reasons .printed"), value("location.hash")]
    open_page(before[3])
    settle()
    time.sleep(0.3)
    settle()
    same("link: text", editor_text(), before[0])
    same("link: command and status", heading(), before[1])
    same("link: answer", text_of(".reasons .printed"), before[2])
    long = "".join(f"[{k}] = {k * 7919 % 10007} + {k * 104729 % 65537};\n" for k in range(1500))
    drop("long.tm", "words 2000; locks 0;\n" + long)
    value("document.getElementById('link').click()")
    for _ in range(60):
        if "link" in told():
            break
        time.sleep(0.05)
    hold("link: one that is too long to send is said to be", "more than many programs send" in told(), told())
    for damaged in ("#nonsense", before[3][:40], before[3][:-7] + "AAAAAAA"):
        open_page(damaged)
        hold(f"link: {damaged[:20]} is said to be damaged", "damaged" in told() and "late.tm" == value("document.getElementById('name').value"), told())


def check_opened_file():
    """By the button and the browser's own dialog."""
    browser.call("Page.setInterceptFileChooserDialog", enabled=True)
    with tempfile.NamedTemporaryFile("w", suffix=".tm") as file:
        file.write("words 1; locks 0;\nprint 12;\n")
        file.flush()
        browser.events.clear()
        browser.call("Runtime.evaluate", expression="document.getElementById('open').click()", userGesture=True)
        for _ in range(40):
            chooser = next((it["params"] for it in browser.events if it.get("method") == "Page.fileChooserOpened"), None)
            if chooser:
                break
            value("new Promise(done => setTimeout(done, 50))")
        browser.call("DOM.setFileInputFiles", files=[file.name], backendNodeId=chooser["backendNodeId"])
        time.sleep(0.4)
        settle()
        same("a file is opened", [editor_text(), value("document.getElementById('name').value")], ["words 1; locks 0;\nprint 12;\n", os.path.basename(file.name)])
    browser.call("Page.setInterceptFileChooserDialog", enabled=False)


def check_files():
    open_page()
    check_opened_file()
    saved = "(async () => await [...window.made.values()].at(-1).text())()"
    value("document.getElementById('save').click()")
    same("save: the text", value(saved), editor_text())
    drop("given name.tm", "words 1; locks 0;\nprint me;\n")
    same("a file dropped", editor_text(), "words 1; locks 0;\nprint me;\n")
    same("its name", value("document.getElementById('name').value"), "given_name.tm")
    drop("large.tm", 10_000_000)
    hold("a file of 10 MB is refused in words", "10.0 MB" in told(), told())
    drop("picture.tm", "GIF89a\0\0")
    hold("a file that is no text is refused in words", told() == "picture.tm is no text", told())
    same("the text stays", editor_text(), "words 1; locks 0;\nprint me;\n")
    drop("given.events", "run 1\nrun 0\nrun 7\nrun 1\n")
    same("events dropped: those that are not skipped", chosen_events(), ["run 1", "run 0", "run 1"])
    press_text(".side", "Save events")
    same("save: events", value(saved), "run 1\nrun 0\nrun 1\n")
    ask("run")
    hold("the chosen events are played", heading()[0][0].endswith("--nodes 2 --events given_name.events"))
    value("document.querySelector('#result .command button').click()")
    time.sleep(0.2)
    same("copy", told(), "copied: command")
    drop("ends.tm", "words 1; locks 0;\nprint 3;\n")
    time.sleep(1.2)
    open_page(keeps=True)
    same("after a reload the text is there", editor_text(), "words 1; locks 0;\nprint 3;\n")


def check_haste():
    """Clicks that come faster than the answers, and buttons pressed while another works."""
    open_page()
    example("counter.tm")
    ask("choose")
    press_text(".side", "Start again")
    value("(() => { for (const node of [3, 1, 2]) document.querySelector(`[data-event='run ${node}']`).click(); })()")
    settle()
    same("three quick choices", chosen_events(), ["run 3", "run 1", "run 2"])
    value("(() => { for (const view of ['step', 'explore', 'trace', 'why', 'run']) document.querySelector(`#views [data-view=${view}]`).click(); })()")
    settle()
    set_fields(order="oldest")
    settle()
    check_text("the last of five buttons", Native(editor_text(), "counter.tm"))


def check_stop():
    open_page()
    value("document.getElementById('text').focus()")
    value("getSelection().selectAllChildren(document.getElementById('text'))")
    browser.call("Input.insertText", text="words 64; locks 1; while i < 60000 { acquire 0; x = [0]; [0] = x + 1; release 0; i = i + 1; }")
    set_fields(order="oldest", nodes=8)
    value("document.querySelector('#views [data-view=run]').click()")
    time.sleep(2)
    value("document.getElementById('text').focus()")
    typed(" p")
    time.sleep(0.8)
    hold("stop: the page answers while the program runs", editor_text().rstrip().endswith("p") and "here may stand" in value("document.querySelector('#text [data-note]')?.dataset.note ?? ''"))
    for _ in range(2):
        press("Backspace", number=8)
    hold("stop: runs", value("document.body.dataset.state") == "runs" and value("document.getElementById('state').textContent").startswith("runs"))
    start = time.time()
    value("document.getElementById('stop').click()")
    wait(most=5)
    took = time.time() - start
    hold(f"stop: {took:.2f} s", took < 0.5 and value("document.getElementById('state').textContent") == "stopped")
    value("document.querySelector('#views [data-view=run]').click()")
    time.sleep(1)
    press("Escape", number=27)
    wait(most=5)
    hold("stop: by Escape", value("document.getElementById('state').textContent") == "stopped")
    value("document.querySelector('#views [data-view=run]').click()")
    time.sleep(1)
    example("hello.tm")
    ask("run")
    check_text("after a stop", Native(editor_text(), "hello.tm"))




def check_long():
    """A program that prints for ever, up to its million of statements: the beginning is shown, and all is saved."""
    open_page()
    drop("prints.tm", "words 1; locks 0;\nwhile 1 { print 123456789; }\n")
    set_fields(nodes=1)
    ask("run")
    value("[...document.querySelectorAll('#result .choice button')].find(it => it.textContent === 'sim').click()")
    settle()
    (line, status), = heading()
    done = Native(editor_text(), "prints.tm").play(line)
    shown = text_of("#result .printed")
    hold("long: its beginning is shown", len(done.stdout) > 1_000_000 and len(shown) < 1_100_000 and done.stdout.startswith(shown.rsplit("\n", 2)[0]), len(shown), len(done.stdout))
    same("long: status", status, str(done.returncode))
    click(".save-all")
    same("long: all is saved", value("(async () => await [...window.made.values()].at(-1).text())()"), done.stdout)


def check_events():
    """A run of more turns than a page of `step` has."""
    open_page()
    drop("turns.tm", "words 1; locks 0;\nwhile i < 900 { i = i + 1; }\n")
    set_fields(nodes=2)
    ask("choose")
    press_text(".side", "all")
    (line, status), = heading()
    hold("many turns: the last part is shown", " --from " in line, line)
    events = Native(editor_text(), "turns.tm").play("treadmarks trace turns.tm --nodes 2 --as events").stdout
    same("many turns: the page", document_text(), Native(editor_text(), "turns.tm", events).play(line).stdout)
    press_text(".side", "Undo")
    fewer = "".join(events.splitlines(True)[:-1])
    same("many turns: undone, the rest is played as before", document_text(), Native(editor_text(), "turns.tm", fewer).play(heading()[0][0]).stdout)
    press_text(".side", "Save events")
    same("many turns: all events are saved", value("(async () => await [...window.made.values()].at(-1).text())()"), fewer)


class Quiet(http.server.SimpleHTTPRequestHandler):
    def log_message(self, *_):
        pass


def check_server():
    """From a web server: the one file is all that is asked for."""
    handler = functools.partial(Quiet, directory=os.path.dirname(page))
    with http.server.ThreadingHTTPServer(("127.0.0.1", 0), handler) as server:
        threading.Thread(target=server.serve_forever, daemon=True).start()
        address = f"http://127.0.0.1:{server.server_port}/{os.path.basename(page)}"
        browser.open(address)
        wait(("ready", "ended"))
        ask("run")
        check_text("from a server", Native(editor_text(), "late.tm", open(f"{examples}/late.events").read()))
        asked = {it["params"]["request"]["url"].split("#")[0] for it in browser.events if it.get("method") == "Network.requestWillBeSent"}
        same("from a server one file is asked for", {it for it in asked if it.startswith("http")}, {address})
        server.shutdown()
    browser.events.clear()


def check_without_module():
    """The same page without the program in it: it has no answer."""
    global page
    whole = page
    with tempfile.TemporaryDirectory() as folder:
        page = f"{folder}/play.html"
        with open(whole, encoding="utf-8") as given, open(page, "w", encoding="utf-8") as made:
            made.write(re.sub(r'(<script type="text/plain" id="wasm">)[^<]*', r"\1", given.read()))
        browser.open(f"file://{page}")
        for view in VIEWS:
            value(f"document.querySelector('#views [data-view={view}]').click()")
            time.sleep(0.2)
            hold(f"without the program {view} shows nothing", not value("document.querySelector('#result .command, #result .printed, #result iframe')?.textContent"))
        hold("and says so", "cannot run the program" in value("document.getElementById('state').textContent"))
        browser.events.clear()
    page = whole


def take_shots():
    looks = [("1366", 1366, 768, 1, False, "light"), ("1920", 1920, 1080, 1, False, "light"), ("dark", 1920, 1080, 1, False, "dark"), ("3840", 3840, 2160, 1, False, "light"), ("1024", 1024, 700, 1, False, "light"), ("phone", 390, 844, 2, True, "light")]
    for name, width, height, scale, is_phone, scheme in looks:
        browser.call("Emulation.setDeviceMetricsOverride", width=width, height=height, deviceScaleFactor=scale, mobile=is_phone)
        browser.media(prefers_color_scheme=scheme)
        open_page()
        shoot(f"{name}-welcome")
        for view in VIEWS:
            ask(view)
            shoot(f"{name}-{view}")
            wide = value("document.documentElement.scrollWidth > document.documentElement.clientWidth")
            hold(f"{name} {view}: no sideways scrolling", not wide)
        example("bank.tm")
        ask("explore")
        shoot(f"{name}-explore-bank")
        value("document.getElementById('examples-button').click()")
        shoot(f"{name}-examples")
        value("document.getElementById('examples').close(); document.getElementById('help-button').click()")
        shoot(f"{name}-help")
        value("document.getElementById('help').close()")
    browser.call("Emulation.setDeviceMetricsOverride", width=1366, height=768, deviceScaleFactor=1, mobile=False)
    browser.media(prefers_color_scheme="light")


def check_quiet():
    logged = [it for it in browser.events if it.get("method") in ("Log.entryAdded", "Runtime.exceptionThrown", "Runtime.consoleAPICalled")]
    hold("nothing is logged", not logged, logged[:3])
    fetched = {it["params"]["request"]["url"].split(":")[0] for it in browser.events if it.get("method") == "Network.requestWillBeSent"}
    hold("nothing is fetched", fetched <= {"file", "blob", "data"}, fetched)
    files = {it["params"]["request"]["url"].split("#")[0] for it in browser.events if it.get("method") == "Network.requestWillBeSent" and it["params"]["request"]["url"].startswith("file")}
    hold("no other file", files <= {f"file://{page}"}, files)


if shots:
    os.makedirs(shots, exist_ok=True)
browser.size(1366, 768)
open_page()
CHECKS = (check_programs, check_orders, check_examples, check_named, check_editor, check_keys, check_keys_alone, check_link, check_files, check_haste, check_stop, check_long, check_events, check_server, check_without_module, take_shots)
for check in [it for it in CHECKS if not sys.argv[4:] or it.__name__ in sys.argv[4:]]:
    check()
    check_quiet()
    print(f"{check.__name__}: {held} held, {len(failed)} failed", flush=True)
browser.close()
sys.exit(1 if failed else 0)
