#!/usr/bin/env python3
"""stored.py: `./run --stored-page` fails of a stored page that is damaged, or that says that it is of these sources and is not, and tells of one that is
outdated. Tried on a copy of the sources, with a page around something that stands for the program: one byte changed in the page, in the script, and
in each entry of the list of sums; lists and pages that were made to fit one another; sources, programs and files of play/ that have changed since."""
import hashlib
import re
import shutil
import subprocess
import sys
import tempfile
from pathlib import Path

TOP = Path(__file__).resolve().parent.parent.parent
WHOLE, OUTDATED, DAMAGED = 0, 1, 2


def sum_of(data):
    return hashlib.sha256(data).hexdigest()


def run(top, *words):
    return subprocess.run([top / "run", *words], stdout=subprocess.PIPE, stderr=subprocess.STDOUT, text=True)


def copied(top):
    for name in ("run", "crates.txt"):
        shutil.copy2(TOP / name, top)
    for name in ("play", "examples"):
        shutil.copytree(TOP / name, top / name)
    shutil.copytree(TOP / "crates", top / "crates", ignore=shutil.ignore_patterns("out"))
    (top / "bin").mkdir()
    program, bitcode = b"a program", b"its bitcode"
    (top / "bin/treadmarks-x86_64-linux").write_bytes(program)
    (top / "bin/treadmarks.bc.xz").write_bytes(bitcode)
    sums = f"sources {run(top, '--sum').stdout.strip()}\ntoolchain some\nprogram {sum_of(program)}\nbitcode {sum_of(bitcode)}\n"
    (top / "bin/treadmarks-x86_64-linux.sums").write_text(sums)


def made(top):
    """The page and the script, as play/build makes them, and their list."""
    (top / "module").write_bytes(b"a module")
    (top / "says").write_text(run(top, "--page-says").stdout)
    subprocess.run([top / "play/assemble", top / "module", top / "says", top / "play"], check=True)
    (top / "play/play.sums").write_text(run(top, "--page-sums").stdout)


def flipped(text, at):
    """With another letter there, of the same kind."""
    return text[:at] + ("1" if text[at] == "0" else "0" if text[at].isdigit() else "b" if text[at] == "a" else "a") + text[at + 1:]


def refitted(sums, **entries):
    """A list with other entries, and with a last line that fits it."""
    lines = sums.splitlines()[:-1]
    for name, value in entries.items():
        lines = [f"{name} {value}" if line.startswith(f"{name} ") else line for line in lines]
    text = "".join(f"{line}\n" for line in lines)
    return f"{text}list {sum_of(text.encode())}\n"


class Copy:
    def __init__(self, top):
        self.top, self.failed, self.tried = top, 0, 0

    def read(self, name):
        return (self.top / name).read_text(encoding="utf-8")

    def tries(self, what, expected, changed):
        """What is said with these files changed, which are then as they were."""
        before = {name: (self.top / name).read_bytes() for name in changed}
        for name, text in changed.items():
            (self.top / name).write_text(text, encoding="utf-8")
        done = run(self.top, "--stored-page")
        self.tried += 1
        if done.returncode != expected:
            self.failed += 1
            print(f"FAILS: {what}: status {done.returncode} in place of {expected}: {done.stdout.strip()}", flush=True)
        for name, data in before.items():
            (self.top / name).write_bytes(data)


def tries_all(copy):
    page, script, sums = map(copy.read, ("play/play.html", "play/treadmarks.js", "play/play.sums"))
    copy.tries("as it is", WHOLE, {})
    for name, text in (("play/play.html", page), ("play/treadmarks.js", script)):
        for at in (100, len(text) // 2, len(text) - 20):
            copy.tries(f"{name} at {at}", DAMAGED, {name: flipped(text, at)})
    at = 0
    for line in sums.splitlines(keepends=True):
        sum_at = re.search(r"[0-9a-f]{64}", line).start() + 7
        copy.tries(f"entry {line.strip()}", DAMAGED, {"play/play.sums": flipped(sums, at + sum_at)})
        at += len(line)
    # What fits its list, and is still none of these sources.
    other = page.replace("A small program", "A large program", 1)
    copy.tries("another page with a list for it", DAMAGED, {"play/play.html": other, "play/play.sums": refitted(sums, page=sum_of(other.encode()))})
    own = re.search(r"^sources ([0-9a-f]{64})$", sums, re.M)[1]
    bitcode = re.search(r"^bitcode ([0-9a-f]{64})$", sums, re.M)[1]
    for what, was in (("sources", own), ("bitcode", bitcode)):
        now = flipped(was, 5)
        copy.tries(f"a list of other {what} than the page", DAMAGED, {"play/play.sums": refitted(sums, **{what: now})})
        texts = {"play/play.html": page.replace(was, now), "play/treadmarks.js": script.replace(was, now)}
        fitted = refitted(sums, **{what: now}, page=sum_of(texts["play/play.html"].encode()), script=sum_of(texts["play/treadmarks.js"].encode()))
        copy.tries(f"all of other {what}", OUTDATED if what == "sources" else DAMAGED, {**texts, "play/play.sums": fitted})
    module = re.search(r'id="wasm">(\S*)<', page)[1]
    torn = page.replace(module, flipped(module, 30))
    copy.tries("another module in the page alone", DAMAGED, {"play/play.html": torn, "play/play.sums": refitted(sums, page=sum_of(torn.encode()))})
    # What is older than its sources.
    copy.tries("a changed source", OUTDATED, {"crates/treadmarks/src/main.rt": copy.read("crates/treadmarks/src/main.rt") + "// more\n"})
    copy.tries("a changed example", OUTDATED, {"examples/late.tm": copy.read("examples/late.tm") + "# more\n"})
    copy.tries("a changed file of the page", OUTDATED, {"play/page/main.js": copy.read("play/page/main.js") + "// more\n"})


def main():
    with tempfile.TemporaryDirectory() as name:
        top = Path(name)
        copied(top)
        made(top)
        copy = Copy(top)
        tries_all(copy)
    print(f"stored: {copy.tried} tried, {copy.failed} failed")
    return 1 if copy.failed else 0


if __name__ == "__main__":
    sys.exit(main())
