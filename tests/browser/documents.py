"""The documents that are looked at: made by the program, or of lines that are there, in the frame as it stands in the sources."""

import json
import re
import subprocess
from pathlib import Path

TOP = Path(__file__).resolve().parent.parent.parent
EXAMPLES = TOP / "examples"
STEPS = TOP / "docs" / "steps"
DATA = re.compile(rb'<script type="application/json" id="run">\n(.*?)</script>', re.S)

# Each by the words of the command, without `step`; {E} is the directory of the examples, {S} that of the pages in the documents, {T} one for programs
# that stand here.
WORDS = {
    "late": "{E}/late.tm --nodes 2 --events {E}/late.events",
    "late_part": "{E}/late.tm --nodes 2 --events {E}/late.events --from 6 --to 9",
    "front_part": "{E}/late.tm --nodes 2 --events {E}/late.events --to 4",
    "counter": "{E}/counter.tm --nodes 4",
    "sixteen_part": "{E}/counter.tm --nodes 16 --from 56 --to 66",
    "collecting": "{E}/collecting.tm --nodes 3 --collect 3",
    "store_buffering": "{E}/litmus/store_buffering.tm --nodes 2",
    "deadlock": "{S}/deadlock.tm --nodes 2",
    "traps": "{E}/traps.tm --nodes 3",
    "philosophers": "{S}/philosophers.tm --events {S}/philosophers.events",
    "jacobi": "{S}/jacobi.tm --nodes 4",
    "jacobi_eight": "{S}/jacobi.tm --nodes 8",
    "grids_part": "{E}/named/jacobi.tm --from 250 --to 700",
    "grids_eight_part": "{E}/named/jacobi.tm --nodes 8 --from 250 --to 500",
    "tours_part": "{E}/named/branch_bound.tm --nodes 3 --from 150 --to 450",
    "sort_part": "{E}/named/sort.tm --from 150 --to 450",
    "product_part": "{E}/named/matrix.tm --from 100 --to 400",
    "arrays": "{T}/arrays.tm",
    "line": "{T}/line.tm",
}

# Arrays of one, two and three sizes, 65,536 words; and one of 65,536 on 16 nodes.
PROGRAMS = {
    "arrays.tm": """nodes 4;
const SIDE = 32;
shared cube[SIDE][SIDE][SIDE], line[16384], plane[128][96], hash[4096];
for i in 0..6 {
    cube[i][me * 8][i * 5] = 100 * i + me;
    line[me * 4096 + i * 700] = i + 1;
    plane[i * 20 + me][i * 18 + me] = 7;
    hash[me * 1000 + i] = 18446744073709551615 - i;
}
barrier;
x = cube[3][0][15];
print x;
""",
    "line.tm": """nodes 16;
shared line[65536];
for i in 0..4 { line[me * 4096 + i] = i + 1; }
barrier;
x = line[65535 - me];
print x;
""",
}

# A run of 417 turns.
LONG = "{E}/counter.tm --nodes 12"

HOSTILE_NAME = "<b>&amp;'\"\\.tm"
HOSTILE_COMMENT = b"# </script><script>document.title = 'evil'</script> <!-- & \" \\ \xe2\x80\xa8 \xc3\xbc \xff\xe2 \x01 \t|\n"
HOSTILE_PROGRAM = b"words 2;\nlocks 0;\n[1 - me] = 18446744073709551615;\nx = [me];\nprint x;\n"

LARGE_PROGRAM = "words 65536;\nlocks 0;\nwhile 1 {\n  [x * 16 + me] = x;\n  x = x + 1;\n}\n"


def words_of(command, folder=Path()):
    return [word.replace("{E}", str(EXAMPLES)).replace("{S}", str(STEPS)).replace("{T}", str(folder)) for word in command.split()]


class Program:
    """The program of `./run`, or another one."""

    def __init__(self, folder, program):
        self.folder, self.program = folder, program
        for name, text in PROGRAMS.items():
            (folder / name).write_text(text)

    def document(self, name):
        return self.step(words_of(WORDS[name], self.folder))

    def step(self, words):
        done = subprocess.run([self.program, "step", *words], capture_output=True)
        if done.returncode not in (0, 3, 4):
            raise SystemExit(f"step {words}: status {done.returncode}, {done.stderr.decode(errors='replace')}")
        return done.stdout

    def past_the_end(self):
        """No turn, and the states in the end."""
        return self.step([str(EXAMPLES / "late.tm"), "--nodes", "2", "--from", "1000"])

    def long(self):
        return self.step(words_of(LONG))

    def hostile(self):
        file = self.folder / HOSTILE_NAME
        file.write_bytes(HOSTILE_COMMENT + HOSTILE_PROGRAM)
        return self.step([str(file), "--nodes", "2"])

    def large(self):
        """2,000 turns of 16 nodes, each of which writes words of its own."""
        file = self.folder / "large.tm"
        file.write_text(LARGE_PROGRAM)
        return self.step([str(file), "--nodes", "16", "--steps", "375", "--to", "1999"])


class Lines:
    """Lines that are there."""

    def __init__(self, directory):
        self.directory = directory

    def lines(self, name):
        return self.front() if name == "front_part" else (self.directory / f"{name}.jsonl").read_bytes()

    def front(self):
        """The lines of late up to turn 4, of which no act races with another of them."""
        lines = [json.loads(line) for line in self.lines("late").splitlines()]
        kept = [line | {"pairs": []} if "race" in line else line for line in lines if line.get("turn", 0) <= 4 and line.get("why", 0) <= 4]
        return "\n".join(json.dumps(line, separators=(",", ":")) for line in kept).encode()

    def document(self, name):
        return document_of(self.lines(name))

    def hostile(self):
        """The lines of store buffering with another name and text, and with a value of 64 bits."""
        lines = self.lines("store_buffering").replace(b'"1":"1"', b'"1":"18446744073709551615"').split(b"\n", 1)[1]
        text = (HOSTILE_COMMENT + HOSTILE_PROGRAM).decode(errors="surrogateescape")
        head = json.dumps({"program": HOSTILE_NAME, "text": text}, ensure_ascii=False).encode(errors="surrogateescape")
        return document_of(head + b"\n" + lines)

    def large(self):
        state = {"time": [0] * 16, "open": 1, "waits": "no", "needs": [], "at": 3, "names": {}, "locks": [], "episode": 0, "manager": None,
                 "pages": [], "intervals": [], "collected": [0] * 16, "sent": [0] * 16, "taken": [0] * 16}
        lines = [{"program": "large.tm", "text": LARGE_PROGRAM},
                 {"nodes": 16, "words": 65536, "locks": 0, "page": 64, "labels": [], "flight": [], "states": [state] * 16, "written": [],
                  "flying": [], "stand": [{"kind": "no"}] * 16}]
        pages = [[] for _ in range(16)]
        for turn in range(2000):
            node, word = turn % 16, turn * 521 % 65536
            pages[node].append({"page": word // 64, "copy": "written", "words": {str(word): "7"}, "twin": {}, "since": None, "lacks": [],
                                "keeper": 0, "base": None})
            act = {"position": turn, "deed": f"write {word} 7", "line": 4, "interval": 1}
            after = state | {"pages": sorted(pages[node], key=lambda page: page["page"])}
            parts = {"by": {"kind": "run", "of": node}, "done": {"kind": "write", "word": word, "value": "7"}, "took": None, "sent": [],
                     "stands": {"kind": "no"}}
            lines.append({"turn": turn, "event": f"run {node}", "node": node, "take": None, "again": False, "act": act, "sends": [], "state": after}
                         | parts)
        return document_of("\n".join(json.dumps(line, separators=(",", ":")) for line in lines).encode())


def constant(file, name):
    """A constant of bytes, as it stands in a source."""
    source = (TOP / "crates" / "lrc_step" / "src" / file).read_text()
    return re.search(rf'pub const {name}: &\[u8\] = br##"(.*?)"##;', source, re.S)[1].encode()


def document_of(lines):
    """In JSON the three signs of markup stand in texts alone, so they may be spelled there."""
    for sign, spelled in {b"<": b"\\u003c", b">": b"\\u003e", b"&": b"\\u0026"}.items():
        lines = lines.replace(sign, spelled)
    return constant("frame.rt", "OPENING") + lines.removesuffix(b"\n") + b"\n" + constant("script.rt", "CLOSING")


def lines_of(document):
    """The lines that stand in a document."""
    return [json.loads(line) for line in DATA.search(document)[1].decode(errors="replace").strip("\n").split("\n")]
