"""tries.py [PROGRAM]: tries the kit of examples/bytes. With a PROGRAM also that the kit's runs are what it prints, and random programs.

The runs have each kind of messages, both sizes of pages, repeats and collections; the example of a node makes each of them, behind standard input
and output; it decodes each line of faults as it should. The player notices a byte turned in each kind of messages, and each other difference.
"""
import contextlib
import io
import json
import os
import re
import shlex
import subprocess
import sys
import tempfile

TOP = os.path.dirname(os.path.dirname(os.path.dirname(os.path.realpath(__file__))))
KIT = os.path.join(TOP, "examples/bytes")
sys.path.insert(0, KIT)

import messages  # noqa: E402
import node  # noqa: E402
import player  # noqa: E402
import program as language  # noqa: E402
import programs  # noqa: E402

RUNS = os.path.join(KIT, "runs")
PYTHON = [sys.executable, "-B"]
COUNT = 100
failures = []


def hold(what, holds, said=""):
    if not holds:
        failures.append(what)
        print(f"bytes: {what}: does not hold\n{said}")


def read(*names):
    with open(os.path.join(*names), encoding="ascii") as text:
        return text.read()


class Local:
    """The example of a node in this process, as the player speaks to a foreign one."""

    def __init__(self, text, words, me):
        said = dict(zip(words[::2], map(int, words[1::2])))
        options = {"page_size": said["--page"], "collect": said.get("--collect", 0), "steps": said.get("--steps", 1_000_000)}
        self.node = node.Node(language.Parser(text), me, said["--nodes"], **options)

    def answer(self, line):
        return node.answer(self.node, line)

    def end(self):
        pass


def difference(play):
    """What the player tells of a difference; nothing where there is none."""
    try:
        play()
    except player.Difference as why:
        return str(why)
    return ""


def player_says(*words):
    done = subprocess.run([*PYTHON, os.path.join(KIT, "player.py"), *words], stdout=subprocess.PIPE, stderr=subprocess.STDOUT, text=True)
    return done.returncode, done.stdout


def node_words(file, words):
    return [*PYTHON, os.path.join(KIT, "node.py"), file, *words, "--node", "{node}"]


class Run:
    """A run of the kit."""

    def __init__(self, name):
        self.name, self.text, self.words = name, read(RUNS, f"{name}.tm"), read(RUNS, f"{name}.words").split()
        self.turns = player.turns_of(os.path.join(RUNS, f"{name}.bytes"))

    def local(self, me):
        return Local(self.text, self.words, me)

    def command(self):
        return node_words(os.path.join(RUNS, f"{self.name}.tm"), self.words)


class Seen:
    """What a list of runs has."""

    def __init__(self):
        self.kinds, self.sizes, self.repeats, self.turns = set(), set(), 0, 0

    def add(self, turns, words):
        self.sizes.add(words[words.index("--page") + 1])
        self.turns += len(turns)
        for turn in turns:
            self.repeats += turn["again"]
            self.kinds |= {int(it["bytes"][2:4], 16) for it in turn["sends"]}

    def hold_all(self, what):
        missing = set(range(1, 12)) - self.kinds
        hold(f"{what}: each kind of messages, both sizes of pages, repeats", not missing and self.sizes == {"64", "256"} and self.repeats, f"without {missing}")


def try_runs(runs):
    """Each run of the kit, each node in a process of its own."""
    seen = Seen()
    for run in runs:
        seen.add(run.turns, run.words)
        status, said = player_says(os.path.join(RUNS, f"{run.name}.bytes"), *run.command())
        hold(f"{run.name}: the example makes this run", status == 0, said)
        known = {f"{run.name}.{kind}" for kind in ("tm", "words", "events", "bytes")}
        hold(f"{run.name}: all its files", known <= set(os.listdir(RUNS)))
        hold(f"{run.name}: README.md names it", f"| `{run.name}` |" in read(KIT, "README.md"))
    seen.hold_all("the kit's runs")
    print(f"bytes: {len(runs)} runs of {seen.turns} turns played to the example")


def try_faults():
    """The faults, and decoders that answer wrongly."""
    status, said = player_says("--faults", os.path.join(KIT, "faults"), *PYTHON, os.path.join(KIT, "node.py"), "--decode")
    hold("the example finds each fault", status == 0, said)
    print(f"bytes: {said.replace(KIT + os.sep, '').strip()}")
    found = {it for _, it, _ in player.faults_in(os.path.join(KIT, "faults"))}
    names = {f"fault {it}" for it in "Short Long BadVersion BadKind BadNode BadCount NotAscending".split()}
    hold("there are lines of each fault, and of none", found == names | {"ok"}, str(found))
    for one in sorted(found):
        wrong = "fault Long" if one == "ok" else "ok"
        decoder = f"import sys\nfor line in sys.stdin: print({wrong!r}, '.', sep='\\n', flush=True)"
        with contextlib.redirect_stdout(io.StringIO()):
            noticed = not player.try_faults(os.path.join(KIT, "faults"), [*PYTHON, "-c", decoder])
        hold(f"a decoder that says {wrong} of all is noticed", noticed)


def try_readme():
    """What README.md shows: commands that find no difference, one with what it prints, and a conversation with node 1 of `lock`."""
    text = read(KIT, "README.md")
    shown, commands = re.findall(r"^    \$ (python3 .*)\n((?:    (?!\$).*\n)+)", text, re.M), re.findall(r"^    (python3 .*)$", text, re.M)
    for command, awaited in [*shown, *((it, None) for it in commands)]:
        words = f"PATH={shlex.quote(os.path.dirname(sys.executable))}:$PATH; {command}"
        done = subprocess.run(["sh", "-c", words], cwd=KIT, stdout=subprocess.PIPE, stderr=subprocess.STDOUT, text=True)
        wanted = re.sub("^    ", "", awaited, flags=re.M) if awaited else done.stdout
        hold(f"README.md: {command}", done.stdout == wanted and done.returncode == (1 if awaited else 0), done.stdout)
    talk = re.search(r"(?:^    [>.sa].*\n)+", text[text.index("> run") - 4 :], re.M)[0]
    said, one = [], Local(read(RUNS, "lock.tm"), read(RUNS, "lock.words").split(), 1)
    for line in re.findall(r"> (.*)", talk):
        said += [f"> {line}", *one.answer(line), "."]
    hold("README.md: the conversation", said == [it[4:] for it in talk.splitlines()], "\n".join(said))
    hold("README.md: there are commands and one that shows what it prints", len(commands) >= 4 and len(shown) == 1)


def turned(data, at):
    """Bytes in hexadecimal, with one turned."""
    byte = int(data[2 * at : 2 * at + 2], 16) ^ 1
    return f"{data[:2 * at]}{byte:02x}{data[2 * at + 2:]}"


def places(size):
    """Where a byte is turned: everywhere in a short message, and in a long one in some places."""
    return range(size) if size <= 80 else [*range(40), *range(40, size - 20, 61), *range(size - 20, size)]


def with_send(turns, at, place, data):
    """Turns with other bytes in one of the messages that one of them sends. What follows in the run stays."""
    turn = turns[at]
    sends = [{**it, "bytes": data} if k == place else it for k, it in enumerate(turn["sends"])]
    return [*turns[:at], {**turn, "sends": sends}, *turns[at + 1 :]]


def first_of_each_kind(runs):
    """Of each kind of messages the first that is sent: its run, turn and place."""
    found = {}
    for run in runs:
        for at, turn in enumerate(run.turns):
            for place, sent in enumerate(turn["sends"]):
                found.setdefault(int(sent["bytes"][2:4], 16), (run, at, place))
    return sorted(found.items())


def try_turned_bytes(runs):
    count = 0
    for kind, (run, at, place) in first_of_each_kind(runs):
        me, data = run.turns[at]["node"], run.turns[at]["sends"][place]["bytes"]
        for byte in places(len(data) // 2):
            turns = with_send(run.turns[: at + 1], at, place, turned(data, byte))
            said = difference(lambda: player.play(turns, me, run.local(me)))
            hold(f"a turned byte {byte} of kind {kind} is noticed", said.startswith(f"turn {at}, node {me}:"), said)
            count += 1
        # once more behind standard input and output, the whole run
        with tempfile.NamedTemporaryFile("w", suffix=".bytes") as file:
            for turn in with_send(run.turns, at, place, turned(data, len(data) // 2 - 1)):
                file.write(json.dumps(turn) + "\n")
            file.flush()
            status, said = player_says(file.name, "--node", str(me), *run.command())
            hold(f"a turned last byte of kind {kind} is noticed", status == 1 and f"turn {at}, node {me}:" in said and f"byte {len(data) // 2 - 1}," in said, said)
    print(f"bytes: {count} turned bytes noticed in 11 kinds of messages")


class Wrong(Local):
    """The example, but one of its answers is another one."""

    def __init__(self, run, me, at, change):
        super().__init__(run.text, run.words, me)
        self.at, self.change = at, change

    def answer(self, line):
        self.at -= 1
        found = super().answer(line)
        return self.change(found) if self.at == -1 else found


WRONG = {
    "no act": lambda it: it[1:],
    "another act": lambda it: [it[0] + "0", *it[1:]],
    "a line more": lambda it: [*it, "act quiet"],
    "a line less": lambda it: it[:-1],
    "lines in another order": lambda it: it[::-1],
    "another receiver": lambda it: [line.replace("send 1", "send 2") for line in it],
    "nothing": lambda it: [],
}


def try_wrong_answers(run):
    """At the turn that sends the most: node 0's with the last arrival. An act stands in a turn after that."""
    mine = [it for it in run.turns if it["node"] == 0]
    sending = max(range(len(mine)), key=lambda it: len(mine[it]["sends"]))
    acting = next(it for it in range(sending, len(mine)) if mine[it]["act"] and mine[it]["act"]["deed"].startswith("read"))
    for what, change in WRONG.items():
        at = acting if what.endswith(" act") else sending
        said = difference(lambda: player.play(run.turns, 0, Wrong(run, 0, at, change)))
        hold(f"{what} is noticed", said.startswith(f"turn {mine[at]['turn']}, node 0"), said)


def try_wrong_processes(run):
    """Nodes that end too early, say too much or say nothing, behind standard input and output."""
    patience = player.PATIENCE
    example = " ".join(it.replace("{node}", "0") for it in run.command())
    for what, command, told in (
        ("a node that ends at once", ["true"], "then it ended"),
        ("a node that says nothing", ["sleep", "60"], "no line came"),
        ("a node that says more in the end", ["sh", "-c", f"{example}; echo act quiet"], "after the last turn"),
        ("a node that ends before the last turn", ["sh", "-c", f"sed -u 3q | {example}"], "then it ended"),
        ("a node whose lines end as on Windows", ["sh", "-c", f"{example} | sed -u 's/$/\\r/'"], ""),
    ):
        player.PATIENCE = 2 if command[0] == "sleep" else patience
        foreign = player.Foreign(command)
        said = difference(lambda: player.play(run.turns, 0, foreign))
        foreign.kill()
        hold(f"{what}: {told or 'is accepted'}", told in said if told else not said, said)
    player.PATIENCE = patience
    print("bytes: wrong answers noticed, and nodes that end, say nothing or say too much")


def traced(program, file, words):
    done = subprocess.run([program, "trace", file, *words, "--as", "bytes"], cwd=RUNS, stdout=subprocess.PIPE, stderr=subprocess.PIPE, text=True)
    return done.stdout, done.stderr


def try_program(program, runs):
    """That the runs of the kit are what the program prints."""
    for run in runs:
        came, said = traced(program, f"{run.name}.tm", [*run.words, "--events", f"{run.name}.events"])
        hold(f"{run.name}.bytes is what the program prints", came == read(RUNS, f"{run.name}.bytes") and not said, said)


def try_random(program):
    """Random programs that no file has, each node played; of every tenth run each in a process of its own."""
    seen = Seen()
    with tempfile.TemporaryDirectory() as folder:
        file, kept = os.path.join(folder, "random.tm"), os.path.join(folder, "random.bytes")
        for seed in range(COUNT):
            text, words, order = programs.program(seed)
            with open(file, "w", encoding="ascii") as it:
                it.write(text)
            came, said = traced(program, file, [*words, *order])
            turns = [json.loads(it) for it in came.splitlines()]
            seen.add(turns, words)
            for me in range(int(words[1])):
                said = said or difference(lambda: player.play(turns, me, Local(text, words, me)))
            if seed % 10 == 0 and not said:
                with open(kept, "w", encoding="ascii") as it:
                    it.write(came)
                status, said = player_says(kept, *node_words(file, words))
                said = said if status else ""
            hold(f"random program {seed}", turns and not said, f"{said}\n{' '.join(words + order)}\n{text}")
    seen.hold_all("the random programs")
    print(f"bytes: {COUNT} random programs with {seen.turns} turns, {seen.repeats} of them repeats")


def main():
    runs = [Run(it.removesuffix(".tm")) for it in sorted(os.listdir(RUNS)) if it.endswith(".tm")]
    try_runs(runs)
    try_faults()
    try_readme()
    try_turned_bytes(runs)
    meeting = next(it for it in runs if it.name == "meeting")
    try_wrong_answers(meeting)
    try_wrong_processes(meeting)
    if sys.argv[1:]:
        try_program(sys.argv[1], runs)
        try_random(sys.argv[1])
    else:
        print("bytes: there is no stored program of these sources: random programs, and that the runs are what it prints, wait for one")
    print(f"bytes: {len(failures)} faults")
    return 1 if failures else 0


sys.exit(main())
