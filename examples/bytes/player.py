#!/usr/bin/env python3
"""Tries a node of your own: plays the turns of a run to it, and compares what it does with what the run's node did.

    player.py RUN.bytes [--node N] COMMAND WORDS..
    player.py --faults FOLDER COMMAND WORDS..

RUN.bytes is what `trace FILE .. --as bytes` prints, the whole of a run. COMMAND and its words begin your node; `{node}` in them becomes the
node's number. Without --node the nodes of the run are tried one after another, each alone, with a command of its own. What else your
node must know (the program, how many nodes there are, options) is for you to say in the words.

For each turn your node gets one line on its standard input:

    run          go on by yourself
    take HEX     take the message with these bytes

It answers on its standard output, flushed, with these lines in this order:

    act DEED     if the turn makes an act: its deed, as in the run
    send Q HEX   for each message that it sends, in the order of sending: the receiver and the bytes
    .            the turn is over

A message that comes again is answered with `.` alone. At the first difference the player says what was expected and what came, and stops
with status 1. Status 0: no difference.

With --faults your node gets lines `decode HEX`, for each line of the files in FOLDER; HEX may be missing, which is no byte at all. It answers
`ok` where the bytes are a message, else `fault NAME`, and then `.`. All wrong answers are told.
"""
import argparse
import json
import os
import queue
import subprocess
import sys
import threading

sys.dont_write_bytecode = True  # a folder of examples stays as it is

import messages  # noqa: E402

# How long a node may take for one turn, in seconds.
PATIENCE = 20


class Difference(Exception):
    """What was expected, and what came in its place."""


class Foreign:
    """A node behind standard input and output."""

    def __init__(self, command):
        try:
            self.process = subprocess.Popen(command, stdin=subprocess.PIPE, stdout=subprocess.PIPE)
        except OSError as why:
            raise SystemExit(f"player: {command[0]}: {why.strerror}")
        self.lines = queue.Queue()
        threading.Thread(target=self.read, daemon=True).start()

    def read(self):
        for line in self.process.stdout:
            self.lines.put(line.decode("latin-1").rstrip("\r\n"))
        self.lines.put(None)

    def next(self):
        """Its next line; None where it has ended."""
        try:
            return self.lines.get(timeout=PATIENCE)
        except queue.Empty:
            raise Difference(f"no line came within {PATIENCE} seconds")

    def answer(self, line):
        """Its lines up to the `.`, which is dropped."""
        try:
            self.process.stdin.write(line.encode() + b"\n")
            self.process.stdin.flush()
        except OSError:
            pass  # it has ended, which its output tells
        found = []
        while (it := self.next()) != ".":
            if it is None:
                raise Difference(f"{shown(found)}, and then it ended")
            found.append(it)
        return found

    def end(self):
        """Closes its input, at which it ends and has nothing more to say."""
        self.process.stdin.close()
        try:
            rest = self.next()
        except Difference:
            raise Difference("it does not end when its input does")
        if rest is not None:
            raise Difference(f"after the last turn:{shown([rest])}")

    def kill(self):
        self.process.kill()
        self.process.wait()


def in_words(line):
    """A line, with its message in words."""
    word, _, data = line.rpartition(" ")
    if not word.startswith(("send ", "take")):
        return line
    try:
        return f"{line}\n      which is {messages.decode(bytes.fromhex(data)).message}"
    except messages.Fault as fault:
        return f"{line}\n      which is no message: {fault}"
    except ValueError:
        return f"{line}\n      which is no bytes"


def shown(lines):
    return "".join(f"\n    {in_words(it)}" for it in lines) or "\n    nothing"


def first_difference(expected, came):
    """Where two lists of lines differ first, in words."""
    for one, other in zip(expected, came):
        if one != other:
            if one.rpartition(" ")[0] != other.rpartition(" ")[0] or not one.startswith("send "):
                return ""
            one, other = one.split()[-1], other.split()[-1]
            at = next((it for it in range(0, min(len(one), len(other)), 2) if one[it : it + 2] != other[it : it + 2]), None)
            if at is None:
                return f"\n  one has {len(one) // 2} bytes, the other {len(other) // 2}"
            return f"\n  byte {at // 2}, counted from 0, is to be {one[at : at + 2]} and is {other[at : at + 2]}"
    return ""


def asked(turn):
    """The line that a node gets for a turn."""
    return f"take {turn['take']['bytes']}" if turn["take"] else "run"


def expected(turn):
    """The lines that it answers with."""
    act = [f"act {turn['act']['deed']}"] if turn["act"] else []
    return act + [f"send {it['to']} {it['bytes']}" for it in turn["sends"]]


def turns_of(path):
    with open(path, encoding="ascii") as lines:
        return [json.loads(it) for it in lines]


def play(turns, node, foreign):
    """Plays a node's turns. Raises the first `Difference`; the answer is how many turns there were."""
    count = 0
    for turn in turns:
        if turn["node"] != node:
            continue
        count += 1
        line, awaited = asked(turn), expected(turn)
        try:
            came = foreign.answer(line)
            if came != awaited:
                raise Difference(shown(came) + first_difference(awaited, came))
        except Difference as why:
            again = ", a repeat" if turn["again"] else ""
            raise Difference(f"turn {turn['turn']}, node {node}{again}:\n    {in_words(line)}\n  expected:{shown(awaited)}\n  came:{why}")
    foreign.end()
    return count


def try_node(path, turns, node, command):
    foreign = Foreign([it.replace("{node}", str(node)) for it in command])
    try:
        print(f"{path}: node {node}: {play(turns, node, foreign)} turns, no difference")
        return True
    except Difference as why:
        print(f"{path}: {why}")
        return False
    finally:
        foreign.kill()


def faults_in(folder):
    """Of each line of the files NAME.txt: the bytes, the answer (`none.txt` has messages), and what it is."""
    for name in sorted(os.listdir(folder)):
        fault = name.removesuffix(".txt")
        if fault == name:
            continue
        with open(os.path.join(folder, name), encoding="ascii") as lines:
            for line in lines:
                if not line.startswith("#"):
                    data, _, what = line.partition(" # ")
                    yield data.strip(), "ok" if fault == "none" else f"fault {fault}", what.strip()


def try_faults(folder, command):
    foreign, wrong, count, what = Foreign(command), 0, 0, ""
    try:
        for data, awaited, what in faults_in(folder):
            count += 1
            came = foreign.answer(f"decode {data}".rstrip())
            if came != [awaited]:
                wrong += 1
                print(f"{what}:\n    {data}\n  expected:\n    {awaited}\n  came:{shown(came)}")
        foreign.end()
    except Difference as why:
        print(f"line {count}, {what}: {why}")
        return False
    finally:
        foreign.kill()
    print(f"{folder}: {count} lines, {wrong or 'no'} wrong")
    return wrong == 0


def main():
    words = argparse.ArgumentParser(usage="player.py RUN.bytes [--node N] COMMAND WORDS..  |  player.py --faults FOLDER COMMAND WORDS..")
    words.add_argument("--node", type=int)
    words.add_argument("--faults", metavar="FOLDER")
    words.add_argument("words", nargs=argparse.REMAINDER)
    chosen = words.parse_args()
    rest = chosen.words
    if chosen.faults:
        if not rest:
            words.error("a command is missing")
        return 0 if try_faults(chosen.faults, rest) else 1
    path, rest = (rest[0], rest[1:]) if rest else words.error("a run is missing")
    if rest[:1] == ["--node"]:
        chosen.node, rest = int(rest[1]), rest[2:]
    if not rest:
        words.error("a command is missing")
    try:
        turns = turns_of(path)
        nodes = sorted({it["node"] for it in turns})
    except (OSError, ValueError, KeyError, TypeError) as why:
        raise SystemExit(f"player: {path} is no run, as `trace FILE .. --as bytes` prints it: {why}")
    if chosen.node is not None:
        nodes = [it for it in nodes if it == chosen.node]
    if not nodes:
        raise SystemExit(f"player: {path} has no turn of such a node")
    return 0 if all([try_node(path, turns, node, rest) for node in nodes]) else 1


if __name__ == "__main__":
    sys.exit(main())
