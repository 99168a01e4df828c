#!/usr/bin/env python3
"""costs.py PROGRAM SCRIPT FOLDER [ROUNDS]: what the script of play/ costs in node beside the program, by `sim`, on the programs of FOLDER whose text has
a line `# args: OPTIONS`.

Time: processor seconds, the start of node included, the least of some rounds in which both are played by turns; of the script that of its own thread,
and of all. Memory: what the program has asked for at most (asked.c), and what the module has beyond that with which it begins. Status 0 where the
script's own thread takes at most 2.5 times the program's time, all together, and the memory is at most a fifth more."""
import json
import os
import re
import subprocess
import sys
import tempfile
from pathlib import Path

HERE = Path(__file__).resolve().parent
MOST_TIME, MOST_MEMORY = 2.5, 1.2
MB = 1e6


def seconds(words, **environment):
    with open(os.devnull, "w") as nothing:
        playing = subprocess.Popen(words, stdout=nothing, stderr=nothing, env={**os.environ, **environment})
        _, _, used = os.wait4(playing.pid, 0)
    return used.ru_utime + used.ru_stime


def seconds_of_script(script, words, file):
    everything = seconds(["node", "--require", HERE / "own_time.js", script, *words], OWN_TIME=str(file))
    return float(file.read_text()), everything


def memory_of_module(script, words):
    asked = json.dumps({"folder": os.getcwd(), "words": words, "stdin": ""}) + "\n"
    done = subprocess.run(["node", HERE / "lines.js", script], input=asked, stdout=subprocess.PIPE, text=True, check=True)
    return json.loads(done.stdout)["memory"] / MB


def memory_asked(counter, program, words):
    done = subprocess.run([program, *words], env={**os.environ, "LD_PRELOAD": str(counter)}, stdout=subprocess.DEVNULL, stderr=subprocess.PIPE, text=True)
    return int(re.search(r"^asked (\d+)$", done.stderr, re.M)[1]) / MB


def main():
    program, script, folder = sys.argv[1:4]
    rounds = int(sys.argv[4]) if sys.argv[4:] else 5
    sums, fits, least = [0.0, 0.0, 0.0], True, memory_of_module(script, ["version"])
    with tempfile.TemporaryDirectory() as work:
        counter = Path(work, "asked.so")
        subprocess.run(["cc", "-O2", "-Wall", "-Wextra", "-shared", "-fPIC", "-o", counter, HERE / "asked.c"], check=True)
        print("| Program | program, s | script, s | ratio | all threads, s | asked for, MB | memory of the module, MB | ratio |\n|---|---|---|---|---|---|---|---|")
        for file in sorted(Path(folder).glob("*.tm")):
            args = re.search(r"^# args: (.*)$", file.read_text(), re.M)
            if not args:
                continue
            words = ["sim", str(file), *args[1].split()]
            found = [(seconds([program, *words]), *seconds_of_script(script, words, Path(work, "own"))) for _ in range(rounds)]
            times = [min(it[k] for it in found) for k in range(3)]
            asked, has = memory_asked(counter, program, words), memory_of_module(script, words) - least
            sums = [one + other for one, other in zip(sums, times)]
            fits = fits and has <= MOST_MEMORY * asked
            print(f"| {file.stem} | {times[0]:.2f} | {times[1]:.2f} | {times[1] / times[0]:.2f} | {times[2]:.2f} | {asked:.0f} | {has:.0f} | {has / asked:.2f} |", flush=True)
    print(f"| all | {sums[0]:.2f} | {sums[1]:.2f} | {sums[1] / sums[0]:.2f} | {sums[2]:.2f} | | | |")
    return 0 if fits and sums[1] <= MOST_TIME * sums[0] else 1


if __name__ == "__main__":
    sys.exit(main())
