#!/usr/bin/env python3
"""memory.py SCRIPT: in the script of play/, each request for memory of some command lines is refused in turn (past the first 300 each 20th). Each
time the answer is as without, or the line `treadmarks: out of memory` with status 1 and nothing on standard output; the engine stops nothing."""
import base64
import json
import subprocess
import sys
from collections import Counter
from pathlib import Path

HERE = Path(__file__).resolve().parent
TOP = HERE.parent.parent
LINES = ["sim examples/late.tm --nodes 2", "step examples/racing.tm --nodes 2", "explain examples/litmus/bank.tm --nodes 2", "explore examples/late.tm --nodes 2",
         "chart examples/late.tm --nodes 2", "why examples/late.tm --nodes 2 --act 9", "lint examples/late.tm", "races examples/traces/account.std", "trace examples/late.tm --nodes 2 --as states"]
# A batch of refusals; where each of the last ones changed nothing, no further request was made.
BATCH, STEPS = 100, [*range(1, 301), *range(320, 6001, 20)]


def play(script, asked):
    text = "".join(json.dumps(it) + "\n" for it in asked)
    done = subprocess.run(["node", HERE / "lines.js", script], input=text, stdout=subprocess.PIPE, text=True, check=True)
    return [(it["status"], base64.b64decode(it["out"]), base64.b64decode(it["err"]), it.get("crash")) for it in map(json.loads, done.stdout.splitlines())]


def kind(answer, whole):
    if answer == whole:
        return "as without"
    return "out of memory" if answer == (1, b"", b"treadmarks: out of memory\n", None) else f"WRONG {answer[0]} {answer[1][:60]!r} {answer[2][:80]!r} {answer[3]}"


def main():
    script, failed = Path(sys.argv[1]).resolve(), 0
    for line in LINES:
        words = line.split()
        if words[1].endswith(".std") and not (TOP / words[1]).exists():
            words[1] = str(next((TOP / "examples/traces").glob("*.std"), next((TOP / "examples/traces").iterdir())).relative_to(TOP))
        asked = {"folder": str(TOP), "words": words}
        whole, = play(script, [asked])
        kinds = Counter()
        for start in range(0, len(STEPS), BATCH):
            steps = STEPS[start:start + BATCH]
            found = [kind(it, whole) for it in play(script, [{**asked, "refuse": step} for step in steps])]
            kinds.update(found)
            for step, it in zip(steps, found):
                if it.startswith("WRONG"):
                    failed += 1
                    print(f"FAILS: {line}, request {step} refused: {it}", flush=True)
            if set(found[-40:]) == {"as without"}:
                break
        if not kinds["out of memory"]:
            failed += 1
            print(f"FAILS: {line}: no refusal was seen", flush=True)
        print(f"memory: {' '.join(words)}: {dict(kinds)}", flush=True)
    return 1 if failed else 0


if __name__ == "__main__":
    sys.exit(main())
