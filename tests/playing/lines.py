#!/usr/bin/env python3
"""lines.py PROGRAM SCRIPT [CASES]: the script of play/ in node writes what the program writes, byte for byte: standard output, error and status.

All command lines of examples/ and of tests/examples, which have to give what their files show, and those of CASES where it is given: a folder
with a script `run-cases` that unpacks cases (`--unpack`), or one that has been unpacked, NAME.sh for each. They are played in one process; of each
file of command lines the first one is played by `node SCRIPT` too, with pipes as standard streams. `run` and `--threads` start no thread there: they
say that memory ran out, or what the program says where it starts none either."""
import base64
import json
import re
import resource
import shlex
import subprocess
import sys
import tempfile
from pathlib import Path

HERE = Path(__file__).resolve().parent
TOP = HERE.parent.parent
ROWS = TOP / "tests/examples"
THREADED = {"run", "--threads"}
REFUSED = {"status": 1, "out": b"", "err": b"treadmarks: out of memory\n"}


def shown_lines():
    """In the folder that they are shown in, without the words `examples/`, as tests/rows plays them; each with what is shown behind it."""
    for root in (TOP / "examples", ROWS):
        for file in sorted(root.rglob("*.expected")):
            parts = re.split(r"^\$ \./run(.*)\n", file.read_text(encoding="utf-8"), flags=re.M)[1:]
            for k, (line, told) in enumerate(zip(parts[::2], parts[1::2])):
                words = [it.removeprefix("examples/") for it in line.split()]
                stdin = b"" if words else (ROWS / "stdin").read_bytes()
                yield {"folder": root, "words": words, "stdin": stdin, "told": told.encode(), "is_first": k == 0, "name": f"{file.relative_to(TOP)}: {line.strip()}"}


def case_lines(cases, folder):
    if (cases / "run-cases").exists():
        subprocess.run([cases / "run-cases", "--unpack", folder], check=True, stdout=subprocess.DEVNULL)
        cases = folder
    for file in sorted(cases.glob("*.sh")):
        words = shlex.split(file.read_text(encoding="utf-8").split('"${TREADMARKS:-treadmarks}"')[1])
        stdin = b""
        if len(words) > 1 and words[-2] == "<":
            stdin = (cases / words[-1]).read_bytes()
            words = words[:-2]
        yield {"folder": cases, "words": words, "stdin": stdin, "is_first": False, "name": f"case {file.stem}"}


def at_most_four_gigabytes():
    """The memory that the module can have."""
    resource.setrlimit(resource.RLIMIT_AS, (1 << 32, 1 << 32))


def native(program, line):
    done = subprocess.run([program, *line["words"]], executable=program, cwd=line["folder"], input=line["stdin"], capture_output=True, preexec_fn=at_most_four_gigabytes)
    return {"status": done.returncode, "out": done.stdout, "err": done.stderr}


def in_one_process(script, lines):
    asked = "".join(json.dumps({"folder": str(it["folder"]), "words": it["words"], "stdin": base64.b64encode(it["stdin"]).decode()}) + "\n" for it in lines)
    done = subprocess.run(["node", HERE / "lines.js", script], input=asked, stdout=subprocess.PIPE, text=True, check=True)
    for answer in map(json.loads, done.stdout.splitlines()):
        yield {**answer, "out": base64.b64decode(answer["out"]), "err": base64.b64decode(answer["err"])}


def is_as_told(line, now):
    """Whether it is what the file of the line shows."""
    err = b"standard error:\n" + now["err"] if now["err"] else b""
    return line.get("told") in (None, now["out"] + err + f"status {now['status']}\n".encode())


def differences(was, now):
    said = [f"{part}: {was[part][:80]!r} and {now[part][:80]!r}" for part in ("out", "err") if was[part] != now[part]]
    if was["status"] != now["status"]:
        said.append(f"status {was['status']} and {now['status']}")
    return said + ([now["crash"]] if now.get("crash") else [])


def threads_refused(program, script, lines):
    """Of lines that start threads: how many say so, and how many say something else than the program."""
    refused = failed = 0
    for line, now in zip(lines, in_one_process(script, lines), strict=True):
        if not differences(REFUSED, now):
            refused += 1
        elif said := differences(native(program, line), now):
            failed += 1
            print(f"FAILS: {line['name']}: {'; '.join(said)}", flush=True)
    return refused, failed


def main():
    program, script = Path(sys.argv[1]).resolve(), Path(sys.argv[2]).resolve()
    with tempfile.TemporaryDirectory() as name:
        folder = Path(name)
        lines = list(shown_lines())
        if len(sys.argv) > 3:
            (folder / "cases").mkdir()
            lines += case_lines(Path(sys.argv[3]).resolve(), folder / "cases")
        threaded = [it for it in lines if THREADED & set(it["words"])]
        lines = [it for it in lines if not THREADED & set(it["words"])]
        refused, failed = threads_refused(program, script, threaded)
        failed += not refused
        expected = []
        for line, now in zip(lines, in_one_process(script, lines), strict=True):
            expected.append(native(program, line))
            said = differences(expected[-1], now) + ([] if is_as_told(line, now) else ["it is not what the file shows"])
            if said:
                failed += 1
                print(f"FAILS: {line['name']}: {'; '.join(said)}", flush=True)
        own = 0
        for line, was in zip(lines, expected):
            if not line["is_first"]:
                continue
            own += 1
            done = subprocess.run(["node", script, *line["words"]], cwd=line["folder"], input=line["stdin"], capture_output=True)
            said = differences(was, {"status": done.returncode, "out": done.stdout, "err": done.stderr})
            if said:
                failed += 1
                print(f"FAILS: {line['name']} by itself: {'; '.join(said)}", flush=True)
    print(f"lines: {len(lines)} command lines, {own} of them by themselves too; {len(threaded)} with threads, of which {refused} are refused one; {failed} failed")
    return 1 if failed else 0


if __name__ == "__main__":
    sys.exit(main())
