"""Tries each row of docs/commands.md, "On a terminal": what the program writes on standard error where that is a pseudo-terminal, and that it
writes the line of the fault alone where it is a pipe. The argument is the program."""
import os
import pty
import resource
import select
import signal
import socket
import subprocess
import sys
import tempfile

PROGRAM = sys.argv[1]
TOP = os.path.dirname(os.path.dirname(os.path.dirname(os.path.realpath(__file__))))
CORE = "words 2;\nlocks 1;\nx = 1;\n"
NAMED = "shared flag, turn;\nlock mutex;\n"
faults, tried = [], 0


# No line has this byte. It is written behind what a program has said, since a pseudo-terminal that nobody holds any more may lose what was said last.
END = b"\0"


def read_all(process, ours, theirs):
    said = b""
    while process.poll() is None:
        if select.select([ours], [], [], 0.002)[0]:
            said += os.read(ours, 65536)
    os.write(theirs, END)
    while not said.endswith(END):
        said += os.read(ours, 65536)
    os.close(ours)
    os.close(theirs)
    return said.removesuffix(END)


def run(words, terminal, stdin=b"", out=None, before=None):
    """The status, and what is written on standard error."""
    ours, theirs = pty.openpty() if terminal else os.pipe()
    process = subprocess.Popen([PROGRAM, *words], stdin=subprocess.PIPE if isinstance(stdin, bytes) else stdin, preexec_fn=before,
                               stdout=out or subprocess.DEVNULL, stderr=theirs)
    if isinstance(stdin, bytes):
        try:
            process.stdin.write(stdin)
            process.stdin.close()
        except BrokenPipeError:
            pass
    said = read_all(process, ours, theirs).replace(b"\r\n", b"\n")
    return process.wait(), said.decode("utf-8", "replace")


def expect(words, line, more, status=1, **how):
    """The line of the fault, and what stands behind it on a terminal alone."""
    global tried
    for terminal in (False, True):
        tried += 1
        wanted = (status, line + (more if terminal else ""))
        found = run(words, terminal, **how)
        if found != wanted:
            faults.append(f"{' '.join(words)}{' (terminal)' if terminal else ''}:\n  wanted {wanted}\n  found  {found}")


def linted(path, text=None):
    return subprocess.run([PROGRAM, "lint", path], input=text, stdout=subprocess.PIPE).stdout.decode()


def limited(kind, most):
    def before():
        signal.signal(signal.SIGXFSZ, signal.SIG_IGN)
        resource.setrlimit(kind, (most, most))
    return before


def written(folder, name, text):
    path = f"{folder}/{name}"
    with open(path, "wb") as it:
        it.write(text if isinstance(text, bytes) else text.encode())
    return path


def texts(folder):
    """Faults of a text: behind the line stands what `lint` prints."""
    rows = [
        ("byte", CORE + "x = 1 ~ 2;\n", "line 4: bad byte"),
        ("number", CORE + "x = 1a;\n", "line 4: bad number"),
        ("token", CORE + "x = = 1;\n", "line 4: unexpected token"),
        ("end", CORE + "x = 1\n", "line 5: unexpected token"),
        ("deep", CORE + "x = " + "(" * 33 + "1;\n", "line 4: nested too deep"),
        ("names", CORE + "".join(f"y{i} = 1;\n" for i in range(32)), "line 35: too many names"),
        ("limit", "words 65537;\nlocks 1;\n", "line 1: over a limit"),
        ("long", CORE + "#" * 65536, "line 1: text too long"),
        ("spelled", NAMED + "with mutx { flag = 1; }\n", None),
        ("named", NAMED + "flag == 1;\n", None),
        ("twice", NAMED + "lock flag;\n", None),
        ("use", NAMED + "x = mutex;\n", None),
    ]
    commands = [["check"], ["core"], ["plain"], ["sim"], ["run"], ["trace"], ["step"], ["explain"], ["stats"], ["chart"], ["explore"],
                ["why", "--act", "0"]]
    for at, (name, text, line) in enumerate(rows):
        path = written(folder, name, text)
        more = linted(path)
        if not more.startswith(f"{path}:") or "error: " not in more:
            faults.append(f"lint {name}: {more!r}")
        # What the line is of a named text, its own case says.
        line = f"treadmarks: {line}\n" if line else run(["check", path], False)[1]
        for command in commands if at in (2, 8) else commands[:4]:
            expect([*command, path], line, more)
        expect(["check", "-"], line, linted("-", text.encode()), stdin=text.encode())
    expect([], "treadmarks: line 2: unexpected token\n", linted("-", b"words 1;\n"), stdin=b"words 1;\n")


def files(folder):
    """Files that cannot be read: the name, and the system's reason."""
    cannot = "treadmarks: cannot read file\n"
    good = written(folder, "good", CORE)
    trace = written(folder, "trace", "T0|w(V0)|1\n")
    report = written(folder, "report", "event 1\n")
    os.symlink("loop", f"{folder}/loop")
    bound = socket.socket(socket.AF_UNIX)
    bound.bind(f"{folder}/socket")
    rows = [
        (f"{folder}/none", "No such file or directory"),
        (folder, "Is a directory"),
        (f"{good}/below", "Not a directory"),
        (f"{folder}/loop", "Too many levels of symbolic links"),
        (f"{folder}/{'n' * 300}", "File name too long"),
        (f"{folder}/socket", "error 6"),
    ]
    # What no user may read, the superuser neither.
    barred = "/proc/sys/vm/drop_caches"
    if os.path.exists(barred):
        try:
            open(barred, "rb").close()
        except PermissionError:
            rows.append((barred, "Permission denied"))
    for path, reason in rows:
        more = f"  {path}: {reason}\n"
        for words in (["check", path], ["sim", path], ["judge", path], ["lint", path], ["sim", good, "--events", path], ["races", path],
                      ["races", path, "--locations"], ["races", path, "--why", "1", "2"], ["races", path, "--witness", "1", "2"],
                      ["races", path, "--score", report], ["races", trace, "--score", path]):
            expect(words, cannot, more)
    for words in (["check", "-"], ["races", "-"]):
        end = os.open(folder, os.O_RDONLY)
        expect(words, cannot, "  -: Is a directory\n", stdin=end)
        os.close(end)
    bound.close()


def numbers(folder):
    """Numbers out of their ranges: the option, and its range."""
    out_of_range = "treadmarks: number out of range\n"
    good = written(folder, "counted", CORE)
    acts = written(folder, "acts", "0 end # line 1\n")
    ranges = {"nodes": (1, 16), "steps": (1, 1000000), "collect": (0, 1000000), "most": (1, 100000000), "outcome": (1, 18446744073709551615),
              "tries": (1, 1000000)}
    runs = ["sim", "run", "trace", "step", "explain", "stats", "chart"]
    rows = {name: ["nodes", "steps", "collect"] for name in runs} | {"plain": ["nodes", "steps"], "explore": ["nodes", "most", "outcome", "tries"]}
    for command, options in rows.items():
        for option in options:
            least, greatest = ranges[option]
            more = f"  --{option} is {least} to {greatest}\n"
            also = {"outcome": ["--outcomes"], "tries": ["--outcomes", "--memory", "lazy"]}.get(option, [])
            for number in [least - 1] * (least > 0) + [greatest + 1] * (greatest + 1 < 2**64):
                expect([command, good, *also, f"--{option}", str(number)], out_of_range, more, status=2)
                expect([command, f"--{option}={number:07}", *also, "--", good], out_of_range, more, status=2)
    expect(["judge", acts, "--nodes", "17"], out_of_range, "  --nodes is 1 to 16\n", status=2)
    expect(["why", good, "--act", "0", "--steps", "0"], out_of_range, "  --steps is 1 to 1000000\n", status=2)
    expect(["why", "--acts", acts, "--act", "0", "--nodes", "99"], out_of_range, "  --nodes is 1 to 16\n", status=2)
    expect(["chart", "--acts", acts, "--nodes", "0"], out_of_range, "  --nodes is 1 to 16\n", status=2)
    expect(["explore", good, "--memory", "exact", "--outcomes", "--collect", "1000001"], out_of_range, "  --collect is 0 to 1000000\n", status=2)
    # The first of the words is told; and behind `--` there are no options.
    expect(["sim", good, "--steps", "5", "--collect", "1000001", "--nodes", "0"], out_of_range, "  --collect is 0 to 1000000\n", status=2)
    expect(["sim", "--nodes", "17", "--", "--steps=0"], out_of_range, "  --nodes is 1 to 16\n", status=2)


def outputs(folder):
    """Outputs that cannot be written."""
    good = written(folder, "printing", "words 1;\nlocks 0;\nprint 1;\n")
    trace = written(folder, "racing", "T0|w(V0)|1\nT1|w(V0)|2\n")
    begins = "treadmarks: cannot write the output: "
    with open("/dev/full", "wb") as full:
        for words in (["sim", good], ["check", good], ["races", trace], ["races", trace, "--locations"], ["version"], ["help", "sim"]):
            expect(words, "", f"{begins}No space left on device\n", out=full)
    with open(f"{folder}/small", "wb") as small:
        expect(["sim", good], "", f"{begins}File too large\n", out=small, before=limited(resource.RLIMIT_FSIZE, 0))
    # Of a pipe that nobody reads nothing is said.
    for words in (["sim", good], ["races", trace]):
        ours, theirs = os.pipe()
        os.close(ours)
        expect(words, "", "", out=theirs)
        os.close(theirs)


def refused(folder):
    """Events that are too long, and threads that are refused."""
    good = written(folder, "run", CORE)
    long = written(folder, "events", b"\n" * 16777217)
    just = written(folder, "just", b"\n" * 16777212 + b"run\n")
    expect(["sim", good, "--events", long], "treadmarks: events line 1: bad event\n", "  the events have more than 16777216 bytes\n")
    expect(["sim", good, "--events", just], "treadmarks: events line 16777213: bad event\n", "")
    # Each thread has a stack of 8 MiB, so there is no room for sixteen.
    def before():
        resource.setrlimit(resource.RLIMIT_STACK, (8 << 20, 8 << 20))
        resource.setrlimit(resource.RLIMIT_AS, (64 << 20, 64 << 20))
    expect(["run", good, "--nodes", "16"], "treadmarks: out of memory\n",
           "  each node wants a thread: the system refused one, or memory ran out in one\n", before=before)


def main():
    with tempfile.TemporaryDirectory() as folder:
        for part in (texts, files, numbers, outputs, refused):
            part(folder)
    for fault in faults:
        print(f"terminal: {fault}")
    print(f"terminal: {tried - len(faults)} of {tried} are as they should be")
    return bool(faults)


sys.exit(main())
