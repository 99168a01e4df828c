"""Traces to measure `races` by: each kind is a function that yields lines."""
import random


def bank(events, threads, variables, faulty):
    """Accounts under locks; where faulty, some lines forget their lock, and a reader takes none."""
    rng = random.Random(3)
    locks = max(1, variables // 16)
    for other in range(1, threads):
        yield f"T0|fork(T{other})|bank.c:9\n"
    made = threads - 1
    while made < events:
        who, chance = f"T{rng.randrange(threads)}", rng.random() if faulty else 1
        if chance < 0.004:
            account = rng.randrange(variables)
            yield f"{who}|r(account{account})|bank.c:41\n"
            made += 1
            if chance < 0.002:
                yield f"{who}|w(account{account})|bank.c:42\n"
                made += 1
            continue
        lock = rng.randrange(locks)
        yield f"{who}|acq(lock{lock})|bank.c:20\n"
        for _ in range(3):
            account, line = lock + locks * rng.randrange(max(1, variables // locks)), 21 + 2 * rng.randrange(8)
            yield f"{who}|r(account{account})|bank.c:{line}\n"
            yield f"{who}|w(account{account})|bank.c:{line + 1}\n"
        yield f"{who}|rel(lock{lock})|bank.c:40\n"
        made += 8


def tasks(events, threads, variables, _):
    """Rounds of `threads` new threads, a task each of 2,000 events on its own cells."""
    rng = random.Random(5)
    share, made, number = max(1, variables // threads), 0, 0
    while made < events:
        names = [f"task{number + it}" for it in range(threads)]
        number += threads
        for it, name in enumerate(names):
            yield f"main|w(work{it})|pool.c:12\n"
            yield f"main|fork({name})|pool.c:13\n"
        left = [1000] * threads
        running = list(range(threads))
        while running:
            place = rng.randrange(len(running))
            it = running[place]
            for _ in range(10):
                cell = it * share + rng.randrange(share)
                yield f"{names[it]}|r(cell{cell})|task.c:30\n{names[it]}|w(cell{cell})|task.c:31\n"
            left[it] -= 10
            if not left[it]:
                running[place] = running[-1]
                running.pop()
        for it, name in enumerate(names):
            yield f"main|join({name})|pool.c:17\nmain|r(cell{it * share})|pool.c:18\n"
        made += 2004 * threads


def readers(_, threads, variables, __):
    """Each thread reads each variable once; nobody writes."""
    rng = random.Random(7)
    for other in range(1, threads):
        yield f"T0|fork(T{other})|read.c:3\n"
    left = [variables] * threads
    running = list(range(threads))
    while running:
        place = rng.randrange(len(running))
        it = running[place]
        for _ in range(min(10, left[it])):
            left[it] -= 1
            yield f"T{it}|r(table{(7 * left[it] + it) % variables})|read.c:{7 + it % 3}\n"
        if not left[it]:
            running[place] = running[-1]
            running.pop()


def forked(_, threads, variables, at_once):
    """So many threads at a time: one is joined, the next one forked; three events each, under a lock where they are several."""
    rng = random.Random(9)
    running = []
    for it in range(threads):
        if len(running) == at_once:
            yield f"main|join(T{running.pop(rng.randrange(at_once))})|main.c:9\n"
        yield f"main|fork(T{it})|main.c:7\n"
        running.append(it)
        sums = [f"sum{rng.randrange(variables)}" for _ in range(3)]
        if at_once > 1:
            yield f"T{it}|acq(lock)|task.c:4\nT{it}|w({sums[0]})|task.c:5\nT{it}|rel(lock)|task.c:6\n"
        else:
            yield f"T{it}|r({sums[0]})|task.c:5\nT{it}|w({sums[1]})|task.c:5\nT{it}|r({sums[2]})|task.c:5\n"
    for it in running:
        yield f"main|join(T{it})|main.c:11\n"


def one(events, threads, _, __):
    """One variable, read and written by all without a lock, at 12 locations."""
    rng = random.Random(11)
    for other in range(1, threads):
        yield f"T0|fork(T{other})|one.c:3\n"
    for _ in range(events):
        yield f"T{rng.randrange(threads)}|{rng.choice('rrrw')}(x)|one.c:{rng.randrange(12)}\n"
