#!/usr/bin/env python3
"""to_std.py RAW SOURCE > TRACE: the recorder's lines (tr.c) as a trace that `races` reads.

Addresses become names, by how the program wrote them first: `hits`; `accs@2` for accs[..], the third by address of
those that were touched; `r.x`, then `r.x@1`, for r->x of one object and of the next. A location is SOURCE:LINE.

A lock of readers and writers, a semaphore, an acquire load and a release store are written as the table of docs/judging.md
says. Of an atomic that plain accesses touch too, an access by T is one of `x.T`, a plain one is one of x and of each `x.T`."""
import re
import sys


def base_of(written):
    """The name, and whether it is one of many."""
    bare = re.sub(r"\([\w ]*\*+ *\)", "", written).lstrip("&*( ")
    bare = re.sub(r"\(.*?\)", "", bare).replace("->", ".")
    return re.sub(r"\[.*?\]", "", bare).rstrip(") "), "[" in bare


def names_of(lines):
    first, groups, names = {}, {}, {}
    for line in lines:
        first.setdefault(line["address"], line["written"])
    for address, written in first.items():
        base, many = base_of(written)
        groups.setdefault((base, many), []).append(address)
    for (base, many), addresses in groups.items():
        if many:
            addresses.sort(key=lambda address: int(address, 16))
        for number, address in enumerate(addresses):
            names[address] = f"{base}@{number}" if number or many else base
    if len(set(names.values())) < len(names):
        raise SystemExit("two addresses of one name")
    return names


LOCKS = {
    "acq": ["acq({})"], "rel": ["rel({})"], "post": ["post({})"], "pend": ["wait({})"],
    "arrive": ["arrive({})"], "depart": ["depart({})"], "signal": [],
    "wacq": ["acq({})", "wait({}.r)"], "wrel": ["rel({})"], "racq": ["wait({})"], "rrel": ["post({}.r)"],
}
LOADS, STORES = {"ar", "aracq"}, {"aw", "awrel"}


def main(raw, source):
    lines = []
    with open(raw) as file:
        for text in file:
            thread, deed, place, value, written = text.rstrip("\n").split("|")
            kind, address = re.fullmatch(r"(\w+)\((.*)\)", deed).groups()
            lines.append({"thread": thread, "kind": kind, "address": address, "place": place, "value": value, "written": written})
    touching = [line for line in lines if line["kind"] not in ("fork", "join", "begin", "end")]
    names = names_of(touching)
    # Of each address the threads that touch it by atomic accesses, if plain ones touch it too.
    plain = {line["address"] for line in touching if line["kind"] in ("r", "w")}
    atomic = {}
    for line in touching:
        if line["kind"] in LOADS | STORES and line["address"] in plain and line["thread"] not in atomic.setdefault(line["address"], []):
            atomic[line["address"]].append(line["thread"])
    # Of each address its atomic stores: value, and whether it is a release.
    stores = {}
    for line in lines:
        thread, kind, address, value = line["thread"], line["kind"], line["address"], line["value"]
        out = []
        if kind in ("fork", "join"):
            out = [f"{kind}({address})"]
        elif kind in ("begin", "end"):
            print(f"{thread}|{kind}")
        elif kind in ("r", "w"):
            out = [f"{kind}({names[address]}{end})" for end in [""] + [f".{other}" for other in atomic.get(address, [])]]
        elif kind in LOADS | STORES:
            name, known = names[address], stores.setdefault(address, [])
            access = [f"{'r' if kind in LOADS else 'w'}({name}.{thread})"] if address in atomic else []
            if kind in STORES:
                if any(other == value and (kind == "awrel" or release) for other, release in known):
                    sys.stderr.write(f"{name}: {value} was stored before; a load of it is taken to read the last one\n")
                known.append((value, kind == "awrel"))
                out = access + ([f"post({name}.{len(known)})"] if kind == "awrel" else [])
            else:
                read = [k for k, store in enumerate(known, 1) if store[0] == value]
                out = ([f"wait({name}.{read[-1]})"] if kind == "aracq" and read and known[read[-1] - 1][1] else []) + access
        else:
            out = [form.format(names[address]) for form in LOCKS[kind]]
        for deed in out:
            print(f"{thread}|{deed}|{source}:{line['place']}")


main(*sys.argv[1:])
