#!/usr/bin/env python3
"""Processor minutes of a running gate, crate by crate.

    bench/gate_time.py PID [SECONDS]

Watches the processes below PID (a running `rt ci`) until it ends, and prints for each crate the processor minutes of its proof,
of its tests and of its wrong bodies. It reads /proc alone and changes nothing. Short processes between two looks are missed.
"""
import collections
import os
import re
import sys
import time

TICKS = os.sysconf("SC_CLK_TCK")


def read(path):
    try:
        with open(path, "rb") as file:
            return file.read()
    except OSError:
        return b""


def processes():
    """pid -> (parent, processor seconds of itself and its ended children)"""
    found = {}
    for entry in os.listdir("/proc"):
        if not entry.isdigit():
            continue
        fields = read(f"/proc/{entry}/stat").rsplit(b")", 1)[-1].split()
        if len(fields) > 14:
            found[int(entry)] = (int(fields[1]), (int(fields[11]) + int(fields[12])) / TICKS)
    return found


def below(root, found):
    children = collections.defaultdict(list)
    for pid, (parent, _) in found.items():
        children[parent].append(pid)
    todo, seen = [root], []
    while todo:
        pid = todo.pop()
        seen.append(pid)
        todo.extend(children[pid])
    return seen


def place(pid):
    """The crate and the kind of work of a process."""
    words = read(f"/proc/{pid}/cmdline").decode(errors="replace").split("\0")
    line = " ".join(words)
    try:
        folder = os.readlink(f"/proc/{pid}/cwd")
    except OSError:
        folder = ""
    name = re.search(r"--crate-name (\w+)", line)
    crate = name.group(1) if name else (re.search(r"crates/(\w+)", folder) or [None, "other"])[1]
    kind = "wrong bodies" if "must" in folder or "must-fail" in line or "edit" in folder else "tests" if "--test" in words else "proof"
    return crate, kind


def main():
    root = int(sys.argv[1])
    pause = float(sys.argv[2]) if len(sys.argv) > 2 else 2.0
    spent, where = {}, {}
    while os.path.exists(f"/proc/{root}"):
        found = processes()
        for pid in below(root, found):
            if pid in found:
                spent[pid] = max(spent.get(pid, 0.0), found[pid][1])
                if pid not in where:
                    where[pid] = place(pid)
        time.sleep(pause)
    table = collections.defaultdict(lambda: collections.Counter())
    for pid, seconds in spent.items():
        crate, kind = where.get(pid, ("other", "proof"))
        table[crate][kind] += seconds / 60
    kinds = ["proof", "tests", "wrong bodies"]
    print("| crate | " + " | ".join(kinds) + " | all |")
    print("|---|---|---|---|---|")
    for crate in sorted(table, key=lambda c: -sum(table[c].values())):
        row = [table[crate][kind] for kind in kinds]
        print(f"| `{crate}` | " + " | ".join(f"{x:.1f}" for x in row) + f" | {sum(row):.1f} |")
    print(f"| all | | | | {sum(sum(c.values()) for c in table.values()):.1f} |")


if __name__ == "__main__":
    main()
