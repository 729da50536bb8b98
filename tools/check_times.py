#!/usr/bin/env python3
"""Runs `rt ci --anew`, and tells how much processor time each crate took: to prove and build it with its tests, and to try its edits.

usage: python3 tools/check_times.py

Looks at the processes below it twice a second, so a process that ends counts with the time that it had at the last look. What a crate's
programs and tests take to run is told too, under the name of the crate. The table, in Markdown, comes behind what `rt ci` prints.
"""

import collections
import os
import re
import subprocess
import sys
import time

TICKS = os.sysconf("SC_CLK_TCK")


def stat(pid):
    """The parent of a process, and its processor time in ticks."""
    with open(f"/proc/{pid}/stat", encoding="utf-8", errors="replace") as file:
        fields = file.read().rpartition(")")[2].split()
    return int(fields[1]), int(fields[11]) + int(fields[12])


def processes_below(top):
    """All processes that descend from one, each with its processor time."""
    seen = {}
    for name in os.listdir("/proc"):
        if name.isdigit():
            try:
                seen[int(name)] = stat(name)
            except OSError:
                pass
    children = collections.defaultdict(list)
    for pid, (parent, _) in seen.items():
        children[parent].append(pid)
    found, left = {}, [top]
    while left:
        for pid in children[left.pop()]:
            found[pid] = seen[pid][1]
            left.append(pid)
    return found


def what_for(pid):
    """The crate and the kind of work that a process is for, as far as its words and its folder tell."""
    try:
        with open(f"/proc/{pid}/cmdline", "rb") as file:
            words = file.read().decode(errors="replace").replace("\0", " ")
        folder = os.readlink(f"/proc/{pid}/cwd")
    except OSError:
        return None
    crate = re.search(r"--crate-name (\w+)", words) or re.search(r"/crates/(\w+)", folder + " " + words)
    if crate is None:
        return None
    return crate.group(1).removesuffix("_tests"), "edits" if "rt-edit" in folder else "check"


def watch(run):
    """The last known processor time of each process below a run, and what it is for."""
    ticks, purpose = {}, {}
    while run.poll() is None:
        for pid, now in processes_below(run.pid).items():
            ticks[pid] = max(now, ticks.get(pid, 0))
            purpose[pid] = what_for(pid) or purpose.get(pid)
        time.sleep(0.5)
    return ticks, purpose


def main():
    begin = time.monotonic()
    run = subprocess.Popen(["rt", "ci", "--anew"])
    ticks, purpose = watch(run)
    times = collections.defaultdict(lambda: {"check": 0.0, "edits": 0.0})
    for pid, spent in ticks.items():
        crate, kind = purpose.get(pid) or ("(the rest)", "check")
        times[crate][kind] += spent / TICKS
    print("\n| Crate | Check | Edits |\n| --- | --- | --- |")
    for crate, spent in sorted(times.items(), key=lambda item: -sum(item[1].values())):
        print(f"| `{crate}` | {spent['check']:.0f} | {spent['edits']:.0f} |")
    whole = sum(spent["check"] + spent["edits"] for spent in times.values())
    print(f"\n{whole / 60:.0f} minutes of processor time, {(time.monotonic() - begin) / 60:.1f} by the clock, {os.cpu_count()} processors")
    sys.exit(run.returncode)


main()
