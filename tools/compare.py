#!/usr/bin/env python3
"""Times the program `bench` and other engines in turn on one core, checks that all give the same answers, and keeps the best of each.

usage: python3 tools/compare.py [--turns N] [--core N] [--microseconds N]

Wants the programs `bench` and `mark` that the gate leaves in target/bin, or rt run in crates/NAME/out, and what the head of tools/peers.cpp
says. Writes every time to docs/times.tsv, and the tables of docs/PERFORMANCE.md between their comment lines.
"""

import argparse
import datetime
import os
import re
import subprocess
import sys
import tempfile
import time

TOP = os.path.dirname(os.path.dirname(os.path.abspath(__file__)))
TIMES = os.path.join(TOP, "docs", "times.tsv")
DOCUMENT = os.path.join(TOP, "docs", "PERFORMANCE.md")
ENGINES = ["ours", "RE2", "Hyperscan", "PCRE2", "TRE"]
REPORTS = ["longest", "marks", "split", "order"]
PACKAGES = ["libre2-dev", "libhyperscan-dev", "libpcre2-dev", "libtre-dev"]
ORDERS = {"greeting": (b"hm ANNA: good evening", 200000), "prose": (None, 50000)}


def program(name):
    """The newer of the one that the gate left and the one that rt run made."""
    paths = [os.path.join(TOP, path) for path in (f"target/bin/{name}", f"crates/{name}/out/{name}")]
    there = [path for path in paths if os.path.exists(path)]
    if not there:
        sys.exit(f"there is no program {name}: run .ci/run, or rt run in crates/{name}")
    return max(there, key=os.path.getmtime)


def build_peers(folder):
    source, peers = os.path.join(TOP, "tools", "peers.cpp"), os.path.join(folder, "peers")
    libraries = ["-lre2", "-lpcre2-8", "-ltre", "-lhs"]
    subprocess.run(["g++", "-O2", "-std=c++17", source, "-o", peers, *libraries], check=True)
    return peers


def lines_of(command):
    return [line.split() for line in subprocess.run(command, check=True, capture_output=True, text=True).stdout.splitlines()]


def check_answers(bench, peers):
    """Each engine's ends, count of marks and sum of the printed bytes are ours; says which engines give no answer, or no groups."""
    ours = {name: (left, right, marked, printed) for name, left, right, marked, _, _, printed in lines_of([bench])}
    seen = set()
    for name, engine, *answer in lines_of([peers]):
        seen.add(name)
        if answer == ["refused"]:
            continue
        want = ours[name]
        if answer[-1] == "-":
            answer, want = answer[:-1], want[:-1]
        if tuple(answer) != want:
            sys.exit(f"{engine} answers otherwise on {name}: {answer}, and ours are {want}")
    if seen != set(ours):
        sys.exit(f"not the same cases: {sorted(seen ^ set(ours))}")


def measure(bench, peers, core, turns, microseconds):
    """The best time of each report, by case and engine, in the order of the cases."""
    best = {}
    for turn in range(turns):
        for command, own in ((bench, True), (peers, False)):
            for line in lines_of(["taskset", "-c", str(core), command, str(microseconds)]):
                name, engine, *times = [line[0], "ours", *line[1:]] if own else line
                if times == ["refused"]:
                    times = ["-"] * len(REPORTS)
                known = best.setdefault(name, {}).setdefault(engine, [None] * len(REPORTS))
                for k, shown in enumerate(times):
                    if shown != "-":
                        known[k] = min(int(shown), known[k] or int(shown))
        print(f"turn {turn + 1} of {turns}", file=sys.stderr)
    return best


def write_times(best):
    with open(TIMES, "w", encoding="utf-8") as out:
        out.write("\t".join(["case", "engine", *REPORTS]) + "\n")
        for name, engines in best.items():
            for engine in ENGINES:
                out.write("\t".join([name, engine, *("-" if t is None else str(t) for t in engines[engine])]) + "\n")


def time_mark(mark, core, turns, folder):
    """For each kind of line the least processor time and clock time of an order, in nanoseconds."""
    prose = re.search(rb'const PROSE: &\[u8; 160\] =\s*b"([^"]*)"', open(os.path.join(TOP, "crates/bench/src/cases.rt"), "rb").read())[1]
    found = {}
    for kind, (line, count) in ORDERS.items():
        line = line or prose
        orders, answers = os.path.join(folder, "orders"), os.path.join(folder, "answers")
        with open(orders, "wb") as out:
            out.write(b"+3 {[A-Z]+}: {.*}\n" + b"?3 %s\n" % line * count)
        best = None
        for _ in range(2 * turns):
            with open(orders, "rb") as given, open(answers, "wb") as taken:
                start = time.perf_counter()
                child = subprocess.Popen(["taskset", "-c", str(core), mark], stdin=given, stdout=taken)
                _, status, usage = os.wait4(child.pid, 0)
                clock = time.perf_counter() - start
                child.returncode = status
            spent = (usage.ru_utime + usage.ru_stime, clock)
            best = spent if best is None else tuple(map(min, best, spent))
        with open(answers, "rb") as taken:
            first, *rest = taken.read().split(b"longest ")
        if status != 0 or first != b"ok 4 2\n" or len(rest) != count or len(set(rest)) != 1:
            sys.exit(f"mark answers otherwise on the {kind}")
        found[kind] = (len(line), count, *(round(1e9 * t / count) for t in best))
    return found


def table(head, rows):
    lines = [head, ["---"] * len(head), *rows]
    return "\n".join("| " + " | ".join(cells) + " |" for cells in lines)


def report_table(best, report):
    k, rows = REPORTS.index(report), []
    for name, engines in best.items():
        if "/" in name:
            continue
        times = [engines[engine][k] for engine in ENGINES]
        peers = [t for t in times[1:] if t is not None]
        cells = ["-" if t is None else f"**{t}**" if e > 0 and t < times[0] else str(t) for e, t in enumerate(times)]
        over = times[0] / min(peers) if peers else None
        rows.append([name, *cells, "-" if over is None else f"{over:.0f}" if over >= 10 else f"{over:.2g}"])
    return table(["Case", "Ours", *ENGINES[1:], "Ours over the fastest other"], rows)


def mark_table(found):
    rows = [[f"{symbols} letters", str(count), str(spent), str(clock), f"{round(1e9 / spent, -3):.0f}"] for symbols, count, spent, clock in found.values()]
    return table(["Line", "Orders", "Processor time for each", "Time by the clock", "Orders a second of processor time"], rows)


def said(command):
    return subprocess.run(command, capture_output=True, text=True).stdout.strip()


def conditions(turns, microseconds, core):
    """When and on what it was measured."""
    cpu = re.search(r"Model name:\s*(.*)", said(["lscpu"]))[1]
    versions = ", ".join(said(["dpkg-query", "-W", "-f", "${Package} ${Version}", package]) for package in PACKAGES)
    day = datetime.date.today().isoformat()
    busy = os.getloadavg()[0]
    return (
        f"Measured on {day}, {turns} turns of each program, rounds of {microseconds} microseconds, on core {core} of {os.cpu_count()} of an {cpu}, "
        f"Linux {os.uname().release.split('-')[0]}; {busy:.1f} processes wanted a core in the mean of the last minute. Ours: `{said(['rt', 'version'])}`. "
        f"The others: {said(['g++', '--version']).splitlines()[0]} at -O2, and {versions}."
    )


def place_of(name):
    """Where a block stands in the document."""
    return re.compile(rf"(<!-- {name} -->\n).*?(<!-- end of {name} -->)", re.S)


def check_document():
    with open(DOCUMENT, encoding="utf-8") as document:
        text = document.read()
    for name in ["conditions", "mark", *REPORTS]:
        if not place_of(name).search(text):
            sys.exit(f"{DOCUMENT} has no place for the block {name}")


def write_document(blocks):
    with open(DOCUMENT, encoding="utf-8") as document:
        text = document.read()
    for name, block in blocks.items():
        text = place_of(name).sub(lambda m: f"{m[1]}{block}\n{m[2]}", text)
    with open(DOCUMENT, "w", encoding="utf-8") as document:
        document.write(text)


def main():
    parser = argparse.ArgumentParser(description=__doc__.splitlines()[0])
    parser.add_argument("--turns", type=int, default=8)
    parser.add_argument("--core", type=int, default=os.cpu_count() - 1)
    parser.add_argument("--microseconds", type=int, default=200)
    given = parser.parse_args()
    check_document()
    bench, mark = program("bench"), program("mark")
    with tempfile.TemporaryDirectory() as folder:
        peers = build_peers(folder)
        check_answers(bench, peers)
        blocks = {"conditions": conditions(given.turns, given.microseconds, given.core)}
        best = measure(bench, peers, given.core, given.turns, given.microseconds)
        blocks["mark"] = mark_table(time_mark(mark, given.core, given.turns, folder))
    write_times(best)
    blocks.update((report, report_table(best, report)) for report in REPORTS)
    write_document(blocks)
    print("\n\n".join(f"{name}\n\n{block}" for name, block in blocks.items()))


if __name__ == "__main__":
    main()
