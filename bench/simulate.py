#!/usr/bin/env python3
"""Holds `simulate` beside the JDK's own ThreadPoolExecutor, and prints what replies are the same, and how many of bursts are refused.

    bench/simulate.py

The same jobs go through both: through the pool of the JDK, where they sleep, by one submitter, and through `simulate`, where no
time passes. What is left between them is what threads take to start and to wake, so run it with nothing beside; it takes two minutes.
Bursts, and jobs that come one by one, go through a pool that records itself. Its record is what `simulate` runs again on the same
sizes, without `wakes` and with the median that `stats` reads off the record. It needs a JDK, and the program that RESIL_LOOK_BUILT
names, or out/resil_look, as ./resil prove builds it. It is no part of the gate.
"""
import datetime
import os
import random
import subprocess
import sys
import tempfile

sys.dont_write_bytecode = True

from peers import OUT, ROOT, build_java, say

JOBS = 1200
BETWEEN = 4_000  # microseconds from one submission to the next, on average
RUN = 12_000  # microseconds that a job runs, on average
SEED = 3
POOLS = ((2, 4, 8, 60_000_000), (2, 4, 8, 50_000), (1, 8, 2, 50_000), (2, 6, 4, 30_000))  # core, max, queue, microseconds of keep-alive

BURSTS = 300  # bursts to a pool
APART = 40_000  # microseconds from one burst to the next
LONG = 2_000  # microseconds that each of their jobs runs
BURST_POOLS = (  # jobs of a burst; core, max, queue, where 0 hands jobs over
    (1, 8, 8, 5),
    (8, 8, 8, 5),
    (8, 2, 6, 4),
    (8, 4, 8, 4),
    (16, 8, 8, 8),
    (8, 0, 64, 0),  # a cached pool
    (8, 0, 4, 8),
    (16, 10, 200, 0),
)
KEPT = 50_000  # microseconds of keep-alive


def load():
    """The rows of the jobs: both times are exponential, by a seed."""
    draw = random.Random(SEED)
    at, rows = 0, []
    for _ in range(JOBS):
        at += round(draw.expovariate(1 / BETWEEN))
        rows.append(f"{at},{round(draw.expovariate(1 / RUN))}\n")
    return "".join(rows)


def answered(words, given):
    """What a program writes for an input, line by line."""
    done = subprocess.run(words, input=given, stdout=subprocess.PIPE, text=True, check=False)
    if done.returncode != 0:
        raise SystemExit(f"bench: {words} ended with {done.returncode}: {done.stdout}")
    return done.stdout.splitlines()


def simulated(program, pool, rows):
    """The replies of a history by `simulate`, in the order of the rows."""
    core, most, queue, idle_for = pool
    head = f"core = {core}\nmax = {most}\nqueue = {queue}\nidle_for = {idle_for}\n---\nat,takes\n"
    events = [line.split(",") for line in answered([program, "simulate", "--history"], head + rows)]
    return [fields[3] for fields in events if fields[0] == "submit"]


def recorded(java, burst, sizes, folder):
    """The record of bursts on a pool of the JDK: its rows, with their header."""
    rows = "".join(f"{index * APART},{LONG}\n" for index in range(BURSTS) for _ in range(burst))
    answered([*java, "Bursts", *map(str, sizes), str(KEPT), folder], rows)
    files = sorted(name for name in os.listdir(folder) if name.endswith(".csv"))
    if files != ["bursts-00001.csv"]:
        raise SystemExit(f"bench: the record is {files}")
    with open(os.path.join(folder, files[0]), encoding="utf-8") as file:
        return file.read().partition("\n---\n")[2]


def numbers(program, head, rows):
    """Records of `simulate`, without the header, each field by its name."""
    header, *records = (line.split(",") for line in answered([program, "simulate"], f"{head}---\n{rows}"))
    return [dict(zip(header, record)) for record in records]


def bursts(program, java):
    """A table of bursts, some of one job: what the pool of the JDK refused, and what is said of it without `wakes` and with it."""
    print("\n| bursts of | core, max, queue | jobs | µs to wake | refused: JDK, without `wakes`, with it | most threads: JDK, without, with |")
    print("|---|---|---|---|---|---|")
    for burst, core, most, queue in BURST_POOLS:
        with tempfile.TemporaryDirectory() as folder:
            rows = recorded(java, burst, (core, most, queue), folder)
        head = f"core = {core}\nmax = {most}\nqueue = {queue}\n"
        told = dict(line.split(",,", 1) for line in answered([program, "stats"], f"{head}---\n{rows}") if ",," in line)
        wakes = told["wake_median"] or "0"
        head += f"idle_for = {KEPT}\ntakes = {LONG}\n"
        theirs, without = numbers(program, head, rows)
        woken = numbers(program, f"{head}wakes = {wakes}\n", rows)[1]
        both = (", ".join(said[name] for said in (theirs, without, woken)) for name in ("refused", "most_workers"))
        print(f"| {burst} | {core}, {most}, {queue} | {theirs['submitted']} | {wakes} | {' | '.join(both)} |", flush=True)


def main():
    if sys.argv[1:]:
        raise SystemExit(__doc__)
    program = os.environ.get("RESIL_LOOK_BUILT", str(ROOT / "out/resil_look"))
    OUT.mkdir(parents=True, exist_ok=True)
    java = build_java()
    if not java or not os.access(program, os.X_OK):
        say(f"nothing is compared: it needs a JDK, and {program}")
        raise SystemExit(1)
    rows = load()
    print(f"\n{datetime.date.today()}; {os.cpu_count()} processors, load {os.getloadavg()[0]:.1f}\n")
    print("| core, max, queue, keep-alive in ms | replies the same | of the jobs | refused: JDK, ours | extra workers: JDK, ours |")
    print("|---|---|---|---|---|")
    for pool in POOLS:
        theirs = answered([*java, "Simulate", *map(str, pool)], rows)
        ours = simulated(program, pool, rows)
        if not len(theirs) == len(ours) == JOBS:
            raise SystemExit(f"bench: {len(theirs)} and {len(ours)} replies for {JOBS} jobs")
        same = sum(their == our for their, our in zip(theirs, ours))
        sizes = ", ".join(map(str, (*pool[:3], pool[3] // 1000)))
        counts = (f"{theirs.count(reply)}, {ours.count(reply)}" for reply in ("full", "extra"))
        print(f"| {sizes} | {same} | {same / JOBS:.1%} | {' | '.join(counts)} |", flush=True)
    bursts(program, java)


if __name__ == "__main__":
    main()
