#!/usr/bin/env python3
"""Measures what more workers gain, on the matching of links with packets alone and on a whole drill.

    workers.py PROGRAM [TIMES]     as root, since the kernel's tracer says when the matching begins and ends

Beside it stands what threads gain on this machine that only compute, each as long as a worker's part (threads.c).
"""

import os
import re
import statistics
import subprocess
import sys
import tempfile
import time

HERE = os.path.dirname(os.path.abspath(__file__))
TRACER = "/sys/kernel/tracing/"
DRILL = ["drill", "3", "4000", "1000"]
WORKERS = (1, 2, 4)

# The function that shares the links out. It calls itself for each half of the workers.
MATCHING = "worker_match::workers::split::"


def found(command, pattern):
    """The groups of the first line of what a command prints that has the pattern."""
    printed = subprocess.run(command, capture_output=True, text=True, check=True).stdout
    match = re.search(pattern, printed, re.MULTILINE)
    if not match:
        sys.exit(f"{' '.join(command)}: {pattern} is not there")
    return [int(group, 16) for group in match.groups()]


def place_of(program):
    """Where the matching begins in the program's file."""
    (at,) = found(["nm", program], rf"^([0-9a-f]+) t {MATCHING}")
    address, offset = found(["readelf", "-WS", program], r"\.text +PROGBITS +([0-9a-f]+) ([0-9a-f]+)")
    return at - address + offset


def put(file, text):
    """Writes to one of the tracer's files. The list of events goes on by what is written."""
    more = os.O_APPEND if file == "uprobe_events" else os.O_TRUNC
    tracer = os.open(TRACER + file, os.O_WRONLY | more)
    try:
        os.write(tracer, text.encode())
    finally:
        os.close(tracer)


def matching(trace):
    """The seconds that the first thread is in the outermost calls."""
    first, depth, began, total = None, 0, 0.0, 0.0
    for thread, moment, event in re.findall(r"-(\d+) +\[\d+\] +\S+ +([\d.]+): (begun|ended):", trace):
        first = first or thread
        if thread != first:
            continue
        depth += 1 if event == "begun" else -1
        if event == "begun" and depth == 1:
            began = float(moment)
        if event == "ended" and depth == 0:
            total += float(moment) - began
    return total


def drill(program, workers):
    """The seconds of the matching, and of the whole."""
    put("tracing_on", "1")
    put("trace", "")
    put("events/matching/enable", "1")
    began = time.monotonic()
    subprocess.run([program, *DRILL, "-w", str(workers)], stdout=subprocess.DEVNULL, check=True)
    whole = time.monotonic() - began
    put("events/matching/enable", "0")
    with open(TRACER + "trace", encoding="ascii") as tracer:
        return matching(tracer.read()), whole


def threads(folder):
    """How many times as fast the threads are together as one."""
    program = f"{folder}/threads"
    subprocess.run(["gcc", "-O2", "-pthread", f"{HERE}/threads.c", "-o", program], check=True)
    printed = subprocess.run([program, *map(str, WORKERS[1:])], capture_output=True, text=True, check=True).stdout
    return printed.strip()


def main():
    program = os.path.abspath(sys.argv[1])
    times = int(sys.argv[2]) if len(sys.argv) > 2 else 9
    place = f"{program}:{place_of(program):#x}"
    put("uprobe_events", f"p:matching/begun {place}\n")
    put("uprobe_events", f"r:matching/ended {place}\n")
    try:
        runs = [{workers: drill(program, workers) for workers in WORKERS} for _ in range(times)]
    finally:
        put("uprobe_events", "-:matching/begun\n")
        put("uprobe_events", "-:matching/ended\n")
    print("| workers | matching, s | the whole, s | least |\n|---|---|---|---|")
    for workers in WORKERS:
        alone, whole = zip(*(run[workers] for run in runs))
        print(
            f"| {workers} | {statistics.median(alone):.3f} | {statistics.median(whole):.3f} "
            f"| {min(alone):.3f}, {min(whole):.3f} |"
        )
    with tempfile.TemporaryDirectory() as folder:
        print(threads(folder))


main()
