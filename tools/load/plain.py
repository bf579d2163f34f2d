#!/usr/bin/env python3
"""Measures the server at 100 clients beside bare and plain ones, in turns, and prints the medians.

    plain.py PROGRAM [TIMES] [NAME]         NAME is a run of compare.py, fast100 without it

`bare` hands lines on as they are. `packets` reads each as a packet, drops copies and adds to its path, and does nothing else
that a server of APRS-IS does. With `read=32120` either has rounds of some 400 lines, as the server's are.
"""

import os
import resource
import sys
import tempfile

from compare import CONFIGURATION, FULL, LONGER, RUNS, build, loads, measure, median

SERVERS = {"bare": "", "bare, rounds of 400": "read=32120", "packets": "packets", "packets, rounds of 400": "packets read=32120"}


def main():
    program = os.path.abspath(sys.argv[1])
    times = int(sys.argv[2]) if len(sys.argv) > 2 else 9
    name = sys.argv[3] if len(sys.argv) > 3 else "fast100"
    _, hard = resource.getrlimit(resource.RLIMIT_NOFILE)
    resource.setrlimit(resource.RLIMIT_NOFILE, (hard, hard))
    print(f"{name}, load {loads()}, each figure the median of {times}", flush=True)
    with tempfile.TemporaryDirectory() as folder:
        build(folder)
        with open(f"{folder}/aprsc.conf", "w", encoding="ascii") as file:
            file.write(CONFIGURATION)
        commands = {kind: [f"{folder}/bare", f"127.0.0.1:{FULL}", *words.split()] for kind, words in SERVERS.items()}
        commands["server"] = [program, "-c", "aprsc.conf"]
        runs = {kind: [] for kind in commands}
        for _ in range(times):
            for kind, command in commands.items():
                runs[kind].append(measure(folder, command, RUNS[name] + (LONGER if kind.startswith("bare") else "")))
    print("| server | delivered a second | to bare's | us of processor a delivered line | to bare's |\n|---|---|---|---|---|")
    delivered, cpu = (median(runs["bare"], figure) for figure in ("delivered", "cpu"))
    for kind, found in runs.items():
        own, used = median(found, "delivered"), median(found, "cpu")
        print(f"| {kind} | {own:,.0f} | {own / delivered:.2f} | {used:.4f} | {used / cpu:.2f} |")
    print(f"\nload {loads()}")


if __name__ == "__main__":
    main()
