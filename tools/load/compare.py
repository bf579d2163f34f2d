#!/usr/bin/env python3
"""Measures a server beside the bare one, in turns, and prints a table of medians.

    compare.py PROGRAM [TIMES] [NAME..]     PROGRAM -c FILE is the server; each run has a fresh one

Without names all runs of RUNS are made. The first and the last line say how busy the machine was.
"""

import os
import re
import resource
import statistics
import subprocess
import sys
import tempfile
import time

HERE = os.path.dirname(os.path.abspath(__file__))
FULL, IGATE = 15010, 15011

CONFIGURATION = f"""ServerId T2TEST
PassCode 8385
MyAdmin "Jane Doe, K1ABC"
MyEmail k1abc@example.org
Listen "Full feed" fullfeed tcp 127.0.0.1 {FULL}
Listen "Client port" igate tcp 127.0.0.1 {IGATE}
MaxClients 10000
"""

RUNS = {
    "paced10": "feed clients=10 lines=5000 rate=500",
    "paced100": "feed clients=100 lines=5000 rate=500",
    "paced1000": "feed clients=1000 lines=2000 rate=100",
    "mixed200": "feed clients=100 filtered=100 senders=4 lines=5000 rate=500",
    "fast10": "feed clients=10 lines=20000 rate=0 batch=10 readers=2",
    "fast100": "feed clients=100 lines=20000 rate=0 batch=10 readers=2",
    "fast1000": "feed clients=1000 lines=20000 rate=0 batch=10 readers=2",
    "senders100": "feed clients=100 senders=50 lines=20000 rate=0 batch=10 readers=2",
    "idle1000": "idle clients=1000 seconds=5",
    "idle9000": "idle clients=9000 seconds=20",
}

# Lines for the bare server, which adds nothing to them: so they are as long as the server's are when they leave it.
LONGER = " length=98"

# Drills of the server alone: their time and the most memory that they take.
DRILLS = ["drill 7 20000 200", "drill 7 100000 40"]

# What a run prints, by the names of the table.
FIGURES = {
    "delivered": r"delivered +\d+ lines, (\d+) a second",
    "p50": r"p50 ([\d.]+) ms",
    "p99": r"p99 ([\d.]+) ms",
    "cpu": r"([\d.]+) us a delivered line",
    "lost": r"wrong +(\d+) lost",
    "disordered": r"(\d+) out of order",
    "closed": r"closed +(\d+) links|(\d+) links closed",
    "logins": r"logged in.* s, (\d+) a second",
    "kilobytes": r"([\d.]+) kB a link",
    "share": r"idle +([\d.]+) %",
    "left": r"all left took ([\d.]+) ms",
}


def build(folder):
    for name in ("load", "bare"):
        source, program = f"{HERE}/{name}.rs", f"{folder}/{name}"
        subprocess.run(["rustc", "-O", "--edition", "2021", source, "-o", program], check=True)


def measure(folder, server, words):
    """One run against a fresh server."""
    with subprocess.Popen(server, cwd=folder, stderr=subprocess.DEVNULL) as process:
        try:
            time.sleep(0.3)
            ports = [f"full=127.0.0.1:{FULL}", f"igate=127.0.0.1:{IGATE}", f"pid={process.pid}"]
            command = [f"{folder}/load", *words.split(), *ports]
            done = subprocess.run(command, capture_output=True, text=True, timeout=300, check=False)
        finally:
            process.terminate()
    if done.returncode != 0:
        sys.exit(f"{' '.join(server)}: {words}: {done.stderr}")
    found = {}
    for name, pattern in FIGURES.items():
        match = re.search(pattern, done.stdout)
        if match:
            found[name] = float(next(group for group in match.groups() if group is not None))
    return found


def median(runs, name):
    return statistics.median(run.get(name, 0.0) for run in runs) if runs else 0.0


def ratio(runs, bare, name):
    base = median(bare, name)
    return f"{median(runs, name) / base:.2f}" if base else "-"


def row(name, server, bare):
    """The figures of one kind of run as a line of a table."""
    faults = "/".join(f"{sum(run.get(fault, 0) for run in server):.0f}" for fault in ("lost", "disordered", "closed"))
    if name.startswith("idle"):
        cells = [f"{median(runs, 'logins'):.0f}" for runs in (bare, server)]
        cells += [f"{median(runs, 'kilobytes'):.2f}" for runs in (bare, server)]
        cells += [f"{median(runs, 'share'):.2f}" for runs in (bare, server)]
        cells += [f"{median(runs, 'left'):.0f}" for runs in (bare, server)]
    else:
        cells = [f"{median(runs, 'delivered'):.0f}" for runs in (bare, server)] + [ratio(server, bare, "delivered")]
        cells += [f"{median(runs, 'cpu'):.3f}" for runs in (bare, server)] + [ratio(server, bare, "cpu")]
        cells += [f"{median(runs, 'p50'):.2f}, {median(runs, 'p99'):.2f}" for runs in (bare, server)]
    return f"| {name} | " + " | ".join(cells) + f" | {faults} |"


FEED_HEAD = (
    "| run | delivered a second: bare | server | ratio | us of processor a line: bare | server | ratio "
    "| p50, p99 in ms: bare | server | lost/out of order/closed |"
)
IDLE_HEAD = (
    "| run | logins a second: bare | server | kB a link: bare | server | % of a processor: bare | server "
    "| ms of a line after all left: bare | server | lost/out of order/closed |"
)


def head(name):
    text = IDLE_HEAD if name.startswith("idle") else FEED_HEAD
    return text + "\n" + "|---" * (text.count("|") - 1) + "|"


def drill(program, words):
    """The seconds of a drill, its processor seconds, the most megabytes that it takes, and what it prints."""
    began = time.monotonic()
    with subprocess.Popen([program, *words.split()], stdout=subprocess.PIPE, text=True) as process:
        printed = process.stdout.read().strip()
        _, status, used = os.wait4(process.pid, 0)
        process.returncode = os.waitstatus_to_exitcode(status)
    if process.returncode != 0:
        sys.exit(f"{words}: status {process.returncode}")
    return time.monotonic() - began, used.ru_utime + used.ru_stime, used.ru_maxrss / 1024, printed


def loads():
    with open("/proc/loadavg", encoding="ascii") as file:
        return file.read().split()[0]


def main():
    program = os.path.abspath(sys.argv[1])
    words = sys.argv[2:]
    times = int(words.pop(0)) if words and words[0].isdigit() else 3
    names = words or list(RUNS)
    _, hard = resource.getrlimit(resource.RLIMIT_NOFILE)
    resource.setrlimit(resource.RLIMIT_NOFILE, (hard, hard))
    print(f"{os.cpu_count()} processors, load {loads()}, each figure the median of {times}", flush=True)
    with tempfile.TemporaryDirectory() as folder:
        build(folder)
        with open(f"{folder}/aprsc.conf", "w", encoding="ascii") as file:
            file.write(CONFIGURATION)
        servers = {"bare": [f"{folder}/bare", f"127.0.0.1:{FULL}"], "server": [program, "-c", "aprsc.conf"]}
        before = None
        for name in names:
            if before is None or head(name) != head(before):
                print("\n" + head(name), flush=True)
            before = name
            runs = {server: [] for server in servers}
            for _ in range(times):
                for server, command in servers.items():
                    # The bare server knows no filters.
                    if server == "server" or "filtered" not in RUNS[name]:
                        runs[server].append(measure(folder, command, RUNS[name] + (LONGER if server == "bare" else "")))
            print(row(name, runs["server"], runs["bare"]), flush=True)
        print("\n| drill | seconds | processor seconds | MB | what it prints |\n|---|---|---|---|---|")
        for words in [] if names != list(RUNS) else DRILLS:
            seconds, used, megabytes, printed = drill(program, words)
            print(f"| {words} | {seconds:.1f} | {used:.1f} | {megabytes:.0f} | {printed} |", flush=True)
    print(f"\nload {loads()}")


if __name__ == "__main__":
    main()
