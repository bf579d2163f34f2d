#!/usr/bin/env python3
"""What reading a packet line costs, and what is done with it then, beside a plain reader: tools/reading/run.py [RUNS]

The program reading_costs.rattle is no crate of the repository. It is proved and built in a copy.
"""
import resource
import subprocess
import sys
import tempfile
import time

from building import HERE, build_plain, build_proved

DEPS = "aprs_base tnc2_line aprs_body q_construct parsed_lines"
BELOW = f"{DEPS} aprs_position mic_e"

# What a row is called, its program and its word.
ROWS = [
    ("plain reader", "plain", []),
    ("plain reader with the class", "plain", ["classify"]),
    ("read_into", "costs", ["read"]),
    ("read_into and classify", "costs", ["classify"]),
    ("read_into and process_into", "costs", ["route"]),
    ("read_into, process_into and write", "costs", ["write"]),
    ("parse_all, 400 lines at a time", "costs", ["round"]),
    ("parse_all, 20,000 lines by 400", "costs", ["rounds"]),
    ("parse_all, 20,000 lines at a time", "costs", ["many"]),
]


def run(words):
    """The processor time and the time of one run, in seconds. A million lines are read, so they are microseconds a line."""
    before, start = resource.getrusage(resource.RUSAGE_CHILDREN), time.monotonic()
    subprocess.run(words, check=True, stdout=subprocess.DEVNULL)
    after, end = resource.getrusage(resource.RUSAGE_CHILDREN), time.monotonic()
    return after.ru_utime + after.ru_stime - before.ru_utime - before.ru_stime, end - start


def main():
    runs = int(sys.argv[1]) if len(sys.argv) > 1 else 5
    with tempfile.TemporaryDirectory() as folder:
        programs = {"plain": build_plain(folder, f"{HERE}/plain.rs"), "costs": build_proved(folder, "reading_costs", DEPS, BELOW)}
        # The rows in turn, so that what else the machine does meets them all alike.
        found = [[run([programs[program], *words]) for _, program, words in ROWS] for _ in range(runs)]
        print(f"microseconds a line, the best of {runs}     processor     time")
        for place, (name, _, _) in enumerate(ROWS):
            cpu, wall = (min(turn[place][which] for turn in found) for which in (0, 1))
            print(f"{name:36}     {cpu:9.2f}{wall:9.2f}")


main()
