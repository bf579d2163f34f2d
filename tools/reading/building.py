"""Builds the programs of this folder: plain ones, and those that stand on crates of the repository and are no crates of it."""

import os
import pathlib
import shutil
import subprocess
import sys

HERE = os.path.dirname(os.path.realpath(__file__))
TOP = os.path.dirname(os.path.dirname(HERE))


def build_plain(folder, source):
    program = f"{folder}/{pathlib.Path(source).stem}"
    subprocess.run(["rustc", "-O", "--edition", "2021", "-o", program, source], check=True)
    return program


def build_proved(folder, name, deps, below):
    """The program of NAME.rattle on these crates, proved and built in a copy with all crates below it; what checks have left in their out/
    is copied too, so that it needn't be proved again."""
    copy = f"{folder}/copy"
    subprocess.run(["git", "clone", "--quiet", TOP, copy], check=True)
    for crate in below.split():
        if os.path.isdir(f"{TOP}/crates/{crate}/out"):
            shutil.copytree(f"{TOP}/crates/{crate}/out", f"{copy}/crates/{crate}/out")
    crate = f"{copy}/crates/{name}"
    os.makedirs(f"{crate}/src")
    shutil.copy(f"{HERE}/{name}.rattle", f"{crate}/src/main.rt")
    with open(f"{copy}/crates.txt", "a") as crates:
        crates.write(f"{name}: {deps}\n")
    made = subprocess.run(["rt", "run", "--jobs", "1"], cwd=crate, capture_output=True, text=True)
    if made.returncode != 0:
        sys.exit(made.stdout + made.stderr)
    return f"{crate}/out/{name}"
