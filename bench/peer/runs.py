#!/usr/bin/env python3
"""runs.py RUNS LIBRARY.a ROUNDS CORPUS..: builds the program with each kind of task, the library at two places, runs all tasks over all
corpora RUNS times, and prints for each task and order the range of the middles: of each corpus the middle of its peer time / our time,
over all runs and both places. A task of which a corpus has nothing (its sum is 0) is left out for it.

KIT names the folder of the kit. What is made goes to TARGET (default: target beside this file), a folder for each kind.
"""
import os
import re
import statistics
import subprocess
import sys
from collections import defaultdict
from pathlib import Path

HERE = Path(__file__).resolve().parent
KINDS = ["entries", "cursors", "trees", "lists", "locations"]
# The tasks that the programs of all kinds have: those of the first count.
OF_ALL_KINDS = ("LEB128", "words", "records", "tables")
LINE = re.compile(r"(.{16}) ((?:run-time )?(?:little|big)|whole slice) +([\d.]+) +([\d.]+) +sum ([0-9a-f]+)")


def build(target, library):
    for kind in KINDS:
        made = dict(os.environ, TASKS=kind, TARGET=str(target / kind))
        subprocess.run([HERE / "build.sh", f"a={library}", f"b={library}"], env=made, check=True, stdout=sys.stderr)


def main(runs, library, rounds, *corpora):
    target = Path(os.environ.get("TARGET", HERE / "target"))
    build(target, Path(library).resolve())
    ratios = defaultdict(lambda: defaultdict(list))
    for _ in range(int(runs)):
        for kind in KINDS:
            for corpus in corpora:
                program = target / kind / "release/gimli_benches"
                told = subprocess.run([program, rounds], env=dict(os.environ, CORPUS=corpus), check=True, capture_output=True, text=True)
                if "DIFFERENT" in told.stdout:
                    sys.exit(told.stdout)
                for task, order, *places, total in LINE.findall(told.stdout):
                    counts = kind == KINDS[0] or not task.startswith(OF_ALL_KINDS)
                    if counts and int(total, 16) and "big" not in order:
                        ratios[task.strip(), order][corpus] += map(float, places)
    for (task, order), found in ratios.items():
        middles = [statistics.median(each) for each in found.values()]
        print(f"{task:18}{order:18}{min(middles):.2f} to {max(middles):.2f}")


if __name__ == "__main__":
    if len(sys.argv) < 5:
        sys.exit(__doc__)
    main(*sys.argv[1:])
