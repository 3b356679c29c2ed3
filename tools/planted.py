#!/usr/bin/env python3
"""Sees that the tables tell wrong bodies that no clause can refuse, as a step that always answers that memory is refused.

usage: tools/planted.py [NAME..]    at the top of the repository; without names all of tools/planted/*.edit are tried, a minute each

An edit has the form of a wrong body (docs/TESTS.md), with two lines before it: `crate:`, the crate that it changes, and `told:`, a
program of tables and the tables that must tell. In a copy of the repository the edit is applied and `rt try` runs these tables: some
of their cases have to differ, or the program has to stop. Nothing is proved.
"""
import glob, os, re, shutil, subprocess, sys, tempfile


def tried(path):
    """Returns what the tables say of the code with an edit."""
    lines = open(path, encoding="utf-8").read().splitlines()
    said = dict(line.split(": ", 1) for line in lines if line.startswith(("crate: ", "told: ")))
    program, *tables = said["told"].split()
    with tempfile.TemporaryDirectory(prefix="planted-") as room:
        for part in ("crates.txt", "HANDLES"):
            shutil.copy(part, room)
        shutil.copytree("crates", f"{room}/crates", ignore=shutil.ignore_patterns("out"))
        file, old = None, None
        for line in lines:
            word, _, rest = line.partition(": ")
            if word == "file":
                file = f"{room}/crates/{said['crate']}/{rest}"
            elif word == "old":
                old = rest
            elif word == "new":
                text = open(file, encoding="utf-8").read()
                if text.count(old) != 1:
                    return "CANNOT BE APPLIED"
                open(file, "w", encoding="utf-8").write(text.replace(old, rest))
        words = ["rt", "try", "--", *(f"data/{it}" for it in tables)]
        ran = subprocess.run(words, cwd=f"{room}/crates/{program}", capture_output=True, text=True, errors="replace")
    counts = re.findall(r"(\S+): (\d+) cases, (\d+) differ", ran.stdout)
    differ = sum(int(it[2]) for it in counts)
    if len(counts) < len(tables):
        return "told: the program stops" if counts or "cases" not in ran.stdout and "error" not in ran.stderr else f"NOT RUN: {ran.stderr[-300:]}"
    return f"told by {differ} cases" if differ else "NOT TOLD"


def main(names):
    chosen = [f"tools/planted/{it}.edit" for it in names] or sorted(glob.glob("tools/planted/*.edit"))
    failed = 0
    for path in chosen:
        verdict = tried(path)
        failed += not verdict.startswith("told")
        print(f"{os.path.basename(path)[:-5]}: {verdict}", flush=True)
    return 1 if failed else 0


if __name__ == "__main__":
    sys.exit(main(sys.argv[1:]))
