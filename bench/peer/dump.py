#!/usr/bin/env python3
"""Times our program's `dump` beside the same lines by gimli 0.27.0, and beside llvm-dwarfdump and readelf.

usage: bench/peer/dump.py [--rounds N] PROGRAM CORPUS..

PROGRAM is the built crates/gimli_walk_program/out/gimli_walk_program, and a CORPUS a folder with the sections `info`, `abbrev` and
others (README.md). For each corpus: seconds of our program (least, middle and greatest of N runs), the others' middle over
ours, and the most memory in MB. The rounds are interleaved, and what is printed goes to a file in memory, which is not kept.
"""
import os, pathlib, statistics, subprocess, sys, tempfile, time

HERE = pathlib.Path(__file__).resolve().parent


def elf_of(corpus, room):
    """Puts the sections of a corpus into an object file, which the other tools want."""
    source, made = f"{room}/empty.c", f"{room}/sections.o"
    pathlib.Path(source).write_text("")
    subprocess.run(["gcc", "-c", source, "-o", made], check=True)
    for path in sorted(pathlib.Path(corpus).iterdir()):
        subprocess.run(["objcopy", "--add-section", f".debug_{path.name}={path}", made], check=True)
    return made


def run(words, out):
    """Returns the seconds of one run."""
    with open(out, "wb") as to:
        start = time.perf_counter()
        subprocess.run(words, stdout=to, stderr=subprocess.DEVNULL)
        return time.perf_counter() - start


def memory_of(words, room):
    """Returns the most memory of a run, in MB, as GNU time tells it: a child of this script would be told the script's own."""
    with open("/dev/null", "wb") as to:
        subprocess.run(["/usr/bin/time", "-f", "%M", "-o", f"{room}/most", *words], stdout=to, stderr=subprocess.DEVNULL)
    return int(pathlib.Path(f"{room}/most").read_text().split()[-1]) / 1024


def main(words):
    rounds = 7
    if words[0] == "--rounds":
        rounds, words = int(words[1]), words[2:]
    program, corpora = os.path.abspath(words[0]), words[1:]
    target = os.environ.get("TARGET", f"{HERE}/target")
    build = ["cargo", "build", "--release", "--offline", "--quiet", "--target-dir", target]
    subprocess.run(build, cwd=HERE / "dump", check=True)
    print(f"{'corpus':<20}{'MB':>6}{'ours, s':>24}{'peer':>8}{'llvm':>8}{'readelf':>9}   memory: ours, peer, llvm, readelf")
    for corpus in corpora:
        with tempfile.TemporaryDirectory(dir="/dev/shm") as room:
            sections, elf = [f"{corpus}/info", f"{corpus}/abbrev"], elf_of(corpus, room)
            tools = {
                "ours": [program, "dump", *sections],
                "peer": [f"{target}/release/peer_dump", *sections],
                "llvm": ["llvm-dwarfdump", "--debug-info", elf],
                "readelf": ["readelf", "--debug-dump=info", elf],
            }
            taken, most = {it: [] for it in tools}, {it: memory_of(tool, room) for it, tool in tools.items()}
            for _ in range(rounds):
                for name, tool in tools.items():
                    taken[name].append(run(tool, f"{room}/{name}"))
            if pathlib.Path(f"{room}/ours").read_bytes() != pathlib.Path(f"{room}/peer").read_bytes():
                sys.exit(f"{corpus}: other lines than the peer's")
        middle = {it: statistics.median(all) for it, all in taken.items()}
        size = (os.stat(sections[0]).st_size) / 2**20
        ours = f"{min(taken['ours']):.3f} {middle['ours']:.3f} {max(taken['ours']):.3f}"
        ratios = "".join(f"{middle[it] / middle['ours']:>{8 + (it == 'readelf')}.2f}" for it in ("peer", "llvm", "readelf"))
        print(f"{os.path.basename(os.path.normpath(corpus)):<20}{size:>6.1f}{ours:>24}{ratios}   " + " ".join(f"{most[it]:.1f}" for it in tools))


if __name__ == "__main__":
    main(sys.argv[1:])
