#!/usr/bin/env python3
"""Throws random and changed sections at the built program, in all modes, and checks what needs no second implementation.

usage: tools/fuzz.py PROGRAM RUNS [--seed N] [--memory MB] [--keep FOLDER] SECTIONS..

PROGRAM is the built crates/gimli_walk_program/out/gimli_walk_program; RUNS is how many times it is started. SECTIONS are folders with the
files `info` and `abbrev`, and `aranges` where there is one, or files NAME.info beside NAME.abbrev and NAME.aranges; they are cut, and
changed in single bytes. A section is also made from nothing: nested entries with sibling references of any value. Each run has a limit
of memory (256 MB) and of time (10 s).

What holds of every run:
- it ends by itself, with status 0 or 1, and nothing but lines of its mode is written;
- status 1 stands exactly where a line `error N` or `no unit` was written, N from 1 to 23, as memory is at hand;
- in `rows` and in each unit of `dump` offsets grow, and each depth follows from the row before by its flag, or its being a null;
- the first unit of `dump` has the rows of `rows`;
- where `check` says `honest`, `cursor` and `plain` write the same to the same steps;
- a step of `cursor`, `plain` or `tree` writes one line.
What breaks one of these is kept in FOLDER, if it is given, and the script ends with status 1.
"""
import argparse, os, pathlib, random, re, resource, subprocess, sys, tempfile, time

ROW = re.compile(rb"([0-9a-f]+) (-?[0-9]+) ([0-9a-f]+) ([01])")
LINES = {
    "rows": rb"(no unit|error \d+( [0-9a-f]+)?|end|[0-9a-f]+ -?\d+ [0-9a-f]+ [01])",
    "dump": rb"(unit [0-9a-f]+ [2-5] [0-9a-f]+|error \d+( [0-9a-f]+)?|end|[0-9a-f]+ -?\d+ [0-9a-f]+ [01])",
    "check": rb"(no unit|error \d+|honest|false [0-9a-f]+)",
    "cursor": rb"(no unit|error \d+|(yes|no|error \d+) [0-9a-f]+ -?\d+ [0-9a-f]+ [01])",
    "tree": rb"(no unit|error \d+|node [0-9a-f]+ -?\d+ [0-9a-f]+ [01]|end|entered|left|nonode)",
    "find": rb"(unit [0-9a-f]+|none|error \d+)",
}
LINES["plain"] = LINES["cursor"]
LINES = {mode: re.compile(line) for mode, line in LINES.items()}


class Broken(Exception):
    pass


def check(holds, why):
    if not holds:
        raise Broken(why)


class Program:
    def __init__(self, path, megabytes, room):
        self.path, self.room, self.runs = os.path.abspath(path), room, 0
        # (each run inherits this script's limit: to set one in each child costs more than the run itself)
        resource.setrlimit(resource.RLIMIT_AS, (megabytes << 20, megabytes << 20))

    def lines(self, mode, *words):
        """Returns the lines that the program writes in a mode, once what holds of each run was seen."""
        self.runs += 1
        try:
            ran = subprocess.run([self.path, mode, *words], capture_output=True, timeout=10, cwd=self.room, close_fds=False)
        except subprocess.TimeoutExpired:
            raise Broken(f"{mode} {words}: no end in 10 seconds")
        check(ran.returncode in (0, 1), f"{mode} {words}: status {ran.returncode}")
        check(not ran.stderr, f"{mode} {words}: wrote {ran.stderr[:80]} on standard error")
        check(ran.stdout == b"" or ran.stdout.endswith(b"\n"), f"{mode} {words}: the last line has no end")
        lines = ran.stdout.split(b"\n")[:-1]
        for line in lines:
            check(LINES[mode].fullmatch(line), f"{mode} {words}: line {line[:80]}")
        refusals = [int(line.split()[1]) for line in lines if line.startswith(b"error")]
        check(all(1 <= it <= 23 for it in refusals), f"{mode} {words}: refusals {refusals[:5]}")
        is_refused = bool(refusals) or b"no unit" in lines
        check(is_refused == (ran.returncode == 1), f"{mode} {words}: status {ran.returncode} beside {lines[-1:]}")
        return lines


def check_rows(lines):
    """Checks that the offsets of rows grow, and that each depth follows from the row before."""
    last = None
    for line in lines:
        row = ROW.fullmatch(line)
        if not row:
            continue
        offset, depth, tag, flag = int(row[1], 16), int(row[2]), int(row[3], 16), int(row[4])
        check(tag or not flag, f"a null with children: {line}")
        check(depth == (last[1] if last else 0), f"depth {depth} where {last} leads to another: {line}")
        check(last is None or offset > last[0], f"offset {line} behind {last}")
        last = offset, depth + flag - (tag == 0)


def units_of(lines):
    """Returns the rows of each unit of a dump."""
    units = []
    for line in lines:
        if line.startswith(b"unit "):
            units.append([])
        elif units:
            units[-1].append(line)
    return units


def try_case(program, pick):
    """Runs the program in each mode over the sections in its room."""
    rows, dump = program.lines("rows", "info", "abbrev"), program.lines("dump", "info", "abbrev")
    check_rows(rows)
    units = units_of(dump)
    for unit in units:
        check_rows(unit)
    if units and rows[-1:] != [b"no unit"]:
        ends = next(at for at, line in enumerate(units[0]) if line == b"end" or line.startswith(b"error"))
        check(units[0][: ends + 1] == rows, "the first unit of the dump has other rows")
    honest = program.lines("check", "info", "abbrev") == [b"honest"]
    steps = "".join(pick.choice("eeedss" if pick.random() < 0.7 else "eds") for _ in range(pick.randrange(60)))
    cursor, plain = program.lines("cursor", "info", "abbrev", steps), program.lines("plain", "info", "abbrev", steps)
    check(not honest or cursor == plain, f"honest, and cursor and plain differ at {steps}")
    walk = "r" + "".join(pick.choice("nnniiior" if pick.random() < 0.9 else "o") for _ in range(pick.randrange(60)))
    tree = program.lines("tree", "info", "abbrev", walk)
    for mode, given, said in (("cursor", cursor, steps), ("plain", plain, steps), ("tree", tree, walk)):
        is_begun = len(given) == len(said) or len(given) == 1
        check(is_begun, f"{mode}: {len(given)} lines for {len(said)} steps {said}")
    program.lines("find", "aranges", f"{pick.getrandbits(pick.choice((8, 32, 64))):x}")


def nested(pick):
    """Returns a unit of nested entries whose sibling references are true, near, or any, and its table."""
    table = bytes.fromhex("012e01011100000234000000" "032e0101130000" "043400030800000500000000")
    def written(depth, at):
        out = bytearray()
        for _ in range(pick.randrange(1, 4)):
            if depth < 6 and pick.random() < 0.6:
                code = pick.choice((1, 1, 3))
                width = 1 if code == 1 else 4
                below = written(depth + 1, at + len(out) + 1 + width) + (b"" if pick.random() < 0.02 else b"\0")
                to = at + len(out) + 1 + width + len(below)
                if pick.random() < 0.15:
                    to += pick.randrange(-6, 7)
                elif pick.random() < 0.05:
                    to = pick.getrandbits(8 * width)
                out += bytes([code]) + (to % 256**width).to_bytes(width, "little") + below
            else:
                out += b"\2"
        return bytes(out)
    body = written(0, 11)
    if pick.random() < 0.2:
        body += b"\0"
    head = (len(body) + 7).to_bytes(4, "little") + b"\4\0" + bytes(4) + b"\4"
    return head + body, table


def changed(pick, section):
    """Returns a section with some of its bytes changed, a piece cut out, or its end cut off."""
    out = bytearray(section)
    for _ in range(pick.choice((0, 1, 1, 2, 4, 16))):
        if not out:
            break
        at = pick.randrange(len(out))
        way = pick.randrange(6)
        if way == 0:
            out[at] = pick.randrange(256)
        elif way == 1:
            out[at] ^= 1 << pick.randrange(8)
        elif way == 2:
            out[at] = pick.choice((0, 1, 0x7F, 0x80, 0xFF))
        elif way == 3:
            del out[at : at + pick.randrange(1, 9)]
        elif way == 4:
            out[at:at] = pick.randbytes(pick.randrange(1, 9))
        else:
            del out[at:]
    return bytes(out)


def made(pick, files):
    """Returns the sections of a case."""
    way = pick.random()
    if way < 0.3:
        info, abbrev = nested(pick)
        aranges = pick.choice(files)["aranges"]
    elif way < 0.35:
        info, abbrev, aranges = (pick.randbytes(pick.randrange(80)) for _ in range(3))
    else:
        chosen = pick.choice(files)
        info, abbrev, aranges = chosen["info"], chosen["abbrev"], chosen["aranges"]
    return [changed(pick, it) if pick.random() < 0.8 else it for it in (info, abbrev, aranges)]


def read(path):
    return path.read_bytes() if path.exists() else b""


def sections_of(path):
    """Returns the sections of a folder, or those of a file NAME.info."""
    path = pathlib.Path(path)
    return {name: read(path / name if path.is_dir() else path.with_suffix(f".{name}")) for name in ("info", "abbrev", "aranges")}


def main():
    parser = argparse.ArgumentParser(description=__doc__, formatter_class=argparse.RawDescriptionHelpFormatter)
    parser.add_argument("program")
    parser.add_argument("runs", type=int)
    parser.add_argument("sections", nargs="+")
    parser.add_argument("--seed", type=int, default=1)
    parser.add_argument("--memory", type=int, default=256)
    parser.add_argument("--keep")
    given = parser.parse_args()
    files = [sections_of(it) for it in given.sections]
    pick, begun, broken, cases = random.Random(given.seed), time.time(), 0, 0
    with tempfile.TemporaryDirectory(dir="/dev/shm") as room:
        program = Program(given.program, given.memory, room)
        while program.runs < given.runs:
            for name, section in zip(("info", "abbrev", "aranges"), made(pick, files)):
                (pathlib.Path(room) / name).write_bytes(section)
            cases += 1
            try:
                try_case(program, pick)
            except Broken as why:
                broken += 1
                print(f"case {cases} of seed {given.seed}: {why}", flush=True)
                if given.keep:
                    to = pathlib.Path(given.keep) / f"{given.seed}-{cases}"
                    to.mkdir(parents=True, exist_ok=True)
                    for name in ("info", "abbrev", "aranges"):
                        (to / name).write_bytes((pathlib.Path(room) / name).read_bytes())
        print(f"{program.runs} runs over {cases} cases, {broken} broken, {time.time() - begun:.0f} seconds")
    return 1 if broken else 0


if __name__ == "__main__":
    sys.exit(main())
