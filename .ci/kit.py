"""What crates.txt says of the crates, which files there are, and how a library is built."""
import os, subprocess

TOP = os.path.dirname(os.path.dirname(os.path.abspath(__file__)))


class Failed(Exception):
    """What a command said that failed, or what is wrong with a file."""


def quiet(words, **how):
    """Runs a command, and raises the end of what it says where it fails."""
    ran = subprocess.run(words, stdout=subprocess.PIPE, stderr=subprocess.STDOUT, text=True, errors="replace", **how)
    if ran.returncode:
        raise Failed(f"{' '.join(words)}: status {ran.returncode}\n{ran.stdout[-3000:]}")


def build(crate):
    """Builds a library, and those below it, over what `rt check` or `rt lib` proved of them before."""
    quiet(["rt", "lib"], cwd=f"crates/{crate}")


def files(*paths):
    """Returns the files at or below some paths, or of a pattern, that git tracks or would track: none that it ignores, as what is built."""
    words = ["git", "ls-files", "-z", "--cached", "--others", "--exclude-standard", "--", *paths]
    told = subprocess.run(words, stdout=subprocess.PIPE, check=True, text=True).stdout
    return sorted(it for it in set(told.split("\0")) if os.path.isfile(it))


def crates():
    """Returns for each crate of crates.txt, in its order, the crates that it names as those below it."""
    below = {}
    for line in open("crates.txt", encoding="utf-8"):
        name, _, others = line.partition("#")[0].partition(":")
        if name.strip():
            below[name.split()[0]] = others.split()
    return below


def all_below(crate):
    """Returns a crate, all that it names as those below it, and all below these."""
    below, found = crates(), [crate]
    for it in found:
        found += [other for other in below.get(it, []) if other not in found]
    return found
