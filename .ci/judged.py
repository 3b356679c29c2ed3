"""What each part of .ci/deep judges, and which parts are due: those whose files are others than when they last passed.

usage: python3 .ci/judged.py         prints the parts that are due

.ci/judged has a line for each part that passed: its name, and a hash of the paths and contents of what it judged. No proof and no
comment is among these: neither changes what a contract says or what a function does.
"""
import hashlib, os

import kit

PATH = ".ci/judged"
# what a line of comment begins with, in files of these endings
COMMENTS = {".rt": b"//", ".antt": b"--"}


def sources_of(crate, *folders):
    """Returns these folders of a crate, and of all below it."""
    return [f"crates/{it}/{folder}" for it in kit.all_below(crate) for folder in folders]


def parts():
    """Returns the names of all parts, each with the files and folders that it judges."""
    tables = "crates/gimli_vectors/data"
    found = {}
    for crate in kit.crates():
        if os.path.isdir(f"crates/{crate}/wrong-bodies"):
            found[f"wrong_bodies/{crate}"] = [f"crates/{crate}/wrong-bodies", *sources_of(crate, "src", "specs")]
    found["hostile"] = found["bindings"] = ["bindings", tables, *sources_of("gimli_c", "src", "specs")]
    found["planted"] = ["tools/planted", "tools/planted.py", tables, *sources_of("gimli_vectors", "src")]
    found["fuzz"] = ["tools/fuzz.py", *sources_of("gimli_walk_program", "src")]
    return found


def judged_text(path):
    """Returns what is judged of a file: of code, of clauses and of definitions the lines that are no comment."""
    with open(path, "rb") as file:
        text = file.read()
    mark = COMMENTS.get(os.path.splitext(path)[1])
    return b"\n".join(it for it in text.split(b"\n") if not it.lstrip().startswith(mark)) if mark else text


def hash_of(paths):
    """Returns a hash of the files at or below some paths."""
    whole = hashlib.sha256()
    for path in kit.files(*paths):
        whole.update(f"{path} {hashlib.sha256(judged_text(path)).hexdigest()}\n".encode())
    return whole.hexdigest()


def passed():
    """Returns the hashes that .ci/judged has."""
    if not os.path.exists(PATH):
        return {}
    with open(PATH, encoding="utf-8") as lines:
        return dict(it.split() for it in lines if len(it.split()) == 2)


def write(part, passed_hash):
    """Writes the hash of a part that passed, or takes away that of one that failed, where it is None."""
    known = {**passed(), part: passed_hash}
    with open(PATH, "w", encoding="utf-8") as out:
        out.writelines(f"{name} {it}\n" for name, it in sorted(known.items()) if it)


def main():
    os.chdir(kit.TOP)
    known = passed()
    due = [part for part, paths in parts().items() if known.get(part) != hash_of(paths)]
    print("\n".join(f"due: {it}" for it in due) or "nothing of .ci/deep is due")


if __name__ == "__main__":
    main()
