"""Tries the wrong bodies of crates/*/wrong-bodies/*.edit: the prover has to refuse each edited function by a goal of its own.

Each file has the form of a must-fail edit. Some sixty are tried in one `rt check` in a copy of the repository, which looks at the
edited functions alone; where several are of one function, all but one stand in copies of it beside it. In place of every other
function's proof stands a hole, and in place of its body one that is never run: `rt ci` proves them. A function that is refused
only since it calls a refused one is tried again in the next check, without those; so each edit is judged by itself. An edit is let
through where its function is proved, and it fails as well where nothing but a name that it takes away from a proof file stops the
check. Each copy also has an unchanged copy of one of its functions, which has to be proved there.

The libraries below are built first, in place: `rt ci` leaves none, and each copy would prove them all again.
"""
import concurrent.futures, glob, os, re, shutil, subprocess, tempfile, time

import kit
from sources import functions_of, pairs_of, read

SAYS = re.compile(r"fn (\S+): (proved|no holes|depends on a hole in|not proved|no proof: it calls|no proof)(.*)")
# what a proof file says where a name is gone, and not where a goal is false
NAMES = re.compile(r"has no field|is not in scope|has no `|was not admitted")
# the module with the hole that stands in place of proofs
HOLE = "WrongBodiesHole"
# how many are tried in one check, about
MOST = 60


class Sources:
    """The files and functions of a crate."""

    def __init__(self, crate):
        self.crate, self.folder = crate, f"crates/{crate}"
        self.functions = functions_of(self.folder)
        self.texts = {file: read(f"{self.folder}/{file}") for file in self.functions}

    def all(self):
        """Returns the functions that have a body."""
        return [it for some in self.functions.values() for it in some if it.has_body]

    def function_at(self, file, line):
        """Returns the function of a file that has a line, or None outside of functions."""
        function = next((it for it in reversed(self.functions.get(file, [])) if it.head <= line), None)
        return None if function and function.closes is not None and function.closes < line else function


class Edit:
    """One wrong body: its pairs of texts, and the functions that it changes; or, as a control, a body that it leaves as it is."""

    def __init__(self, path, sources, is_control=False):
        self.name, self.is_control = os.path.basename(path)[: -len(".edit")] + " unchanged" * is_control, is_control
        self.pairs, self.own = pairs_of(path), set()
        # its functions, or the one copy that is made of its function
        self.tried, self.copied = self.own, None
        texts = dict(sources.texts)
        for file, old, new in self.pairs:
            self.own.add(sources.function_at(file, texts[file][: texts[file].find(old)].count("\n")))
            texts[file] = texts[file].replace(old, new)
        self.own.discard(None)
        if not self.own:
            raise kit.Failed(f"{path}: no pair of texts in a function")

    def apply(self, texts):
        """Returns the texts with this edit, or None where one of its old texts does not stand there once."""
        found = dict(texts)
        for file, old, new in self.pairs:
            if found[file].count(old) != 1:
                return None
            found[file] = found[file].replace(old, new)
        return found

    def wanted(self):
        """Returns what a check has to say of it."""
        return "proved" if self.is_control else "refused"

    def copy(self, sources, number):
        """Makes of this edit one of a copy of its function, and returns whether it could: not of a trait's functions, nor of several."""
        (function,) = [*self.own][:1]
        if len(self.own) > 1 or any(it[0] != function.file for it in self.pairs) or function.closes is None or function.is_of_trait:
            return False
        text = "\n".join(sources.texts[function.file].split("\n")[function.first : function.closes + 1])
        if re.search(r"#\[(unsafe|cycle)", text) or any(text.count(it[1]) != 1 for it in self.pairs):
            return False
        for _, old, new in [] if self.is_control else self.pairs:
            text = text.replace(old, new)
        *above, name = function.name.split("::")
        other = f"{name}_again_{number}"
        self.copied = function, text.replace(f"fn {name}", f"fn {other}", 1), other
        self.tried = {function.renamed("::".join([*above, other]))}
        return True


def write(path, text, mode="w"):
    os.makedirs(os.path.dirname(path), exist_ok=True)
    with open(path, mode, encoding="utf-8") as it:
        it.write(text)


def copy_proofs(room, crate, function, other):
    """Gives the copy of a function the proof files of the function."""
    for file in glob.glob("proofs/**/*.antt", root_dir=room, recursive=True):
        parts = file.split("/")[1:]
        *above, name = function.name.split("::")
        if name not in parts or not function.has("::".join([crate, *parts[:-1]])):
            continue
        at = parts.index(name)
        path = ".".join(["Rattle", crate, "proofs", *parts[:at], ""])
        text = read(f"{room}/{file}").replace(f"{path}{name}.", f"{path}{other}.")
        write("/".join([room, "proofs", *parts[:at], other, *parts[at + 1 :]]), re.sub(rf"\b{name}_spec\b", f"{other}_spec", text))


def hollow(room, sources, tried):
    """Puts a hole in place of the proof of each function of the crate's copy that is not tried, and takes away what was proved of its closures."""
    crate, others = sources.crate, [it for it in sources.all() if it not in tried]
    write(f"{room}/proofs/{HOLE}.antt", "pub anything {ℓ} : {A : Type ℓ} → A\nanything = ?\n")
    write(f"{room}/proofs/Lib.antt", f"pub mod {HOLE}\n", "a")
    for path in glob.glob("**/fn/**/", root_dir=f"{room}/proofs", recursive=True):
        if any(it.has("::".join([crate, *path.split("/")[:-1]])) for it in others if it.closes is not None):
            shutil.rmtree(f"{room}/proofs/{path}", ignore_errors=True)
    for function in others:
        parts = function.name.split("::")[1:]
        folder = "/".join([room, "proofs", *parts])
        for file in ("Answers", "Invariants"):
            if os.path.exists(f"{folder}/{file}.antt"):
                os.remove(f"{folder}/{file}.antt")
        module = ".".join(["Rattle", crate, "proofs", *parts, "Statement"])
        lines = [f"use Rattle.{crate}.proofs.{HOLE}.{{anything}}", f"use {module} as stated", ""]
        lines += [f"pub {parts[-1]}_spec : {{M : Type 1}} → stated.statement M", f"{parts[-1]}_spec = anything", ""]
        write(f"{folder}/Proof.antt", "\n".join(lines))


def with_stubs(sources, texts, edits):
    """Returns the texts with the copies that these edits are of, each behind its function, and with a body that is never run for each function that is not
    tried. (No edit changes how many lines a file has.)"""
    lines = {file: text.split("\n") for file, text in texts.items()}
    tried = {function for edit in edits for function in edit.tried}
    for function in sorted((it for it in sources.all() if it.closes is not None), key=lambda it: -it.head):
        copies = [line for edit in edits if edit.copied and edit.copied[0] == function for line in ["", *edit.copied[1].split("\n")]]
        own = lines[function.file]
        own[function.closes + 1 : function.closes + 1] = copies
        if function not in tried:
            own[function.opens + 1 : function.closes] = [re.match(r"[ \t]*", own[function.head])[0] + "    unreachable!()"]
    return {file: "\n".join(it) for file, it in lines.items()}


def check(room, only):
    """Returns the lines that rt check prints of some functions of a crate's copy."""
    words = ["rt", "check", *(word for it in only for word in ("--only", it)), "--allow-holes", "--short-goals", "--jobs", "1"]
    ran = subprocess.run(words, cwd=room, stdout=subprocess.PIPE, stderr=subprocess.STDOUT, text=True, errors="replace")
    return ran.stdout.split("\n")


def link(source, target):
    """Makes of a file one more name for it, or a copy where there can be none, as on another file system."""
    try:
        os.link(source, target)
    except OSError:
        shutil.copy2(source, target)


def repository_of(top, crate, below):
    """Makes of the folder `top` a repository of the crates below one, with what is built of them, and answers the folder of that one. Copies of what is
    built would take gigabytes each, for each processor: so their files are those of this repository by another name, and nothing writes to them."""
    shutil.copy("HANDLES", top)
    for it in below:
        shutil.copytree(f"crates/{it}", f"{top}/crates/{it}", copy_function=link)
    lines = [it for it in read("crates.txt").split("\n") if it.partition(":")[0].split()[:1] and it.partition(":")[0].split()[0] in (*below, crate)]
    write(f"{top}/crates.txt", "\n".join(lines) + "\n")
    return f"{top}/crates/{crate}"


def verdict_of(edit, lines, crate):
    """Returns what a check says of an edit: `refused`, `named` where only a proof file misses a name, `waits` for a function that it calls, or `proved`."""
    found, told = set(), False
    for line in lines:
        it = SAYS.match(line)
        if it and any(function.has(it[1]) for function in edit.tried):
            path = it[1].split("::")[1:]
            room, own = re.escape("/".join(["proofs", *path])), ".".join(["Rattle", crate, "proofs", *path, ""])
            wrong = [it for it in lines if re.match(rf"(\./)?{room}/\S+: error: ", it)]
            rests = re.findall(r"`(Rattle\.[^`]*)`", it[3])
            if it[2] in ("proved", "no holes"):
                found.add("proved")
            elif it[2] == "depends on a hole in":
                found.add("proved" if rests == [f"Rattle.{crate}.proofs.{HOLE}.anything"] else "nothing told")
            elif it[2] == "no proof: it calls":
                found.add("waits")
            elif told or it[2] == "no proof" or any(not NAMES.search(it) for it in wrong):
                found.add("refused")
            else:
                # (what it stands on is refused: its own answers, or another function's)
                found.add("named" if wrong or any(it.startswith(own) for it in rests) else "waits")
        # (the goals that failed stand above the line of their function)
        told = line.startswith("note: src/") and "it is not proved that" in line or told and not line.startswith(("fn ", "logic"))
    return next((it for it in ("refused", "named", "nothing told", "waits") if it in found), "proved" if found else "nothing told")


def round_of(left, sources):
    """Returns some edits of different functions, or of copies of them, and the texts with all of them."""
    texts, tried, busy = sources.texts, [], set()
    for edit in left:
        edit.tried, edit.copied = edit.own, None
        made = None if edit.is_control or edit.own & busy else edit.apply(texts)
        if made is not None:
            texts, busy = made, busy | edit.own
            tried.append(edit)
        elif edit.copy(sources, len(tried)):
            tried.append(edit)
    return tried, with_stubs(sources, texts, tried)


def control_of(paths, sources):
    """Returns an edit that changes nothing, of the function of middle length among those that can be copied."""
    found = [it for it in (Edit(path, sources, is_control=True) for path in paths) if it.copy(sources, 0)]
    if not found:
        raise kit.Failed(f"{sources.crate}: none of its wrong bodies is of a function that can be copied")
    found.sort(key=lambda it: len(it.copied[1]))
    return found[len(found) // 2]


def judged(room, sources, tried, texts):
    """Returns what a check of the edits that are tried says of each, or its lines where the prover cannot read them."""
    # (what the check before this one kept stays beside them)
    for part in ("src", "specs", "proofs"):
        shutil.rmtree(f"{room}/{part}", ignore_errors=True)
        shutil.copytree(f"{sources.folder}/{part}", f"{room}/{part}")
    for file, text in texts.items():
        write(f"{room}/{file}", text)
    for edit in tried:
        if edit.copied:
            copy_proofs(room, sources.crate, edit.copied[0], edit.copied[2])
    functions = {function for edit in tried for function in edit.tried}
    hollow(room, sources, functions)
    lines = check(room, sorted(it.name for it in functions))
    if not any(it.startswith("only=") for it in lines):
        return None, lines
    return {edit: verdict_of(edit, lines, sources.crate) for edit in tried}, lines


def parts_of(crate):
    """Returns the paths of a crate's wrong bodies, in parts of about `MOST`: a check of too many takes longer than all other crates."""
    paths = sorted(glob.glob(f"crates/{crate}/wrong-bodies/*.edit"))
    count = -(-len(paths) // MOST)
    return [paths[it::count] for it in range(count)]


def tries(crate, below, paths):
    """Tries these wrong bodies of a crate, and returns how many were refused, the names of those that were not, and the seconds that it took."""
    sources, first = Sources(crate), time.monotonic()
    left = [Edit(it, sources) for it in paths] + [control_of(paths, sources)]
    refused, failed, rounds, most = 0, [], 0, len(left)
    with tempfile.TemporaryDirectory(prefix="wrong-bodies-") as top:
        room = repository_of(top, crate, below)
        while left:
            tried, texts = round_of(left[:most], sources)
            if not tried:
                failed += [f"{crate}/{it.name} (cannot be applied)" for it in left[:most]]
                break
            rounds, begin = rounds + 1, time.monotonic()
            verdicts, lines = judged(room, sources, tried, texts)
            if verdicts is None and len(tried) > 1:
                # (an edit that the prover cannot read: it is sought among half of them)
                most = len(tried) // 2
                continue
            if verdicts is None:
                print("\n".join([f"{crate}: no verdict on {tried[0].name}:", *lines[-30:]]), flush=True)
                verdicts = {tried[0]: "no verdict"}
            most = len(left)
            done = [it for it in tried if verdicts[it] != "waits"]
            if not done:
                failed += [f"{crate}/{it.name} (waits for ever)" for it in tried]
                break
            refused += sum(verdicts[it] == "refused" and not it.is_control for it in done)
            failed += [f"{crate}/{it.name} ({verdicts[it]})" for it in done if verdicts[it] != it.wanted()]
            words = f"{len(tried)} tried, {len(done)} judged, {len(tried) - len(done)} to be tried again by themselves"
            print(f"{crate}: check {rounds}: {words}, {time.monotonic() - begin:.0f} s", flush=True)
            left = [it for it in left if it not in done]
    return refused, failed, time.monotonic() - first


def try_all(chosen):
    """Tries all wrong bodies of some crates, and returns the crates of which each was refused."""
    below = kit.crates()
    for it in below:
        if any(it in below[crate] for crate in chosen):
            kit.build(it)
    # (a part for each processor, the largest first)
    parts = sorted(((crate, paths) for crate in chosen for paths in parts_of(crate)), key=lambda it: -len(it[1]))
    with concurrent.futures.ThreadPoolExecutor(len(os.sched_getaffinity(0))) as pool:
        given = list(pool.map(lambda it: (it[0], *tries(it[0], below[it[0]], it[1])), parts))
    passed = []
    for crate in chosen:
        own = [it for it in given if it[0] == crate]
        failed = [name for it in own for name in it[2]]
        for it in failed:
            print(f"NOT REFUSED: {it}")
        print(f"{crate}: {sum(it[1] for it in own)} wrong bodies refused, {len(failed)} not, {sum(it[3] for it in own) / 60:.1f} minutes of one processor", flush=True)
        passed += [] if failed else [crate]
    return passed
