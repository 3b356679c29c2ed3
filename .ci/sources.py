"""The functions of a crate's sources, laid out by rt fmt: where each stands, and its name as the prover prints it; and what an edit of them says."""
import dataclasses, glob, os, re

ITEM = re.compile(r"^(?:pub(?:\(\w+\))? )?(?:unsafe )?(impl|trait)\b([^{]*)|^[ \t]*(?:pub(?:\(\w+\))? )?(?:final |const |unsafe )*fn (\w+)")
TYPE = re.compile(r"(?m)^(?:pub(?:\(\w+\))? )?(?:struct|enum) (\w+)(?:<((?:[^<>]|<[^<>]*>)*)>)?")
GENERICS = re.compile(r"\s*<((?:[^<>]|<(?:[^<>]|<[^<>]*>)*>)*)>")


def read(path):
    with open(path, encoding="utf-8") as it:
        return it.read()


def pairs_of(path):
    """Returns the pairs of an edit: the file, the old text and the new one."""
    pairs, file, old = [], None, None
    for line in read(path).split("\n"):
        word, _, rest = line.partition(":")
        if word == "file":
            file = rest.strip()
        elif word == "old":
            old = rest[1:]
        elif word == "new":
            pairs.append((file, old, rest[1:]))
    return pairs


@dataclasses.dataclass(frozen=True)
class Function:
    """A function: its name, as `gimli_base::abbrev::Attributes::push`, and its lines, counted from 0."""

    name: str
    file: str
    # the lines with the first attribute or comment above it, with `fn`, with the brace that opens its body, and with the one that
    # closes it; the last two are None where it has no body of lines of its own
    first: int
    head: int
    opens: int | None
    closes: int | None
    has_body: bool
    # whether it belongs to a trait, by its declaration or an impl
    is_of_trait: bool

    def renamed(self, name):
        """Returns the same function under another name."""
        return dataclasses.replace(self, name=name)

    def has(self, name):
        """Whether a name that the prover prints is that of the function, or of a closure in it."""
        own, other = (re.sub(r"\+\w+", "", it) for it in (self.name, name.replace("::fn::", "::", 1)))
        return (other + "::").startswith(own + "::")


def module_of(file):
    """Returns the modules of a file of src/, outermost first."""
    path = file[len("src/") : -len(".rt")]
    return [] if path in ("lib", "main") else path.split("/")


def parts_of(text):
    """Returns the parts of a list of types or parameters, without lifetimes."""
    parts, depth, begin = [], 0, 0
    for at, it in enumerate(text + ","):
        depth += (it in "<([") - (it in ">)]")
        if it == "," and depth == 0:
            parts.append(text[begin:at].strip())
            begin = at + 1
    return [it for it in parts if it and not it.startswith("'")]


def words_of(text):
    """Returns the words of a type, without lifetimes."""
    return re.findall(r"\w+", re.sub(r"'\w+", "", text))


def types_of(folder, files):
    """Returns for each type of a crate, by its module and by its name alone, its module and how many parameters it has."""
    types = {}
    for file in files:
        for it in TYPE.finditer(read(f"{folder}/{file}")):
            types[it[1]] = types[*module_of(file), it[1]] = module_of(file), len(parts_of(it[2] or ""))
    return types


def owner_of(types, module, head):
    """Returns the words by which the prover names the owner of an impl's functions, from its head behind `impl`."""
    generics = GENERICS.match(head)
    params = [words_of(it)[0] for it in parts_of(generics[1])] if generics else []
    trait, _, of = head[generics.end() if generics else 0 :].partition(" where")[0].rpartition(" for ")
    name, args = re.match(r"(?:&|'\w+\s|mut\s|\w+::)*(\w+)(?:<(.*)>)?$", of.strip()).groups()
    args = parts_of(args or "")
    home, count = types.get((*module, name)) or types.get(name, (module, len(args)))
    name = name[0].upper() + name[1:]
    if trait:
        # (parameters are no part of the name)
        return [*module, name + "".join(it for it in [*words_of(",".join(args)), *words_of(trait)] if it not in params)]
    if len(args) < count or any(it not in params for it in args):
        # (an impl for some of the types alone names them)
        return [*module, name + "".join("+" + it for it in words_of(",".join(args)))]
    # (the other methods stand in the module of the type)
    return [*home, name]


def lines_of(lines, head):
    """Returns the lines of the function with its `fn` at `head`, as Function has them, and whether it has a body."""
    first = head
    while lines[first - 1].lstrip().startswith(("#[", "//")):
        first -= 1
    indent = re.match(r"[ \t]*", lines[head])[0]
    heads = [it for it in range(head, len(lines)) if it == head or re.match(rf"{indent}\S", lines[it])]
    opens = next((it for it in heads if lines[it].endswith("{") or it > head and not lines[it].startswith((indent + ")", indent + ">", indent + "where"))), head)
    closes = next((it for it in range(opens + 1, len(lines)) if lines[it] == indent + "}"), None)
    if closes is not None and re.match(rf"{indent}(.*\bfn \w.*|[)>].*|where.*|){{$", lines[opens]):
        return first, head, opens, closes, True
    return first, head, None, None, lines[head].endswith("}") or lines[opens] == indent + "{}"


def functions_of(folder):
    """Returns the functions of the crate in a folder, by its files."""
    crate, files = os.path.basename(folder), sorted(glob.glob("src/**/*.rt", root_dir=folder, recursive=True))
    types, found = types_of(folder, files), {}
    for file in files:
        module, owner, is_of_trait = module_of(file), None, False
        lines = read(f"{folder}/{file}").split("\n")
        found[file] = []
        for at, line in enumerate(lines):
            it = ITEM.match(line)
            if it and it[1]:
                # (the head of an impl goes on to its brace)
                head = it[2] if "{" in line else " ".join([it[2], *lines[at + 1 : next(to for to in range(at, len(lines)) if "{" in lines[to]) + 1]])
                head = head.partition("{")[0]
                is_of_trait = it[1] == "trait" or " for " in head
                owner = [*module, re.match(r"\s*(\w+)", head)[1]] if it[1] == "trait" else owner_of(types, module, head)
            elif it:
                is_free = owner is None or not line.startswith((" ", "\t"))
                name = "::".join([crate, *(module if is_free else owner), it[3]])
                found[file].append(Function(name, file, *lines_of(lines, at), not is_free and is_of_trait))
    return found
