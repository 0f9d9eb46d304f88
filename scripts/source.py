"""What the scripts read of the source: crates, definitions of specs/ with their words, contracts of functions, items of the code."""
import re
from functools import cache
from pathlib import Path
from typing import NamedTuple

IMPORT = re.compile(r"ghost use Rattle\.(\w+)\.specs\.([\w.]+?)(?:\.\{([^}]*)\}| as (\w+));")
USE = re.compile(r"^use Rattle\.(\w+)\.specs\.([\w.]+?)(?:\.\{([^}]*)\}| as (\w+))$", re.MULTILINE)
FUNCTION = re.compile(r"^( *)(?:(pub(?:\([^)]*\))?) )?(?:unsafe )?fn (\w+)", re.MULTILINE)
CLAUSE = re.compile(r"(requires|ensures|ghost)\b[^{;\n]*{")
DEFINITION = re.compile(r"(?:infix[lr] \d+ \S+\n)?(?:abbrev |unfoldable |opaque )?pub (?:(record|data|abbrev) )?(\w+|◌\S*◌)")
WORD = re.compile(r"\w+(?:\.\w+)*|[^\w\s(){}.,:]+")


def text_of(path):
    return Path(path).read_text(encoding="utf-8")


@cache
def crates():
    """Each crate of crates.txt with those of the repository that it names."""
    lines = [line.partition("#")[0].split(":") for line in text_of("crates.txt").splitlines()]
    named = {line[0].split()[0]: line[1].split() for line in lines if len(line) == 2}
    return {crate: [it for it in below if it in named] for crate, below in named.items()}


def head_from(text, at):
    """The clauses that stand between a function's name and its body, and where the body begins."""
    found, depth = [], 0
    while at < len(text) and (depth or text[at] not in "{;"):
        clause = CLAUSE.match(text, at) if text[at - 1] in " \n" else None
        if not clause:
            depth += {"(": 1, "[": 1, ")": -1, "]": -1}.get(text[at], 0)
            at += 1
            continue
        at, open_braces = clause.end(), 1
        start = at
        while open_braces:
            open_braces += {"{": 1, "}": -1}.get(text[at], 0)
            at += 1
        found += [text[start : at - 1]] * (clause[1] != "ghost")
    return found, at


def clauses(text, at):
    return head_from(text, at)[0]


def end_of_head(text, at):
    return head_from(text, at)[1]


def imports(text, of=IMPORT):
    """The names that a file has of definitions, each with the crate, the file and the name of the definition: a name that stands
    for a whole file has none."""
    found = {}
    for crate, file, names, alias in of.findall(text):
        if alias:
            found[alias] = crate, file, None
        for name in names.split(",") if names else ():
            its, _, given = name.strip().partition(" as ")
            found[(given or its).strip()] = crate, file, its.strip()
    return found


class Definition(NamedTuple):
    """A definition of specs/: where it stands, its kind (record, data or none), its name, the words above it, and its text."""

    crate: str
    file: str
    kind: str
    name: str
    words: str
    text: str


def joined(lines):
    return " ".join(line.lstrip().removeprefix("--").strip() for line in lines)


@cache
def definitions_of(crate, file):
    """The definitions of a file of specs/, by name, in their order."""
    path, found = Path("crates", crate, "specs", f"{file.replace('.', '/')}.antt"), {}
    if not path.is_file():
        return found
    for block in re.split(r"\n\s*\n", text_of(path)):
        lines = block.strip("\n").splitlines()
        words = [line for line in lines if line.startswith("--")]
        first = next((at for at, line in enumerate(lines) if not line.startswith("--")), len(lines))
        body = "\n".join(lines[first:])
        named = DEFINITION.match(body)
        if named:
            said = joined(words[:first])
            if said.startswith("the same ") and found:
                # it goes on from the definition above it, of which a reader by names doesn't know
                above = list(found.values())[-1]
                said = f"{said} (as `{above.name}`: {above.words})"
            found[named[2]] = Definition(crate, file, named[1] or "", named[2], said, body)
    return found


def title_of(crate, file):
    """What the first comment of a file of specs/ says that it is for."""
    lines = text_of(Path("crates", crate, "specs", f"{file.replace('.', '/')}.antt")).splitlines()
    first = next((at for at, line in enumerate(lines) if not line.startswith("--") or line == "--"), len(lines))
    return joined(lines[:first])


@cache
def names_in(crate, file):
    """The names that a file of specs/ has of the definitions of others."""
    path = Path("crates", crate, "specs", f"{file.replace('.', '/')}.antt")
    return imports(re.sub(r"\{[^}]*\}", lambda it: it[0].replace("\n", " "), text_of(path)), USE)


def cited(text, names, own):
    """The definitions that a text names, in the order in which it does: by the names of its file, or of the file's own."""
    known = {name: (it.crate, it.file, name) for name, it in own.items()} | names
    known |= {name.strip("◌"): it for name, it in known.items() if "◌" in name}
    found = []
    for word in WORD.findall(re.sub(r"--[^\n]*", "", text)):
        head, _, rest = word.partition(".")
        if head in known:
            crate, file, name = known[head]
            found.append((crate, file, name or rest.partition(".")[0]))
    return list(dict.fromkeys(found))


def behind(text, names):
    """The definitions of this repository that a text stands on, in the order in which a reader meets them, and what else is met
    there: types of the code, and words of libraries."""
    found, others, waiting = {}, {}, cited(text, names, {})
    while waiting:
        crate, file, name = waiting.pop(0)
        own = definitions_of(crate, file) if crate in crates() else {}
        if name not in own:
            others[crate, file, name] = True
        elif (crate, file, name) not in found:
            found[crate, file, name] = own[name]
            waiting += cited(own[name].text, names_in(crate, file), own)
    return list(found.values()), list(others)


def functions(path):
    """The functions of a file: each with what is found of its head, and the `///` lines above it."""
    text = text_of(path)
    for function in FUNCTION.finditer(text):
        yield text, function, words_above(text[: function.start()].splitlines())


def is_of_public_trait(text, at):
    """Whether what stands there in a file is a member of a public trait."""
    heads = re.findall(r"^(pub trait|trait|impl|pub fn|fn)\b", text[:at], re.MULTILINE)
    return bool(heads) and heads[-1] == "pub trait"


def words_above(lines):
    """The `///` lines that these lines end with, attributes left out."""
    above = []
    for line in reversed(lines):
        if not line.strip().startswith(("///", "#[")):
            break
        above += [line.strip()[3:].strip()] * line.strip().startswith("///")
    return list(reversed(above))


@cache
def types_of(crate):
    """The public types of a crate's code: the words above each, and of an enum each variant with its words."""
    found = {}
    for path in sorted(Path("crates", crate, "src").rglob("*.rt")):
        lines = text_of(path).splitlines()
        for at, line in enumerate(lines):
            named = re.match(r"pub (struct|enum) (\w+)", line)
            if not named:
                continue
            variants = []
            end = next((k for k in range(at, len(lines)) if lines[k].startswith("}") or lines[k].endswith(";")), at)
            for k in range(at + 1, end):
                part = re.match(r"    ([A-Z]\w*)(?:[ ({,]|$)", lines[k])
                if part and named[1] == "enum":
                    variants.append((part[1], " ".join(words_above(lines[:k]))))
            found[named[2]] = " ".join(words_above(lines[:at])), variants
    return found
