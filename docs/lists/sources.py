"""Reads the declarations of the crates' sources: definitions of specs/, and functions of src/ with their clauses."""
import glob
import os
import re
from collections import namedtuple

# A definition: its crate, file, line, name, comment, whether it is public, its lines without the comment, and whether it is a lemma.
# A lemma is proved, and nobody has to believe it.
Definition = namedtuple("Definition", "crate path line name comment public text is_lemma")
# A function: its crate, file, line, path, first sentence, its clauses, whether the crate's library exports it, and whether it is a law.
# A law has no arguments and an empty body, so that its clauses are all that it says.
Function = namedtuple("Function", "crate path line name sentence clauses exported is_law")
# A clause: `requires` or `ensures`, its name if it has one, and its statement if that is on its line.
Clause = namedtuple("Clause", "word name says")

ITEM = re.compile(r" *(?:(?:abbrev|unfoldable) +)?(?P<public>pub +)?(?:(?:abbrev|unfoldable) +)?(?:(?:record|data) +)?(?P<name>[^\s:(){]+)(?= |$)")
DECLARES = re.compile(r" *((abbrev|unfoldable)\b|(pub +)?(record|data) |pub [^\s:]+ :|[^\s:(){}]+ :( |$))")
KEYWORD = re.compile(r" *(pub +)?(abbrev|unfoldable|record|data) ")
NO_ITEM = re.compile(r" *(use|pub use|pub mod|unfoldable pub mod|module|infixl|infixr|infix)\b")
CLAUSE = re.compile(r"\s*(requires|ensures)\b(?: (\w+))? *\{(?: (.*) \};?$)?")
HEAD = re.compile(r"\s*(?P<public>pub )?(?:unsafe )?fn (?P<name>\w+)")
BLOCK = re.compile(r"(?:unsafe )?(?P<kind>impl|pub trait|trait)\b(?P<rest>.*)")


def read(path):
    with open(path, encoding="utf-8") as it:
        return it.read()


def crates(every=False):
    """Returns the crates in the order of their dependencies, as crates.txt lists them; crates that state nothing only if `every` is set."""
    names = [it.split(":")[0].split()[0] for it in read("crates.txt").split("\n") if it and not it.startswith("#")]
    return [it for it in names if every or not it.endswith("_tests") and it != "pmg_bench"]


def exceptions(part):
    """Returns the exceptions in that part of the list of exceptions, as the text before the colon and the text after it."""
    found = re.search(rf"^## .*\b{part}\b.*\n((?:(?!##).*\n)*)", read("docs/lists/EXCEPTIONS.md"), re.M)
    return [tuple(it[2:].split(": ", 1)) for it in found[1].split("\n") if it.startswith("- ")]


def files(crate, part, ending):
    return sorted(glob.glob(f"crates/{crate}/{part}/**/*{ending}", recursive=True))


# ---- definitions

def comment_above(lines, at):
    """Returns the comment that ends right above the line, without an `infixl` between them."""
    found = []
    while at > 0 and re.match(r"\s*(--( |$)|infix)", lines[at - 1]):
        at -= 1
        if not lines[at].lstrip().startswith("infix"):
            found.insert(0, lines[at].strip().lstrip("-").strip())
    return " ".join(it for it in found if it)


def starts(lines):
    """Returns the lines at which a definition starts, with its declaration: at the margin, or one step in within a module."""
    depth = 0
    for at, line in enumerate(lines):
        indent = len(line) - len(line.lstrip())
        if re.match(r"module\b", line):
            depth = 2
        elif line.strip() and indent == 0 and not line.startswith("--"):
            depth = 0
        if line.strip() and indent == depth and DECLARES.match(line) and not NO_ITEM.match(line):
            yield at, ITEM.match(line)


def text_of(lines, at, end):
    """Returns the lines from one start to the next, without the comment above the next one."""
    last = end
    while last > at + 1 and (not lines[last - 1].strip() or re.match(r"\s*(--|infix|module\b)", lines[last - 1])):
        last -= 1
    return [it for it in lines[at:last] if it.strip() and not it.lstrip().startswith("--")]


def definitions_of(crate, path):
    lines = read(path).split("\n")
    found = list(starts(lines))
    ends = [at for at, _ in found[1:]] + [len(lines)]
    for (at, it), end in zip(found, ends):
        yield Definition(crate, path, at + 1, it["name"], comment_above(lines, at), bool(it["public"]), text_of(lines, at, end), not KEYWORD.match(lines[at]))


def all_definitions():
    """Returns the definitions of all crates, private ones too, in the order of crates, files and lines."""
    return [it for crate in crates() for path in files(crate, "specs", ".antt") for it in definitions_of(crate, path)]


def home_of(it):
    """Returns the file of a definition, as pages name it: its crate and the file's name."""
    return it.path.removeprefix("crates/").replace("/specs/", "/").removesuffix(".antt")


# ---- functions

def exported(crate):
    """Returns the names that the crate's library exports, itself or in a public module, and these modules."""
    root = f"crates/{crate}/src/lib.rt"
    text = read(root) if os.path.exists(root) else ""
    modules = set(re.findall(r"^pub mod (\w+);", text, re.M))
    text += "".join(read(f"crates/{crate}/src/{it}.rt") for it in sorted(modules))
    used = re.findall(r"pub use [\w:]+?::(?:\{([^}]*)\}|(\w+));", text)
    names = {it.strip() for many, one in used for it in (many or one).split(",")}
    return names | set(re.findall(r"^pub (?:fn|struct|enum|trait) (\w+)", text, re.M)), modules


def owner_of(line):
    """Returns the type or trait whose functions the block holds, the trait that it implements, and whether it is a trait."""
    found = BLOCK.match(line)
    if not found:
        return None
    rest = re.sub(r"<[^<>]*>", "", re.sub(r"<[^<>]*>", "", found["rest"])).split("{")[0].split(" where")[0].split(":")[0]
    first, _, second = rest.strip().partition(" for ")
    return (second.strip() or first.strip(), first.strip() if second else None, "trait" in found["kind"])


def sentence_above(lines, at):
    """Returns the first sentence of the doc comment above the line, without the attributes between them."""
    found = []
    while at > 0 and re.match(r"\s*(///|#\[|//)", lines[at - 1]):
        at -= 1
        if lines[at].lstrip().startswith("///"):
            found.insert(0, lines[at].strip()[3:].strip())
    text = re.sub(r"\s+", " ", " ".join(found))
    end = re.search(r"[.:](?= [A-Z]|$)", text)
    return text[:end.end()].rstrip(".:") if end else text


def clauses_below(lines, at):
    """Returns the clauses of the function that begins there, up to its body or its end."""
    found = []
    for line in lines[at + 1:]:
        clause = CLAUSE.match(line)
        if clause:
            found.append(Clause(*clause.groups()))
        elif re.match(r"\s*(\{|pub |fn |///|\}\s*$)", line) or line.rstrip().endswith(";") and found:
            break
    return found


def has_body_at_once(line):
    """Returns whether the line that begins a function has its body too, or ends it."""
    return bool(re.search(r"(\{|\{\}|;)\s*$", line))


def functions_of(crate, path, names, modules):
    lines, owner = read(path).split("\n"), None
    module = os.path.splitext(os.path.relpath(path, f"crates/{crate}/src"))[0]
    for at, line in enumerate(lines):
        if line and not line[0].isspace():
            owner = owner_of(line) or (None if line.startswith("}") else owner)
        head = HEAD.match(line)
        if not head:
            continue
        inside = line[0].isspace()
        of, implements, is_trait = owner if inside and owner else (None, None, False)
        is_there = (of or head["name"]) in names or module in modules or module == "lib"
        if not (head["public"] or is_trait or implements and is_there):
            continue
        clauses = [] if has_body_at_once(line) else clauses_below(lines, at)
        if implements and not clauses:
            continue
        name = f"{of}::{head['name']}" if inside else head["name"]
        name = f"{name} of {implements}" if implements else name
        is_law = "()" in line and lines[at + 1 + len(clauses)] == "{}"
        yield Function(crate, path, at + 1, name, sentence_above(lines, at), clauses, is_there, is_law)


def all_functions():
    """Returns the `pub` functions and methods of all crates, and those of traits, in the order of crates, files and lines."""
    found = []
    for crate in crates():
        names, modules = exported(crate)
        for path in files(crate, "src", ".rt"):
            found += functions_of(crate, path, names, modules)
    return found
