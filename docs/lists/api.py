"""Makes the pages of docs/api, one for each library crate: its exports, with comments, signatures and clauses as the sources have them. A file
comes after the files of its crate that it uses, and a method comes below its type."""
import glob
import os
import re
from collections import namedtuple

from sources import all_functions, crates, exported, files, read

# An item: its name, file and line, its comment, and its declaration without body and private fields.
Item = namedtuple("Item", "name path line comment text")

HEAD = re.compile(r"pub (?P<kind>struct|enum|trait|const|type) (?P<name>\w+)")
END = {"const": re.compile(r".*;$"), "type": re.compile(r".*;$"), "struct": re.compile(r"(\S.*)?[;}]$"), "enum": re.compile(r"(\S.*)?[;}]$")}
REEXPORT = re.compile(r"^pub use (pmg_\w+)::\{?([\w, ]+)\}?;", re.M)
MODEL = r"^impl.* Model for {}\b.*\n(?: .*\n|\n)*?    ghost Value = \{{ (.*) \}};"


def reading_order(crate):
    """Returns the crate's files, each after those that it uses."""
    paths, found, seen = files(crate, "src", ".rt"), [], set()

    def visit(path):
        seen.add(path)
        for name in re.findall(r"^(?:pub )?use crate::(\w+)", read(path), re.M):
            used = f"crates/{crate}/src/{name}.rt"
            if used in paths and used not in seen:
                visit(used)
        found.append(path)

    for path in paths:
        if path not in seen:
            visit(path)
    return found


def comment_above(lines, at):
    """Returns the doc comment above the line, without the attributes in it."""
    found = []
    while at > 0 and re.match(r"\s*(///|#\[)", lines[at - 1]):
        at -= 1
        if lines[at].lstrip().startswith("///"):
            found.insert(0, lines[at].strip()[3:].removeprefix(" "))
    return found


def signature(lines, at):
    """Returns a function's signature and clauses: the lines up to its body, or to its end."""
    indent, found = len(lines[at]) - len(lines[at].lstrip()), []
    for line in (it[indent:] for it in lines[at:]):
        is_last = line.endswith(";") or line[:1] != " " and line.endswith(("{", "{}"))
        found.append(re.sub(r" ?(\{\}?|;)$", "", line) if is_last else line)
        if is_last:
            break
    return [it for it in found if it]


def public_fields(lines):
    """Returns the public fields in the lines of a struct's body, with their comments, and a word for the private ones."""
    found, field, is_whole = [], [], True
    for line in lines:
        field.append(line)
        if line.endswith((",", ";")):
            is_public = any(it.startswith("    pub ") for it in field)
            found += field if is_public else []
            is_whole = is_whole and (is_public or field[0].startswith("    ghost "))
            field = []
    return found if is_whole else [*found, "    /* private fields */"]


def declaration(lines, at):
    """Returns the declaration of a type or a constant: a struct with its public fields, an enum with its variants, the first line of a trait."""
    kind = HEAD.match(lines[at])["kind"]
    if kind == "trait":
        return [lines[at].removesuffix(" {")]
    end = next(number for number in range(at, len(lines)) if END[kind].match(lines[number]))
    if kind == "struct" and end > at:
        return [lines[at], *public_fields(lines[at + 1:end]), lines[end]]
    return lines[at:end + 1]


def seen_as(text, name):
    """Returns the sentence that names the definition by which contracts see values of the type, if its file has one of its own."""
    model = re.search(MODEL.format(name), text, re.M)
    if not model:
        return []
    renamed = re.search(rf"\b(\w+) as {re.escape(model[1])}\b", text)
    return ["", f"Contracts see it as `{renamed[1] if renamed else re.sub(r'[a-z]+[.]', '', model[1])}`."]


def types_of(crate):
    """Returns the types, traits and constants that the crate exports."""
    names, modules = exported(crate)
    for path in files(crate, "src", ".rt"):
        text = read(path)
        lines = text.split("\n")
        for at, head in enumerate(map(HEAD.match, lines)):
            if head and (head["name"] in names or os.path.basename(path).removesuffix(".rt") in modules):
                comment = comment_above(lines, at) + seen_as(text, head["name"])
                yield Item(head["name"], path, at + 1, comment, declaration(lines, at))


def function_item(it):
    lines = read(it.path).split("\n")
    return Item(it.name, it.path, it.line, comment_above(lines, it.line - 1), signature(lines, it.line - 1))


def in_reading_order(crate, functions):
    """Returns the crate's exports, each type with its methods after it."""
    order = {path: number for number, path in enumerate(reading_order(crate))}
    items = sorted([*types_of(crate), *functions], key=lambda it: (order[it.path], it.line))
    types = {it.name for it in items if "::" not in it.name}
    for it in items:
        owner, _, method = it.name.partition("::")
        if not method or owner not in types:
            yield it
        if not method:
            yield from (other for other in items if other.name.startswith(f"{it.name}::"))


def lines_of(it):
    """Returns an item's part of its page."""
    mark = "###" if "::" in it.name else "##"
    comment = [*it.comment, ""] if it.comment else []
    return [f"{mark} `{it.name}`", "", f"`{it.path.removeprefix('crates/')}`", "", *comment, "```rust", *it.text, "```", ""]


def page(crate, functions, made):
    root = read(f"crates/{crate}/src/lib.rt")
    says = [it[3:].strip() for it in root.split("\n") if it.startswith("//!")]
    others = [line for other, names in REEXPORT.findall(root) for line in ("", f"It also exports {names} of `{other}`.")]
    body = [line for it in in_reading_order(crate, functions) for line in lines_of(it)]
    return [f"# `{crate}`", "", *says, *others, "", made, "", *body[:-1]]


def has_page(crate):
    """Returns whether the crate is a library that exports something to other crates."""
    return crate in crates() and os.path.exists(f"crates/{crate}/src/lib.rt") and any(exported(crate))


def pages(made):
    """Returns the pages by their paths from docs/lists; `made` says who makes them."""
    functions = [(it.crate, function_item(it)) for it in all_functions() if it.exported]
    of_crate = {it: [function for crate, function in functions if crate == it] for it in crates() if has_page(it)}
    return {f"../api/{it}.md": page(it, found, made) for it, found in of_crate.items()}


def without_crate():
    """Returns the pages on disk that belong to no crate with a page."""
    return [it for it in sorted(glob.glob("docs/api/*.md")) if not has_page(os.path.basename(it).removesuffix(".md"))]
