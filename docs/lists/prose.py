"""Finds the sentences of pages and comments that break a rule of plain English."""
import glob
import os
import re

from sources import read

# A rule has a name and a pattern; a sentence that the pattern finds breaks it.
RULES = {
    "opens with a relative": re.compile(r"^(What|Who|Whoever|Whose|Of|Where)\b(?![^.]*\?$)"),
    "opens without a subject": re.compile(r"^(The same|And so|All of that|That is)\b"),
    "of which": re.compile(r"\b(of which|of whom|of that one|that one's|but for|but that|nobody but|nothing but)\b"),
    "that of": re.compile(r"\b(that|those|the one|the ones) of\b"),
    "alone for only": re.compile(r"\balone\b(?! or)"),
    "is told": re.compile(r"\b(is|are|was|were|be|been) told\b|\b(comes?|came) to be\b"),
    "stands for is": re.compile(r"\b(stands?|lies?) (in|under|at|on|over|by|there|beside|below|before)\b"),
    "so for therefore": re.compile(r"\b(which|that|and|it|they|who) so \w+"),
    "none as a predicate": re.compile(r"\b(is|are) none\b|\bthat is no \w+|\bwho is not\b"),
    "two dots": re.compile(r"(?<![./\w])\.\.(?![./\w])"),
}
MOST_WORDS = 30
# How a line of a comment begins, by the ending of its file.
COMMENTS = {".rt": r"\s*//[/!]?\s?(.*)", ".antt": r"\s*--\s?(.*)", ".h": r"\s*/?\*+\s?(.*?)(?:\*/)?$", ".c": r"\s*/?\*+\s?(.*?)(?:\*/)?$"}


def lines_of(path):
    """Yields the lines of prose in the file, and an empty line wherever a paragraph ends."""
    ending = os.path.splitext(path)[1]
    text = read(path)
    if ending != ".md":
        for line in text.split("\n"):
            found = re.match(COMMENTS[ending], line)
            yield found[1].strip() if found and not found[1].startswith("   ") else ""
        return
    for line in re.sub(r"^```.*?^```", "", text, flags=re.M | re.S).split("\n"):
        cells = [it.strip() for it in line.strip().strip("|").split("|")] if line.startswith("|") else []
        if cells:
            yield from ("", *(it for cell in cells if len(cell.split()) > 5 for it in (cell, "")))
        elif re.match(r"\s*(#|---|\d+\. |[-*] )", line):
            yield from ("", re.sub(r"^\s*(#+|\d+\.|[-*])\s", "", line))
        else:
            yield line.strip()


def sentences(path):
    """Yields the sentences of the file, with each name in backquotes as one word."""
    for paragraph in "\n".join(lines_of(path)).split("\n\n"):
        text = re.sub(r"`[^`]*`", "X", re.sub(r"\]\([^)]*\)", "]", " ".join(paragraph.split())))
        yield from (it.lstrip("*_( ") for it in re.split(r"(?<=[.!?:;])\s+(?=[A-Z*\"(])", text) if len(it.split()) > 2)


def files():
    """Returns the pages, the header, and the sources and definitions of all crates, in order."""
    pages = [*glob.glob("*.md"), *glob.glob("docs/*.md"), *glob.glob("docs/decisions/*.md"), *glob.glob("*/README.md")]
    sources = [*glob.glob("crates/*/src/**/*.rt", recursive=True), *glob.glob("crates/*/specs/**/*.antt", recursive=True)]
    return sorted({*pages, *glob.glob("include/*.h"), *glob.glob("examples/c/*.c"), *sources})


def breaches(path):
    """Yields for each sentence of the file the rules that it breaks, with the sentence."""
    for sentence in sentences(path):
        yield from (f"{path}: {name}: {sentence}" for name, rule in RULES.items() if rule.search(sentence))
        if len(sentence.split()) > MOST_WORDS:
            yield f"{path}: more than {MOST_WORDS} words: {sentence}"
