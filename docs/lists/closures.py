"""Finds the definitions on which a definition rests: all definitions of this project that its text names, the definitions that these name, and so
on. Lemmas are left out, because they are proved."""
import re

from sources import home_of, read

USE = re.compile(r"^use Rattle\.(pmg_\w+)\.specs\.(\w+)(?:\.\{([^}]*)\}| as (\S+))", re.M)
CODE_USE = re.compile(r"^use Rattle\.(pmg_\w+)\.specs\.declared\.[\w.]*?(\w+)\.\{([^}]*)\}", re.M)
# A name in a text. A field after a dot is none, except a name of a module that `as` renamed.
WORD = re.compile(r"[^\s(){}\[\];,.]+(?:\.[^\s(){}\[\];,]+)?")


def imports(path):
    """Returns the names that the file's text may use of other files: each name, with the file and the name that it has there."""
    found = {}
    for crate, file, names, alias in USE.findall(read(path)):
        for one in names.split(","):
            name, _, other = one.strip().partition(" as ")
            found[other or name] = (f"{crate}/{file}", name)
        if alias:
            found[f"{alias}."] = (f"{crate}/{file}", None)
    return found


def code_types(path):
    """Returns the types of code that the file's text may name, with their crates."""
    found = {}
    for crate, _, names in CODE_USE.findall(read(path)):
        for one in names.split(","):
            name, _, other = one.strip().partition(" as ")
            found[other or name] = (crate, name)
    return found


def named_in(text):
    """Returns the words of a definition's text, with and without the part after a dot; an operator has the form of its declaration."""
    for word in WORD.findall("\n".join(text)):
        yield from (word, word.split(".")[0], f"◌{word}◌")


class Closures:
    """The definitions by file and name, and the names that each file may use."""

    def __init__(self, definitions):
        self.by_name = {(home_of(it), it.name): it for it in definitions if not it.is_lemma}
        self.paths = {home_of(it): it.path for it in definitions}
        self.scopes = {home: imports(path) for home, path in self.paths.items()}
        self.types = {home: code_types(path) for home, path in self.paths.items()}

    def meant(self, home, word):
        """Returns the definition that a word of a file's text names, if it names one of this project."""
        alias, dot, rest = word.partition(".")
        if dot and f"{alias}." in self.scopes[home]:
            return self.by_name.get((self.scopes[home][f"{alias}."][0], rest))
        return self.by_name.get((home, word)) or self.by_name.get(self.scopes[home].get(word))

    def of(self, home, name):
        """Returns the definitions on which this one rests, with itself, and the types of code that they name."""
        found, types, left = {}, set(), [self.by_name[home, name]]
        while left:
            it = left.pop()
            if found.setdefault((home_of(it), it.name), it) is not it:
                continue
            at = home_of(it)
            for word in named_in(it.text):
                types |= {self.types[at][word]} if word in self.types[at] else set()
                other = self.meant(at, word)
                if other and (home_of(other), other.name) not in found:
                    left.append(other)
        return list(found.values()), types
