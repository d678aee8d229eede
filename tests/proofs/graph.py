"""The graph of names of definitions: what each definition of specs/, and each clause of a contract, names, all the way down. A name is
resolved as the prover does: in its module, then among what the module's `use` lines name."""
import os
import re

TOP = os.path.dirname(os.path.dirname(os.path.dirname(os.path.abspath(__file__))))
WORD = re.compile(r"[^\s(){}\[\],;.]+")
HEAD = re.compile(r"^(?:(?:abbrev|unfoldable|opaque|pub|record|data)\s+)+(\S+)")


def read(path):
    with open(os.path.join(TOP, "crates", path), encoding="utf-8") as file:
        return file.read()


def without_comments(text):
    return "\n".join(line for line in text.splitlines() if not line.lstrip().startswith(("--", "//")))


def uses(text):
    """What a file's `use` lines name: for each local name the module and the name there, or None for a whole module."""
    found = {}
    for path, names, alias in re.findall(r"^(?:ghost )?use ([\w.]+?)(?:\.\{([^}]*)\})?(?: as (\w+))?;?$", text, re.M):
        if names:
            for name in names.split(","):
                there, _, here = name.strip().partition(" as ")
                found[here or there] = (path, there)
        else:
            found[alias or path.split(".")[-1]] = (path, None)
    return found


def without_blocks(text):
    """The lines of a text, those of a block `mutual` as if each of its definitions were by itself."""
    inside = False
    for line in text.splitlines():
        if re.match(r"(?:unfoldable )?mutual$", line):
            inside = True
            continue
        inside = inside and not (line and not line[0].isspace())
        yield line[2:] if inside and line.strip() else line


class Module:
    """A file of specs/: its definitions, each with its text, and what it uses."""

    def __init__(self, path):
        text = without_comments(read(path))
        self.uses = uses(text)
        self.texts, self.owner = {}, {}
        current = None
        for line in without_blocks(text):
            if match := HEAD.match(line):
                current = match[1].rstrip(":")
                self.texts[current] = []
            elif line and not line[0].isspace() and line.startswith("use "):
                current = None
            elif line and not line[0].isspace() and line.split()[0] in self.texts:
                current = line.split()[0]
            if current and line.strip():
                self.texts[current].append(line)
        for name, lines in self.texts.items():
            for line in lines[1:]:
                # A field or a constructor belongs to its record or its type.
                if match := re.match(r"  (?:pub )?([^\s:]+) :", line):
                    self.owner.setdefault(match[1], name)


modules = {}


def module(name):
    """The module with a dotted name, if it is a file of specs/ here."""
    if name not in modules:
        match = re.match(r"Rattle\.(hwdb\w*)\.specs\.(\w+)$", name)
        path = f"{match[1]}/specs/{match[2]}.antt" if match else ""
        modules[name] = Module(path) if match and os.path.exists(os.path.join(TOP, "crates", path)) else None
    return modules[name]


def resolved(words, here, used):
    """The definitions that words name, seen from a module: pairs of a module's name and a definition's."""
    for word in words:
        if here and (own := module(here)) and (word in own.texts or word in own.owner):
            yield here, own.owner.get(word, word) if word not in own.texts else word
        elif word in used:
            yield used[word]


def words_of(text, used):
    """The names in a text, and, after a module's name and a dot, the names in that module."""
    text = re.sub(r'"[^"]*"', '""', text)
    words = set(WORD.findall(text))
    qualified = {(used[m], n) for m, n in re.findall(r"(\w+)\.([\w-]+)", text) if m in used and used[m][1] is None}
    return words, {(path, name) for (path, _), name in qualified}


def below(clauses, used):
    """All definitions that some clauses stand on: those here, and how many of the kit's and of Rust's types."""
    words, more = words_of(clauses, used)
    open_, own, foreign = [*resolved(words, None, used), *more], set(), set()
    while open_:
        place, name = open_.pop()
        if name is None:
            continue
        there = module(place)
        if there is None:
            foreign.add((place, name))
        else:
            name = there.owner.get(name, name) if name not in there.texts else name
            if name in there.texts and (place, name) not in own:
                own.add((place, name))
                words, more = words_of("\n".join(there.texts[name]), there.uses)
                open_ += [*resolved(words - {name}, place, there.uses), *more]
    return own, foreign


def clauses_of(text, function, named):
    """The clauses of a function's contract: those that are named, or all."""
    contract = re.search(rf"^pub fn {function}\b.*?^\{{", text, re.M | re.S)[0]
    parts = re.split(r"^    (?=ensures|requires)", contract, flags=re.M)[1:]
    return "\n".join(part for part in parts if not named or re.match(r"\w+ (\w+)", part)[1] in named)
