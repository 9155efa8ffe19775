"""Reads the project's sources as text: crates.txt, the declarations of .antt files, the code of .rt files, edits.

Nothing here proves anything: it finds where a name is declared and where it is used, for the checks beside it.
"""
import functools
import os
import re
from dataclasses import dataclass, field

MARKS = ("pub", "abbrev", "unfoldable")
NAME = r"[^\s(){}\[\],;.«»]+"
MODULE = re.compile(r"Rattle\.([a-z_0-9]+)\.(specs|proofs)\.([A-Za-z0-9_]+)$")


@dataclass
class Declaration:
    file: str
    name: str
    kind: str  # record, data, definition or lemma
    public: bool
    line: int
    text: list = field(default_factory=list)

    @property
    def is_lemma(self):
        return self.kind == "lemma"


@dataclass
class Source:
    path: str
    lines: list
    declarations: list
    imports: list  # (module, names) in the order in which they stand


def once_each(read):
    """A function of a path that reads a file again only where the file has changed."""
    kept = {}

    @functools.wraps(read)
    def known(path):
        at = os.stat(path)
        stamp = (at.st_ino, at.st_mtime_ns, at.st_size)
        key = os.path.abspath(path)
        if kept.get(key, (None,))[0] != stamp:
            kept[key] = (stamp, read(path))
        return kept[key][1]

    return known


def without_comment(line):
    found = re.search(r"(^|\s)--(\s|$)", line)
    return line[: found.start()] if found else line


def signature(line):
    """The name that a line declares, with its kind and whether it is public; or None."""
    words = line.split()
    marks = []
    while words and words[0] in MARKS:
        marks.append(words.pop(0))
    if not words:
        return None
    public = "pub" in marks
    if words[0] in ("record", "data") and len(words) > 1:
        return words[1].rstrip(":"), words[0], public
    found = re.match(r"(\S+)(?: \{[^}]*\})? :( |$)", " ".join(words))
    if found:
        kind = "definition" if "abbrev" in marks or "unfoldable" in marks else "lemma"
        return found.group(1), kind, public
    return None


def is_directive(line):
    return re.match(r"(unfoldable )?(pub )?(use|mod|ruleset|syntax|infix|infixl|infixr|prefix|notation|module)\b", line) is not None


def read_imports(lines):
    """Every `use`, its module and the names that it brings in (of `use M as m`: none)."""
    text = "\n".join(without_comment(line) for line in lines)
    found = []
    for use in re.finditer(r"^(?:unfoldable )?(?:pub )?(?:ghost )?use (\S+?)(?:\.\{([^}]*)\}|(?: as (\S+?))?);?\s*$", text, re.M):
        names = [n.strip().split(" as ")[0] for n in (use.group(2) or "").split(",") if n.strip()]
        found.append((use.group(1), names))
    return found


@once_each
def read_source(path):
    with open(path, encoding="utf8") as file:
        lines = file.read().split("\n")
    declarations, current = [], None
    level, opening = 0, False  # how far declarations are indented: a module's stand under its header
    for number, line in enumerate(lines, 1):
        text = without_comment(line)
        if not text.strip():
            continue
        indent = len(text) - len(text.lstrip())
        if opening and text.strip().endswith("where"):
            opening, level = False, None
            continue
        if opening:
            continue
        level = indent if level is None else min(level, indent)
        if indent == level and is_directive(text.strip()):
            current = None
            if text.strip().startswith("module"):
                opening = not text.strip().endswith("where")
                level = level if opening else None
            continue
        found = signature(text.strip()) if indent == level else None
        if found and not (current and current.name == found[0]):
            current = Declaration(path, *found[:2], found[2], number)
            declarations.append(current)
        if current:
            current.text.append(text)
    return Source(path, lines, declarations, read_imports(lines))


def files_under(folder, endings):
    """The files below a folder, but for what the toolchain keeps in out/."""
    for place, folders, names in os.walk(folder):
        folders[:] = sorted(name for name in folders if name != "out")
        for name in sorted(names):
            if name.endswith(endings):
                yield os.path.join(place, name)


def read_crates():
    """crates.txt: each crate with the crates that it stands on, in order; and its room, with which its name begins.
    A line of a static library has that word behind its name."""
    crates = {}
    with open("crates.txt", encoding="utf8") as file:
        for line in file:
            name, colon, rest = line.split("#")[0].partition(":")
            if colon:
                crates[name.split()[0]] = rest.split()
    return crates, {crate: crate.split("_")[0] for crate in crates}


def module_path(module):
    """The file of a module of the project, or None: the toolchain's libraries are named in the same way."""
    found = MODULE.match(module)
    if not found or not os.path.isdir(f"crates/{found.group(1)}"):
        return None
    crate, kind, name = found.groups()
    return f"crates/{crate}/{kind}/{name}.antt"


def is_theory(path):
    """A file of definitions or lemmas, not the proof of a function and not a list of modules."""
    parts = path.split("/")
    return len(parts) == 4 and parts[2] in ("specs", "proofs") and parts[3] != "Lib.antt"


def read_theories():
    return {p: read_source(p) for p in files_under("crates", ".antt") if is_theory(p)}
