#!/usr/bin/env python3
"""believed: follows every definition that the claims and the contracts of the exported calls reach.

    tools/believed.py            how many lines must be believed for each part of the claim, and in which files
    tools/believed.py --check    fails where one stands in a file that docs/REVIEW.md does not list, or in a lemma's file,
                                 where a file of them holds one that nothing reaches or a line of over 160 columns,
                                 where they are more lines than they were, where a page lists a file that has none or
                                 names as a part of the claim what is none, or where the table is not up to date
    tools/believed.py --write    brings that table up to date
    tools/believed.py --planted  fails where --check does not find a planted fault

The functions that the contracts cite (compile_on, step_on ..) count as names: what they mean is proved. So does table_of,
the table that compile leaves: 01 leaves its layout free, and the claim says what stands in it. `--all` follows them too.
A file holds definitions to believe, each of them reached, or it holds such functions, whose bodies need not be read.

There is one count, of the claim and the contracts. Of the claim it is told apart what the parts reach that were there
when 2,776 lines were counted, with these parts' own lines in the record, and what only the parts added since reach.

Definitions of the toolchain's library that these reach (lists, permutations, pairwise ..) are read but not ours: they
are followed inside the library too, and counted apart. Where the toolchain has no text of a module, its names are built
into the checker, or made from a type of the library's code.
"""
import json
import os
import re
import subprocess
import sys
import textwrap

from planted import planted
from sources import NAME, module_path, read_source, read_theories, without_comment

TOP = "crates/claims/specs/Claims.antt"
CONTRACTS = "crates/engine_c/src/lib.rt"
ENGINE_CALL = re.compile(r"^pub (?:extern \S+ )?fn (\w+)", re.M)
REVIEW = "docs/REVIEW.md"
CLAIMS = "docs/CLAIMS.md"
NO_CLAIM = "desk_format/specs/Script.antt"  # listed, and said there to be no part of the claim
CALLS = (
    "compile start arrive step board forecast preview mend formula join frame agree agree_for pair leak assemble"
    " describe"
    " event_count behaviour_count event_rank deliver taken"
)
NAMES_ONLY = {f"{call}_on" for call in CALLS.split()} | {"table_of"}
COLUMNS = 160
# an import, or the cases of a type that hold nothing: read name by name, however many there are
LISTS_NAMES = re.compile(r"(?:pub )?use |\s+(?:[\w']+ )+: \w+$")
# the library's names with more than one word
MIXFIX = ("if◌then◌else◌",)

# the parts of the record for the demands of document 01 and the requests of 02, and those added after the count of 2,776
PAPERS = (
    "refusals sheets lists p_rounds"
    " quotients parameters formulas rest_day rights players circles paper_order rows pooling halves"
).split()
ADDED = (
    "deliveries in_order in_order_changed remedies same_tables agreement_for one_value each_agrees each_round_agrees"
    " one_value_in_order each_in_order pairs"
).split()
MOST_OF_PAPERS, MOST_OF_FORMER = 1989, 2776


class Theory:
    """Where each name of a file leads: declared there, imported, or a part of an imported module."""

    def __init__(self, source):
        self.source = source
        self.own = {}
        for d in source.declarations:
            self.own[d.name] = d
            if d.kind == "data":
                for line in d.text[1:]:
                    found = re.match(rf"\s+(?:pub )?((?:{NAME} )+):(?: |$)", line)
                    for name in found.group(1).split() if found else []:
                        self.own.setdefault(name, d)
        self.imported, self.modules = {}, {}
        text = "\n".join(without_comment(line) for line in source.lines)
        for use in re.finditer(r"^(?:unfoldable )?(?:pub )?use (\S+?)\.\{([^}]*)\}\s*$", text, re.M):
            for part in use.group(2).split(","):
                old, _, new = part.strip().partition(" as ")
                self.imported[(new or old).strip()] = (place_of(use.group(1)), old.strip())
        for use in re.finditer(r"^(?:unfoldable )?(?:pub )?use (\S+?)(?: as (\S+))?\s*$", text, re.M):
            self.modules[use.group(2) or use.group(1).split(".")[-1]] = place_of(use.group(1))


def place_of(module):
    """A module's file where it is the project's, else its name, which is the library's."""
    return module_path(module) or module


class Library:
    """The toolchain's library: the text of its modules, where it has one."""

    def __init__(self):
        guide = subprocess.run(["rt", "doc"], capture_output=True, text=True, check=True).stdout.strip()
        self.kit = os.path.join(os.path.dirname(guide), "rattle")
        logic = os.path.join(self.kit, "logic")
        with open(os.path.join(logic, "antt-project.json"), encoding="utf8") as file:
            mounts = {name: os.path.join(logic, folder) for name, folder in json.load(file)["mounts"].items()}
        self.folders = {name: os.path.join(folder, source_folder(folder)) for name, folder in mounts.items()}
        self.theories = {}

    def path_of(self, module):
        """The file of a module: Rattle.CRATE.specs.M of a crate of the library, else LIBRARY.M."""
        name, _, rest = module.partition(".")
        folder = self.kit if name == "Rattle" else self.folders.get(name, "none")
        return os.path.join(folder, rest.replace(".", "/") + ".antt")

    def theory(self, module):
        """The module's text; None where it is built into the checker, or made from a type of the library's code."""
        if module not in self.theories:
            path = self.path_of(self.place(module))
            self.theories[module] = Theory(read_source(path)) if os.path.exists(path) else None
        return self.theories[module]

    def place(self, module):
        """The module itself, where another passes it on as one of its own: its list of modules, or `pub use` of it."""
        parts = module.split(".")
        for cut in range(len(parts) - 1, 1, -1) if not os.path.exists(self.path_of(module)) else ():
            above = ".".join(parts[:cut])
            for path in (self.path_of(above), self.path_of(above + ".Lib")):
                for used in re.findall(r"^pub use (\S+)$", text_of(path), re.M) if os.path.exists(path) else ():
                    if used.split(".")[-1] == parts[cut]:
                        return self.place(".".join([used, *parts[cut + 1 :]]))
        return module


def source_folder(folder):
    """Where the modules of one of the logic's libraries lie, below its folder."""
    with open(os.path.join(folder, "antt-project.json"), encoding="utf8") as file:
        return json.load(file).get("src", "src")


def readings(word):
    """A word of the text as a name: itself, or an operator's parts, whose places have a circle."""
    yield word
    yield from (f"◌{word}◌", f"◌{word}", f"{word}◌")
    yield from (name for name in MIXFIX if word in name.split("◌"))


class Believed:
    def __init__(self, follow_all):
        self.theories = {p: Theory(s) for p, s in read_theories().items()}
        self.follow_all = follow_all
        self.library = Library()

    def find(self, path, name):
        """The declaration that a name of a file leads to, through imports; None for the library's."""
        for _ in range(8):
            theory = self.theories.get(path)
            if theory is None:
                return None
            if name in theory.own:
                return theory.own[name]
            path, name = theory.imported.get(name, (None, name))
        return None

    def find_outside(self, path, name):
        """The module of the library and the name there that a name leads to, through imports; None for the project's."""
        for _ in range(8):
            theory = self.theories.get(path) or (path and self.library.theory(path))
            if not theory:
                return (self.library.place(path), name, None) if path and path not in self.theories else None
            if name in theory.own:
                place = self.library.place(path) if path not in self.theories else None
                return place and (place, theory.own[name].name, theory.own[name])
            if name not in theory.imported:
                return None
            path, name = theory.imported[name]
        return None

    def names_outside(self, place, declaration):
        """What a declaration names in the library."""
        theory = self.theories.get(place) or self.library.theory(place)
        for word, part in self.words(declaration):
            if part and word in theory.modules:
                yield self.find_outside(theory.modules[word], part)
            else:
                yield from (self.find_outside(place, form) for form in readings(word))

    def library_reached(self, seen):
        """The library's definitions that those of the project reach, by module and name; None where it has no text."""
        found, todo = {}, [(d.file, d) for d in seen.values()]
        while todo:
            for outside in self.names_outside(*todo.pop()):
                if outside and outside[:2] not in found:
                    module, name, declaration = outside
                    found[(module, name)] = declaration
                    if declaration:
                        todo.append((module, declaration))
        return found

    def words(self, declaration):
        text = "\n".join(declaration.text)
        if declaration.name in NAMES_ONLY and not self.follow_all:
            text = declaration.text[0]
        for found in re.finditer(rf"(?<![.\w])({NAME})(?:\.({NAME}))?", text):
            yield found.group(1), found.group(2)

    def reached_from(self, roots):
        seen, todo = {}, list(roots)
        while todo:
            d = todo.pop()
            if d is None or (d.file, d.line) in seen:
                continue
            seen[(d.file, d.line)] = d
            theory = self.theories[d.file]
            for word, part in self.words(d):
                if part and word in theory.modules:
                    todo.append(self.find(theory.modules[word], part))
                    continue
                todo.extend(self.find(d.file, form) for form in readings(word))
        return seen

    def lines_of(self, d):
        if d.name in NAMES_ONLY and not self.follow_all:
            return 1
        return len([t for t in d.text if t.strip()])

    def lines_in(self, seen):
        return sum(self.lines_of(d) for d in seen.values() if d)


def contract_roots(believed):
    with open(CONTRACTS, encoding="utf8") as file:
        text = file.read()
    for use in re.finditer(r"ghost use (\S+?)\.\{([^}]*)\};", text):
        for name in use.group(2).split(","):
            yield believed.find(module_path(use.group(1)), name.strip())


def parts_of_claim(believed):
    """The parts of the record, with what each reaches."""
    record = believed.find(TOP, "Claims")
    for line in record.text[1:]:
        found = re.match(rf"\s+pub ({NAME}) : (.*)", line)
        if found:
            roots = [believed.find(TOP, w) for w in re.findall(NAME, found.group(2))]
            yield found.group(1), believed.reached_from([r for r in roots if r])


def sums(believed):
    """The claim, the contracts, and both: what each reaches."""
    whole = believed.reached_from([believed.find(TOP, "Claims")])
    contracts = believed.reached_from(contract_roots(believed))
    return [("the whole claim", whole), ("the contracts", contracts), ("both", {**whole, **contracts})]


def joined(parts, names):
    return {place: d for name in names for place, d in parts[name].items()}


def former_count(believed):
    """The lines for documents 01 and 02, and for all parts that are not added, the record's own lines with these."""
    parts = dict(parts_of_claim(believed))
    former = [name for name in parts if name not in ADDED]
    return believed.lines_in(joined(parts, PAPERS)), believed.lines_in(joined(parts, former)) + 1 + len(former)


def counts(believed):
    """The one count, line by line."""
    (_, whole), (_, contracts), (_, both) = sums(believed)
    papers, former = former_count(believed)
    claim, all_lines = believed.lines_in(whole), believed.lines_in(both)
    return [
        ("**all that must be believed**", all_lines),
        ("the claim", claim),
        ("of it the parts that were there when 2,776 lines were counted", former),
        ("of these documents 01 and 02, then 1,989", papers),
        ("of the claim only the parts added since", claim - former),
        ("only the contracts, which reach " + str(believed.lines_in(contracts)), all_lines - claim),
    ]


def table(believed):
    """The page's table: how many lines each part of the claim reaches."""
    rows = [(f"`Claims.{name}`", believed.lines_in(seen)) for name, seen in parts_of_claim(believed)]
    lines = [f"| {title} | {count} |" for title, count in counts(believed) + rows]
    return "\n".join(["| reached by | lines |", "|---|---|", *lines]) + "\n"


def not_text(module):
    """What a module of the library is that has no text."""
    return "made from types of its code" if ".declared." in module else "built into the checker"


def library_list(believed, seen):
    """The page's list of the library's definitions, by module."""
    reached = believed.library_reached(seen)
    lines = []
    for module in sorted({module for module, _ in reached}):
        names = {name: d for (m, name), d in sorted(reached.items()) if m == module}
        count = f"{believed.lines_in(names)} lines" if any(names.values()) else not_text(module)
        lines += textwrap.wrap(f"- {module}, {count}: {', '.join(names)}", 120, subsequent_indent="  ")
    bare = [not_text(module) for (module, _), d in reached.items() if d is None]
    counted = ", ".join(f"{bare.count(kind)} are {kind}" for kind in dict.fromkeys(sorted(bare)))
    lines.append("")
    total = f"Together {len(reached)} names: {counted}, {len(reached) - len(bare)} are defined"
    lines.append(f"{total} in {believed.lines_in(reached)} lines.")
    return "\n".join(["<!-- library -->", *lines, "<!-- end -->"]) + "\n"


TABLE = re.compile(r"\| reached by \| lines \|\n(?:\|.*\n)*")
LIBRARY = re.compile(r"<!-- library -->\n(?:.*\n)*?<!-- end -->\n")


def text_of(path):
    with open(path, encoding="utf8") as file:
        return file.read()


def write(believed):
    page = TABLE.sub(lambda _: table(believed), text_of(REVIEW))
    page = LIBRARY.sub(lambda _: library_list(believed, sums(believed)[-1][1]), page)
    with open(REVIEW, "w", encoding="utf8") as file:
        file.write(page)
    return 0


def report(believed):
    both = sums(believed)[-1][1]
    for title, count in counts(believed):
        print(f"{title.strip('*')}: {count} lines")
    for title, seen in parts_of_claim(believed):
        print(f"{title}: {believed.lines_in(seen)} lines, {len(seen)} definitions")
    files = {}
    for d in both.values():
        files[d.file] = files.get(d.file, 0) + believed.lines_of(d)
    for path, count in sorted(files.items()):
        print(f"  {path.removeprefix('crates/')}: {count}")
    print(library_list(believed, both), end="")


def faults_in_files(believed, seen):
    """What stands in a file of believed definitions and is none of them, and lines that are too wide to read."""
    for path in sorted({d.file for d in seen.values()}):
        source = believed.theories[path].source
        reached = [d for d in source.declarations if (d.file, d.line) in seen]
        if any(d.name not in NAMES_ONLY for d in reached):
            beside = [d for d in source.declarations if d not in reached or d.name in NAMES_ONLY]
            yield from (f"{path}: {d.name} stands in a believed file, and nothing reaches it but as a name" for d in beside)
        for number, line in enumerate(source.lines, 1):
            if len(line) > COLUMNS and not LISTS_NAMES.match(line):
                yield f"{path}:{number}: a believed file with a line of {len(line)} columns"


def parts_on_page():
    """What the page of claims names as parts: the line's number, and the names between backticks that are no paths."""
    number, text = 0, ""
    for at, line in enumerate(text_of(CLAIMS).split("\n"), 1):
        if re.match(r"\s*- |#|$", line):
            yield from ((number, cited) for cited in re.findall(r"`([^`]+)`", text) if "/" not in cited)
            found = re.match(r"\s*- part: (.*)", line)
            number, text = at, found.group(1) if found else ""
        elif text:
            text += " " + line


def no_parts(seen):
    """What is named there and neither reached nor an exported call: a lemma, for instance."""
    names = set(ENGINE_CALL.findall(text_of(CONTRACTS)))
    for d in seen.values():
        fields = (re.match(rf"\s+(?:pub )?((?:{NAME} )+):(?: |$)", line) for line in d.text[1:])
        names |= {d.name} | {name for field in fields if field for name in field.group(1).split()}
    for number, cited in parts_on_page():
        if not names.issuperset(re.split(r"[. ]", cited)):
            yield f"{CLAIMS}:{number}: named as a part of the claim, which does not reach it: {cited}"


def listed_in_vain(page, seen):
    """Files on the page's list that hold nothing that must be believed."""
    files = {d.file.removeprefix("crates/") for d in seen.values()} | {NO_CLAIM}
    listed = re.findall(r"`(\w+/specs/\w+\.antt)`", page.partition("Everything else is proof")[0])
    yield from (f"{REVIEW} lists {path}, where nothing must be believed" for path in sorted(set(listed) - files))


def more_than_before(believed):
    papers, former = former_count(believed)
    if papers > MOST_OF_PAPERS:
        yield f"documents 01 and 02: {papers} lines must be believed, more than the {MOST_OF_PAPERS} that it was"
    if former > MOST_OF_FORMER:
        yield f"the claim without {', '.join(ADDED)}: {former} lines, more than the {MOST_OF_FORMER} that it was"


def faults_of(believed):
    page, seen = text_of(REVIEW), sums(believed)[-1][1]
    yield from faults_in_files(believed, seen)
    yield from more_than_before(believed)
    yield from listed_in_vain(page, seen)
    yield from no_parts(seen)
    beside = [d for d in seen.values() if "/proofs/" in d.file and not d.is_lemma]
    yield from sorted(f"{d.file}: {d.name} must be believed, and stands beside lemmas" for d in beside)
    unlisted = {d.file for d in seen.values() if f"`{d.file.removeprefix('crates/')}`" not in page}
    yield from sorted(f"{path} must be believed, and {REVIEW} does not list it" for path in unlisted)
    if table(believed) not in page:
        yield f"{REVIEW}: its table of lines is not up to date: run tools/believed.py --write"
    if library_list(believed, seen) not in page:
        yield f"{REVIEW}: its list of the library's definitions is not up to date: run tools/believed.py --write"


def check(believed):
    faults = list(faults_of(believed))
    for fault in faults:
        print(fault)
    both = sums(believed)[-1][1]
    outside = believed.library_reached(both)
    papers, former = former_count(believed)
    print(f"believed: {len(both)} definitions, {believed.lines_in(both)} lines, {former} of them in the claim as it was at", end=" ")
    print(f"{MOST_OF_FORMER}, 01 and 02 {papers} of these; of the toolchain's library, read but not", end=" ")
    print(f"ours, {len(outside)} definitions, {believed.lines_in(outside)} lines; {len(faults)} faults")
    return 1 if faults else 0


# ---- planted faults

PART = "  pub texts : Texts\n"
PAGE_FILE = "`spec_model/specs/Model.antt`"
ELSEWHERE = "crates/lib_base/specs/Planted.antt"
PLANTED_NAME = "abbrev pub planted : ℕ → ℕ\nplanted n = n\n"


def reached_by(use, word, definition=PLANTED_NAME, elsewhere=ELSEWHERE):
    """A definition in a file of its own, which the claim reaches by this import and this word."""
    return [(elsewhere, None, definition), (TOP, PART, f"{PART}  pub planted_part : {word} ≡ 0\n"), (TOP, None, use)]


def import_of(names, kind="specs"):
    return f"use Rattle.lib_base.{kind}.Planted{names}\n"


UNLISTED = f"{ELSEWHERE} must be believed"
MODEL = "crates/spec_model/specs/Model.antt"
RANK = "  priority e = get_or p.priorities e 0\n"
# longer than all that may be believed, however few lines that is now
TOO_MANY = range(MOST_OF_PAPERS)
LONG = PLANTED_NAME + "".join(f"planted {n} = {n}\n" for n in TOO_MANY)
PROOFS = "crates/lib_base/proofs/Planted.antt"
RENAMED = [(ELSEWHERE, None, PLANTED_NAME), ("crates/lib_base/specs/Between.antt", None, "pub " + import_of(".{planted}"))]
PLANTED = [
    ("does not list it", [(REVIEW, PAGE_FILE, "`spec_model`")]),
    (UNLISTED, reached_by(import_of(".{planted}"), "planted 1")),
    (UNLISTED, reached_by(import_of(".{planted as other}"), "other 1")),
    (UNLISTED, reached_by(import_of(" as far"), "far.planted 1")),
    (UNLISTED, reached_by(import_of(".{◌⊛◌}"), "1 ⊛ 2", "abbrev pub ◌⊛◌ : ℕ → ℕ → ℕ\nm ⊛ n = n\n")),
    (UNLISTED, reached_by(import_of(".{one_case}"), "one_case", "pub data Cases : Type 0 where\n  one_case : Cases\n")),
    (UNLISTED, RENAMED + reached_by("use Rattle.lib_base.specs.Between.{planted}\n", "planted 1", "")),
    ("planted must be believed, and stands beside lemmas", reached_by(import_of(".{planted}", "proofs"), "planted 1", elsewhere=PROOFS)),
    ("planted stands in a believed file", [(MODEL, None, f"\n{PLANTED_NAME}")]),
    ("step_on stands in a believed file", [(MODEL, None, "\nabbrev pub step_on : ℕ → ℕ\nstep_on n = n\n")]),
    ("a believed file with a line of 161 columns", [(MODEL, None, "-- " + "o" * 158 + "\n")]),
    ("documents 01 and 02", [(MODEL, RANK, RANK + "".join(f"  priority {n} = {n}\n" for n in TOO_MANY))]),
    ("the claim without deliveries", reached_by(import_of(".{planted}"), "planted 1", LONG)),
    ("lists spec_model/specs/Told.antt", [(REVIEW, PAGE_FILE, f"{PAGE_FILE}, `spec_model/specs/Told.antt`")]),
    ("does not reach it: same_board", [(CLAIMS, "  - part: `Claims.p_rounds`", "  - part: `Claims.p_rounds`, `same_board`")]),
    ("does not reach it: Claims.q_rounds", [(CLAIMS, "  - part: `Claims.p_rounds`", "  - part: `Claims.q_rounds`")]),
    ("table of lines is not up to date", [(REVIEW, "| the claim | ", "| the claim | 1")]),
    ("table of lines is not up to date", [(TOP, PART, f"{PART}  pub planted_part : Texts\n")]),
    ("list of the library's definitions", [(REVIEW, "dec_IsEq, ", "")]),
    ("list of the library's definitions", [(REVIEW, "Together ", "Together 1")]),
    ("list of the library's definitions", reached_by("use mathlib.Core.List.{reverse}\n", "reverse", "")),
    ("list of the library's definitions", reached_by("use mathlib.Core.List as far\n", "far.reverse", "")),
]


def planted_faults():
    return planted("believed", lambda: list(faults_of(Believed(False))), ["crates", REVIEW, CLAIMS], PLANTED)


if __name__ == "__main__":
    if "--planted" in sys.argv:
        sys.exit(planted_faults())
    act = check if "--check" in sys.argv else write if "--write" in sys.argv else report
    sys.exit(act(Believed("--all" in sys.argv)))
