#!/usr/bin/env python3
"""house: what the gate checks of the sources beside the proofs. Run it in the repository's root.

    tools/house.py              check everything; a line for each fault, and how many there are
    tools/house.py --planted    show that each check fails on a planted case (on a copy of the sources)

Believed and proved are told apart by place: a file under specs/ holds definitions and statements only. The other
checks: no public name that two definitions' files declare, no public name and no dependency that nothing uses, no edit
that changes nothing, none in two places and none in another function than it names, an edit at the gate for each crate
with code, two for each exported call, no number without a name in the code or in a contract, no tag, width or offset of
a sheet's field outside the room sheet, no two rooms that stand on each other, lines of pages and comments at most 120 columns, every
path and name on the pages there, every edit cited by its crate and label and there, functions of at most 7 parameters
with contracts of at most 6 clauses, and proof files whose answers and places have names.
"""
import collections
import glob
import os
import re
import shutil
import subprocess
import sys
import tempfile

from sources import NAME, files_under, is_theory, module_path, once_each, read_crates, read_source, read_theories

WIDTH = 120
PAGES = ["README.md", "CONTRIBUTING.md"]
EXPORTS = "crates/engine_c/src/lib.rt"


def pages():
    return [p for p in PAGES if os.path.exists(p)] + sorted(glob.glob("docs/*.md"))


@once_each
def text_of(path):
    with open(path, encoding="utf8") as file:
        return file.read()


# ---- believed and proved


def lemmas_in_specs(theories):
    for path, source in theories.items():
        if "/specs/" in path:
            for d in source.declarations:
                if d.is_lemma:
                    yield f"{path}:{d.line}: a lemma in specs/: {d.name}"


def lemmas_imported_by_definitions(theories):
    lemmas = {(p, d.name) for p, s in theories.items() for d in s.declarations if d.is_lemma}
    for path, source in theories.items():
        if "/specs/" not in path:
            continue
        for module, names in source.imports:
            target = module_path(module)
            if target and "/proofs/" in target:
                yield f"{path}: a definition's file imports from {target}"
            for name in names:
                if (target, name) in lemmas:
                    yield f"{path}: a definition's file imports the lemma {name}"


# ---- one name, one meaning

# a type or a claim beside the function that makes or decides it: two files, one idea, told apart by case
SAME_IDEA = {"arity", "entry", "eventover", "field", "handles", "idle", "known", "sheet", "signal"}

# answers of the text's reader whose names another room's definitions have too, and which are still to get their own; a
# name that only one has is taken off the list
NOT_YET_APART = {"declared", "due", "found", "given", "named", "number", "read", "rights"}


def names_declared_twice(theories):
    """Two definitions' files declare a public name, or two that differ by case alone. A `pub use` declares nothing."""
    places = collections.defaultdict(list)
    for path, source in theories.items():
        for d in source.declarations if "/specs/" in path else []:
            if d.public:
                places[d.name.lower()].append(d)
    for name in sorted(NOT_YET_APART):
        if len({d.file for d in places.pop(name, [])}) < 2:
            yield f"{name}: one file of definitions declares it: take it off the list"
    for same in places.values():
        for n, d in enumerate(same):
            others = [o for o in same[:n] if o.file != d.file and (o.name == d.name or d.name.lower() not in SAME_IDEA)]
            if others:
                yield f"{d.file}:{d.line}: a public name that {others[0].file} declares too: {d.name}, {others[0].name}"


# functions that mean the same in two crates, and why they are not one. A part of a formula alone and of a sheet's text:
# the tokens of one are a list of numbers, of the other places in the text, and the faults differ. `push`: the stack of a
# round is bytes in a measured loop, that of starts an array of words. `put_result`: what is too long for the caller's
# buffer is refused by each call's own number, and describe writes there without a copy. `cells_at`: at the front of what
# is left, and at a place of a sheet.
SAME_MEANING = {
    "argument", "cells_at", "choice", "close", "ended", "push", "put_result", "token_at", "under", "word_at",
}


def functions_declared_twice():
    """The exports have the names of the engine's calls that they are; a method is told by its type."""
    places = {}
    for path in files_under("crates", ".rt"):
        if path == EXPORTS:
            continue
        for name in re.findall(r"^(?:pub )?(?:extern \"C\" )?fn (\w+)", text_of(path), re.M):
            crate = path.split("/")[1]
            if places.setdefault(name, crate) != crate and name not in SAME_MEANING:
                yield f"{path}: a function's name that {places[name]} has too: {name}"


# ---- what nothing uses


@once_each
def words_of(path):
    """In code a lemma is cited by its path, as `#[tactic(auto, using(crate::proofs::Copies::cells_more))]`."""
    in_code = path.endswith(".rt")
    text = re.sub(r"(^|\s)//.*$" if in_code else r"(^|\s)--(\s.*|$)", "", text_of(path), flags=re.M)
    return collections.Counter(re.findall(NAME, text.replace("::", " ") if in_code else text))


# a limit beside the one that is used: the first number past it
FOR_THE_READER = {"past_negated"}


def unused_public_names(theories):
    """A worked example is an end in itself, and so is what the page of claims cites."""
    words = collections.Counter()
    for path in files_under("crates", (".antt", ".rt")):
        words.update(words_of(path))
    cited = set(re.findall(NAME, text_of("docs/CLAIMS.md").replace("`", " ")))
    for path, source in theories.items():
        if path.endswith("Examples.antt"):
            continue
        for d in source.declarations:
            own = re.findall(NAME, "\n".join(d.text)).count(d.name)
            used = words[d.name] > own or (d.name.strip("_") != d.name and words[d.name.strip("_")])
            if d.public and not used and d.name not in cited | FOR_THE_READER:
                yield f"{path}:{d.line}: a public name that nothing uses: {d.name}"


@once_each
def called_in(path):
    return set(re.findall(r"\w+", re.sub(r"//.*", "", text_of(path))))


def unused_functions():
    files = list(files_under("crates", ".rt"))
    users = collections.Counter(word for path in files for word in called_in(path))
    for path in files:
        for name in re.findall(r"^pub fn (\w+)", text_of(path), re.M):
            if users[name] < 2:
                yield f"{path}: a public function that no other file calls: {name}"


def unused_dependencies():
    crates, _ = read_crates()
    for crate, needs in crates.items():
        text = "\n".join(text_of(p) for p in files_under(f"crates/{crate}", (".antt", ".rt")))
        for need in needs:
            if not re.search(rf"Rattle\.{need}\.|(?<!\w){need}::", text):
                yield f"crates.txt: {crate} names {need}, which nothing in it uses"


# ---- edits


def crate_of_edit(path):
    return path.split("/")[-3 if path.startswith("crates/") else -2]


def edits():
    """Each edit as pages cite it, NAME/LABEL, with the files that hold it: at the gate, in tests/edits."""
    found = collections.defaultdict(list)
    for path in sorted(glob.glob("crates/*/must-fail/*.edit") + glob.glob("tests/edits/*/*.edit")):
        found[f"{crate_of_edit(path)}/{os.path.basename(path)[:-5]}"].append(path)
    return found


# what a file of code declares, with the lines from there to the one that closes it
ITEM = re.compile(r'( *)(?:pub )?(?:extern "C" )?(fn|const|enum|struct|impl) (\w+)')


def items_of(lines):
    """Each function, constant and type that a file of code declares: its name, and its first and last line."""
    for first, line in enumerate(lines):
        found = ITEM.match(line)
        if found:
            indent, kind, name = found.groups()
            closes = (lambda l: l.endswith(";")) if kind == "const" else (lambda l: l in (indent + "}", indent + "};"))
            last = next((n for n in range(first, len(lines)) if closes(lines[n])), first)
            yield name, first, last


def item_at(text, place):
    """The innermost function, constant or type whose text holds a place of a file, or None."""
    line = text.count("\n", 0, place)
    around = [(last - first, name) for name, first, last in items_of(text.split("\n")) if first <= line <= last]
    return min(around)[1] if around else None


def faults_of_pair(file, named, old, new):
    """A pair of old and new, in a file, in what its `in:` line names."""
    text = text_of(file) if file and os.path.exists(file) else None
    if text is None:
        yield f"no such file: {file}"
    elif text.count(old) != 1:
        yield f"its old text stands {text.count(old)} times in {file}" + (f"; it is about {named}" if named else "")
    elif old == new:
        yield "it changes nothing"
    elif file.endswith(".rt"):
        stands = item_at(text, text.index(old))
        if stands != named:
            yield f"its old text stands in {stands or 'no function'}, and `in:` names {named or 'none'}"
    elif named:
        yield f"`in:` names a function of the code, and {file} is none: {named}"


def faults_of_edit(path):
    crate = crate_of_edit(path)
    file = named = old = None
    pairs = 0
    for line in text_of(path).split("\n"):
        if line.startswith("file: "):
            file, named = f"crates/{crate}/{line[6:].strip()}", None
        elif line.startswith(("in: ", "# in: ")):
            named = line.partition("in: ")[2].strip()
        elif line.startswith("old: "):
            old = line[5:]
        elif line.startswith("new:"):
            pairs += 1
            yield from (f"{path}: {fault}" for fault in faults_of_pair(file, named, old, line[4:].removeprefix(" ")))
        elif line.strip() and not line.startswith("#"):
            yield f"{path}: rt reads one line for old and one for new; this one it passes over: {line.strip()[:60]}"
    if pairs == 0:
        yield f"{path}: it has no pair of old and new"


def faults_of_edits():
    for paths in edits().values():
        for path in paths:
            yield from faults_of_edit(path)
        if len(paths) > 1:
            yield f"{paths[1]}: the same label as {paths[0]}"


def has_code(crate):
    return any(re.search(r'^(?:pub )?(?:extern "C" )?fn ', text_of(path), re.M) for path in files_under(f"crates/{crate}/src", ".rt"))


def crates_without_an_edit():
    """The gate tries a wrong program of every crate with code."""
    for crate in read_crates()[0]:
        if has_code(crate) and not glob.glob(f"crates/{crate}/must-fail/*.edit"):
            yield f"crates/{crate}: no edit of its code is tried at the gate"


def section(page, title):
    return text_of(page).partition(f"\n## {title}\n")[2].partition("\n## ")[0]


def edits_due_at_the_gate():
    """The gate tries two edits for each exported call, and each engine that the buyer sends back, as the claims list them."""
    page, tried = "docs/CLAIMS.md", {cited for cited, paths in edits().items() if paths[0].startswith("crates/")}
    calls = section("docs/REVIEW.md", "Two wrong programs for each exported call")
    of_call = {call: re.findall(r"`(\w+/\w+)`", rest) for call, rest in re.findall(r"^- `(\w+)`: (.*(?:\n  .*)*)", calls, re.M)}
    for call in re.findall(r'^pub extern "C" fn (\w+)', text_of(EXPORTS), re.M):
        count = len(tried.intersection(of_call.get(call, [])))
        if count < 2:
            yield f"docs/REVIEW.md: the gate tries {count} edits of {call} that are listed there, and two are due"
    for engine, rest in re.findall(r"^- (.*)\n((?:  .*\n)+)", section(page, "The seven engines that the buyer sends back"), re.M):
        if not tried.intersection(re.findall(r"`(\w+/\w+)`", rest)):
            yield f"{page}: the gate tries no edit of the engine that is sent back: {engine}"


# ---- numbers, widths, names on pages

LITERAL = re.compile(r"(?<![A-Za-z_0-9.])(0x[0-9A-Fa-f]+|\d[\d_]*)(?![A-Za-z_0-9.])")
LARGEST_BARE = 3
# an arm of a match that lists a function's values, as the powers of two
TABLE_ROW = re.compile(r"\s*(\d+|_) => \d+,$")
# a case of an enum, which is the name of its number
CASE = re.compile(r"\s+[A-Z]\w* = \d+,$")


CLAUSE = re.compile(r"^ *(?:requires|ensures|invariant|decreases)\b.*?[⌝}] *}?$", re.M | re.S)


def code_alone(path):
    """The text of a file with its contracts blanked, line by line."""
    return CLAUSE.sub(lambda clause: "\n" * clause.group(0).count("\n"), text_of(path))


def bare_numbers():
    for path in files_under("crates", ".rt"):
        above = ""
        for number, line in enumerate(code_alone(path).split("\n"), 1):
            code = re.sub(r"b'.'", "", line.split("//")[0])
            told = "//" in line or above.strip().startswith("//")
            above = line
            if re.match(r"\s*((pub )?const|ghost)\b", code) or told or TABLE_ROW.match(code) or CASE.match(code):
                continue
            for found in LITERAL.finditer(code):
                if int(found.group(1).replace("_", ""), 0) > LARGEST_BARE:
                    yield f"{path}:{number}: a number without a name: {found.group(1)}"


# a bound of the machine's numbers, as 2 ^ 64
POWER = re.compile(r"\b2 \^ \d+")


def bare_numbers_in_contracts():
    """Contracts name their numbers as the code does; those of the exported calls have the papers' own."""
    for path in files_under("crates", ".rt"):
        if path.split("/")[1] in ("engine", "engine_c"):
            continue
        text = text_of(path)
        for clause in CLAUSE.finditer(text):
            for found in LITERAL.finditer(POWER.sub("", clause.group(0))):
                if int(found.group(1).replace("_", "")) > LARGEST_BARE:
                    line = text[: clause.start()].count("\n") + 1
                    yield f"{path}:{line}: a number without a name in a contract: {found.group(1)}"


# ---- one owner of a sheet's bytes

# the rooms that read or write sheets by the names of the room `sheet`; the one file that declares tags of a sheet's
# fields, and the crate that has tags of another kind, the desk's
SHEET_ROOMS = {"front", "link", "text", "source", "desk"}
TAGS = "crates/sheet_field/src/tags.rt"
DESK = "desk_format"
TAGS_OF = re.compile(r"\b(\w+)::tags\b")
DECLARED = re.compile(r"^(?:pub )?const (\w+): u\w+ = (0x[0-9A-Fa-f]+|\d+);", re.M)
OWN_NUMBER = re.compile(r"^(?:pub )?const (\w+): (?:u8|usize) = (?:0x[0-9A-Fa-f]+|\d+);", re.M)
INDEX = re.compile(r"\w\[([^\[\];]*)\]")
WRITERS = "put_(?:byte|half|byte_field|word_field|event|viewers|start|handler)|enclose|wrap_application"
PLACED = re.compile(rf"\b(?:{WRITERS}|byte_from|onward|get_half|get_at)\(([^;{{]*)")
LENGTH = re.compile(r"\.len\(\)\s*(?:[<>=!]=?|-)\s*([^;{]*)")
TAG = re.compile(r"(?:\btag\b|\w\[[^\[\];]*\])\s*[<>=!]=?\s*(\w+)\b(?!::)")


def own_terms(text, own):
    """The numbers above 0, bare or as a constant of the file's own, that are a whole term of a sum or of an argument."""
    for term in re.split(r"\+|,|\.\.|\)|\(", text):
        word = term.strip()
        if word in own or (LITERAL.fullmatch(word) and int(word, 0) > 0):
            yield word


def declared_numbers(text):
    return {(name, int(number, 0)) for name, number in DECLARED.findall(text)}


def tags_of_others():
    """No crate outside sheet_field declares a tag of a sheet's field, and none takes tags from another crate."""
    tags = declared_numbers(text_of(TAGS))
    for path in files_under("crates", ".rt"):
        text = text_of(path)
        for owner in set(TAGS_OF.findall(text)) - {path.split("/")[1], TAGS.split("/")[1], DESK}:
            yield f"{path}: tags of a sheet's fields that are not those of sheet_field, but of {owner}"
        for name, number in sorted(declared_numbers(text) & tags) if path != TAGS else []:
            yield f"{path}: a tag of a sheet's field that is declared outside sheet_field: {name}, {number}"


def numbers_of_sheets():
    """A tag, a width or an offset of a sheet's field that does not come from the room `sheet`."""
    yield from tags_of_others()
    for path in files_under("crates", ".rt"):
        crate = path.split("/")[1]
        text = text_of(path)
        if crate.split("_")[0] not in SHEET_ROOMS:
            continue
        own = {m.group(1) for m in OWN_NUMBER.finditer(text)}
        for number, line in enumerate(code_alone(path).split("\n"), 1):
            code = re.sub(r"b'.'", "", line.split("//")[0])
            if re.match(r"\s*((pub )?const|ghost|use)\b", code):
                continue
            places = [m.group(1) for pattern in (INDEX, PLACED) for m in pattern.finditer(code)]
            lengths = [] if crate == "desk_format" else [m.group(1) for m in LENGTH.finditer(code)]
            tags = [m.group(1) for m in TAG.finditer(code) if m.group(1) in own or (m.group(0).startswith("tag") and m.group(1).isdigit())]
            for kind, found in (("an offset", places), ("a width", lengths), ("a tag", tags)):
                for word in (w for f in found for w in own_terms(f, own)):
                    yield f"{path}:{number}: {kind} in a sheet's field that does not come from the room sheet: {word}"


def wide_lines():
    for path in pages():
        for number, line in enumerate(text_of(path).split("\n"), 1):
            if len(line) > WIDTH and "://" not in line:
                yield f"{path}:{number}: {len(line)} columns"
    for path in files_under("crates", (".antt", ".rt")):
        for number, line in enumerate(text_of(path).split("\n"), 1):
            if len(line) > WIDTH and re.match(r"\s*(--|//)", line):
                yield f"{path}:{number}: a comment of {len(line)} columns"


# ---- the shape of functions and contracts

MOST_PARAMETERS = 7
MOST_CLAUSES = 6
CONTRACT_WIDTH = 160
# its parameters, and its contract as far as the body
FUNCTION = re.compile(r'^(?:pub )?(?:extern "C" )?fn (\w+)(?:<[^>(]*>)?\(([^()]*)\)(?: -> [^\n]*)?\n(.*?)^{', re.M | re.S)


def large_contracts():
    for path in files_under("crates", ".rt"):
        text = text_of(path)
        for found in FUNCTION.finditer(text):
            name, parameters, contract = found.groups()
            count = len(re.findall(r"\w+: ", parameters))
            clauses = len(re.findall(r"^ *(?:requires|ensures|decreases)\b", contract, re.M))
            if count > MOST_PARAMETERS:
                yield f"{path}: {name} has {count} parameters"
            if clauses > MOST_CLAUSES:
                yield f"{path}: {name} has a contract of {clauses} clauses"
        for number, line in enumerate(text.split("\n"), 1):
            if len(line) > CONTRACT_WIDTH and not line.startswith("ghost use "):
                yield f"{path}:{number}: {len(line)} columns in a contract"


def declared_names(theories):
    """Every name that a page may cite: declared in a theory, a part of a record, a constructor, a function."""
    names = set(read_crates()[0])
    for path in files_under("crates", ".antt"):
        if not is_theory(path) and not path.endswith("Proof.antt"):
            continue
        source = theories.get(path) or read_source(path)
        for d in source.declarations:
            names.add(d.name)
            if d.kind in ("record", "data"):
                names.update(re.findall(rf"^\s+(?:pub )?({NAME})(?: {NAME})* :", "\n".join(d.text), re.M))
    for path in files_under("crates", ".rt"):
        names.update(re.findall(r"\b(?:fn|const|struct|enum|mod) (\w+)", text_of(path)))
    return names


# the reviewers' pages: on these every name and path must be there, and on all pages every edit
NAMED_PAGES = ("docs/CLAIMS.md", "docs/REVIEW.md", "docs/ARCHITECTURE.md", "docs/CHANGES.md")


def citations(page):
    """What stands between backticks in one word: what has a space is an expression, and may go on in the next line."""
    for number, line in enumerate(text_of(page).split("\n"), 1):
        for cited in re.findall(r"`([^`\s]+)`", line):
            yield number, cited


def header(path):
    """The comment on top of a file of definitions or proofs, line by line."""
    for number, line in enumerate(text_of(path).split("\n"), 1):
        if not line.startswith("--"):
            return
        yield number, line


def unresolved_in_headers(theories):
    """Headers name crates, functions and files that are there."""
    files = list(files_under("crates", ".antt"))
    names = declared_names(theories) | {os.path.basename(path).removesuffix(".antt") for path in files} | LIBRARY
    for path in files:
        for number, line in header(path):
            for cited in re.findall(r"`([^`\s]+)`", line):
                yield from (f"{path}:{number}: in its header, {fault}" for fault in faults_of_citation(cited, names))


def unresolved_names(theories):
    names, found = declared_names(theories), edits()
    crates = set(read_crates()[0]) | {cited.split("/")[0] for cited in found}
    for page in pages():
        for number, cited in citations(page):
            faults = [*edit_by_place(page, cited), *edit_not_there(cited, crates, found)]
            if page in NAMED_PAGES and not faults and cited not in found:
                faults = faults_of_citation(cited, names)
            yield from (f"{page}:{number}: {fault}" for fault in faults)


# an edit is cited as NAME/LABEL, so that a page stays true when the edit moves between the gate and tests/edits
PLACE_OF_EDITS = re.compile(r"((?:crates/)?[a-z0-9_]+/must-fail|tests/edits/(?!run$)[a-z0-9_]+)(/\w+(?:\.edit)?)?")
EDIT_CITED = re.compile(r"([a-z0-9_]+)/([a-z0-9_]+)")
PARTS_OF_CRATE = {"specs", "proofs", "src"}


def edit_by_place(page, cited):
    """Pages other than the claims may name a folder of edits alone, as where they count those in it."""
    place = PLACE_OF_EDITS.fullmatch(cited)
    if place and (place.group(2) or page == "docs/CLAIMS.md"):
        yield f"an edit is cited by its label, as NAME/LABEL: {cited}"


def edit_not_there(cited, crates, found):
    parts = EDIT_CITED.fullmatch(cited)
    if parts and parts.group(1) in crates and parts.group(2) not in PARTS_OF_CRATE and cited not in found:
        yield f"no such edit: {cited}"


# words of the toolchain's library and of sheets that a header may cite
LIBRARY = {"set", "get_or", "take", "drop", "omega", "set-out", "later", "refl"}
# words that a page may cite though no file of the project declares them
WORDS = {"must-fail", "requires", "ensures", "result", "if", "pick", "s", "ps", "t₀", "l₀", "cs", "N", "NAME"}


def faults_of_citation(cited, names):
    if "NAME" in cited or re.search(r"[\s(){}\[\]=<>|!+*^&\"',]", cited) or cited.startswith((".", "-")):
        return  # an expression or a command
    if "/" in cited:
        if not any(glob.glob(p) for p in (cited, "crates/" + cited, "docs/" + cited, "tests/" + cited)):
            yield f"no such path: {cited}"
        return
    if cited.endswith((".antt", ".rt", ".md", ".h", ".txt", ".svg", ".sh", ".py")):
        if not glob.glob(f"**/{cited}", recursive=True):
            yield f"no such file: {cited}"
        return
    for part in re.split(r"::|\.", cited):
        if part and part not in names and part not in WORDS and not part[0].isdigit():
            yield f"no such name: {part}"


def crates_without_a_line():
    page = text_of("docs/ARCHITECTURE.md")
    for crate in read_crates()[0]:
        if f"| `{crate}` |" not in page:
            yield f"docs/ARCHITECTURE.md: no line on crate {crate}"


# ---- proof text: an answer is read by its name, and a place by its own

LONGEST_PROOF_LINE = 400
MOST_POSITIONAL = 12
MOST_BEFORE = 9
# CRATE/FUNCTION whose proof still breaks one of these; one that breaks none any more is taken off the list
NOT_YET_NAMED = {"run_advance/advance_on", "run_burst/run_most"}


# an answer that says no more than which tactic finds it needs no name
ONLY_TACTIC = re.compile(r"\(λ [^.()]*\. (?:search (?:rules|code depth \d+)|omega arith)\)")


def positional_answers(text):
    """How many answers are lambdas by place in the calls of `spec`, but for those that are only a tactic."""
    count = 0
    text = ONLY_TACTIC.sub("_", text)
    for call in re.finditer(r"(?:tie|-lts)\.spec(?![\w-])", text):
        depth = 0
        for i in range(call.end(), len(text)):
            if text[i] == "(":
                count += depth == 0 and text.startswith("(λ", i)
                depth += 1
            elif text[i] == ")":
                depth -= 1
                if depth < 0:
                    break
    return count


def faults_of_proof(path):
    text = text_of(path)
    longest = max(map(len, text.split("\n")))
    if longest > LONGEST_PROOF_LINE:
        yield f"{path}: a line of {longest} characters in a proof"
    answers = positional_answers(text)
    if answers > MOST_POSITIONAL:
        yield f"{path}: {answers} answers by place and not by name"
    run = max((r.count(".before") for r in re.findall(r"(?:\.before\s*)+", text)), default=0)
    if run > MOST_BEFORE:
        yield f"{path}: `.before` {run} times in a row"


def unreadable_proofs():
    waiting = {f"crates/{name.replace('/', '/proofs/', 1)}/Proof.antt" for name in NOT_YET_NAMED}
    for path in sorted(waiting | set(glob.glob("crates/*/proofs/**/Proof.antt", recursive=True))):
        faults = list(faults_of_proof(path)) if os.path.exists(path) else []
        if path not in waiting:
            yield from faults
        elif not faults:
            yield f"{path}: it breaks no rule of proof text: take it off the list"


# ---- rooms


def room_cycles():
    """Rooms that stand on each other, over any way: each crate that stands on a room from which its own is reached."""
    crates, rooms = read_crates()
    below = collections.defaultdict(set)
    for crate, stands_on in crates.items():
        below[rooms[crate]] |= {rooms[other] for other in stands_on if other in rooms} - {rooms[crate]}
    reached = {room: set(below[room]) for room in rooms.values()}
    for _ in reached:
        for room in reached:
            reached[room] |= {further for other in reached[room] for further in reached[other]}
    for crate, stands_on in crates.items():
        for other in stands_on:
            if other in rooms and rooms[other] != rooms[crate] and rooms[crate] in reached[rooms[other]]:
                yield f"crates.txt: rooms that stand on each other: {crate} on {other}"


# ---- all of it


def all_faults():
    theories = read_theories()
    yield from lemmas_in_specs(theories)
    yield from lemmas_imported_by_definitions(theories)
    yield from names_declared_twice(theories)
    yield from functions_declared_twice()
    yield from unused_public_names(theories)
    yield from unused_functions()
    yield from unused_dependencies()
    yield from faults_of_edits()
    yield from crates_without_an_edit()
    yield from edits_due_at_the_gate()
    yield from bare_numbers()
    yield from bare_numbers_in_contracts()
    yield from numbers_of_sheets()
    yield from wide_lines()
    yield from large_contracts()
    yield from unresolved_names(theories)
    yield from unresolved_in_headers(theories)
    yield from crates_without_a_line()
    yield from room_cycles()
    yield from unreadable_proofs()


def check():
    faults = list(all_faults())
    for fault in faults:
        print(fault)
    print(f"house: {len(faults)} faults")
    return 1 if faults else 0


# ---- planted cases: what a check must find, each in a copy of the sources

PLANTED_PAIR = "old:     get_at(bytes, k * WORD_BYTES)\nnew:     get_at(bytes, k)\n"
PLANTED = [
    ("a lemma in specs/", "crates/lib_base/specs/Planted.antt", "planted : 0 ≡ 0\nplanted = refl\n"),
    ("imports from", "crates/lib_base/specs/Planted.antt", "use Rattle.lib_base.proofs.Tools.{by_test}\n"),
    ("declares too", "crates/lib_base/specs/Planted.antt", "abbrev pub no_event : ℕ\nno_event = 1\n"),
    ("declares too", "crates/lib_base/specs/Planted.antt", "abbrev pub No_event : ℕ\nNo_event = 1\n"),
    ("a function's name that", "crates/lib_word/src/planted.rt", "fn best_of(n: usize) -> usize {\n    n\n}\n"),
    ("a public name that nothing uses", "crates/lib_base/proofs/Planted.antt", "abbrev pub planted_name : ℕ\nplanted_name = 1\n"),
    ("which nothing in it uses", "crates.txt", None),
    ("rooms that stand on each other", "crates.txt", None),
    ("it changes nothing", "crates/lib_word/must-fail/planted.edit", None),
    ("the same label as", "tests/edits/lib_word/get_word_by_two.edit", None),
    ("`in:` names wide", "crates/lib_word/must-fail/planted.edit", "file: src/lib.rt\n# in: wide\n" + PLANTED_PAIR),
    ("`in:` names none", "crates/lib_word/must-fail/planted.edit", "file: src/lib.rt\n" + PLANTED_PAIR),
    ("no edit of its code", "crates/lib_base/src/planted.rt", "fn planted() -> u32 {\n    0\n}\n"),
    ("0 edits of circle", "docs/REVIEW.md", ("- `circle`: ", "- `planted`: ")),
    ("no edit of the engine that is sent back", "docs/CLAIMS.md", ("`run_arrive/number_made_up`\n", "`run_arrive/planted`\n")),
    ("a number without a name", "crates/lib_word/src/planted.rt", "fn planted() -> u32 {\n    17\n}\n"),
    ("in a contract: 17", "crates/lib_word/src/planted.rt", "fn planted() -> u32\n    ensures { result < 17 }\n{\n    0\n}\n"),
    ("8 parameters", "crates/lib_word/src/planted.rt", "fn planted(\n" + "".join(f"    {a}: u32,\n" for a in "abcdefgh") + ") -> u32\n{\n    a\n}\n"),
    ("7 clauses", "crates/lib_word/src/planted.rt", "fn planted() -> u32\n" + "    ensures clause { result ≡ 0 }\n" * 7 + "{\n    0\n}\n"),
    ("columns in a contract", "crates/lib_word/src/planted.rt", "fn planted() -> u32\n    ensures { " + "0 + " * 40 + "0 ≡ result }\n{\n    0\n}\n"),
    ("an offset", "crates/front_rows/src/planted.rt", "fn planted(s: &[u8]) -> u8 {\n    s[3]\n}\n"),
    ("an offset", "crates/link_bytes/src/planted.rt", "const AT: usize = 4;\n\nfn planted(s: &[u8]) {\n    s[0 + AT]\n}\n"),
    ("an offset", "crates/source_walk/src/planted.rt", "fn planted(s: &[u8]) -> u8 {\n    byte_from(s, 0, 3)\n}\n"),
    ("an offset", "crates/source_body/src/planted.rt", "fn planted(out: &mut [u8], n: usize) {\n    put_viewers(out, n + 3, 0);\n}\n"),
    ("a width", "crates/source_handlers/src/planted.rt", "const HEAD: usize = 5;\n\nfn planted(s: &[u8]) -> bool {\n    s.len() < HEAD\n}\n"),
    ("a width", "crates/front_viewers/src/planted.rt", "fn planted(s: &[u8]) -> bool {\n    s.len() < 3\n}\n"),
    ("a tag in", "crates/source_terms/src/planted.rt", "const ROW: u8 = 6;\n\nfn planted(tag: u8) {\n    tag == ROW\n}\n"),
    ("tags of a sheet's fields", "crates/desk_format/src/planted.rt", "use spec_language::tags;\n"),
    ("that is declared outside sheet_field", "crates/spec_language/src/tags.rt", "pub const ROW: u8 = 0x06;\n"),
    ("a comment of", "crates/lib_base/proofs/Planted.antt", "-- " + "wide " * 30 + "\n"),
    ("no such name", "docs/CLAIMS.md", "\n`planted_name_of_nothing`\n"),
    ("no such name", "docs/CLAIMS.md", "\n`get_word_by_two`\n"),
    ("in its header, no such name", "crates/lib_base/proofs/Planted.antt", "-- `planted::nothing` meets its contract.\n"),
    ("no such edit", "docs/CLAIMS.md", "\n`lib_word/planted_edit_of_nothing`\n"),
    ("no such edit", "docs/CHANGES.md", "\n`lib_word/planted_edit_of_nothing`\n"),
    ("no such edit", "CONTRIBUTING.md", "\n`lib_word/planted_edit_of_nothing`\n"),
    ("an edit is cited by its label", "docs/CLAIMS.md", "\n`lib_word/must-fail`\n"),
    ("an edit is cited by its label", "docs/CLAIMS.md", "\n`tests/edits/lib_word`\n"),
    ("an edit is cited by its label", "docs/CHANGES.md", "\n`tests/edits/lib_word/get_word_by_two`\n"),
    ("columns", "docs/CLAIMS.md", "\n" + "wide " * 30 + "\n"),
    ("characters in a proof", "crates/lib_base/proofs/planted/Proof.antt", "planted = " + "x " * 200 + "\n"),
    ("answers by place", "crates/lib_base/proofs/planted/Proof.antt", "planted = (tie.spec" + " (λ c. x)" * 13 + ")\n"),
    ("times in a row", "crates/lib_base/proofs/planted/Proof.antt", "planted c = c" + " .before" * 10 + "\n"),
]


def plant(path, text):
    if path == "crates.txt":
        lines = text_of(path).replace("lib_word: ", "lib_word: lib_arith engine ")
        lines = lines.replace("lib_arith: lib_base", "lib_arith: lib_base")
        return lines
    if isinstance(text, tuple):
        return text_of(path).replace(*text)
    if path.endswith(".edit") and text is None:
        line = next(l for l in text_of("crates/lib_word/src/lib.rt").split("\n") if l.startswith("//"))
        return f"file: src/lib.rt\nold: {line}\nnew: {line}\n"
    old = text_of(path) if os.path.exists(path) else ""
    return old + text


def planted():
    root, missed = os.getcwd(), 0
    here = set(all_faults())
    with tempfile.TemporaryDirectory() as room:
        for name in ("crates", "docs", "tests/edits", "crates.txt", "README.md", "CONTRIBUTING.md"):
            if os.path.isdir(name):
                shutil.copytree(name, os.path.join(room, name), ignore=shutil.ignore_patterns("out"))
            elif os.path.exists(name):
                shutil.copy(name, os.path.join(room, name))
        os.chdir(room)
        for word, path, text in PLANTED:
            was = text_of(path) if os.path.exists(path) else None
            content = plant(path, text)
            os.makedirs(os.path.dirname(path) or ".", exist_ok=True)
            with open(path, "w", encoding="utf8") as file:
                file.write(content)
            found = [f for f in all_faults() if f not in here and word in f]
            print(f"planted in {path}: " + (found[0] if found else f"NOT FOUND: {word}"))
            missed += not found
            if was is None:
                os.remove(path)
            else:
                with open(path, "w", encoding="utf8") as file:
                    file.write(was)
        os.chdir(root)
    print(f"house: {len(PLANTED) - missed} of {len(PLANTED)} planted cases found")
    return 1 if missed else 0


if __name__ == "__main__":
    sys.exit(planted() if sys.argv[1:] == ["--planted"] else check())
