#!/usr/bin/env python3
"""Counts the places in src/ that have an older form of the language (docs/DESIGN-PASS.md).

    tools/forms.py               a line for each count: its point, its name, how many
    tools/forms.py --list NAME   the places of that count, by crate and function

A count is a search, and not a judgement: it also finds places that are right as they stand. The page names those.
"""
import collections
import glob
import os
import re
import sys
from dataclasses import dataclass

os.chdir(os.path.dirname(os.path.dirname(os.path.abspath(__file__))))

NUMBER = {"u8", "u32", "u64", "usize"}
# words that answer a refusal, or pack one with a value
REFUSAL = re.compile(
    r"(refusals|answers|faults)::[A-Z]|Refusal::|judgement_number|\b(TORN|FOREIGN|WRONG_LENGTH|NONE|CYCLE)\b"
    r"|refusal_in|compile_number|fault_told|frame_answer|delivery_answer"
)
# how a comment or a body tells of a number that means "none"
SENTINEL = re.compile(
    r"return 0;|\n    0\n\}|NONE\b|\b(0|255|256|n|n \+ 1|top|their number|the end|10)\b[^.;:]{0,25}\b(for|where|if|past)\b"
)
KIND_TEST = re.compile(
    r"if [^\n{]*==? ?(tags|functions|signs|layout|operations|tokens|steps|answers)::[A-Z_]+"
    r"|if [^\n{]*(kind|tag|word|operation)[^\n{]* == "
)
NUMBER_MATCH = re.compile(r"match [a-z]\w*(\[\w+\])? \{\n\s*([\w:]+::[A-Z_]+|b'.+'|\d+) =>")
PACKED = re.compile(
    r"[/%*] (layout|answers|tokens|faults|lib_word|Round|round|operations|run_frame)::[A-Z_]+"
    r"|[/%*] (KINDS|NUMBERS?|EVENTS?|MARKS|CELLS?|TURNS|BYTE|ROOM|FUNCTIONS|FIRSTS|COUNT|COMMITS|STEPS|IN_HAND|VALUE)\b"
)
KEYWORDS = {"fn", "pub", "let", "mut", "if", "else", "while", "return", "match", "loop", "as", "bool", "for", "in"}


@dataclass
class Function:
    crate: str
    name: str
    public: bool
    comment: str
    parameters: list
    requires: list
    ensures: list
    answer: str
    body: str
    text: str

    @property
    def place(self):
        return f"{self.crate}::{self.name}"

    @property
    def loops(self):
        return bool(re.search(r"^\s*('\w+: )?(while|for|loop)\b", self.body, re.M))


def closing(text, start, marks):
    """The place behind the bracket that closes the one before `start`."""
    depth = 1
    while depth:
        depth += (text[start] == marks[0]) - (text[start] == marks[1])
        start += 1
    return start


def split_outside(text, mark):
    parts, depth, part = [], 0, ""
    for c in text:
        depth += (c in "([{<") - (c in ")]}>")
        if c == mark and depth == 0:
            parts.append(part)
            part = ""
        else:
            part += c
    return [p.strip() for p in parts + [part] if p.strip()]


def facts(clause):
    """The facts of a clause: the parts between its products."""
    clause = " ".join(clause.split())
    parts = split_outside(clause.replace("→", "\0"), "×") if "→" not in clause else [clause]
    return [p.strip("() ") for p in parts]


def functions_of(path):
    text = open(path, encoding="utf8").read()
    crate = path.split("/")[1]
    for m in re.finditer(r"^( *)(pub )?(const )?(extern \"C\" )?fn (\w+)(<[^>(]*>)?\(", text, re.M):
        at = closing(text, m.end(), "()")
        parameters = split_outside(text[m.end():at - 1], ",")
        answer, clauses = "", {"requires": [], "ensures": []}
        found = re.compile(r"\s*->\s*([^{]*?)(?=\s*(?:requires|ensures|\{))").match(text, at)
        if found:
            answer, at = found[1].strip(), found.end()
        while found := re.compile(r"\s*(requires|ensures)\s*(\w+)?\s*\{").match(text, at):
            at = closing(text, found.end(), "{}")
            clauses[found[1]] += facts(text[found.end():at - 1])
        start = text.index("{", at) + 1
        end = closing(text, start, "{}")
        above = []
        for line in reversed(text[:m.start()].split("\n")[:-1]):
            if not re.match(r"\s*(//|#\[)", line):
                break
            above.insert(0, line.strip())
        yield Function(crate, m[5], bool(m[2]), " ".join(above), parameters, clauses["requires"], clauses["ensures"],
                       answer, text[start:end - 1], text[m.start():end])


def lines_with(pattern, paths):
    return [f"{p}: {line.strip()}" for p in paths for line in open(p, encoding="utf8")
            if re.search(pattern, line) and not line.strip().startswith("//")]


def shape(function):
    """The text with each name by its first place and each number type alike: equal for twins."""
    head = re.split(r"\n\s*(?:requires|ensures)", function.text.partition("\n{\n")[0])[0]
    names, words = {}, []
    for word in re.findall(r"[A-Za-z_][\w:]*|\d\w*|\S", re.sub(r"//.*", "", head + " { " + function.body)):
        if word in NUMBER:
            words.append("T")
        elif word in KEYWORDS or not re.match(r"\w", word):
            words.append(word)
        else:
            words.append(names.setdefault(word, f"v{len(names)}"))
    return " ".join(words)


def twins(functions):
    groups = collections.defaultdict(list)
    for f in functions:
        groups[shape(f)].append(f.place)
    return [", ".join(g) for s, g in groups.items() if len(g) > 1 and len(s.split()) > 22]


def in_three(functions, kind):
    count = collections.Counter(fact for f in functions for fact in set(getattr(f, kind)))
    return [f"{n} {fact}" for fact, n in count.most_common() if n >= 3]


def travelling(functions):
    count = collections.Counter()
    for f in functions:
        p = [x.replace("mut ", "", 1) for x in f.parameters]
        count.update({tuple(p[i:i + n]) for n in range(2, 8) for i in range(len(p) - n + 1)})
    often = {run: n for run, n in count.items() if n >= 3}
    return [f"{n} {', '.join(run)}" for run, n in often.items()
            if not any(n == m and len(o) > len(run) and any(o[i:i + len(run)] == run for i in range(len(o)))
                       for o, m in often.items())]


def counts():
    paths = sorted(glob.glob("crates/*/src/**/*.rt", recursive=True))
    every = [f for p in paths for f in functions_of(p)]
    mine = [f for f in every if f.crate not in ("engine", "engine_c")]  # theirs are the calls for C
    walked = sorted(glob.glob("crates/*/proofs/**/Proof.antt", recursive=True))

    def where(test, of=every):
        return [f.place for f in of if test(f)]

    yield "1", "own-enums", lines_with(r"^\s*(pub )?enum ", paths)
    yield "1", "unpacked", lines_with(r"let [A-Z]\w*::\w+\(.*\) = \w+ else", paths)
    yield "1", "refusal-numbers", where(lambda f: f.answer in NUMBER and REFUSAL.search(f.text), mine)
    yield "1", "sentinels", where(lambda f: f.answer in NUMBER and SENTINEL.search(f.comment + f.text))
    yield "1", "number-constants", lines_with(r"^\s*(pub )?const [A-Z_]+: u(8|32|64) =", paths)
    yield "2", "twin-groups", twins([f for f in every if f.crate != "engine_c"])
    yield "3", "while", lines_with(r"^\s*('\w+: )?while (?!let )", paths)
    yield "3", "loop", lines_with(r"^\s*('\w+: )?loop \{", paths)
    yield "4", "equality-loops", where(lambda f: f.loops and re.search(r"\w+\[[^\]]+\] [!=]= \w+\[", f.body))
    yield "4", "copy-loops", where(lambda f: f.loops and re.search(r"\] = (\w+)\[", f.body))
    yield "4", "bytes-of-words", where(lambda f: re.search(r"/ (THREE_BYTE|HALF|BASE|BYTE)|\* (BASE|BYTE|HALF_BASE|sizes::HIGH)", f.body))
    yield "4", "packed-by-arithmetic", where(lambda f: PACKED.search(f.body))
    yield "4", "bool-by-returns", where(lambda f: f.answer == "bool" and not f.loops and re.search(r"return (true|false);", f.body))
    yield "4", "casts", lines_with(r" as (u8|u16|u32|u64|usize|i64)\b", paths)
    yield "5", "requires-in-three", in_three(every, "requires")
    yield "5", "ensures-in-three", in_three(every, "ensures")
    yield "5", "parameters-in-three", travelling(every)
    yield "6", "counts-beside-buffers", where(lambda f: re.search(r"(order|list|places|names|values|digits): &(mut )?\[[^\]]*\], \w*(count|n|size|top|k): usize", f.text))
    yield "7", "match-on-numbers", where(lambda f: NUMBER_MATCH.search(f.body))
    yield "7", "chains-on-kinds", where(lambda f: KIND_TEST.search(f.body), mine)
    yield "8", "walked-proofs", walked
    yield "8", "lines-of-walked-proofs", [line for p in walked for line in open(p, encoding="utf8")]


def main():
    if sys.argv[1:2] == ["--list"] and len(sys.argv) == 3:
        for _, name, places in counts():
            if name == sys.argv[2]:
                print("\n".join(places))
                return
        sys.exit(f"there is no count {sys.argv[2]}")
    if sys.argv[1:]:
        sys.exit(__doc__)
    for point, name, places in counts():
        print(f"{point} {name:24}{len(places):6}")


if __name__ == "__main__":
    main()
