#!/usr/bin/env python3
"""Brings the repository's own definitions and lemmas to today's spelling: words in snake case, types in camel case.

usage: tools/respell.py [--table FILE]

Run once, right after port.py, at the top of the repository. It collects what specs/ and proofs/ declare, takes plain
underscores for dashes and for capitals inside a word, a capital for a definition that is a type, and writes the new
names wherever the old ones stand: in specs/, proofs/, clauses and comments. Functions of src/, exported C names, strings,
inputs and outputs stay. A lemma that would fall together with a definition gets `_law` behind it. `needs`, which was the
prover's ruleset, is `rules` where a file had it from there. --table writes the renaming, old, a tab, new.
"""
import collections, glob, re, sys

WORD = r"[^\s(){}.;,@\"«»\[\]]+"
MADE = re.compile(r"(invariant|decreases)-|(loop|if\d*|match\d*)-(test|init|preserved|smaller|true|false|branch)")
# `result` is what a clause calls the returned value; the others would fall together with parts of the claim or the library
OWN_WORDS = {"result": "result_of", "writtenOut": "as_written_out", "takenIn": "told_taken_in",
             "bit-and": "bit_of_and", "bit-or": "bit_of_or"}


def read(path):
    with open(path, encoding="utf-8") as f:
        return f.read()


def antt():
    return sorted(glob.glob("crates/*/specs/**/*.antt", recursive=True) + glob.glob("crates/*/proofs/**/*.antt", recursive=True))


def declared():
    """Each declared name with what is known of it: type, field, local."""
    found = collections.defaultdict(set)
    for path in antt():
        text = re.sub(r"--[^\n]*", "", read(path))
        lines = text.split("\n")
        for at, line in enumerate(lines):
            m = re.match(r"( *)((?:(?:pub|abbrev|unfoldable|private|opaque|irreducible) +)*)(%s)((?: \{[^{}]*\})*) +:(?= |$)(.*)" % WORD, line)
            if m and m[3] not in ("let", "module", "record", "data", "use"):
                signature, after = m[5], at + 1
                while after < len(lines) and lines[after].startswith(m[1] + "    "):
                    signature += " " + lines[after].strip()
                    after += 1
                kind = "definition" if ("abbrev" in m[2] or "unfoldable" in m[2]) else "other"
                found[m[3]].add("type" if re.search(r"(^|→|:) *Type( \d)?\s*$", signature.strip()) and kind == "definition" else kind)
        for m in re.finditer(r"\b(?:record|data) +(?:pub +)?(%s)" % WORD, text):
            found[m[1]].add("type")
        for m in re.finditer(r"\bruleset +(%s)" % WORD, text):
            found[m[1]].add("other")
        for m in re.finditer(r"\blet +(%s) *[:=]" % WORD, text):
            found[m[1]].add("local")
        for m in re.finditer(r"[({]((?:%s )+): " % WORD, text):
            for name in m[1].split():
                found[name].add("local")
        for m in re.finditer(r"λ ((?:%s )*%s)\." % (WORD, WORD), text):
            for name in m[1].split():
                found[name].add("local")
    return found


def snake(name):
    name = name.replace("-", "_")
    name = re.sub(r"(?<=[a-z0-9])([A-Z]+)(?=[A-Z][a-z])", lambda m: "_" + m[1].lower() + "_", name)
    return re.sub(r"([a-z0-9])([A-Z]+)", lambda m: m[1] + "_" + m[2].lower(), name)


def respelled(name, kinds):
    name = name.replace("′", "'")
    if name in OWN_WORDS:
        return OWN_WORDS[name]
    if "type" in kinds:
        parts = re.split(r"[-_]", name)
        return "".join(p[:1].upper() + p[1:] for p in parts) if name[0].islower() else name
    if name[0].isupper():
        return name.replace("-", "_") if "-" in name else name
    return snake(name)


def of_the_kit():
    """What files import from the toolchain's libraries: such a name stays, also where a file declares one like it."""
    found = set()
    for path in antt():
        for m in re.finditer(r"(?m)^(?:pub |unfoldable )*use ([^\s{]+)\.\{([^}]*)\}", read(path)):
            if not m[1].startswith("Rattle.") or re.match(r"Rattle\.(std|bytes|io|core)\b", m[1]):
                for name in m[2].split(","):
                    found.update(name.strip().split(" as "))
    return found


def table():
    found = declared()
    kit = of_the_kit()
    new = {}
    for name, kinds in found.items():
        plain = re.fullmatch(r"\+?[A-Za-z][A-Za-z0-9_'′μℕℤ₀-₉-]*", name)
        if not plain or len(name) == 1 or name in ("row", "stands") or name in kit or MADE.match(name) or name.endswith("-lts") or name.endswith("-reads"):
            continue
        to = respelled(name, kinds)
        if to != name:
            new[name] = to
    taken = collections.defaultdict(list)
    for name in found:
        taken[new.get(name, name)].append(name)
    for to, names in sorted(taken.items()):
        if len(names) > 1:
            for name in names:
                if "-" in name:  # the lemma yields to the definition
                    new[name] = to + "_law"
                    if sum(1 for n in names if "-" in n) > 1:
                        print("look: fall together still:", to, names)
    return new


def functions():
    found = set()
    for path in glob.glob("crates/*/src/**/*.rt", recursive=True):
        found |= set(re.findall(r"\bfn (\w+)", read(path)))
    return found


def part(new):
    """A lemma that is spelled as a definition will be, in a crate with a file that has both, gets `_law` behind it."""
    of_rust = functions()
    by_new = collections.defaultdict(list)
    for old, to in new.items():
        if "-" not in old and old != to:
            by_new[to].append(old)
    texts = {path: re.sub(r"--[^\n]*", "", read(path)) for path in antt()}
    edge = r"[\w'′-]"
    for to, olds in sorted(by_new.items()):
        declares = re.compile(r"(?m)^ *(?:(?:pub|abbrev|unfoldable) +)*%s(?: \{[^{}]*\})* :" % re.escape(to))
        for crate in sorted({p.split("/")[1] for p, t in texts.items() if declares.search(t)}):
            own = [p for p in texts if p.split("/")[1] == crate]
            if not any(re.search(r"(?<!%s)%s(?!%s)" % (edge, re.escape(o), edge), texts[p]) and
                       re.search(r"(?<!%s)%s(?!%s)" % (edge, re.escape(to), edge), texts[p]) for p in own for o in olds):
                continue
            before = r"(?<!%s)" % edge + (r"(?<!\.)" if to in of_rust else "")
            name = re.compile(before + r"%s(?!%s)(?!\.[A-Z{])" % (re.escape(to), edge))
            for p in own:
                text = read(p)
                now = "\n".join(l if re.match(r"use \S+\.proofs\.%s\." % re.escape(to), l) else name.sub(to + "_law", l) for l in text.split("\n"))
                if now != text:
                    print(f"look: {to} is {to}_law in {p}")
                    with open(p, "w", encoding="utf-8") as f:
                        f.write(now)


def turned(text, new, is_rattle):
    token = re.compile(r"--[^\n]*|//[^\n]*|" + WORD) if not is_rattle else re.compile(r"//[^\n]*|\"(?:[^\"\\]|\\.)*\"|[A-Za-z_][\w']*")

    def comment(m):
        return re.sub(r"[A-Za-z][\w'′-]*", lambda w: new.get(w[0], w[0]) if re.search(r"[a-z][A-Z]", w[0]) or (
            "-" in w[0] and m[0][max(0, w.start() - 1)] == "`") else w[0], m[0])

    def one(m):
        if m[0].startswith(("--", "//")):
            return comment(m)
        if m[0].startswith('"'):
            return m[0]
        return new.get(m[0], m[0])

    return token.sub(one, text)


def main():
    for path in antt():
        text = read(path)
        if re.search(r"(Prelude|Author\.Rules)\.\{[^}]*\bneeds\b", text):
            with open(path, "w", encoding="utf-8") as f:
                f.write(re.sub(r"(?<![\w.-])needs(?![\w-])(?! :)", "rules", text))
    new = table()
    if "--table" in sys.argv:
        with open(sys.argv[sys.argv.index("--table") + 1], "w", encoding="utf-8") as f:
            f.writelines(f"{a}\t{b}\n" for a, b in sorted(new.items()))
    part(new)
    for path in antt():
        text = read(path)
        now = turned(text, new, False)
        if now != text:
            with open(path, "w", encoding="utf-8") as f:
                f.write(now)
    in_clauses = {a: b for a, b in new.items() if re.search(r"[a-z][A-Z]", a)}
    for path in sorted(glob.glob("crates/*/src/**/*.rt", recursive=True)):
        text = read(path)
        now = turned(text, in_clauses, True)
        if now != text:
            with open(path, "w", encoding="utf-8") as f:
                f.write(now)
    print(f"{len(new)} names respelled")


main()
