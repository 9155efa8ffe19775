#!/usr/bin/env python3
"""module.py PROVED COMPILED CALL...: whether a module of LLVM that ./release compiles is the one that rattle lowered,
both as text. They may differ in the names of the exported calls, which have the prefix engine_ in the second, in what
is said of the processor, and in attributes that say how a function is compiled and nothing of what it does. The second
may have .. for every :: in a name. Where its file is named for WebAssembly, it must be the first as tools/narrow.py
writes it for addresses of 32 bits. The first other difference is printed, and the program ends with 1.

module.py --planted PROVED COMPILED CALL... changes the second in many ways, one at a time: each change but those that
are allowed must be found. So are changes of what is written for addresses of 32 bits, and what cannot be written for
them must be refused; these are made in the second with a function added (WHOLE), since it may have none of it.
"""
import os
import re
import sys

sys.path.insert(0, os.path.join(os.path.dirname(os.path.abspath(__file__)), "..", "..", "tools"))
from narrow import Refused, narrowed

PREFIX = "engine_"

# Attributes that may differ: whether a function is inlined, for which processor, whether stacks can be unwound.
HOW = re.compile(r'(alwaysinline|inlinehint|noinline|uwtable(\(\w+\))?|"(target-cpu|tune-cpu)"="[^"]*")$')
ATTRIBUTE = re.compile(r'"[^"]*"(?:="[^"]*")?|\w+(?:\([^()]*(?:\([^()]*\)[^()]*)*\))?(?:=\w+)?')
GROUP = re.compile(r"attributes (#\d+) = \{(.*)\}$")
PLACED = re.compile(r'"[^"]*"|#\d+\b')
PROCESSOR = re.compile(r"(target (datalayout|triple)|source_filename) = ")


def lines_of(text):
    """The lines without comments and what is said of the processor, attributes in the place of their numbers."""
    lines, groups = [], {}
    for line in text.splitlines():
        group = GROUP.match(line)
        if group:
            said = sorted(a for a in ATTRIBUTE.findall(group[2]) if not HOW.match(a))
            groups[group[1]] = "{" + " ".join(said) + "}" if said else ""
        elif line and not line.startswith(";") and not PROCESSOR.match(line):
            lines.append(re.sub(r" *; preds = .*$", "", line))
    place = lambda found: groups.get(found[0], found[0])
    return [PLACED.sub(place, line).rstrip().replace("  {", " {") for line in lines]


def renamed(text, calls):
    """The exported calls by the names that they have in the archives."""
    return re.sub(r"@(" + "|".join(calls) + r")\b(?![.$])", "@" + PREFIX + r"\1", text)


def difference(proved, compiled, calls):
    """The first line that is not the same, in words; None where there is none."""
    proved = proved if "::" in compiled else proved.replace("::", "..")
    ours, theirs = lines_of(renamed(proved, calls)), lines_of(compiled)
    for k, (a, b) in enumerate(zip(ours, theirs)):
        if a != b:
            return f"line {k + 1} of what counts:\n  proved:   {a}\n  compiled: {b}"
    return None if len(ours) == len(theirs) else f"{len(ours)} lines are proved, {len(theirs)} compiled"


# ---- changes that are planted


def changed(pattern, into, nth=1):
    """The text with the n-th match of a pattern replaced."""
    def change(text):
        for k, found in enumerate(re.finditer(pattern, text, re.M), 1):
            if k == nth and found.expand(into) != found[0]:
                return text[: found.start()] + found.expand(into) + text[found.end() :]
        raise SystemExit(f"module.py: nothing to change: {pattern}")

    return change


HARM = [
    ("a constant operand", changed(r"( = add [^%\n]*%\S+, )1$", r"\g<1>2")),
    ("a later constant operand", changed(r"( = icmp [^%\n]*%\S+, )\d+$", r"\g<1>77", 100)),
    ("an operand that is a value", changed(r"( = (?:add|sub|or|and|xor) [^%\n]*)%\S+, (%\S+)$", r"\1\2, \2", 20)),
    ("a predicate", changed(r" = icmp ult ", " = icmp ule ", 100)),
    ("an operation", changed(r" = sub ", " = add ", 10)),
    ("a store left out", changed(r"^ +store .*\n", "", 50)),
    ("another function called", changed(r'(call [^@\n]*@)"[^"\n]+"\(', r'\1"std::num::wrapping_add_u32"(', 30)),
    ("a branch turned round", changed(r"br i1 (%\S+), label (%\S+), label (%\S+)", r"br i1 \1, label \3, label \2", 9)),
    ("a call under another's name", changed(r"@engine_step\(", "@engine_told(")),
    ("a function that is said to read nothing", changed(r"^(attributes #0 = \{)", r"\1 memory(none)")),
    ("a function left out", changed(r"^define internal [^}]*?^\}\n", "", 5)),
]
ALLOWED = [
    ("stacks that can be unwound", changed(r"^(attributes #0 = \{)", r"\1 uwtable")),
    ("a function that is always inlined", changed(r"^(attributes #0 = \{)", r"\1 alwaysinline")),
    ("another processor", changed(r"\A", 'target triple = "wasm32-unknown-unknown"\n')),
]

# What lies otherwise where an address has 32 bits, and as it must be written there.
WHOLE = """\
@table = private constant <{ ptr, [8 x i8] }> <{ ptr @table, [8 x i8] c"\\01,}\\00\\00\\00\\00\\00" }>, align 8

define internal { i8, ptr } @"whole::answer"(ptr noundef %a0, { { ptr, i16 }, [2 x ptr] } %a1) {
start:
  %r0 = alloca ptr, align 8
  %r1 = alloca [32 x i8], align 16
  store { { ptr, i16 }, [2 x ptr] } %a1, ptr %r1, align 16
  %r2 = load { ptr, i64 }, ptr @table, align 8
  %r3 = ptrtoaddr ptr %a0 to i64
  %r4 = load { i8, ptr }, ptr %a0, align 4
  %r5 = getelementptr inbounds nuw i8, ptr %a0, i64 16
  %r6 = load <{ i8, ptr }>, ptr %r5, align 2
  ret { i8, ptr } %r4
}
"""
WRITTEN = """\
@table = private constant <{ ptr, [4 x i8], [8 x i8] }> <{ ptr @table, [4 x i8] zeroinitializer, \
[8 x i8] c"\\01,}\\00\\00\\00\\00\\00" }>, align 8

define internal { i8, ptr } @"whole::answer"(ptr noundef %a0, { { ptr, i16 }, [2 x ptr] } %a1) {
start:
  %r0 = alloca [8 x i8], align 8
  %r1 = alloca [32 x i8], align 16
  %whole1.field0 = extractvalue { { ptr, i16 }, [2 x ptr] } %a1, 0, 0
  store ptr %whole1.field0, ptr %r1, align 16
  %whole1.field1 = extractvalue { { ptr, i16 }, [2 x ptr] } %a1, 0, 1
  %whole1.at1 = getelementptr i8, ptr %r1, i64 8
  store i16 %whole1.field1, ptr %whole1.at1, align 8
  %whole1.field2 = extractvalue { { ptr, i16 }, [2 x ptr] } %a1, 1, 0
  %whole1.at2 = getelementptr i8, ptr %r1, i64 16
  store ptr %whole1.field2, ptr %whole1.at2, align 16
  %whole1.field3 = extractvalue { { ptr, i16 }, [2 x ptr] } %a1, 1, 1
  %whole1.at3 = getelementptr i8, ptr %r1, i64 24
  store ptr %whole1.field3, ptr %whole1.at3, align 8
  %r2 = load { ptr, i64 }, ptr @table, align 8
  %r3 = ptrtoint ptr %a0 to i64
  %whole2.field0 = load i8, ptr %a0, align 4
  %whole2.with0 = insertvalue { i8, ptr } poison, i8 %whole2.field0, 0
  %whole2.at1 = getelementptr i8, ptr %a0, i64 8
  %whole2.field1 = load ptr, ptr %whole2.at1, align 4
  %r4 = insertvalue { i8, ptr } %whole2.with0, ptr %whole2.field1, 1
  %r5 = getelementptr inbounds nuw i8, ptr %a0, i64 16
  %whole3.field0 = load i8, ptr %r5, align 2
  %whole3.with0 = insertvalue <{ i8, ptr }> poison, i8 %whole3.field0, 0
  %whole3.at1 = getelementptr i8, ptr %r5, i64 1
  %whole3.field1 = load ptr, ptr %whole3.at1, align 1
  %r6 = insertvalue <{ i8, ptr }> %whole3.with0, ptr %whole3.field1, 1
  ret { i8, ptr } %r4
}
"""
OF_A_LOAD = r"^(  %whole\d+\.field1 = load ptr, ptr )%whole\d+\.at1(, align \d+)$"
NARROW_HARM = [
    ("the pointer loaded from byte 4", changed(r"^(  %whole\d+\.at1 = getelementptr i8, ptr \S+, i64) 8$", r"\1 4")),
    ("the pointer loaded from the tag's place", changed(OF_A_LOAD, r"\1%a0\2")),
    ("the tag's load left out", changed(r"^  %whole\d+\.field0 = load .*\n", "")),
    ("the tag of the other width", changed(r"^(  %whole\d+\.field0 = load) i8,", r"\1 i16,")),
    (
        "two insertvalues swapped",
        changed(r"^(  %whole\d+\.with0 = .*\n)((?:  .*\n)+?)(  %\S+ = insertvalue .*\n)", r"\3\2\1"),
    ),
    ("the pointer put in the tag's place", changed(r"^(  %\S+ = insertvalue .* ptr %whole\d+\.field1), 1$", r"\1, 0")),
    ("a field of a store left out", changed(r"^  store \S+ %whole\d+\.field\d+, .*\n", "")),
    ("another field stored", changed(r"^(  %whole\d+\.field\d+ = extractvalue .*), 1$", r"\1, 0")),
    ("less room for a pointer", changed(r" = alloca \[8 x i8\], ", " = alloca ptr, ")),
    (
        "no bytes behind a constant's pointer",
        changed(r"(<\{ ptr), \[4 x i8\](.*?), \[4 x i8\] zeroinitializer", r"\1\2"),
    ),
    ("ptrtoaddr", changed(r" = ptrtoint ptr ", " = ptrtoaddr ptr ")),
]
# Each of these lines must be refused.
REFUSED = [
    "  %r1 = getelementptr { i8, ptr }, ptr %r0, i64 0, i32 1",
    "  %r1 = getelementptr inbounds nuw ptr, ptr %r0, i64 1",
    "  %r1 = alloca { i8, ptr }, i64 2, align 8",
    "  %r1 = alloca ptr, i64 2, align 8",
    "  %r1 = load volatile { i8, ptr }, ptr %r0, align 8",
    "  %r1 = load { i8, ptr }, ptr %r0, align 8, !noundef !1",
    "  %r1 = load { ptr, <2 x i32> }, ptr %r0, align 8",
    "  %r1 = load <2 x ptr>, ptr %r0, align 16",
    "  store [2 x ptr] %r0, ptr getelementptr (i8, ptr @table, i64 8), align 8",
    "  store i64 ptrtoint (ptr getelementptr ({ i8, ptr }, ptr null, i32 1) to i64), ptr %r0, align 8",
    "  %r1 = va_arg ptr %r0, { i8, ptr }",
    "  call void @f(ptr sret({ ptr, i8 }) align 8 %r0)",
    "define void @f(ptr noundef byval([3 x ptr]) align 8 %a0) {",
    "  %r1 = add i64 ptrtoaddr (ptr @table to i64), 1",
    "  %whole1 = add i64 %r0, 1",
    "  %r1 = load ptr addrspace(1), ptr %r0, align 8",
    '  %r1 = load target("kind", ptr), ptr %r0, align 8',
    "%named = type { i8, i64 }",
    "@other = global ptr @table, align 8",
    "@other = constant { i8, ptr } { i8 1, ptr @table }, align 8",
    "@other = constant <{ i8, [1 x ptr] }> <{ i8 1, [1 x ptr] [ptr @table] }>, align 8",
    '@other = constant <{ ptr }> <{ ptr @table }>, section "a", align 8',
]


def is_refused(text):
    try:
        narrowed(text)
    except Refused:
        return True
    return False


def find_each(changes, proved, compiled, calls):
    for what, change in changes:
        if difference(proved, change(compiled), calls) is None:
            raise SystemExit(f"module.py: a planted change was not found: {what}")


def take_each(changes, proved, compiled, calls):
    for what, change in changes:
        found = difference(proved, change(compiled), calls)
        if found:
            raise SystemExit(f"module.py: {what} is turned down: {found}")


def planted_narrow(proved, compiled, calls):
    """How the rule writes a function, what it refuses, and changes of what it wrote."""
    if narrowed(WHOLE) != WRITTEN:
        raise SystemExit(f"module.py: it is written otherwise:\n{narrowed(WHOLE)}")
    for line in REFUSED:
        if not is_refused(line):
            raise SystemExit(f"module.py: this was not refused: {line}")
    wide, ours, theirs = proved + WHOLE, narrowed(proved + WHOLE), narrowed(compiled + WHOLE)
    take_each([("a module for WebAssembly", lambda text: text)], ours, theirs, calls)
    find_each(NARROW_HARM, ours, theirs, calls)
    find_each([("a module for WebAssembly elsewhere", lambda text: text)], wide, theirs, calls)
    find_each([("another module for WebAssembly", lambda text: text)], ours, compiled + WHOLE, calls)


def planted(proved, compiled, calls):
    find_each(HARM, proved, compiled, calls)
    take_each(ALLOWED, proved, compiled, calls)
    planted_narrow(proved, compiled, calls)
    return f"each of {len(HARM) + len(NARROW_HARM) + 2} planted changes was found, {len(REFUSED)} lines were refused"


def main():
    words = sys.argv[1:]
    harm = words[:1] == ["--planted"]
    proved, compiled = (open(path, encoding="utf8").read() for path in words[harm : harm + 2])
    calls = words[harm + 2 :]
    if os.path.basename(words[harm + 1]).startswith("wasm"):
        if harm:
            raise SystemExit("module.py: changes are planted in a module for addresses of 64 bits")
        proved = narrowed(proved)
    found = difference(proved, compiled, calls)
    if found:
        raise SystemExit(f"{words[harm + 1]} is not the module that was proved: {found}")
    print(planted(proved, compiled, calls) if harm else "the module that is compiled is the one that was proved")


if __name__ == "__main__":
    main()
