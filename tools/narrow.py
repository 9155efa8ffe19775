#!/usr/bin/env python3
"""narrow.py MODULE: a module of LLVM, as text, that rattle lowered for addresses of 64 bits, written so that it means
the same where they have 32, as in WebAssembly.

The module lays out memory by itself: a field is reached by a number of bytes, and what is set aside and copied are
bytes. But the layout of a type clang takes from the target: with addresses of 32 bits { i8, ptr } has its pointer at
byte 4, where the module put it at byte 8. So what asks clang for the layout of a type that would differ is written in
another way:

    a load or a store of a whole struct or array    its fields one by one, each at its byte of the 64-bit layout
    room for a pointer on the stack                 as many bytes as a pointer has there, since so many are copied
    a constant with pointers between its bytes      behind each pointer the bytes that it lacks
    ptrtoaddr                                       ptrtoint, which is the same number: clang compiles ptrtoaddr for the
                                                    target's own width alone

What is handed on as a value, an argument or an answer, lies in no memory of the module's and stays. Whatever else would
take the layout of such a type ends the program with 1, and nothing is written.
"""
import itertools
import re
import sys

OURS, THEIRS = 8, 4  # bytes of a pointer: where the module was lowered for, and where it is compiled for
SIZES = {"i1": 1, "i8": 1, "i16": 2, "i32": 4, "i64": 8, "i128": 16, "float": 4, "double": 8}


class Refused(Exception):
    """The module has what cannot be told to mean the same."""


# ---- types: a scalar is its name, any other whether it is packed, its parts, and how many times they follow each other

SCALAR = re.compile(
    r"(?:i\d+|ptr|half|bfloat|float|double|fp128|x86_fp80|ppc_fp128|x86_amx|void|label|metadata|token)\b"
)
VECTOR = re.compile(r"<(?:vscale x )?\d+ x [^<>]*>")
ARRAY = re.compile(r"\[(\d+) x ")


def type_at(text, at):
    """The type that begins at a place of the text, and where it ends; None where none does, as at a constant."""
    scalar = SCALAR.match(text, at) or VECTOR.match(text, at)
    if scalar:
        return scalar[0], scalar.end()
    array = ARRAY.match(text, at)
    part = array and type_at(text, array.end())
    if part and text.startswith("]", part[1]):
        return (False, (part[0],), int(array[1])), part[1] + 1
    for opening, closing in (("<{", "}>"), ("{", "}")):
        if text.startswith(opening, at):
            return struct_at(text, at + len(opening), closing)
    return None


def struct_at(text, at, closing):
    """The struct whose fields begin at a place of the text."""
    parts = []
    if text.startswith(closing, at):
        return (closing == "}>", (), 1), at + len(closing)
    while text.startswith("," if parts else " ", at):
        part = type_at(text, at + (2 if parts else 1))
        if not part:
            return None
        parts.append(part[0])
        at = part[1]
    end = " " + closing
    return ((closing == "}>", tuple(parts), 1), at + len(end)) if text.startswith(end, at) else None


def whole_type(text):
    """The type that a text is, from its first letter to its last."""
    found = type_at(text, 0)
    return found[0] if found and found[1] == len(text) else None


def layout(kind, pointer):
    """A type's size, its alignment, and its scalars: of each the way to it, its type and its byte."""
    if isinstance(kind, str):
        size = pointer if kind == "ptr" else SIZES.get(kind)
        if size is None:
            raise Refused(f"the layout of {kind} is not known")
        return size, size, [((), kind, 0)]
    packed, parts, times = kind
    at, widest, fields = 0, 1, []
    for k, part in enumerate(parts * times):
        size, align, inner = layout(part, pointer)
        if not packed:
            at, widest = -(-at // align) * align, max(widest, align)
        fields += [((k, *way), scalar, at + byte) for way, scalar, byte in inner]
        at += size
    return -(-at // widest) * widest, widest, fields


def has_pointer(kind):
    return kind == "ptr" if isinstance(kind, str) else any(map(has_pointer, kind[1]))


def differs(kind):
    """Whether clang would lay the type out in another way than the module does."""
    return has_pointer(kind) and layout(kind, OURS) != layout(kind, THEIRS)


# ---- what is rewritten

PLACE = r'([%@](?:[\w.$-]+|"[^"]*"))'
WHOLE_LOAD = re.compile(rf"  {PLACE} = load (.*), ptr {PLACE}, align (\d+)$")
WHOLE_STORE = re.compile(rf"  store (.*), ptr {PLACE}, align (\d+)$")
ROOM = re.compile(rf"  {PLACE} = alloca (.*), align (\d+)$")
NUMBER_OF = re.compile(rf"(  {PLACE} = )ptrtoaddr( ptr )")
GLOBAL = re.compile(rf'{PLACE} = [^"]*?\b(?:global|constant) ')
OWN = "%whole"  # the names of values that are added begin so


def scalars_of(kind, address, align, name):
    """Of each scalar in a type: lines for its address, the way to it, its type, a name for it, and its place."""
    fields = layout(kind, OURS)[2]
    if not fields:
        raise Refused("a struct or an array without fields")
    for k, (way, scalar, byte) in enumerate(fields):
        place, lines = address, []
        if byte:
            place = f"{name}.at{k}"
            lines = [f"  {place} = getelementptr i8, ptr {address}, i64 {byte}"]
        sure = min(align, byte & -byte) if byte else align
        yield lines, ", ".join(map(str, way)), scalar, f"{name}.field{k}", f"ptr {place}, align {sure}"


def load_by_fields(result, said, address, align, name):
    lines, whole = [], "poison"
    for k, (to_it, way, scalar, field, place) in enumerate(scalars_of(whole_type(said), address, align, name)):
        lines += [*to_it, f"  {field} = load {scalar}, {place}"]
        lines += [f"  {name}.with{k} = insertvalue {said} {whole}, {scalar} {field}, {way}"]
        whole = f"{name}.with{k}"
    return [*lines[:-1], lines[-1].replace(whole, result, 1)]


def store_by_fields(said, value, address, align, name):
    lines = []
    for to_it, way, scalar, field, place in scalars_of(whole_type(said), address, align, name):
        lines += [f"  {field} = extractvalue {said} {value}, {way}", *to_it, f"  store {scalar} {field}, {place}"]
    return lines


def split(text):
    """The parts between the commas of a text that stand in no bracket and no string."""
    parts, depth = [""], 0
    for word in re.findall(r'"[^"]*"|.', text):
        depth += (word in "([{<") - (word in ")]}>")
        if word == "," and not depth:
            parts.append("")
        else:
            parts[-1] += word
    return [part.strip() for part in parts]


def constant_with_gaps(begin, said, value):
    """A packed constant in which each pointer is followed by the bytes that it lacks."""
    types = split(said[2:-2])
    parts = split(value[2:-2])
    if not (said.startswith("<{ ") and value.startswith("<{ ") and value.endswith(" }>") and len(types) == len(parts)):
        raise Refused("a constant with a pointer in it that is no packed struct, field by field")
    gap = f"[{OURS - THEIRS} x i8]"
    for k, kind in enumerate(types):
        if not parts[k].startswith(kind + " ") or (kind != "ptr" and has_pointer(whole_type(kind))):
            raise Refused("a constant with pointers deeper in it")
        if kind == "ptr":
            types[k], parts[k] = f"ptr, {gap}", f"{parts[k]}, {gap} zeroinitializer"
    return f"{begin}<{{ {', '.join(types)} }}> <{{ {', '.join(parts)} }}>"


def global_line(line):
    """A global, which stays unless clang would lay it out in another way."""
    found = GLOBAL.match(line)
    kind = found and type_at(line, found.end())
    if not kind:
        raise Refused("a global that is no constant and no variable, or whose type is not known")
    if not differs(kind[0]):
        return line
    value = re.fullmatch(r"(.*)(, align \d+)", line[kind[1] :].strip())
    if not value:
        raise Refused("a global with a pointer in it, of which more is said")
    return constant_with_gaps(found[0], line[found.end() : kind[1]], value[1]) + value[2]


def rewritten(line, names):
    """The lines in the place of one line: itself, where clang's layout of what it names is the module's own."""
    if line.startswith("@"):
        return [global_line(line)]
    found = WHOLE_LOAD.match(line)
    if found and found[2] != "ptr" and (kind := whole_type(found[2])) and differs(kind):
        return load_by_fields(found[1], found[2], found[3], int(found[4]), next(names))
    found = WHOLE_STORE.match(line)
    kind = found and type_at(found[1], 0)
    if kind and kind[0] != "ptr" and differs(kind[0]):
        said, value = found[1][: kind[1]], found[1][kind[1] + 1 :]
        return store_by_fields(said, value, found[2], int(found[3]), next(names))
    found = ROOM.match(line)
    if found and (kind := whole_type(found[2])) and differs(kind):
        return [f"  {found[1]} = alloca [{layout(kind, OURS)[0]} x i8], align {found[3]}"]
    return [NUMBER_OF.sub(r"\1ptrtoint\3", line, count=1)]


# ---- what is refused: it would take clang's layout of a type that differs, or cannot be told

# These hand on a value as it is; no other line of a function may name a type whose layout differs.
VALUES = {"define", "declare", "call", "invoke", "ret", "phi", "select", "freeze", "extractvalue", "insertvalue"}
QUOTED = re.compile(r'"[^"]*"')
WORD = re.compile(r"\s*(?:%\S+ = )?(?:(?:tail|musttail|notail) )?(\S+)")
BRACKET = re.compile(r"<?\{|\[(?=\d+ x )")
# Behind each of these stands a type of which the line takes the size, or the places of its fields.
MEASURED = re.compile(
    r"\bgetelementptr\b(?: inbounds| nuw| nusw| inrange\([^)]*\))* \(?|(?<== )alloca "
    r"|\b(?:sret|byval|byref|inalloca|preallocated|elementtype)\("
)
UNKNOWN = re.compile(r'^%\S* = type\b|\baddrspace\(|\btarget\(""|\bptrtoaddr\b|<(?:vscale x )?\d+ x ptr\b')


def refuse(line):
    """Ends where a line, as it is written, takes a layout that differs."""
    plain = QUOTED.sub('""', line)
    unknown = UNKNOWN.search(plain)
    if unknown:
        raise Refused(f"what this is with addresses of 32 bits is not known: {unknown[0]}")
    for found in MEASURED.finditer(plain):
        kind = type_at(plain, found.end())
        if not kind:
            raise Refused(f"the type is not known behind: {found[0]}")
        if differs(kind[0]):
            raise Refused(f"the layout of {plain[found.end() : kind[1]]} is taken")
    if plain.startswith("@") or WORD.match(plain)[1] in VALUES:
        return
    at = 0
    while found := BRACKET.search(plain, at):
        kind = type_at(plain, found.start())
        if kind and differs(kind[0]):
            raise Refused(f"the layout of {plain[found.start() : kind[1]]} is taken")
        at = kind[1] if kind else found.end()  # what lies within a type that does not differ is at its place


NO_CODE = ("!", ";", "attributes #", "source_filename", "target ")


def narrowed(text):
    """The text of the module for addresses of 32 bits; Refused where that cannot be written."""
    names = (f"{OWN}{k}" for k in itertools.count(1))
    lines = []
    for number, line in enumerate(text.split("\n"), 1):
        if not line.strip() or line.startswith(NO_CODE):
            lines.append(line)
            continue
        try:
            if OWN in line:
                raise Refused(f"a name begins with {OWN}")
            in_place = rewritten(line, names)
            for one in in_place:
                refuse(one)
        except Refused as why:
            raise Refused(f"line {number}: {why}\n{line}") from None
        lines += in_place
    return "\n".join(lines)


def main():
    if len(sys.argv) != 2:
        return __doc__
    with open(sys.argv[1], encoding="utf8") as file:
        text = file.read()
    try:
        sys.stdout.write(narrowed(text))
    except Refused as why:
        return f"narrow.py: the module cannot be written for addresses of 32 bits: {why}"
    return None


if __name__ == "__main__":
    sys.exit(main())
