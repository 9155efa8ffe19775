#!/usr/bin/env python3
"""seeds.py SETTER FOLDER: writes the fuzz target's corpus from the examples, with the program setter: an input for each
sheet and script that a transcript plays, its sends, steps and readings as calls; and a few by hand, for what no example
has. tests/fuzz/fuzz.h has the format. The same examples give the same bytes."""
import pathlib
import re
import struct
import subprocess
import sys
import tempfile

EXAMPLES = pathlib.Path(__file__).resolve().parent.parent.parent / "examples"
# The kinds of calls, as in tests/fuzz/rounds.c.
ARRIVE, STEP, FRAME, DELIVER, BOARD, PREVIEW, FORECAST, MEND, REPLAY, SHORT, DAMAGE, BURST = range(12)
RUN = [(FRAME, 250, 4, 127), (FRAME, 250, 4, 127)]
PLAYED = re.compile(r"^\$ setter play (\S+) (\S+)", re.M)


def built(setter, sheet):
    """The bytes of a sheet's text."""
    with tempfile.TemporaryDirectory() as room:
        out = pathlib.Path(room) / "sheet"
        subprocess.run([setter, "build", sheet, out], check=True, capture_output=True)
        return out.read_bytes()


def names_of(text):
    """Events, behaviours and parameter values, each in their order; a row's cells are so many behaviours."""
    events = re.findall(r"^event +(\w+)", text, re.M)
    behaviours = []
    for kind, name, count in re.findall(r"^(active|passive|row) +(\w+)(?:\[(\d+)\])?", text, re.M):
        behaviours += [name] + [None] * (int(count or 1) - 1)
    return events, behaviours, [int(n) for n in re.findall(r"^param +\w+ *= *(-?\d+)", text, re.M)]


def number(names, word):
    """A name's number; a cell's where one is named."""
    name, _, cell = word.partition("[")
    return names.index(name) + int(cell[:-1] or 0) if name in names else 0


def player(words, before):
    """Who is named behind `from` or `by`, the host where nobody is, and the words without."""
    if before not in words:
        return 0, words
    at = words.index(before)
    return int(words[at + 1]), words[:at] + words[at + 2 :]


def calls_of(command, events, behaviours):
    """One line of a script as calls."""
    words = command.split()
    if words[0] == "repeat":
        each = [calls_of(part, events, behaviours) for part in command.split(None, 2)[2].split(",")]
        return int(words[1]) * [call for part in each for call in part]
    who, rest = player(words[1:], "from" if words[0] == "send" else "by")
    if words[0] == "send":
        kinds = [(ARRIVE, ARRIVE, DELIVER)[k % 3] for k in range(len(rest))]
        sender = 0 if who else 1
        return [(k, number(events, e), who if k == ARRIVE else 8, sender) for k, e in zip(kinds, rest)]
    if words[0] == "board":
        return [(BOARD, number(behaviours, b), who, 0) for b in rest or behaviours[:1]]
    if words[0] == "preview":
        return [(PREVIEW, number(events, rest[0]), 4 * who, number(behaviours, rest[1]))]
    steps = [(STEP, 0, 0, 0), (FRAME, int(rest[0]), 0, 64)] if words[0] == "steps" else []
    return {"run": RUN, "mend": [(MEND, 1, 0, 0)], "forecast": [(FORECAST, 0, 0, 0)], "steps": steps}.get(words[0], [])


def part(data):
    return struct.pack(">H", len(data)) + data


def written(sheet, other, params, text, calls):
    values = b"".join(struct.pack(">i", n) for n in (params + 8 * [7])[:8])
    return b"".join(map(part, (sheet, other, values, text))) + b"".join(bytes(call) for call in calls)


def played(setter, sheet, script):
    """The input of a sheet and a script; the sheet that it changes to, or the sheet itself, is the other one."""
    text = (EXAMPLES / sheet).read_text()
    lines = [line.split("#")[0].strip() for line in (EXAMPLES / script).read_text().splitlines()]
    events, behaviours, params = names_of(text)
    calls = [call for line in lines if line for call in calls_of(line, events, behaviours)]
    mended = [line.split()[1] for line in lines if line.startswith("mend ")] or [sheet]
    end = [(REPLAY, 20, 0, 0), (SHORT, 1, 0, 0), (DAMAGE, 0, 4, 1), (BURST, 0, 1, 70), (DELIVER, 0, 8, 1)]
    sheets = [built(setter, EXAMPLES / name) for name in (sheet, mended[0])]
    return written(*sheets, params, re.sub(r" *#.*", "", text).encode(), calls + end)


def field(tag, *value):
    data = b"".join(value)
    return bytes([tag]) + part(data)


def by_hand():
    """What no example has: circles, formulas as texts, and a change to a sheet that lacks the event in hand."""
    name = lambda b: field(0x11, bytes([b]))
    circle = field(2, name(1)) + field(2, name(2)) + field(2, name(0))
    own = field(1, b"\1") + field(3, field(4, bytes(4)), field(5, b"\0\0", name(1))) + field(2, name(0))
    yield "circle", written(circle, own, [], b"b0 + b1 * 2", [])
    yield "formula", written(b"", circle, [], b"if(b0 < p1 && !b2, (b0 - 1) / 3, -b1)", [])
    one = field(1, b"\1") + field(3, field(4, bytes(4)))
    yield "strange", written(field(1, b"\1") + one, one, [], b"", [(ARRIVE, 1, 0, 1), (MEND, 1, 0, 0)])
    yield "nothing", written(b"", b"", [], b"", [(kind, 0, 0, 0) for kind in range(12)])


def main(setter, folder):
    pairs = sorted({p for out in EXAMPLES.glob("*.out") for p in PLAYED.findall(out.read_text())})
    # some are written by the transcripts themselves
    stored = [(s, p) for s, p in pairs if (EXAMPLES / s).exists() and (EXAMPLES / p).exists()]
    seeds = {f"{s[:-6]}.{p[:-5]}": played(setter, s, p) for s, p in stored}
    seeds.update(by_hand())
    for name, data in seeds.items():
        (pathlib.Path(folder) / name).write_bytes(data)


main(*sys.argv[1:])
