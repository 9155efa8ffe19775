#!/usr/bin/env python3
"""picture: draws docs/rooms.svg from crates.txt alone: every room, and from each room arrows to those that it stands on.

    tools/picture.py            writes docs/rooms.svg
    tools/picture.py --check    fails where the picture in the repository is not the one that crates.txt gives, where
                                rooms stand on each other in a circle, where a room has no line or no kind, and where
                                two boxes or texts overlap or an arrow runs over a box
    tools/picture.py --planted  fails where --check does not find a planted fault

A section of crates.txt begins with `# ROOM (KIND): what it is`; its kind is code or proof. An arrow between rooms of code
is of the data, any other of the proof. An arrow that follows from others is left out. Rooms lie in rows, each below all
that stand on it; an arrow over several rows has a lane of its own between the boxes.
"""
import html
import re
import sys

from planted import planted
from sources import read_crates

PICTURE = "docs/rooms.svg"
KINDS = {"code": ("#fdf1dc", "#b5651d"), "proof": ("#e3eef8", "#2a5d8f")}
WIDTH, MARGIN, LANE, GAP = 1160, 20, 26, 18
TOP, BETWEEN, LINE = 76, 54, 15
LETTER = 6.1  # how wide a letter of a box's text is, at most


class CircleOfRooms(Exception):
    pass


# ---- what crates.txt has


def read_rooms():
    """Rooms with their crates, their lines as (kind, text), and on which other rooms each stands."""
    crates, room_of = read_crates()
    rooms, below = {}, {}
    for crate, room in room_of.items():
        rooms.setdefault(room, []).append(crate)
        under = {room_of[d] for d in crates[crate] if d in room_of} - {room}
        below.setdefault(room, set()).update(under)
    with open("crates.txt", encoding="utf8") as file:
        heads = re.findall(r"^# (\w+) \((\w+)\): (.*)$", file.read(), re.M)
    return rooms, {room: (kind, text) for room, kind, text in heads}, below


def reached(below):
    """All rooms that each room stands on, directly or not. Raises CircleOfRooms where one stands on itself."""
    found = {}

    def visit(room, path):
        if room in path:
            raise CircleOfRooms(" on ".join([*path[path.index(room):], room]))
        if room not in found:
            found[room] = set()
            for other in sorted(below[room]):
                found[room] |= {other} | visit(other, [*path, room])
        return found[room]

    for room in sorted(below):
        visit(room, [])
    return found


def reduced(below):
    """The pairs (room, on which it stands) that do not follow from others."""
    all_below = reached(below)
    return [
        (room, other)
        for room in sorted(below)
        for other in sorted(below[room])
        if not any(other in all_below[third] for third in below[room])
    ]


# ---- rows and lanes


def rows_of(below):
    """Each room's row: 0 for those on which none stands, else one more than the lowest that stands on it."""
    above = {room: [r for r in below if room in below[r]] for room in below}
    row = {}

    def depth(room):
        if room not in row:
            row[room] = 1 + max((depth(r) for r in above[room]), default=-1)
        return row[room]

    for room in below:
        depth(room)
    return row


def with_lanes(row, arrows):
    """The rows with rooms and lanes, and each arrow as the places that it goes through, one in each row."""
    places = [[] for _ in range(1 + max(row.values()))]
    for room in sorted(row):
        places[row[room]].append(room)
    ways = {}
    for start, end in arrows:
        lanes = [(start, end, k) for k in range(row[start] + 1, row[end])]
        for lane in lanes:
            places[lane[2]].append(lane)
        ways[start, end] = [start, *lanes, end]
    return places, ways


def ordered(places, ways):
    """The rows with neighbours near each other: each place goes where the middle of those above and below it is."""
    near = {}
    for way in ways.values():
        for one, two in zip(way, way[1:]):
            near.setdefault(one, []).append(two)
            near.setdefault(two, []).append(one)
    for turn in range(24):
        spot = {place: (i + 0.5) / len(row) for row in places for i, place in enumerate(row)}
        for row in places if turn % 2 else reversed(places):
            middle = {p: sum(spot[q] for q in near[p]) / len(near[p]) if p in near else spot[p] for p in row}
            row.sort(key=lambda p: (middle[p], str(p)))
            spot.update({p: (i + 0.5) / len(row) for i, p in enumerate(row)})
    return places


# ---- boxes and arrows


def wrapped(text, width):
    out = [""]
    for word in text.split():
        if out[-1] and len(out[-1]) + len(word) + 1 > width:
            out.append("")
        out[-1] += (" " if out[-1] else "") + word
    return out


def layout(rooms, lines, below):
    """Each room's box (x, y, wide, high) and rows of text, each arrow's points, and the picture's height."""
    arrows = reduced(below)  # which raises where rooms stand in a circle
    places, ways = with_lanes(rows_of(below), arrows)
    boxes, texts, spot, y = {}, {}, {}, TOP
    for row in ordered(places, ways):
        wide = [p for p in row if p in rooms]
        room_for = WIDTH - (LANE * (len(row) - len(wide))) - GAP * (len(row) - 1)
        each = min(330, room_for // len(wide)) if wide else 0
        for p in wide:
            count = f"{len(rooms[p])} crate{'s' if len(rooms[p]) > 1 else ''}"
            texts[p] = [f"{p} · {count}", *wrapped(lines.get(p, ("", ""))[1], int((each - 20) / LETTER))]
        high = max((26 + LINE * (len(texts[p]) - 1) for p in wide), default=0)
        used = each * len(wide) + LANE * (len(row) - len(wide)) + GAP * (len(row) - 1)
        x = MARGIN + (WIDTH - used) / 2
        for p in row:
            size = each if p in rooms else LANE
            if p in rooms:
                boxes[p] = (x, y, each, high)
            spot[p] = (x + size / 2, y, y + high)
            x += size + GAP
        y += high + BETWEEN
    return boxes, texts, {pair: points(way, spot, ways) for pair, way in ways.items()}, y - BETWEEN + 24


def points(way, spot, ways):
    """An arrow's points: down through its lanes; where several leave or enter a box, each at a place of its own."""
    out = []
    for i, place in enumerate(way):
        x, top, bottom = spot[place]
        if i == 0:
            mates = sorted((w for w in ways.values() if w[0] == place), key=lambda w: spot[w[1]][0])
            out.append((x + 24 * (mates.index(way) - (len(mates) - 1) / 2), bottom))
        elif i == len(way) - 1:
            mates = sorted((w for w in ways.values() if w[-1] == place), key=lambda w: spot[w[-2]][0])
            out.append((x + 24 * (mates.index(way) - (len(mates) - 1) / 2), top))
        else:
            out += [(x, top), (x, bottom)]
    return out


def curve(way):
    """A path through the points: straight down a lane, bent between rows."""
    path = f"M{way[0][0]:.1f},{way[0][1]:.1f}"
    for (xa, ya), (xb, yb) in zip(way, way[1:]):
        middle = (ya + yb) / 2
        path += f" L{xb:.1f},{yb:.1f}" if xa == xb else f" C{xa:.1f},{middle:.1f} {xb:.1f},{middle:.1f} {xb:.1f},{yb:.1f}"
    return path


def draw():
    rooms, lines, below = read_rooms()
    boxes, texts, ways, height = layout(rooms, lines, below)
    out = [f'<svg xmlns="http://www.w3.org/2000/svg" viewBox="0 0 1200 {height:.0f}" width="1200" height="{height:.0f}" font-family="sans-serif">']
    out.append("<defs>")
    for kind, (_, colour) in KINDS.items():
        out.append(f'<marker id="{kind}" markerWidth="9" markerHeight="9" refX="7" refY="3.5" orient="auto"><path d="M0,0 L8,3.5 L0,7 z" fill="{colour}"/></marker>')
    out += ["</defs>", '<rect width="100%" height="100%" fill="white"/>']
    crates = sum(map(len, rooms.values()))
    out.append(f'<text x="{MARGIN}" y="26" font-size="15">{len(rooms)} rooms, {crates} crates. An arrow leads from a room to one that it stands on; what follows from others is left out.</text>')
    for k, (kind, words) in enumerate((("code", "code: the way of the data"), ("proof", "statements and proofs: the way of the proof"))):
        fill, colour = KINDS[kind]
        out.append(f'<rect x="{MARGIN + 240 * k}" y="38" width="16" height="16" rx="3" fill="{fill}" stroke="{colour}"/>')
        out.append(f'<text x="{MARGIN + 240 * k + 24}" y="51" font-size="13">{words}</text>')
    for (start, end), way in ways.items():
        kind = "code" if lines[start][0] == lines[end][0] == "code" else "proof"
        out.append(f'<path d="{curve(way)}" fill="none" stroke="{KINDS[kind][1]}" stroke-width="1.8" marker-end="url(#{kind})"/>')
    for room, (x, y, wide, high) in boxes.items():
        fill, colour = KINDS[lines[room][0]]
        out.append(f'<rect x="{x:.1f}" y="{y}" width="{wide}" height="{high}" rx="6" fill="{fill}" stroke="{colour}"/>')
        for i, row in enumerate(texts[room]):
            style = 'font-weight="bold" font-size="14"' if i == 0 else 'font-size="12"'
            out.append(f'<text x="{x + 10:.1f}" y="{y + 18 + LINE * i}" {style}>{html.escape(row)}</text>')
    return "\n".join([*out, "</svg>"]) + "\n"


# ---- what the check looks at


def meet(a, b):
    """Whether two boxes (x, y, wide, high) have a point in common."""
    return a[0] < b[0] + b[2] and b[0] < a[0] + a[2] and a[1] < b[1] + b[3] and b[1] < a[1] + a[3]


def overprinted(boxes, texts, ways):
    names = sorted(boxes)
    for i, one in enumerate(names):
        yield from (f"the boxes of {one} and {two} overlap" for two in names[i + 1:] if meet(boxes[one], boxes[two]))
        over = [row for row in texts[one] if len(row) * LETTER > boxes[one][2] - 10]
        yield from (f"a text is wider than the box of {one}: {row}" for row in over)
        if boxes[one][0] < 0 or boxes[one][0] + boxes[one][2] > 1200:
            yield f"the box of {one} leaves the picture"
    for (start, end), way in ways.items():
        for (xa, ya), (xb, yb) in zip(way, way[1:]):
            path = (min(xa, xb) - 1, min(ya, yb) + 0.1, abs(xa - xb) + 2, abs(ya - yb) - 0.2)
            yield from (f"the arrow from {start} to {end} runs over {room}" for room in names if meet(path, boxes[room]))


def faults():
    rooms, lines, below = read_rooms()
    bare = [room for room in sorted(rooms) if room not in lines]
    yield from (f"crates.txt has no line '# {room} (code): ..' or '# {room} (proof): ..'" for room in bare)
    wrong = [room for room in sorted(rooms) if room in lines and lines[room][0] not in KINDS]
    yield from (f"crates.txt: the room {room} is of the kind {lines[room][0]}, and there are {', '.join(KINDS)}" for room in wrong)
    if bare or wrong:
        return
    try:
        boxes, texts, ways, _ = layout(rooms, lines, below)
    except CircleOfRooms as circle:
        yield f"rooms stand on each other in a circle: {circle}"
        return
    yield from overprinted(boxes, texts, ways)
    with open(PICTURE, encoding="utf8") as file:
        if file.read() != draw():
            yield f"{PICTURE} is not as crates.txt has it: run tools/picture.py"


def check():
    found = list(faults())
    for fault in found:
        print(fault)
    print(f"picture: {PICTURE} is drawn from crates.txt; {len(found)} faults")
    return 1 if found else 0


LONG = "planted" * 30
PLANTED = [
    ("is not as crates.txt has it", [(PICTURE, "</svg>", "<text>planted</text></svg>")]),
    ("is not as crates.txt has it", [("crates.txt", "\nlib_base:", "\nlib_planted:\nlib_base:")]),
    ("is not as crates.txt has it", [("crates.txt", "# text (code): ", "# text (code): planted ")]),
    ("has no line '# attic", [("crates.txt", None, "\nattic_one:\n")]),
    ("of the kind planted", [("crates.txt", "# text (code): ", "# text (planted): ")]),
    ("stand on each other in a circle", [("crates.txt", "\nlib_base:", "\nlib_base: engine")]),
    ("a text is wider", [("crates.txt", "# text (code): ", f"# text (code): {LONG} ")]),
]


if __name__ == "__main__":
    if sys.argv[1:] == ["--check"]:
        sys.exit(check())
    if sys.argv[1:] == ["--planted"]:
        sys.exit(planted("picture", lambda: list(faults()), ["crates.txt", PICTURE], PLANTED))
    with open(PICTURE, "w", encoding="utf8") as file:
        file.write(draw())
