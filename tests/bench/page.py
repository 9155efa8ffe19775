#!/usr/bin/env python3
"""page.py FOLDER: writes what tests/bench/run measured to docs/bench.svg and to the pages of docs/.

Of the pages only what stands between `<!-- bench: NAME -->` and `<!-- end -->` is written, on whichever page the mark
stands; the rest is by hand. FOLDER has the files rows, waits, stacks, sizes, audited, machine and, where an earlier
archive was measured, before.
"""
import glob
import math
import os
import re
import sys
import textwrap

PLOT = "docs/bench.svg"
WIDTH = 120
FRAME_NS = 16.6e6
KB = 1024
SMALL_THREAD = 512 * KB
FORMULA_AIM = 480 * KB
TEXT_AIM, TEXT_GROWTH, BEHAVIOURS_GROWTH = 10, 2.5, 4
WORST_AIM = 2
# what a text of 65,524 digits took in ms when the aim for the slowest text was set; it takes a seventh of that now
DIGITS_THEN = 0.57


# ---- reading what was measured


def spread(text):
    """least/median/greatest, and of a ratio the one of the least times behind them; None for -."""
    return None if text == "-" else [float(x) for x in text.split("/")]


def grouped(text):
    """Numbers of four and more digits as 4,096."""
    return re.sub(r"\b\d{4,}\b", lambda n: f"{int(n.group()):,}", text)


class Row:
    def __init__(self, words):
        self.call, self.input = words[0], grouped(words[1])
        self.ours, self.plain, self.byhand, self.to_plain, self.to_c = map(spread, words[2:7])


class Audited:
    """A kind of recorded rounds, and how many of them one core audited in a second, in each run."""

    def __init__(self, words):
        self.what, self.calls, self.bytes = words[0], int(words[1]), int(words[2])
        self.rates = sorted(int(rate) for rate in words[3].split("/"))

    def seconds(self, rounds):
        """Of one core, by the median."""
        return rounds / self.rates[len(self.rates) // 2]


def read(folder):
    def lines(name):
        path = os.path.join(folder, name)
        return open(path, encoding="utf8").read().splitlines() if os.path.exists(path) else []

    found = {"row": [], "grows": [], "beside": [], "texts": [], "old": []}
    for line in lines("rows") + lines("before"):
        kind, *words = line.split("\t")
        if kind == "runs":
            found["runs"] = int(words[0])
        else:
            found[kind].append(words)
    found["row"] = [Row(w) for w in found["row"]]
    found["waits"], found["machine"] = lines("waits"), lines("machine")
    found["stacks"] = dict(read_stacks(line) for line in lines("stacks"))
    found["sizes"] = [line.split("\t") for line in lines("sizes")]
    found["audited"] = [Audited(line.split("\t")) for line in lines("audited")]
    return found


def read_stacks(line):
    """`PROCESSOR: compile 40200 of 1048576, .. and the thread itself 4416`"""
    processor, said = line.split(": ")
    bytes_of = {name: int(n) for name, n in re.findall(r"(\w+) (\d+) of", said)}
    bytes_of["the thread itself"] = int(said.split()[-1])
    return processor, bytes_of


# ---- words and figures


def figure(x):
    """Nanoseconds."""
    return f"{x:.1f}" if x < 100 else f"{x:,.0f}" if x < 1e7 else f"{x / 1e6:,.0f} ms"


def of_ratio(r):
    if r is None:
        return "-"
    digits = 3 if r[1] < 0.1 else 2
    return f"{r[1]:.{digits}f} ({r[0]:.{digits}f} to {r[2]:.{digits}f})"


def block(lines):
    return ["```text"] + [line.rstrip() for line in lines] + ["```"]


def columns(text, figures, widths, room):
    """The text, wrapped, with the figures behind its last line."""
    parts = textwrap.wrap(text, room, subsequent_indent="    ")
    cells = "".join(f.rjust(w) for f, w in zip(figures, widths))
    return parts[:-1] + [parts[-1].ljust(room) + cells]


# ---- the parts of docs/RESULTS.md


def machine(found):
    processor, cores, gcc, rustc, commit = found["machine"]
    text = (
        f"Measured at {commit} on {processor}, {cores} cores; {gcc}; {rustc}. {found['runs']} runs of each row, 15 "
        "where one takes over 50 ms."
    )
    return textwrap.wrap(text, WIDTH)


def by_call(found):
    calls = {}
    for row in found["row"]:
        calls.setdefault(row.call, []).append(row)
    return calls


def heads(room, widths, titles):
    return "".ljust(room) + "".join(t.rjust(w) for t, w in zip(titles, widths))


def calls(found):
    room, widths = 62, (10, 24, 24)
    lines = [heads(room, widths, ("ours, ns", "by the plain engine's", "by C's"))]
    for call, rows in by_call(found).items():
        worst = max(rows, key=lambda r: r.ours[0])
        lines.append(call)
        for r in rows:
            mark = "  * " if r is worst and len(rows) > 1 else "    "
            figures = (figure(r.ours[1]), of_ratio(r.to_plain), of_ratio(r.to_c))
            lines += columns(mark + r.input, figures, widths, room)
    return block(lines)


def growth(found):
    room, widths = 66, (10, 10, 10, 10, 12)
    lines = [heads(room, widths, ("x1", "x2", "x4", "x8", "a doubling"))]
    for call, what, labels, times in found["grows"]:
        least = spread(times)
        most = max(b / a for a, b in zip(least, least[1:]))
        figures = [figure(t) for t in least] + [f"x {most:.2f}"]
        lines += columns(f"{call}, {what}: {labels.replace('/', ' ')}", figures, widths, room)
    return block(lines)


def beside_compile(rows, calls):
    """Two calls' times on each sheet, by compile's of the same sheet."""
    room, widths = 60, (12, 24, 24)
    lines = [heads(room, widths, ("compile, ns", *(f"{call} by compile" for call in calls)))]
    for sheet, compiled, _, _, *others in rows:
        figures = (figure(spread(compiled)[1]), *(of_ratio(spread(times)) for times in others))
        lines += columns(grouped(sheet), figures, widths, room)
    return block(lines)


def beside(found):
    holds, most, refused = besides(found)
    said = (
        f"At most compile's time on every accepted sheet: {'yes' if holds else 'no'}, the greatest ratio of the least "
        f"times is {most:.2f}. On a refused sheet all three do the same work, and the ratio is 1 but for the clock: "
        f"{refused[0]:.2f} to {refused[1]:.2f}."
    )
    return beside_compile(found["beside"], ("agree", "leak")) + [""] + textwrap.wrap(said, WIDTH)


def besides(found):
    accepted, refused = [], [1.0]
    for sheet, _, _, _, agreed, leaked in found["beside"]:
        (refused if "refused by" in sheet else accepted).extend([spread(agreed)[3], spread(leaked)[3]])
    return max(accepted) <= 1, max(accepted), (min(refused), max(refused))


def texts(found):
    return beside_compile(found["texts"], ("assemble", "describe"))


def before(found):
    if not found["old"]:
        return ["No earlier archive was measured in this run."]
    room, widths = 60, (14, 14, 28)
    lines = [heads(room, widths, ("now, ns", "before, ns", "now by before"))]
    for call, what, now, old, ratio in found["old"]:
        figures = (figure(spread(now)[1]), figure(spread(old)[1]), of_ratio(spread(ratio)))
        lines += columns(f"{call}, {what}", figures, widths, room)
    return block(lines)


def time_of(found, call, start):
    return next(r.ours[1] for r in found["row"] if r.call == call and r.input.startswith(start))


def frame(found):
    """What 16.6 ms hold."""
    worst = max((r for r in found["row"] if r.call == "preview"), key=lambda r: r.ours[1])
    rows = [
        ("steps one call each, none waits", time_of(found, "step", "an instruction, none waits")),
        ("steps one call each, 63 wait, 32 events", time_of(found, "step", "an instruction, 63 wait, 32")),
        ("steps by frame, none waits", time_of(found, "frame", "an instruction, none waits")),
        ("steps by frame, 63 wait, 32 events", time_of(found, "frame", "an instruction, 63 wait, 32")),
        ("steps by frame, of events of 4 instructions, 64 in hand", time_of(found, "frame", "a step of 64")),
        ("previews of a game, 3 in hand", time_of(found, "preview", "a game, 3")),
        ("previews of a game, 63 in hand", time_of(found, "preview", "a game, 63")),
        (f"previews, the worst: {worst.input}", worst.ours[1]),
    ]
    lines = [columns(what, (f"{int(FRAME_NS / ns):,}",), (14,), 84) for what, ns in rows]
    return block([line for several in lines for line in several])


def sizes(found):
    """Bytes of what is released, and where it was measured the time of an event of daily."""
    room, widths = 40, (14, 14, 30)
    lines = [heads(room, widths, ("bytes", "by gzip", "an event of daily.sheet, ns"))]
    for what, size, packed, times in found["sizes"]:
        figures = (f"{int(size):,}", f"{int(packed):,}", "-" if times == "-" else figure(spread(times)[1]))
        lines += columns(what, figures, widths, room)
    return block(lines)


def stacks(found):
    processors = found["stacks"]
    room, widths = 24, [14] * len(processors)
    lines = [heads(room, widths, [f"{p}, bytes" for p in processors])]
    for call in next(iter(processors.values())):
        lines += columns(call, [f"{of[call]:,}" for of in processors.values()], widths, room)
    return block(lines)


# ---- the aims


ROOM, WIDTHS = 86, (12, 10, 10)


def duration(seconds):
    for unit, least in (("hours", 7200), ("minutes", 120)):
        if seconds >= least:
            return f"{seconds / (least / 2):.1f} {unit}"
    return f"{seconds:.0f} seconds"


def audits(found):
    """What was measured, and what a league's day takes by it."""
    table = ["| rounds | calls of each | bytes of each | rounds a core audits in a second | nanoseconds a call |",
             "|---|---|---|---|---|"]
    for row in found["audited"]:
        least, most = row.rates[0], row.rates[-1]
        ns = " to ".join(f"{1e9 / (rate * row.calls):.0f}" for rate in (most, least))
        table.append(f"| {row.what} | {row.calls:,} | {row.bytes:,} | {least:,} to {most:,} | {ns} |")
    days = ["", "| a day of | calls of each | time of one core | cores that do it in an hour | files |",
            "|---|---|---|---|---|"]
    for rounds in (10**6, 10**8):
        for row in found["audited"][:2]:
            seconds, size = row.seconds(rounds), rounds * row.bytes / 1e9
            cores = math.ceil(seconds / 3600)
            days.append(f"| {rounds:,} rounds | {row.calls:,} | {duration(seconds)} | {cores} | {size:,.1f} GB |")
    return table + days


def judged(what, got, most, said=None, digits=2):
    verdict = "met" if got <= most else "MISSED"
    return columns(what, (said or f"{most:g}", f"{got:.{digits}f}", verdict), WIDTHS, ROOM)


def greatest(what, rows, which, most):
    """The greatest of the rows' ratios."""
    got, row = max(((getattr(r, which)[3], r) for r in rows), key=lambda x: x[0])
    return judged(f"{what} (greatest: {row.call}, {row.input})", got, most)


def aims_of_times(rows):
    of = lambda call, *starts: [r for r in rows if r.call == call and r.input.startswith(starts)]
    waits = lambda r: "62 wait" in r.input or "63 wait" in r.input
    steps = of("step", "an instruction, ") + of("step", "idle") + of("arrive", "one event") + of("board", "one ")
    pressed = [r for r in steps if waits(r)]
    single = [r for r in steps if not waits(r)] + of("an event by steps", "")
    framed = of("an event by frame", "")
    shortest = [r for r in framed if r.input.startswith("of 3 ")]
    usual = of("step", *(f"an instruction, {w}" for w in ("none waits", "8 wait", "32 wait", "62 wait")))
    usual = [r for r in usual if "32 events" not in r.input] + [r for r in framed if r not in shortest]
    usual += [r for r in of("compile", "") if "refused" not in r.input]
    yield from greatest("by frame, by a C frame", of("frame", "") + framed, "to_c", 1.6)
    none, many = (of("frame", f"an instruction, {w}")[0].ours[0] for w in ("none waits", "62 wait"))
    yield from judged("an instruction by frame with 62 waiting, by one with none", many / none, 1.2)
    yield from greatest("step, arrive, board, stepped events, by C's", single, "to_c", 2.2)
    yield from greatest("step, arrive, board, with 62 or 63 waiting, by C's", pressed, "to_c", 3)
    yield from greatest("steps, events by frame, compile, by the plain engine's", usual, "to_plain", 1.05)
    yield from greatest("the event of 3 nodes by frame, by the plain engine's", shortest, "to_plain", 1.5)
    slowest = max(of("assemble", ""), key=lambda r: r.ours[0])
    yield from judged(f"assemble's slowest text, ms, by twice the digits of then (slowest: {slowest.input})",
                      slowest.ours[0] / 1e6, WORST_AIM * DIGITS_THEN)
    accepted, refused = ([r for r in of("compile", "") if ("refused" in r.input) == w] for w in (False, True))
    yield from by_known("compile's slowest refused sheet, by its slowest accepted one", accepted, refused)


def by_known(what, known, rows):
    """The slowest of some rows by the slowest of others, of the least times."""
    slowest = max(rows, key=lambda r: r.ours[0])
    got = slowest.ours[0] / max(r.ours[0] for r in known)
    return judged(f"{what} (slowest: {slowest.input})", got, WORST_AIM)


OLD_AIMS = [
    ("preview", "63 in hand", 1 / 5, "a fifth"),
    ("compile", "backward chain", 1 / 8, "an eighth"),
    ("circle", "ring of 64", 1 / 30, "a thirtieth"),
]


def aims_of_texts(found):
    """assemble and describe beside compile, and about in proportion to what they read."""
    for call, k in (("assemble", 4), ("describe", 5)):
        got, sheet = max((spread(w[k])[3], grouped(w[0])) for w in found["texts"])
        yield from judged(f"{call}, by compile of the same sheet (greatest: {sheet})", got, TEXT_AIM)
    for call, what, _, times in found["grows"]:
        if call in ("assemble", "describe"):
            least = spread(times)
            factor = max(b / a for a, b in zip(least, least[1:]))
            most = BEHAVIOURS_GROWTH if what.startswith("behaviours") else TEXT_GROWTH
            yield from judged(f"{call} at twice as many {what}, a factor", factor, most)


def aims(found):
    lines = [heads(ROOM, WIDTHS, ("at most", "measured"))] + list(aims_of_times(found["row"]))
    for call, part, most, said in OLD_AIMS:
        for w in found["old"]:
            if w[0] == call and part in w[1]:
                lines += judged(f"{call}, {w[1]}, by the earlier archive's", spread(w[4])[3], most, said, 3)
    for call, what, _, times in found["grows"]:
        if call == "compile" and what.startswith("behaviours:"):
            least = spread(times)
            factor = max(b / a for a, b in zip(least, least[1:]))
            lines += judged(f"compile at twice as many {what}, a factor", factor, BEHAVIOURS_GROWTH)
    lines += judged("agree and leak, by compile of the same sheet, accepted ones", besides(found)[1], 1)
    lines += aims_of_texts(found)
    for processor, of in found["stacks"].items():
        both = of["formula"] + of["the thread itself"]
        lines += judged(f"formula's stack on {processor}, KB", of["formula"] / KB, FORMULA_AIM / KB, None, 0)
        lines += judged(f"formula and its thread on {processor}, KB", both / KB, SMALL_THREAD / KB, None, 0)
    return block(lines)


def above(found):
    """The rows that are slower than the aims allow elsewhere."""
    lines = []
    for which, most, beside_what in (("to_plain", 1.05, "the plain engine"), ("to_c", 2.2, "C")):
        slow = [(getattr(r, which), r) for r in found["row"]]
        slow = [(ratio[3], r) for ratio, r in slow if ratio and ratio[3] > most]
        lines.append(f"rows above {most} beside {beside_what}, by the least times" + ("" if slow else ": none"))
        for ratio, r in slow:
            lines += columns(f"    {r.call}, {r.input}", (f"{ratio:.2f}",), (WIDTHS[0],), ROOM)
    return block(lines)


# ---- the plot


LEFT, RIGHT, TOP, STEP = 430, 960, 64, 17
LOW, HIGH = 0.004, 100.0
PLAIN, BY_HAND = ("#2060a0", "by the plain engine's"), ("#c05010", "by the C engine's")


def at(ratio):
    return LEFT + (RIGHT - LEFT) * math.log(min(max(ratio, LOW), HIGH) / LOW) / math.log(HIGH / LOW)


def label(row):
    words = f"{row.call}: {row.input}".replace("&", "&amp;").replace("<", "&lt;")
    words = re.sub(r", the worst of \d+ tried", "", words)
    return words if len(words) <= 74 else words[:72] + ".."


def bar(ratio, colour, y):
    least, median, most = (f"{at(x):.1f}" for x in ratio[:3])
    line = f'<line x1="{least}" y1="{y}" x2="{most}" y2="{y}" stroke="{colour}" stroke-width="2"/>'
    return line + f'<circle cx="{median}" cy="{y}" r="3" fill="{colour}"/>'


def plot(found):
    """Each row's ratio as a dot at the median, with a line from the least to the greatest, on a logarithmic scale."""
    rows = [r for rows in by_call(found).values() for r in rows if r.to_plain]
    height = TOP + STEP * len(rows) + 30
    font = 'font-family="sans-serif" font-size="11"'
    out = [
        f'<svg xmlns="http://www.w3.org/2000/svg" width="1000" height="{height}" {font}>',
        '<rect width="100%" height="100%" fill="white"/>',
        '<text x="10" y="18" font-size="14">Time of the proved engine by that of another: less than 1 is faster</text>',
    ]
    for k in range(0, len(rows), 2):
        out.append(f'<rect x="0" y="{TOP + STEP * k - 4}" width="1000" height="{STEP}" fill="#f4f4f4"/>')
    for k, (colour, words) in enumerate((PLAIN, BY_HAND)):
        x = 10 + 190 * k
        out.append(f'<circle cx="{x + 5}" cy="34" r="4" fill="{colour}"/><text x="{x + 15}" y="38">{words}</text>')
    for tick in (0.01, 0.1, 0.5, 1, 2, 10, 100):
        x, colour = at(tick), "black" if tick == 1 else "#cccccc"
        out.append(f'<line x1="{x:.1f}" y1="{TOP - 8}" x2="{x:.1f}" y2="{height - 22}" stroke="{colour}"/>')
        out.append(f'<text x="{x:.1f}" y="{height - 8}" text-anchor="middle">{tick:g}</text>')
    for k, r in enumerate(rows):
        y = TOP + STEP * k + 4
        apart = 3 if r.to_c else 0
        out.append(f'<text x="{LEFT - 8}" y="{y + 4}" text-anchor="end">{label(r)}</text>')
        out.append(bar(r.to_plain, PLAIN[0], y - apart))
        if r.to_c:
            out.append(bar(r.to_c, BY_HAND[0], y + apart))
    return "\n".join(out + ["</svg>", ""])


# ---- docs/HOST.md


def stack_table(found, page):
    """A sixteenth and half a KB more than was measured, in steps of 4 KB. Where arm64 was not measured, not less than
    the page said before."""
    processors = found["stacks"]
    said = {name: int(kb) for name, kb in re.findall(r"^\| `(\w+)` \| (\d+) KB \|", page, re.M)}
    lines = ["| call | stack | " + " | ".join(f"measured on {p}, bytes" for p in processors) + " |"]
    lines.append("|---|---|" + "---|" * len(processors))
    for call in next(iter(processors.values())):
        if call != "the thread itself":
            most = max(of[call] for of in processors.values())
            kb = -(-(most + most // 16 + KB // 2) // (4 * KB)) * 4
            kb = kb if "arm64" in processors else max(kb, said.get(call, 0))
            lines.append(f"| `{call}` | {kb} KB | " + " | ".join(f"{of[call]:,}" for of in processors.values()) + " |")
    return lines + [""] + textwrap.wrap(" ".join(small_thread(p, of) for p, of in processors.items()), WIDTH)


def slowest_circle(found):
    most = max(r.ours[1] for r in found["row"] if r.call == "circle") / 1e6
    return [f"The slowest sheet that is known takes {most:.1f} ms where `docs/RESULTS.md` was measured."]


def small_thread(processor, of):
    both = of["formula"] + of["the thread itself"]
    fits = "fits" if both <= SMALL_THREAD else "does not fit"
    need = f"`formula` and its thread take {both / KB:.0f} KB for the worst text"
    return f"On {processor} {need}: that {fits} a thread of 512 KB."


def write_part(name, make):
    """Writes the lines that `make` gives for a page between its marks of that name; the page that has them."""
    mark = f"<!-- bench: {name} -->"
    for path in sorted(glob.glob("docs/**/*.md", recursive=True) + glob.glob("docs/*.txt")):
        page = open(path, encoding="utf8").read()
        if mark in page:
            begin = page.index(mark) + len(mark)
            end = page.index("<!-- end -->", begin)
            lines = make(page)
            open(path, "w", encoding="utf8").write(page[:begin] + "\n" + "\n".join(lines) + "\n" + page[end:])
            return path
    sys.exit(f"page.py: no page of docs/ has the mark {mark}")


def main():
    found = read(sys.argv[1])
    parts = (machine, aims, above, calls, frame, beside, texts, growth, before, stacks, sizes)
    makers = {make.__name__: lambda page, make=make: make(found) for make in parts}
    makers["waits"] = lambda page: found["waits"]
    makers["stack-sizes"] = lambda page: stack_table(found, page)
    if found["audited"]:
        makers["audits"] = lambda page: audits(found)
    makers["circle"] = lambda page: slowest_circle(found)
    written = {write_part(name, make) for name, make in makers.items()}
    open(PLOT, "w", encoding="utf8").write(plot(found))
    print(f"bench: written to {PLOT}, {', '.join(sorted(written))}", file=sys.stderr)


if __name__ == "__main__":
    main()
