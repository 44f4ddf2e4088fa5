#!/usr/bin/env python3
"""Draws the pictures of docs/pictures, each a self-contained SVG that is readable on white and on dark.

    python3 tools/pictures.py            writes them all
    python3 tools/pictures.py crates     writes this one

`crates` is drawn from crates.txt and the areas of docs/ARCHITECTURE.md, so draw it again when a crate comes or goes. `schedule` is the
example one_member. The others are drawn from the text below.
"""
import html
import pathlib
import sys

import areas

TOP = pathlib.Path(__file__).resolve().parent.parent
FOLDER = TOP / "docs" / "pictures"

STYLE = """
svg { background: #ffffff; }
text { font: 13px 'DejaVu Sans', Verdana, sans-serif; fill: #1f2328; }
.small { font-size: 11px; fill: #59636e; }
.mono { font: 12px 'DejaVu Sans Mono', Menlo, monospace; }
.title { font-weight: bold; }
.box { fill: #eef4fb; stroke: #4a78a8; stroke-width: 1.2; }
.quorum { fill: #eaf6ec; stroke: #3f8a55; stroke-width: 1.2; }
.end { fill: #fdf3e3; stroke: #b07a1e; stroke-width: 1.2; }
.stop { fill: #fbecec; stroke: #b04a4a; stroke-width: 1.2; }
.plain { fill: none; stroke: #8c959f; stroke-width: 1; }
.area { fill: #f6f8fa; stroke: #8c959f; stroke-width: 1; }
.line { fill: none; stroke: #59636e; stroke-width: 1.3; }
.thin { fill: none; stroke: #8c959f; stroke-width: 0.9; }
.dash { fill: none; stroke: #59636e; stroke-width: 1.3; stroke-dasharray: 5 4; }
.head { fill: #59636e; stroke: none; }
@media (prefers-color-scheme: dark) {
svg { background: #0d1117; }
text { fill: #e6edf3; }
.small { fill: #9198a1; }
.box { fill: #14273d; stroke: #6ea3d8; }
.quorum { fill: #12301c; stroke: #63b27c; }
.end { fill: #38290f; stroke: #d6a04a; }
.stop { fill: #3b1818; stroke: #d87373; }
.area { fill: #161b22; stroke: #6e7681; }
.line, .dash { stroke: #9198a1; }
.thin { stroke: #6e7681; }
.head { fill: #9198a1; }
}
"""


class Picture:
    """Boxes, arrows and words at places of a page, in pixels from the upper left."""

    def __init__(self, width, height, about):
        self.width, self.height, self.about, self.parts = width, height, about, []

    def text(self, x, y, words, kind="", anchor="middle"):
        self.parts.append(f'<text x="{x}" y="{y}" class="{kind}" text-anchor="{anchor}">{html.escape(words)}</text>')

    def box(self, x, y, width, height, lines, kind="box"):
        """A box whose first line is its name, the others small."""
        self.parts.append(f'<rect x="{x}" y="{y}" width="{width}" height="{height}" rx="5" class="{kind}"/>')
        top = y + height / 2 - 8 * (len(lines) - 1) + 4
        for i, words in enumerate(lines):
            self.text(x + width / 2, top + 16 * i, words, "title" if i == 0 else "small")

    def arrow(self, points, words=None, at=None, kind="line", anchor="middle"):
        """An arrow along the points, with words at a place of their own."""
        path = "M" + " L".join(f"{x} {y}" for x, y in points)
        self.parts.append(f'<path d="{path}" class="{kind}" marker-end="url(#head)"/>')
        if words:
            for i, line in enumerate(words.split("\n")):
                self.text(at[0], at[1] + 13 * i, line, "small", anchor)

    def notes(self, x, y, words):
        """Small lines under one another."""
        for i, line in enumerate(words.split("\n")):
            self.text(x, y + 14 * i, line, "small")

    def row(self, xs, y, wide, high, boxes, notes):
        """Boxes side by side at y, each with an arrow to the next; and notes under some of them, each with its box's number from 0."""
        for x, (name, who, kind) in zip(xs, boxes):
            self.box(x, y, wide, high, [name, who], kind)
        middle = y + high // 2
        for a, b in zip(xs, xs[1:]):
            self.arrow([(a + wide, middle), (b, middle)])
        for i, words in notes:
            self.notes(xs[i] + wide / 2, y + high + 18, words)

    def line(self, points, kind="thin"):
        self.parts.append('<path d="M' + " L".join(f"{x} {y}" for x, y in points) + f'" class="{kind}"/>')

    def write(self, name):
        marker = '<marker id="head" viewBox="0 0 10 10" refX="9" refY="5" markerWidth="7" markerHeight="7" orient="auto-start-reverse"><path d="M0 0 L10 5 L0 10 z" class="head"/></marker>'
        FOLDER.mkdir(parents=True, exist_ok=True)
        (FOLDER / f"{name}.svg").write_text(
            f'<svg xmlns="http://www.w3.org/2000/svg" viewBox="0 0 {self.width} {self.height}" width="{self.width}" height="{self.height}" role="img">'
            f"<title>{html.escape(self.about)}</title><style>{STYLE}</style><defs>{marker}</defs>" + "\n".join(self.parts) + "</svg>\n"
        )


def view():
    """The life of a view: messages get places, then the view ends, with the deputy's branch below."""
    p = Picture(1060, 560, "The life of a view, from Init to the next view")
    wide, high, gap = 144, 62, 32
    xs = [20 + i * (wide + gap) for i in range(6)]

    p.text(20, 26, "While the view is open", "title", "start")
    steps = [
        ("Init", "the sender", "box"),
        ("Echo", "every member", "quorum"),
        ("Order", "the manager", "box"),
        ("Place", "every member", "quorum"),
        ("Keep", "every member", "quorum"),
        ("deliver", "place by place", "box"),
    ]
    notes = [
        (1, "Q Echoes of one payload:\nthe message is certified"),
        (3, "Q Places of one batch:\nthe place is certified"),
        (4, "Q Keeps: the place\nis kept"),
    ]
    p.row(xs, 44, wide, high, steps, notes)

    p.text(20, 190, "Once f + 1 members notify one update u", "title", "start")
    y = 208
    ending = [
        ("Notify", "on a request", "end"),
        ("End", "says the placed length", "quorum"),
        ("Suggest", "the manager, rank 0", "box"),
        ("Ack", "(u, K) is justified", "quorum"),
        ("Ready", "of a certified Ack", "quorum"),
        ("decide (u, K)", "Q Readies", "box"),
    ]
    notes = [
        (0, "f + 1 of them: one\nis correct"),
        (1, "Q Ends of at most K, one of K:\nthe value (u, K) is free"),
        (4, "Q: the commit certificate"),
    ]
    p.row(xs, y, wide, high, ending, notes)

    p.box(xs[5], 318, wide, 54, ["deliver up to K", "never more"], "box")
    p.arrow([(xs[5] + wide / 2, y + high), (xs[5] + wide / 2, 318)])
    p.box(xs[5], 402, wide, 54, ["next view", "number x + 1"], "end")
    p.arrow([(xs[5] + wide / 2, 372), (xs[5] + wide / 2, 402)])

    p.text(20, 384, "Where each member of a rank below r is to be removed", "title", "start")
    y = 402
    p.box(xs[0], y, wide, high, ["Notify", "removals below rank r"], "end")
    p.box(xs[1], y, wide, high, ["Last at r", "own Ready, or none"], "quorum")
    p.box(xs[2], y, wide, high, ["Suggest at r", "the deputy of rank r"], "box")
    p.arrow([(xs[0] + wide, y + 31), (xs[1], y + 31)])
    p.arrow([(xs[1] + wide, y + 31), (xs[2], y + 31)])
    p.arrow([(xs[2] + wide, y + 31), (xs[3] + wide / 2, y + 31), (xs[3] + wide / 2, 270)], "Ack and Ready at rank r", (xs[3] + wide / 2, y + 48))
    for i, words in [(0, "f + 1 of each"), (1, "Q Lasts at r")]:
        p.text(xs[i] + wide / 2, y + high + 18, words, "small")
    p.text(20, 512, "What the deputy suggests: where some Last at r reports Ready (r0, (u, K)), Q Lasts at r report none of a rank above r0, and Ack (r0, (u, K)) is certified: this value.", "small", "start")
    p.text(20, 528, "Else, where Q Lasts at r report none: a free value. Who acknowledges checks the same, so no deputy is trusted.", "small", "start")
    p.text(20, 548, "Green: a quorum, Q = n - f, makes a certificate of it. n members, of whom at most f = (n - 1) / 3, rounded down, lie.", "small", "start")
    p.write("view")


def phases():
    """The phases of one process in one view."""
    p = Picture(890, 326, "The phases of a process in a view")
    p.box(10, 60, 190, 62, ["observer", "no member of the view"], "box")
    p.box(10, 200, 190, 62, ["open", "echoes, orders, places, keeps"], "quorum")
    p.box(310, 200, 150, 62, ["closing", "the own End is signed"], "end")
    p.box(510, 130, 150, 62, ["decided", "update u and cut K"], "box")
    p.box(740, 40, 130, 62, ["next view", "open or observer"], "quorum")
    p.box(740, 220, 130, 62, ["halted", "for good"], "stop")
    p.arrow([(200, 231), (310, 231)], "f + 1 notify\nan update: End", (254, 208))
    p.arrow([(200, 91), (510, 146)], "deciding: a Ready is certified\nwhose update is possible", (330, 80), anchor="start")
    p.arrow([(460, 222), (510, 184)], "deciding", (504, 220))
    p.arrow([(105, 200), (105, 162), (510, 162)], "deciding", (300, 156))
    p.arrow([(660, 146), (740, 80)], "K places delivered,\nor no member", (668, 76))
    p.arrow([(660, 178), (740, 240)], "more than K\ndelivered", (672, 228))
    p.arrow([(565, 192), (565, 250), (605, 250), (605, 192)], "fewer than K: it waits, and signs nothing", (585, 268))
    p.text(30, 312, "In an honest, bounded family no process halts (nobody_halts). In the code: Observing, OpenView, ClosingView, DecidedView, HaltedView.", "small", "start")
    p.write("phases")


def reduced(crates):
    """Without the edges that others imply."""
    reach = {}

    def below(name):
        if name not in reach:
            reach[name] = set(crates[name]).union(*[below(b) for b in crates[name]])
        return reach[name]

    for name in crates:
        below(name)
    return {name: [b for b in bs if not any(b in reach[c] for c in bs if c != b)] for name, bs in crates.items()}


# The areas of docs/ARCHITECTURE.md in four columns, each from the top down.
COLUMNS = [
    ["The program", "A replay", "A member", "The rules", "What is heard", "Laws and rows", "Definitions"],
    ["A run shown", "Beside other implementations", "Schedules and stories", "Frames and statements", "The outside"],
    ["How fast", "A store in words", "Kits and words", "Signatures", "Links and journals", "Images of a member"],
    ["A store", "Chains, guards and evidence", "Convictions and audits", "Nodes"],
]
WIDE, CHANNEL, LEFT, TOP_EDGE, GAP = 304, 56, 30, 40, 26


class Layout:
    """Where the boxes of the areas are, and the ways of the lines between them: through the channels beside the columns, and from one
    channel to the next through a gap between two boxes. Each line has a track of its own in each channel and gap, and a port of its own
    at a box."""

    def __init__(self, of):
        self.boxes, self.column, self.tracks, self.ports = {}, {}, {}, {}
        for c, column in enumerate(COLUMNS):
            y = TOP_EDGE
            for area in column:
                high = 38 + 27 * -(-len(of[area]) // 2)
                self.boxes[area], self.column[area] = (LEFT + c * (WIDE + CHANNEL), y, high), c
                y += high + GAP
        self.bottom = max(y + high for _, y, high in self.boxes.values())

    def track(self, place, begin, step):
        """The next free track of a channel or a gap."""
        self.tracks[place] = self.tracks.get(place, 0) + 1
        return begin + step * self.tracks[place]

    def channel(self, c):
        """A track in the channel to the right of column c, which is -1 left of them all."""
        return self.track(("channel", c), LEFT + c * (WIDE + CHANNEL) + WIDE + 3, 5)

    def gap(self, c, y):
        """A track through column c, in the gap that is nearest to this height."""
        gaps = [self.boxes[area][1] - GAP for area in COLUMNS[c]]
        at = min(gaps, key=lambda it: abs(it - y))
        return self.track(("gap", c, at), at + 2, 5)

    def port(self, area, side):
        """A place at a side of a box: x and y."""
        x, y, high = self.boxes[area]
        self.ports[area, side] = self.ports.get((area, side), 0) + 1
        return (x if side == "left" else x + WIDE), y + min(high - 6, 6 + 11 * self.ports[area, side])

    def way(self, area, below):
        """The line from an area to one that it uses."""
        a, b = self.column[area], self.column[below]
        (x, y, high), (_, to, _) = self.boxes[area], self.boxes[below]
        if a == b and to == y + high + GAP:
            return [(x + WIDE // 2, y + high), (x + WIDE // 2, to)]
        side, other = ("right", "right") if a == b else ("right", "left") if a < b else ("left", "right")
        points = [self.port(area, side)]
        end = self.port(below, other)
        passed = list(range(a, b)) if a < b else list(range(a - 1, b - 1, -1)) if a > b else [a]
        for i, c in enumerate(passed):
            track = self.channel(c)
            points.append((track, points[-1][1]))
            last = i == len(passed) - 1
            crossed = c + 1 if a < b else c
            points.append((track, end[1] if last else self.gap(crossed, end[1])))
        return points + [end]


def crates_picture():
    """The crates by areas; lines that others imply are left out."""
    lines = areas.read_lines()
    found = list(areas.all_faults())
    of = {area: crates for area, (_, crates) in areas.read_areas(lines).items() if area != "Tests"}
    found += [f"pictures: the area {area} has no column, or is no area" for area in set(of) ^ set(sum(COLUMNS, []))]
    if found:
        sys.exit("\n".join(found))
    area_of = {crate: area for area, crates in of.items() for crate in crates}
    uses = {area: sorted({area_of[it] for crate in crates for it in areas.uses_of(lines)[crate]} - {area}) for area, crates in of.items()}
    layout = Layout(of)
    p = Picture(LEFT + len(COLUMNS) * (WIDE + CHANNEL), layout.bottom + 40, "The crates and what uses what")
    for area, belows in reduced(uses).items():
        for below in belows:
            p.arrow(layout.way(area, below))
    for area, (x, y, high) in layout.boxes.items():
        p.parts.append(f'<rect x="{x}" y="{y}" width="{WIDE}" height="{high}" rx="6" class="area"/>')
        p.text(x + 10, y + 21, area, "title", "start")
        step = (WIDE - 12) / 2
        for i, name in enumerate(of[area]):
            kind = "quorum" if name.endswith("_defs") else "end" if name.endswith(("_laws", "_rows")) else "box"
            left, top = x + 8 + step * (i % 2), y + 32 + 27 * (i // 2)
            p.parts.append(f'<rect x="{left:g}" y="{top}" width="{step - 4:g}" height="23" rx="4" class="{kind}"/>')
            p.text(left + (step - 4) / 2, top + 16, name)
    p.text(
        LEFT, layout.bottom + 26,
        "Green: definitions. Yellow: laws and rows. Blue: code. An arrow leads from an area to one that it uses;"
        " arrows that others imply are left out.",
        "small", "start",
    )
    p.write("crates")


SCHEDULE = [
    ("52505331", "magic, the letters RPS1"),
    ("00", "scheme: plain signatures"),
    ("00000000000000000000000000000000", "the group's name"),
    ("01", "one process:"),
    ("00 00", "  number 0, correct"),
    ("00000000 .. 00000000", "  its key, 32 bytes"),
    ("000186a0", "  signs 100,000 statements"),
    ("01", "a first view of one member:"),
    ("00", "  process 0"),
    ("01 00 0002 6869", "Submit at 0: two bytes, hi"),
]


def schedule():
    """A small schedule, byte by byte, beside its report."""
    report = (TOP / "examples" / "one_member.report").read_text().splitlines()
    drawn = "".join(field for field, _ in SCHEDULE).replace("00000000 .. 00000000", "00" * 32)
    if bytes.fromhex(drawn) != (TOP / "examples" / "one_member.rps").read_bytes():
        sys.exit("pictures: the schedule that is drawn is not examples/one_member.rps")
    p = Picture(860, 290, "A schedule of one event, byte by byte, and its report")
    p.text(20, 28, "the schedule's bytes", "title", "start")
    p.text(585, 28, "its report", "title", "start")
    for i, (field, meaning) in enumerate(SCHEDULE):
        y = 56 + 22 * i
        p.text(20, y, field, "mono", "start")
        p.text(290, y, meaning, "small", "start")
    for i, line in enumerate(report):
        p.text(600, 56 + 22 * i, line, "mono", "start")
    p.parts.append('<rect x="585" y="36" width="255" height="%d" rx="5" class="plain"/>' % (22 * len(report) + 8))
    p.arrow([(500, 120), (578, 120)], "replay", (538, 110))
    p.write("schedule")


PICTURES = {"view": view, "phases": phases, "crates": crates_picture, "schedule": schedule}


def main(words):
    for name in words or PICTURES:
        if name not in PICTURES:
            sys.exit(f"pictures: no picture {name}; there are: {' '.join(PICTURES)}")
        PICTURES[name]()


if __name__ == "__main__":
    main(sys.argv[1:])
