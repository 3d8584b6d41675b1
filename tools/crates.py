#!/usr/bin/env python3
"""The page of the crates, docs/CRATES.md, and its picture, docs/pictures/crates.svg: both made from crates.txt and the sources.

Usage: crates.py            compares both files with what they should be; a file that differs is said, and the status is then 1.
       crates.py --write    writes them anew.

A box of the picture is a crate, a frame a group of crates.txt with its heading. A line leads from a crate to one that it rests on and that no other of
those rests on: what follows from other lines is not drawn. A group lies above all that it rests on; in a frame, what a crate rests on is to its left.
Marked are the crates that have an entry point (the first table of docs/PROMISES.md), the theorems of demand 3 as a whole (docs/RULES.md), theorems
and no function, a program, or tests only. The page has a line for each crate: the first sentence of the first comment of its lib.rt or main.rt.
"""
import collections
import functools
import pathlib
import re
import sys

sys.dont_write_bytecode = True  # nothing is left beside the tests
sys.path.insert(0, str(pathlib.Path(__file__).resolve().parent.parent / "tests"))
import names  # noqa: E402
import promises  # noqa: E402
import rules  # noqa: E402
from timeline import FONT, Picture, short, width_of, wrapped  # noqa: E402

PAGE = names.ROOT / "docs" / "CRATES.md"
PICTURE = names.ROOT / "docs" / "pictures" / "crates.svg"


# ---- the crates

@functools.cache
def resting():
    """Each crate with those of crates.txt that it rests on; a package of the language's is none."""
    found = {}
    for _, own in names.groups():
        for crate, on in own.items():
            below = [other for other in on if other in names.crates_of(names.groups())]
            if not set(below) <= set(found):
                raise names.Unreadable(f"crates.txt: {crate} rests on a crate that stands below it")
            found[crate] = below
    return found


@functools.cache
def all_below(crate):
    return frozenset(resting()[crate]).union(*(all_below(other) for other in resting()[crate]))


@functools.cache
def direct():
    """Each crate with those that it rests on and that no other of these rests on."""
    return {crate: [one for one in on if not any(one in all_below(other) for other in on)] for crate, on in resting().items()}


def source(crate):
    library, program = (names.ROOT / "crates" / crate / "src" / file for file in ("lib.rt", "main.rt"))
    return program if program.exists() else library


@functools.cache
def kind(crate):
    """What marks a crate: one of KINDS; one that exports another's functions to C is marked as that one is."""
    crate = names.exports().get(crate, crate)
    if crate in rules.TESTS:
        return "tests"
    if names.program_of(crate):
        return "program"
    if crate in {theorem.split("/")[0] for theorem in rules.demand()}:
        return "demand"
    if crate in {function.split("::")[0] for function in promises.entry_points()}:
        return "entry"
    return "code" if names.FUNCTION.search(names.code(source(crate))) else "theorems"


KINDS = {
    "demand": "demand 3 as a whole",
    "entry": "code with an entry point",
    "code": "code",
    "theorems": "theorems only",
    "program": "a program, or a part of one",
    "tests": "for tests only",
}


# ---- the picture's places: whole numbers, so that they are the same wherever they are worked out

HIGH, SIZE, NOTE = 42, 18, 13  # a box, its letters, those of a note in it
PAD, GAP, APART, LANE, BY = 16, 20, 30, 18, 14  # around boxes, between them, between frames, a line that goes by, beside it
HEADING, LEADING = 15, 19  # a heading's letters, its lines
LEAST, MORE = 50, 3  # between two levels: without lines, for each line
MARGIN, ABOVE = 30, 150  # around all; room for title and legend
WIDER = 1.1  # some fonts are wider than the widths that are known here

Frame = collections.namedtuple("Frame", "heading crates")


def note(crate):
    return "demand 3" if kind(crate) == "demand" else ""


def box_width(crate):
    return max(84, int(width_of(crate, SIZE, True) * WIDER) + 18)


@functools.cache
def frames():
    return [Frame(heading, tuple(own)) for heading, own in names.groups()]


@functools.cache
def frame_of():
    return {crate: frame for frame in frames() for crate in frame.crates}


@functools.cache
def frame_width(frame):
    return max(205, sum(box_width(crate) + GAP for crate in frame.crates) - GAP + 2 * PAD)


@functools.cache
def boxes(frame):
    """Where the boxes of a frame stand in it: crate to (left, right)."""
    at, places = (frame_width(frame) - sum(box_width(crate) + GAP for crate in frame.crates) + GAP) // 2, {}
    for crate in frame.crates:
        places[crate] = (at, at + box_width(crate))
        at += box_width(crate) + GAP
    return places


@functools.cache
def outside():
    """The lines from frame to frame, as (crate, the one that it rests on)."""
    return [(crate, other) for crate, on in direct().items() for other in on if frame_of()[crate] != frame_of()[other]]


def lanes(levels):
    """The lines that go by a level: of each crate one for all that rest on it, as (crate, level)."""
    return {(other, level) for crate, other in outside() for level in range(levels[frame_of()[other]] + 1, levels[frame_of()[crate]])}


def price(levels):
    """What an order of levels costs: lines that go by, and width, a wide level more than two of half of it."""
    wide = collections.Counter()
    for frame, level in levels.items():
        wide[level] += frame_width(frame) + APART
    for _, level in lanes(levels):
        wide[level] += LANE + BY
    return 60 * len(lanes(levels)) + sum(one * one for one in wide.values()) // 1000


@functools.cache
def levels_of_frames():
    """Each group above all that it rests on, and as high as makes the price least."""
    users, levels = collections.defaultdict(set), {}
    for crate, other in outside():
        users[frame_of()[other]].add(frame_of()[crate])
    for frame in frames():
        levels[frame] = max((levels[below] + 1 for below in levels if frame in users[below]), default=0)
    for _ in range(3):
        for frame in reversed(frames()):
            highest = min((levels[user] for user in users[frame]), default=levels[frame] + 1)
            lowest = max((levels[below] + 1 for below in frames() if frame in users[below]), default=0)
            levels[frame] = min(range(lowest, highest), key=lambda level: (price({**levels, frame: level}), -level))
    return levels


class Layout:
    """Nodes on levels: frames, and lanes as (crate, level). `at` is a node's left edge; an end of a line is a node and how far in it."""

    def __init__(self):
        self.level = dict(levels_of_frames())
        self.level.update({lane: lane[1] for lane in sorted(lanes(self.level))})
        self.width = {node: frame_width(node) if isinstance(node, Frame) else LANE for node in self.level}
        self.levels = [[node for node in self.level if self.level[node] == number] for number in range(1 + max(self.level.values()))]
        self.pieces = {}  # of the lines, each from a level to the one below: (upper end, lower end, the crate it leads to)
        for crate, other in outside():
            self.lead(crate, other)
        self.near = collections.defaultdict(list)
        for above, below, _ in self.pieces:
            self.near[above[0]].append((above, below))
            self.near[below[0]].append((below, above))
        self.at = {}
        for level in self.levels:
            self.spread(level, dict.fromkeys(level, 0))

    def lead(self, crate, other):
        end = self.middle(crate)
        for level in range(self.level[frame_of()[crate]] - 1, self.level[frame_of()[other]], -1):
            lane = ((other, level), LANE // 2)
            self.pieces[end, lane, other] = None
            end = lane
        self.pieces[end, self.middle(other), other] = None

    def middle(self, crate):
        return frame_of()[crate], sum(boxes(frame_of()[crate])[crate]) // 2

    def x(self, end):
        return self.at[end[0]] + end[1]

    def spread(self, level, wish):
        """Puts the nodes of a level, in their order, as near to where they are wished as the room between them lets."""
        offsets = [0]
        for one, other in zip(level, level[1:]):
            offsets.append(offsets[-1] + self.width[one] + (APART if isinstance(one, Frame) and isinstance(other, Frame) else BY))
        blocks = []  # nodes that touch: the sum of their wishes by weight, the weight, how many
        for node, offset in zip(level, offsets):
            weight = max(1, len(self.near[node]))
            blocks.append([(wish[node] - offset) * weight, weight, 1])
            while len(blocks) > 1 and blocks[-2][0] * blocks[-1][1] > blocks[-1][0] * blocks[-2][1]:
                last = blocks.pop()
                blocks[-1] = [a + b for a, b in zip(blocks[-1], last)]
        places = [total // weight for total, weight, many in blocks for _ in range(many)]
        self.at.update((node, place + offset) for node, place, offset in zip(level, places, offsets))

    def wished(self, node, levels):
        """Where a node would have its lines to some levels upright; where it has none, as it is."""
        found = [self.x(far) - near[1] for near, far in self.near[node] if self.level[far[0]] in levels]
        return sum(found) // len(found) if found else self.at[node]

    def sweep(self, upwards, sorting):
        """Level after level: nodes go to where the lines to the level before lead, or with no sorting to where those to both levels do."""
        numbers = range(len(self.levels))
        for number in numbers if upwards else reversed(numbers):
            near = (number - 1, number + 1) if not sorting else (number - 1,) if upwards else (number + 1,)
            wish = {node: self.wished(node, near) for node in self.levels[number]}
            if sorting:
                self.levels[number].sort(key=lambda node: 2 * wish[node] + self.width[node])
            self.spread(self.levels[number], wish)

    def settle(self):
        for turn in range(6):
            self.sweep(turn % 2 == 0, False)

    def cost(self):
        """Crossings are dear, and long ways have their price."""
        crossings, by_level = 0, collections.defaultdict(list)
        for above, below, _ in self.pieces:
            by_level[self.level[above[0]]].append((self.x(above), self.x(below)))
        for pieces in by_level.values():
            pieces.sort()
            crossings += sum(b > d for at, (a, b) in enumerate(pieces) for c, d in pieces[at + 1 :] if a < c)
        return 400 * crossings + sum(abs(a - b) for pieces in by_level.values() for a, b in pieces)

    def kept(self):
        return [list(level) for level in self.levels], dict(self.at)

    def restore(self, kept):
        self.levels, self.at = [list(level) for level in kept[0]], dict(kept[1])

    def arrange(self):
        best = None
        for turn in range(16):
            self.sweep(turn % 2 == 0, True)
            self.settle()
            if best is None or self.cost() < best[0]:
                best = (self.cost(), self.kept())
        self.restore(best[1])
        cost, better = best[0], True
        while better:
            better = False
            for number, level in enumerate(self.levels):
                for at in range(len(level) - 1):
                    before = self.kept()
                    level = self.levels[number]
                    level[at : at + 2] = reversed(level[at : at + 2])
                    self.settle()
                    if self.cost() < cost:
                        cost, better = self.cost(), True
                    else:
                        self.restore(before)


# ---- the picture

STYLE = f"""
text {{ font-family: {FONT}; }}
.paper {{ fill: #ffffff; }} .ink {{ fill: #111111; }} .pale {{ fill: #595959; }} .light {{ fill: #ffffff; }}
.frame {{ fill: #f6f6f4; stroke: #c4c4bf; stroke-width: 1.5; }}
.heading {{ fill: #222222; stroke: #f6f6f4; stroke-width: 6px; paint-order: stroke; }}
.way {{ fill: none; stroke-width: 2; }} .last {{ fill: none; stroke-width: 2; stroke-opacity: 0.4; }}
.code {{ fill: #ffffff; stroke: #2b5d8c; stroke-width: 2; }}
.entry {{ fill: #1d4e9e; stroke: #12326a; stroke-width: 2; }}
.theorems {{ fill: #e1f2e4; stroke: #17803a; stroke-width: 2; }}
.demand {{ fill: #17803a; stroke: #0c4d22; stroke-width: 2; }}
.program {{ fill: #2b2b2b; stroke: #000000; stroke-width: 2; }}
.tests {{ fill: #ececec; stroke: #6e6e6e; stroke-width: 2; stroke-dasharray: 6 4; }}
"""
WAYS = ["#2b5d8c", "#b3121d", "#17803a", "#a86400", "#5e2090", "#0b8a84", "#8a3a7a", "#6e6e6e"]
LIGHT = ("entry", "demand", "program")
BOLD = ("entry", "demand")
TITLE = "The crates, and what each rests on"
SAID = "A line leads down from a crate to one that it rests on; in a frame, to the left. What follows from other lines is not drawn."


def headed(frame):
    """The lines of a frame's heading."""
    return wrapped(frame.heading, HEADING, (frame_width(frame) - 2 * PAD) / WIDER)


class Drawing:
    def __init__(self):
        self.layout, self.picture = Layout(), Picture()
        self.layout.arrange()
        left = min(self.layout.at.values())
        self.layout.at = {node: at - left + MARGIN for node, at in self.layout.at.items()}
        self.width = max(at + self.layout.width[node] for node, at in self.layout.at.items()) + MARGIN
        self.top, y = {}, ABOVE
        for number in reversed(range(len(self.layout.levels))):
            self.top[number] = y
            y += self.height(number) + LEAST + MORE * sum(self.layout.level[above[0]] == number for above, _, _ in self.layout.pieces)
        self.bottom = self.top[0] + self.height(0) + MARGIN

    @functools.cache
    def height(self, number):
        lines = max(len(headed(frame)) for frame in frames() if self.layout.level[frame] == number)
        return lines * LEADING + HIGH + 2 * PAD + 18

    def box(self, crate):
        """Left, top, right and bottom of a crate's box."""
        frame = frame_of()[crate]
        left, right = boxes(frame)[crate]
        bottom = self.top[self.layout.level[frame]] + self.height(self.layout.level[frame]) - PAD
        return self.layout.at[frame] + left, bottom - HIGH, self.layout.at[frame] + right, bottom

    def way(self, crate, path, class_="way"):
        self.picture.element("path", d=path, class_=class_, stroke=WAYS[names.crates_of(names.groups()).index(crate) % len(WAYS)])

    def draw(self):
        for frame in frames():
            level = self.layout.level[frame]
            self.picture.rect(self.layout.at[frame], self.top[level], frame_width(frame), self.height(level), "frame", rx=8)
        self.draw_ways()
        for crate, on in direct().items():
            for other in on:
                if frame_of()[crate] == frame_of()[other]:
                    self.draw_beside(crate, other)
        for frame in frames():
            self.draw_frame(frame)
        self.draw_legend()

    def draw_legend(self):
        self.picture.text(MARGIN, 42, TITLE, 30, anchor="start", bold=True)
        self.picture.text(MARGIN, 76, SAID, 16, "pale", "start")
        x = MARGIN
        for mark, said in KINDS.items():
            self.picture.rect(x, 98, 34, 22, mark, rx=5)
            self.picture.text(x + 44, 109, said, 16, anchor="start")
            x += 44 + int(width_of(said, 16) * WIDER) + 30

    def draw_frame(self, frame):
        for at, line in enumerate(headed(frame)):
            self.picture.text(self.layout.at[frame] + PAD, self.top[self.layout.level[frame]] + 20 + at * LEADING, line, HEADING, "heading", "start")
        for crate in frame.crates:
            left, top, right, bottom = self.box(crate)
            self.picture.rect(left, top, right - left, HIGH, kind(crate), rx=6)
            class_, x, y = "light" if kind(crate) in LIGHT else "ink", (left + right) // 2, (top + bottom) // 2
            self.picture.text(x, y - 8 if note(crate) else y, crate, SIZE, class_, bold=kind(crate) in BOLD)
            if note(crate):
                self.picture.text(x, y + 11, note(crate), NOTE, class_)

    def draw_ways(self):
        feet = self.feet()
        for above, below, crate in self.layout.pieces:
            x1, y1 = feet[above, crate]
            x2, y2 = self.layout.x(below), self.top[self.layout.level[below[0]]]
            self.way(crate, f"M {x1} {y1} C {x1} {(y1 + y2) // 2} {x2} {(y1 + y2) // 2} {x2} {y2}")
        for crate in {crate: None for _, crate in outside()}:
            left, top, right, _ = self.box(crate)
            self.way(crate, f"M {(left + right) // 2} {self.top[self.layout.level[frame_of()[crate]]]} V {top}", "last")
        for node, at in self.layout.at.items():
            if not isinstance(node, Frame):
                y = self.top[node[1]]
                self.way(node[0], f"M {at + LANE // 2} {y} V {y + self.height(node[1])}")

    def draw_beside(self, crate, other):
        """A line in a frame: straight to the next box, and above those that are between."""
        _, top, right, _ = self.box(other)
        left, own = self.box(crate)[0], frame_of()[crate].crates
        if own.index(crate) == own.index(other) + 1:
            self.way(other, f"M {right} {top + HIGH // 2} H {left}")
        else:
            self.way(other, f"M {right - 14} {top} C {right - 14} {top - 20} {left + 14} {top - 20} {left + 14} {top}")

    def feet(self):
        """Where each piece of a line begins: below a lane, or below a crate's box, side by side in the order of where they lead."""
        found, leading = {}, collections.defaultdict(list)
        for above, below, crate in self.layout.pieces:
            leading[above].append((self.layout.x(below), crate))
        for above, ways in leading.items():
            node, inner = above
            y, room = self.top[self.layout.level[node]] + self.height(self.layout.level[node]), 0
            if isinstance(node, Frame):
                y, room = y - PAD, next(right - left for left, right in boxes(node).values() if left <= inner <= right) - 20
            for at, (_, crate) in enumerate(sorted(ways)):
                found[above, crate] = self.layout.x(above) + room * (2 * at + 1 - len(ways)) // (2 * len(ways)), y
        return found


def drawn():
    drawing = Drawing()
    drawing.draw()
    width, height = short(drawing.width), short(drawing.bottom)
    head = ['<?xml version="1.0" encoding="UTF-8"?>',
            f'<svg xmlns="http://www.w3.org/2000/svg" viewBox="0 0 {width} {height}">',
            f"<title>{TITLE}</title>",
            f"<style>{STYLE}</style>",
            f'<rect width="{width}" height="{height}" class="paper"/>']
    return "\n".join([*head, *drawing.picture.lines, "</svg>", ""])


# ---- the page

PAGE_ABOVE = """# The crates

Made from [crates.txt](../crates.txt), which says what each crate rests on, and from the sources, by [tools/crates.py](../tools/crates.py); the gate compares. A box is a crate, a frame a group of crates.txt. A line leads down from a crate to one that it rests on, and in a frame to the left.
What follows from other lines is not drawn, and neither are the packages that come with the language.

![{alt}](pictures/crates.svg)

Each crate with the first sentence of its source; in brackets, what the picture marks it as.
"""
FIRST = re.compile(r"(?://[^\n]*\n)+")
SENTENCE = re.compile(r".*?[.](?=\s|$)|.+", re.S)


def first_sentence(crate):
    found = FIRST.match(names.text_of(source(crate)))
    if not found:
        raise names.Unreadable(f"{names.shown(source(crate))}: no comment at its begin")
    return SENTENCE.match(" ".join(line[2:].strip() for line in found[0].splitlines()))[0]


def marked(mark):
    return ", ".join(crate for crate in resting() if kind(crate) == mark)


def page():
    text = PAGE_ABOVE.format(alt=f"{TITLE}: demand 3 in {marked('demand')}; entry points in {marked('entry')}")
    for heading, own in names.groups():
        text += f"\n## {heading}\n\n"
        for crate in own:
            text += f"- [{crate}](../{names.shown(source(crate))}){'' if kind(crate) == 'code' else f' ({KINDS[kind(crate)]})'}: {first_sentence(crate)}\n"
    return text


def main():
    if sys.argv[1:] not in ([], ["--check"], ["--write"]):
        print(__doc__.split("\n\n")[1], file=sys.stderr)
        return 2
    wrong = 0
    try:
        for file, want in ((PAGE, page()), (PICTURE, drawn())):
            if sys.argv[1:] == ["--write"]:
                file.write_text(want, encoding="utf-8")
            elif not file.exists() or names.text_of(file) != want:
                print(f"{names.shown(file)}: not what crates.txt and the sources give (tools/crates.py --write writes it)")
                wrong += 1
    except (OSError, UnicodeDecodeError, names.Unreadable) as fault:
        print(f"crates.py: {fault}", file=sys.stderr)
        return 2
    print(f"crates: {len(resting())} crates in {len(names.groups())} groups, {sum(map(len, direct().values()))} lines; wrong: {wrong}")
    return 1 if wrong else 0


if __name__ == "__main__":
    sys.exit(main())
