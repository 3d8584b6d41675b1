#!/usr/bin/env python3
"""Draws a bench run as a time line, for a projector: an SVG picture, units from left to right.

    bench < SCRIPT | tools/timeline.py [--script SCRIPT] [--all] [-o PICTURE]
    tools/timeline.py [--script SCRIPT] [--all] [-o PICTURE] PRINTED

Read is what the bench printed (docs/BENCH.md). A column is a call of the sink, or a refusal: a refusal is no unit and has
no number. With the script its first comment is the title, what was done to a unit on the line stands above the unit,
comments and settings have letters, and what was asked of the catalogue and of the host's functions stands below with its
answers; where a character of a trace is refused, its place and its byte stand there too. Rows in which nothing stands are named at the foot and not drawn, but with --all. The picture has no size of its
own: it fills a screen or a page. docs/PICTURES.md says what the rows are.

Input that is not understood, or that has nothing in it to be drawn, gives a message and exit status 1, and no picture.
"""

import argparse
import functools
import itertools
import os
import re
import sys
from xml.sax.saxutils import escape, quoteattr

sys.dont_write_bytecode = True  # nothing is left beside the tools
import script  # noqa: E402

MOST, MOST_LINES = 2000, 8  # columns in one picture; lines of bytes that were asked about, and of an answer
WRAPPED, LONG_TITLE = 70, 110  # characters of a comment's line that may go on below, and of a title of more than one sentence
LONGEST = 1000  # characters of a comment that are drawn

# What has a row of its own with a bar in it: for each group its names in the order of the rows, and what a tester calls them. A defect or a
# cause that a request brings is added here; until then the picture of a run that names it is refused, for it would not show all.
BARS = {
    "defects": {"dUNEQ": "", "dTIM": "", "dPLM": "", "dRDI": ""},
    "actions": {"SSF": "", "TSF": "", "AIS": "", "RDI": ""},
    "causes": {"cAIS": "AU-AIS", "cLOP": "AU-LOP", "cSSF": "HP-SSF", "cUNEQ": "HP-UNEQ", "cTIM": "HP-TIM", "cRDI": "HP-RDI", "cPLM": "HP-PLM"},
}
ALL_BARS = [name for names in BARS.values() for name in names]
# The fields of a unit, and of a container that ended, which the picture shows or may leave out.
FIELDS = {"c", *script.SINK}
CONTAINER = {"in", "place", "fnv", "v", "p", "fe"}

# ---------------------------------------------------------------------------
# Traces and other bytes
# ---------------------------------------------------------------------------

# In a text of the picture these stand around what is drawn in a face of fixed width, and this in the place of a blank that is to be seen.
OPEN, CLOSE, BLANK = "\ue000", "\ue001", "\u00b7"


def fixed(text):
    return OPEN + text.replace(" ", BLANK) + CLOSE


def as_printed(text):
    """What the bench prints: of its blanks only those of a trace, in brackets, are to be seen."""
    return OPEN + re.sub(r"\[.*\]| ", lambda found: "\u00a0" if found[0] == " " else found[0].replace(" ", BLANK), text) + CLOSE


def digits(data):
    return data.hex().upper()


def trace_text(data):
    """A trace as the listing has it, in brackets; its digits where a character cannot be shown."""
    return f"[{data.decode('ascii')}]" if all(0x20 <= byte <= 0x7E for byte in data) else digits(data)


def readable(data):
    """Whether a text can be shown line by line."""
    return all(len(line) <= script.LONGEST_TEXT_LINE and all(0x20 <= byte <= 0x7E for byte in line) for line, _ in script.text_lines(data))


def bytes_lines(name, data):
    """Bytes that something was asked about, in lines: digits, but for a trace. A catalogue has a line for each record, a text for each of its own,
    in brackets and with its LF."""
    if name == "check" and 1 < len(data) <= 16:
        return [f"{digits(data[:1])} {trace_text(data[1:])}"]
    if name == "import" and readable(data):
        lines = [f"[{line.decode('ascii')}]{' LF' if ended else ''}" for line, ended in script.text_lines(data)]
    elif name in ("cat", "lookup", "list", "export") and len(data) % 21 == 0:
        records = [data[k : k + 21] for k in range(0, len(data), 21)]
        lines = [f"{digits(each[:2])} {digits(each[2:4])} {digits(each[4:5])} {trace_text(each[5:20])} {digits(each[20:])}" for each in records]
    else:
        lines = [digits(data[k : k + 24]) for k in range(0, len(data), 24)]
    return first_of(lines, f"{len(data)} bytes") or ["no bytes"]


def character_of(said, trace):
    """`character 3 is 09`, where a refusal names a character of this trace; none where it names none."""
    place = said["character"] if said else None
    return f"character {place} is {trace[place - 1]:02X}" if place and trace and place <= len(trace) else None


def first_of(lines, all_of_it):
    """As many lines as a picture has room for, and how much it would be."""
    return lines if len(lines) <= MOST_LINES else lines[:MOST_LINES] + [f"and so on: {all_of_it}"]


# ---------------------------------------------------------------------------
# The run
# ---------------------------------------------------------------------------


class Column:
    """A call of the sink, or what else was refused: what was sent, and what came of it. `fresh`: no unit was taken before since `fresh`."""

    def __init__(self, fresh, refused=None, marks=(), word=""):
        self.fresh, self.refused, self.marks, self.word = fresh, refused, list(marks), word
        self.unit = None


class Note:
    """What is said of the place of a column, in one or more texts."""

    def __init__(self, place, text):
        self.place, self.texts = place, [text]


def trace_in(step):
    """The trace of the record, or of the text's line, that the refusal of a character names; none where it names none."""
    if step.answer["record"]:
        return step.given["bytes"][21 * step.answer["record"] - 16 : 21 * step.answer["record"] - 1]
    try:
        return script.text_line(*script.text_lines(step.given["bytes"])[step.answer["line"] - 1])["trace"] if step.answer["character"] else b""
    except (IndexError, TypeError, script.Wrong):  # what was printed is of another text
        return b""


class Question:
    """What was asked of the catalogue or of a function of the host's: after how many units, the comment above it, the words, the bytes, what was printed."""

    def __init__(self, units, comment, step):
        self.units, self.comment = units, comment
        self.asked = step.name + (f" {step.given['circuit']}" if "circuit" in step.given else "")
        self.lines = [as_printed(line) for line in bytes_lines(step.name, step.given["bytes"])]
        texts = [said.text for said in step.said]
        texts = texts[1:] if len(texts) > 1 else texts  # a listing's heading says nothing where there are lines below it
        texts = first_of(texts, f"{len(texts)} lines")
        if step.answer.kind in ("import", "export"):  # a catalogue, a text
            data = step.answer["bytes"]
            texts = [f"{step.name} ok"] + (bytes_lines("cat" if step.name == "import" else "import", data) if data else [])
        self.answers = [as_printed(line) for line in texts]
        self.refused = step.answer.kind in ("refused", "listing")
        character = character_of(step.answer, trace_in(step))
        self.answers += [f"{'line' if step.name == 'import' else 'record'} {step.answer['line'] or step.answer['record']}, {character}"] if character else []


class Run:
    """The columns, and in the order of the script what is said and what was asked beside them."""

    def __init__(self):
        self.columns, self.remarks, self.title = [], [], None
        self.units = self.refusals = 0
        self.renew()

    def renew(self):
        """A fresh bench: nothing sent."""
        self.done = 0  # units sent since the sink was fed
        self.step = ""
        self.refusal = None  # of the source, until it is known whether the sink is called next
        self.new = True

    def note(self, text):
        last = self.remarks[-1] if self.remarks else None
        if isinstance(last, Note) and last.place == len(self.columns):
            last.texts.append(text)
        else:
            self.remarks.append(Note(len(self.columns), text))

    def no_sink(self):
        """What follows is no call of the sink: a refusal of the source that came last has a column of its own."""
        if self.refusal:
            self.columns.append(Column(self.new, self.refusal))
            self.refusal = None

    def sent(self, said):
        """What the source printed."""
        low, offset = said["word"] & 0x3FF, said["off"]
        self.step = ("" if low == offset else
                     "increment" if ((low ^ 0x2AA) + 1) % 783 == offset else "decrement")
        self.done += 1

    def marks(self, fed):
        """What is not plain about the line that the sink is fed; without a script less is known of it."""
        marks = [f"{self.done - 1} not fed"] if self.done > 1 else []
        if self.refusal:
            marks.append(self.refusal)
        if fed and fed.origin != "unit":
            marks.append({"ones": "all ones", "zeros": "all 00"}[fed.origin])
        elif self.done and self.step:
            marks.append(self.step)
        elif fed and fed.again and not self.refusal:
            marks.append("again")
        touched = fed.touched if fed else []
        changed = [given for name, given in touched if name == "xor"]
        if len(changed) > 1:
            marks.append(f"{len(changed)}\u00a0bytes xor")
        for name, given in touched:
            if name == "word":
                marks.append(f"word {given['word']:04X}")
            elif name == "len":
                marks.append(f"{given['length']}\u00a0bytes")
            elif len(changed) == 1:
                marks.append(f"byte\u00a0{given['place']} xor\u00a0{given['with']:02X}")
        return marks

    def fed(self, said, fed):
        """What the sink printed."""
        refused = said.text if said.kind == "refused" else None
        column = Column(self.new, refused, self.marks(fed), f"{fed.word:04X}" if fed and fed.word is not None else "")
        if not refused:
            check_fields(said)
            self.new = False
            self.units += 1
            column.unit = self.units
            column.state, column.ended = said["st"], said["ended"]
            column.offset = "" if said["off"] == "-" else str(said["off"])
            column.violations, column.returned = (sum(container[key] for container in said["c"]) for key in ("v", "fe"))
            column.violated = [container["p"] for container in said["c"]] if column.violations else []
            column.standing = {*said["d"], *said["cause"], *(name for name in BARS["actions"] if said[name.lower()])}
            column.settled, column.total = said["settled"] == 1, said["total"]
        self.columns.append(column)
        self.done, self.refusal = 0, None

    def printed(self, said, fed=None):
        """A printed line. A refusal has a column; the source's only where no call of the sink follows, for else it is said of that call's line."""
        call = said["call"] if said.kind == "refused" else None
        self.refusals += call in ("sink", "tx", "rx", "container", "unit")
        if said.kind == "ok" or call == "sink":
            self.fed(said, fed)
            return
        self.no_sink()
        if said.kind == "unit":
            self.sent(said)
        elif call in ("container", "unit"):
            self.refusal = said.text
        elif call in ("tx", "rx"):
            self.columns.append(Column(self.new, said.text))
        elif call:
            self.note(said.text)

    def end(self):
        self.no_sink()
        if self.done:
            self.note(f"{self.done} more sent and not fed" if self.done > 1 else "one more sent and not fed")
        if not self.columns and all(isinstance(remark, Note) for remark in self.remarks):
            raise script.Fault("no unit in it, no refusal and no question (questions are drawn with --script only)")
        if len(self.columns) > MOST:
            raise script.Fault(f"{len(self.columns)} calls are too many for a picture: at most {MOST}")
        # a place has one letter, whatever was asked between two texts; and where it is a unit's, its number need not be said
        first = {}
        for remark in [remark for remark in self.remarks if isinstance(remark, Note) and self.columns]:
            unit = self.columns[remark.place].unit if remark.place < len(self.columns) else None
            texts = [re.sub(rf"^[Uu]nit {unit}([.:] |$)", "", text) for text in remark.texts]
            remark.texts = [text for text in texts if text]
            if first.setdefault(remark.place, remark) is not remark:
                first[remark.place].texts += remark.texts
        self.remarks = [remark for remark in self.remarks if isinstance(remark, Question) or remark.texts and first.get(remark.place, remark) is remark]


def check_fields(said):
    """A Fault for what a picture of this bench has no place for."""
    extra = [name for name in said.fields if name not in FIELDS] + [name for container in said["c"] for name in container if name not in CONTAINER]
    for names, known in ((said["d"], BARS["defects"]), (said["cause"], BARS["causes"])):
        if names != [name for name in known if name in names]:
            extra += names
    if extra:
        raise script.Fault(f"{', '.join(extra)}: no picture has a place for that: {script.clean(said.text)[:100]}")


def prose(text):
    """A comment: what may be a trace in quotes has its blanks, and other blanks are one."""
    parts = re.split(r'("[^"]{1,15}")', text if len(text) <= LONGEST else text[:LONGEST] + "...")
    return " ".join("".join(fixed(part) if k % 2 else re.sub(" +", " ", part) for k, part in enumerate(parts)).split(" "))


def sent_text(given):
    returned = f", {given['violations']} violations returned" if given["violations"] else ""
    return f"sent: label {given['label']:02X} {as_printed(trace_text(given['trace']))}{returned}, {'' if given['remote'] else 'no '}remote defect"


def expected_text(given):
    reported = ", ".join(name for bit, name in ((2, "RDI"), (4, "SSF"), (8, "AIS")) if given["flags"] & bit)
    return (f"expected: label {given['label']:02X} {as_printed(trace_text(given['trace']))}, {'' if given['flags'] & 1 else 'not '}monitored, "
            f"{reported or 'nothing'} reported")


# What is noted of a command that sets something beside the line.
SETTINGS = {
    "tx": sent_text,
    "rx": expected_text,
    "fill": lambda given: f"held filled with {given['held']:02X}, done with {given['done']:02X}",
    "lens": lambda given: f"held of {given['held']} bytes, done of {given['done']}",
}
QUESTIONS = ("cat", "lookup", "list", "import", "export", "parity", "check", "read")
UNSEEN = ("show", "payload")  # nothing of them is in the picture, and the comment above is for the script's reader


def said_of(step, run):
    """What is noted of a command itself; "" for one that shows in a column."""
    if step.name == "?":
        words = b" ".join(step.line.words) or step.line.text
        return f"line {step.line.number} not understood: {fixed(script.shown(words))}: {script.clean(step.why)}"
    if step.name == "fresh":
        return "fresh: sources, sink and total begin anew" if run.columns else ""
    text = SETTINGS[step.name](step.given) if step.name in SETTINGS else ""
    character = character_of(step.answer, step.given["trace"]) if step.name in ("tx", "rx") else None
    return f"{text}; {character}" if character else text


def comment_of(line):
    """What a comment says; None where there is none."""
    return None if line.comment is None else line.comment.lstrip("#").strip()


def title_of(comments):
    """The first line of these; where its last sentence goes on below, that one too. Of it all the first sentence, and as many more as are short."""
    text, last = comments[0], comments[0]
    for line in comments[1:]:
        if re.search("[.?!:]$", last) or len(last) < WRAPPED and line[0].isupper():
            break
        text, last = f"{text} {line}", line
    sentences = re.findall(r"\S.*?[.?!](?= |$)|\S.*$", text)
    count = next((k for k in range(1, len(sentences)) if len(" ".join(sentences[: k + 1])) > LONG_TITLE), len(sentences))
    return " ".join(sentences[:count])


def with_script(lines, printed):
    """The run, line by line of its script; what was printed must be what this script prints.

    Comments right above a command and behind it are noted. Not so where an empty line or an empty comment stands between, nor `# see:`, which says in
    words what the picture shows, nor what begins with `# Question:` or `# Answer:`, which a class that looks at the picture is not to read."""
    run, comments, heading = Run(), [], ""
    for step in script.pair(lines, printed):
        text = comment_of(step.line)
        if step.name == "":
            if text and run.title is None:
                block = itertools.takewhile(lambda line: line.name == "" and comment_of(line), lines[step.line.number - 1 :])
                run.title = heading = title_of([comment_of(line) for line in block])
            if not text:
                comments, heading = [], ""
            elif not text.startswith("see:"):
                comments.append(text.removeprefix("not understood:").strip())  # which is said of the line below it
            continue
        begins = step.turn == 0 or step.turn == 1 and step.name == "src"
        behind = prose(text) if begins and text and not text.startswith("see:") else ""
        above = itertools.takewhile(lambda comment: not comment.startswith(("Question:", "Answer:")), comments)
        above, comments, heading = prose(" ".join(above).removeprefix(heading).strip()), [], ""
        if step.name != "sink":
            run.no_sink()
        if step.name in QUESTIONS:
            run.remarks.append(Question(run.units, " ".join([above, behind]).strip(), step))
            continue
        own = said_of(step, run)
        for note in (above, f"{own} # {behind}" if own and behind else own or behind):
            if note and step.name not in UNSEEN:
                run.note(note)
        if step.name == "fresh":
            run.renew()
        for said in step.said:
            run.printed(said, step.fed)
    run.end()
    return run


def without_script(printed):
    """The run as far as the printed lines tell it. What was done to a unit on the line they do not tell."""
    run = Run()
    for number, line in enumerate(printed, 1):
        said = script.read_printed(line)
        if said is None:
            raise script.Fault(f"printed line {number} is not understood: {script.clean(line)[:100]}{script.earlier(line)}")
        if said.kind == "?":
            run.no_sink()
            run.note(f"line {said['line']} of the script not understood")
        run.printed(said)
    run.end()
    total = None
    for column in run.columns:
        if column.unit:
            # a total that is not the one before, and one more where unsettled, was begun anew
            column.fresh = total is not None and column.total != min(total + (not column.settled), 65535)
            total = column.total
    return run


# ---------------------------------------------------------------------------
# Text in a picture
# ---------------------------------------------------------------------------

FONT = "Helvetica, Arial, 'Liberation Sans', 'DejaVu Sans', sans-serif"
FIXED = "'DejaVu Sans Mono', 'Liberation Mono', Menlo, Consolas, 'Courier New', monospace"


class Widths(dict):
    def __missing__(self, character):
        return 667


# Widths in thousandths of the size, of Helvetica; what is not here is 667.
WIDTHS = Widths({c: width for width, characters in (
    (222, "ijl'"), (278, " !,./:;I[]\\ft|\u00a0"), (333, "()-`r"), (360, '"*{}'), (500, "ckJsvxyz^"),
    (556, "0123456789abdeghnopqu#$?L_"), (584, "+<=>~"), (611, "FTZ"), (722, "CDHNRUw"), (778, "GOQ"),
    (833, "Mm"), (944, "W%"), (1015, "@")) for c in characters})


@functools.lru_cache(maxsize=None)
def thousandths(text):
    """How wide a text is at the size 1000; of fixed width each character has 602, and the marks around them nothing."""
    if OPEN not in text:
        return sum(map(WIDTHS.__getitem__, text))
    before, _, rest = text.partition(OPEN)
    inside, _, behind = rest.partition(CLOSE)
    return thousandths(before) + 602 * len(inside) + thousandths(behind)


def width_of(text, size, bold=False):
    """How wide a text is, a little more than it is in the fonts above."""
    return thousandths(text) * size / 1000 * (1.12 if bold else 1.05)


def parted(word, size, room, bold):
    """A word that is longer than a line, in two; the first has at least a character."""
    cut = next(k for k in range(1, len(word)) if width_of(word[: k + 1], size, bold) > room)
    first, rest = word[:cut], word[cut:]
    return (first + CLOSE, OPEN + rest) if first.count(OPEN) > first.count(CLOSE) else (first, rest)


def wrapped(text, size, width, bold=False, before=0):
    """The lines of a text; a word that is longer than a line is broken. Of the first line `before` is taken."""
    lines, line, wide, room = [], "", 0, width - before
    for word in text.split(" "):
        longer, long = (f"{line} {word}", wide + WIDTHS[" "] + thousandths(word)) if line else (word, thousandths(word))
        if line and long * size / 1000 * (1.12 if bold else 1.05) > room:
            lines.append(line)
            longer, long, room = word, thousandths(word), width
        line, wide = longer, long
        while width_of(line, size, bold) > room and len(line) > 1 + line.count(OPEN) + line.count(CLOSE):
            first, line = parted(line, size, room, bold)
            lines.append(first)
            wide, room = thousandths(line), width
    return lines + [line]


def spans(text):
    """The text as XML, with what is of fixed width in a face of its own, and blanks there in a light tone."""
    parts = re.split(f"{OPEN}(.*?){CLOSE}", text)
    return "".join(escape(part) if k % 2 == 0 else
                   '<tspan class="fixed">' + re.sub(f"{BLANK}+", r'<tspan class="blank">\g<0></tspan>', escape(part)) + "</tspan>"
                   for k, part in enumerate(parts))


def short(number):
    return f"{number:.1f}".rstrip("0").rstrip(".")


class Picture:
    """The lines of an SVG file."""

    def __init__(self):
        self.lines = []

    def element(self, name, content=None, **attributes):
        parts = [name]
        for key, value in attributes.items():
            value = short(value) if isinstance(value, (int, float)) else value
            parts.append(f"{key.rstrip('_').replace('_', '-')}={quoteattr(value)}")
        self.lines.append(f"<{' '.join(parts)}/>" if content is None else f"<{' '.join(parts)}>{spans(content)}</{name}>")

    def rect(self, x, y, width, height, class_, **more):
        self.element("rect", x=x, y=y, width=width, height=height, class_=class_, **more)

    def line(self, x1, y1, x2, y2, class_):
        self.element("line", x1=x1, y1=y1, x2=x2, y2=y2, class_=class_)

    def text(self, x, y, text, size, class_="ink", anchor="middle", bold=False, turned=False, **more):
        """`y` is the middle of the letters, and turned text goes upwards."""
        if bold:
            more["font_weight"] = "bold"
        if turned:
            more["transform"] = f"translate({short(x + 0.36 * size)} {short(y)}) rotate(-90)"
        else:
            more.update(x=x, y=y + 0.36 * size)
        self.element("text", text, class_=class_, font_size=size, text_anchor=anchor, **more)

    def fitted(self, x, y, width, height, texts, size, class_="ink", bold=False, plate="", least=0.5, **more):
        """Writes the first text that has room in the box: level, if need be smaller, else turned, else smaller still; none where none has.
        A plate is put behind it."""
        for turned, scales in ((False, (1, 0.85, 0.72)), (True, (1, 0.85, 0.72)), (False, (0.6, 0.5)), (True, (0.6, 0.5))):
            along, across = (height, width) if turned else (width, height)
            for now in (size * scale for scale in scales if scale >= least):
                for text in texts:
                    wide = width_of(text, now, bold)
                    if wide + min(5, 0.15 * along) <= along and now * 0.9 <= across:
                        if plate:
                            w, h = (min(now * 1.05, width), wide + 12) if turned else (min(wide + 14, width - 6), now * 1.15)
                            self.rect(x + width / 2 - w / 2, y + height / 2 - h / 2, w, h, plate, rx=4)
                        self.text(x + width / 2, y + height / 2, text, now, class_, bold=bold, turned=turned, **more)
                        return True
        return False


STYLE = f"""
@page {{ size: landscape; margin: 8mm; }}
text {{ font-family: {FONT}; }}
.fixed {{ font-family: {FIXED}; }} .blank {{ fill: #8a8a8a; }}
.paper {{ fill: #ffffff; }}
.ink {{ fill: #111111; }} .pale {{ fill: #595959; }} .light {{ fill: #ffffff; }} .warn {{ fill: #9c0f1a; }}
.over {{ fill: #111111; stroke: #ffffff; stroke-width: 7px; paint-order: stroke; }}
.unit {{ fill: none; stroke: none; }}
.grid {{ stroke: #d8d8d8; stroke-width: 1; }} .tens {{ stroke: #9a9a9a; stroke-width: 1.5; }} .edge {{ stroke: #111111; stroke-width: 2; }}
.rule {{ stroke: #b8b8b8; stroke-width: 1; }}
.anew {{ stroke: #111111; stroke-width: 4; stroke-dasharray: 10 6; }}
.mark {{ fill: #fff3bf; stroke: #6b5900; stroke-width: 1.5; }}
.flag {{ fill: #111111; }}
.plate {{ fill: #ffffff; }}
.normal {{ fill: #d5e6f6; stroke: #2b5d8c; stroke-width: 2; }}
.alarm {{ fill: url(#stripes); stroke: #7a4b00; stroke-width: 2; }}
.lost {{ fill: #2b2b2b; stroke: #000000; stroke-width: 2; }}
.offset {{ fill: #ffffff; stroke: #2b5d8c; stroke-width: 2; }}
.ended {{ fill: #0b6e69; }}
.violations {{ fill: #ffffff; stroke: #9c0f1a; stroke-width: 3; }}
.violated {{ fill: #9c0f1a; stroke: #9c0f1a; stroke-width: 1; }} .sound {{ fill: #ffffff; stroke: #b08a8d; stroke-width: 1; }}
.returned {{ fill: #ffffff; stroke: #1d4e9e; stroke-width: 3; }}
.defect {{ fill: #b3121d; }} .action {{ fill: #1d4e9e; }} .cause {{ fill: #5e2090; }}
.settled {{ fill: #17803a; }}
.unsettled {{ fill: #ffffff; stroke: #8a8a8a; stroke-width: 2; }}
.refused {{ fill: url(#hatch); stroke: #6e6e6e; stroke-width: 1.5; }}
"""

PATTERNS = [
    '<pattern id="stripes" width="16" height="16" patternUnits="userSpaceOnUse" patternTransform="rotate(45)">'
    '<rect width="16" height="16" fill="#ffd873"/><rect width="6" height="16" fill="#f2b22e"/></pattern>',
    '<pattern id="hatch" width="10" height="10" patternUnits="userSpaceOnUse" patternTransform="rotate(-45)">'
    '<rect width="10" height="10" fill="#f4f4f4"/><rect width="2.5" height="10" fill="#a8a8a8"/></pattern>',
]

# ---------------------------------------------------------------------------
# The picture
# ---------------------------------------------------------------------------

# Of all ways to lay a run out the one is taken that has the largest letters on these: a screen, which counts twice, and a page.
SHEETS = (1920, 1080), (1920, 1080), (1920, 1358)
LEAST_WIDTH, WIDER = 1280, 1.08  # the least width that is tried, and how much wider the next one is
MARGIN, GUTTER, RIGHT = 28, 336, 32
LEAST_CELL, GOOD_CELL, WIDEST_CELL = 13, 18, 260  # a unit's column; in one that is narrower than a good one the letters are small
LEAST_REFUSED, REFUSED = 26, 52  # a refused call's, which has less to say
ROOMY = 60  # from this width on a column has its values written in it
LEAST_NOTES, BETWEEN = 620, 40  # a column of notes, and what lies between two
NAME, VALUE, GROUP, SMALL = 27, 25, 22, 21  # sizes of type
LETTER, LINE = 34, 28  # from a note to the next, and from a line to the next within a box
BITS, BYTE = (13, 11, 9), 36  # how high a bit column is drawn in a roomy cell, a good one and one that is narrower; and the byte below, but in the last
AXIS, GAP = 44, 8  # the numbers of the units, and what lies above a group of rows


def bands_of(columns, count):
    """The columns of each band: as even as tens allow."""
    size = max(1, -(-len(columns) // count))
    if count > 1:
        size = -(-size // 10) * 10
    return [range(k, min(k + size, len(columns))) for k in range(0, len(columns), size)]


def cell_widths(columns, bands, room):
    """How wide a unit's column may be, and a refused call's."""
    widest = WIDEST_CELL
    if not any(column.unit for column in columns):
        alone = min(widest, int(room / max(map(len, bands), default=1)))
        return alone if alone >= LEAST_REFUSED else 0, alone
    for band in bands:
        units = sum(1 for place in band if columns[place].unit)
        refused = len(band) - units
        if len(band) * REFUSED <= room:
            widest = min(widest, (room - refused * REFUSED) / units if units else WIDEST_CELL)
        elif len(band) * LEAST_REFUSED <= room:
            widest = min(widest, room / len(band))
        else:
            widest = min(widest, (room - refused * LEAST_REFUSED) / units if units else 0)
    widest = int(widest * 10) / 10
    return widest, max(LEAST_REFUSED, min(widest, REFUSED))


def stretches(columns, places, value):
    """Neighbours of one value as (first place, last place, value). None is left out; a refused call parts them, and so does
    `fresh`, behind which there is another sink."""
    found = []
    for place in places:
        here = value(columns[place]) if columns[place].unit else None
        if here is None:
            continue
        if found and found[-1][1] == place - 1 and found[-1][2] == here and not columns[place].fresh:
            found[-1][1] = place
        else:
            found.append([place, place, here])
    return found


def balanced(heights, count):
    """The lengths of the columns, at most so many, into which things of these heights go one after another: as low as can be."""
    limit = max([sum(heights) / count, *heights])
    while True:
        lengths, high = [0], 0
        for height in heights:
            if high + height > limit:
                lengths.append(0)
                high = 0
            lengths[-1] += 1
            high += height
        if len(lengths) <= count:
            return lengths
        limit += LETTER / 2


HYPHENED = {"increment": "incre- ment", "decrement": "decre- ment"}


def brief(marks):
    """What was sent, for a narrow column."""
    marks = [re.sub(r"^container |^unit |^byte\u00a0\d+ (?=xor)", "", text) for text in marks]
    return ", ".join(text for text in marks if text != "again" or len(marks) == 1)


def letter(k):
    """A to Z, then AA and so on."""
    return (letter(k // 26 - 1) if k >= 26 else "") + chr(65 + k % 26)


class Drawing:
    """A run, and how it is drawn."""

    def __init__(self, run, title, every_row):
        self.run, self.columns, self.title, self.every_row = run, run.columns, title, every_row
        self.out = Picture()
        units = [column for column in self.columns if column.unit]
        self.last = units[-1].unit if units else 0
        stood = set().union(*(column.standing for column in units))
        self.never = [] if every_row or not units else [name for name in ALL_BARS if name not in stood]
        noted = [remark.place for remark in run.remarks if isinstance(remark, Note)] if self.columns else []
        self.letters = {place: letter(k) for k, place in enumerate(noted)}
        self.indent = 24 + max(width_of(mark, VALUE, True) for mark in self.letters.values()) if noted else 0
        self.intervals = {name: self.whole(name) for name in stood}
        self.asked = self.asked_columns()
        self.arrange(*self.best())

    def whole(self, name):
        """For each unit in which `name` stands the text of the interval that it is in. A refused call is in no interval
        and ends none."""
        texts, interval = {}, []
        for column in [column for column in self.columns if column.unit] + [None]:
            goes_on = column and name in column.standing
            if interval and (not goes_on or column.fresh):
                first, last = interval[0], interval[-1]
                long = f"unit {first}" if first == last else f"from {first} on" if last == self.last else f"{first} to {last}"
                short_text = f"{first}" if first == last else f"{first}\u2013" if last == self.last else f"{first}\u2013{last}"
                texts.update(dict.fromkeys(interval, (long, short_text)))
                interval = []
            if goes_on:
                interval.append(column.unit)
        return texts

    # -- where everything stands

    def best(self):
        """The bands and the width of the picture with which its letters are largest."""
        found = 0, None, None
        for count in range(1, len(self.columns) // 20 + 2):
            bands, width = bands_of(self.columns, count), max(LEAST_WIDTH, int(self.asked[-1]) + 2 * MARGIN)
            while sum(wide / width for wide, _ in SHEETS) > found[0]:
                if cell_widths(self.columns, bands, width - GUTTER - RIGHT)[0] >= LEAST_CELL:
                    self.arrange(bands, width)
                    scale = sum(min(wide / width, high / self.height) for wide, high in SHEETS) * (1 + min(1, self.cell / GOOD_CELL)) / 2
                    if scale > found[0] * 1.005:
                        found = scale, bands, width
                width = int(width * WIDER)
            if sum(high / (400 * count) for _, high in SHEETS) < found[0]:
                break  # no band is lower than that
        return found[1:]

    def arrange(self, bands, width):
        """Places for all things in these bands, in a picture of this width, and its height."""
        self.bands, self.width = bands, width
        self.cell, narrow = cell_widths(self.columns, bands, width - GUTTER - RIGHT)
        self.roomy = self.cell >= ROOMY
        self.bit, self.byte = BITS[(not self.roomy) + (self.cell < GOOD_CELL)], BYTE if self.cell >= GOOD_CELL else 0
        self.at, self.end = {}, {}
        for band in bands:
            x = GUTTER
            for place in band:
                self.at[place], x = x, x + (self.cell if self.columns[place].unit else narrow)
                self.end[place] = x
        # a little smaller where that saves a line
        self.heading = min(((size, wrapped(self.title, size, width - 2 * MARGIN, True)) for size in (42, 40, 38, 36)), key=lambda tried: len(tried[1]))
        self.rows_of = [self.rows(band) for band in bands]
        self.flags_of = [self.flag_levels(band) for band in bands]
        self.remarks_high, self.remarks_wide, self.remarks_in = self.remark_columns()
        self.foot = wrapped(self.foot_text(), VALUE, width - 2 * MARGIN) if self.foot_text() else []
        self.height = 24 + 50 * len(self.heading[1]) + 44 + sum(self.band_height(k) + 26 for k in range(len(bands)))
        self.height += self.remarks_high + LETTER * len(self.foot) + 20

    def band_height(self, k):
        return self.flags_of[k][1] * LETTER + AXIS + sum(row[3] for row in self.rows_of[k]) + GAP * len({row[0] for row in self.rows_of[k]})

    def span(self, first, last):
        """Where columns begin, and how wide they are."""
        return self.at[first], self.end[last] - self.at[first]

    def middle(self, place):
        return (self.at[place] + self.end[place]) / 2

    def foot_text(self):
        never = f"Not once in this run: {', '.join(self.never)}." if self.never else ""
        texts = [text for remark in self.run.remarks for text in (remark.texts if isinstance(remark, Note) else [remark.comment, *remark.lines])]
        return f"{never} In a trace {fixed(' ')} is a blank." if any(BLANK in text for text in texts) else never

    # -- rows: each draws itself from y on in a band; its height is said beforehand

    def rows(self, band):
        """The rows of a band: group, name, what a tester calls it, height, what draws it. A row in which nothing stands is left out."""
        columns = [self.columns[place] for place in band]
        units = [column for column in columns if column.unit]
        rows = []
        if any(column.marks for column in columns):
            rows.append(("line", "sent", "", self.marks_height(band), self.draw_marks))
        if self.roomy and any(column.word for column in columns):
            rows.append(("line", "word", "", 38, self.draw_words))
        rows.append(("pointer", "state", "", 48 if self.roomy else 58, self.draw_states))
        rows.append(("pointer", "offset", "", 46 if self.roomy else 52, self.draw_offsets))
        rows.append(("containers", "ended", "", 46 if self.roomy else 52, self.draw_ended))
        if self.every_row or any(column.violations for column in units):
            rows.append(("containers", "violations", "", 44, self.draw_violations))
            rows.append(("containers", "bit columns", "", 8 + 8 * self.bit + (self.byte or 8), self.draw_bit_columns))
        if self.every_row or any(column.returned for column in units):
            rows.append(("containers", "returned", "", 44, self.draw_returned))
        for group, names in BARS.items():
            for name, on_tester in names.items():
                if self.every_row or any(name in column.standing for column in units):
                    rows.append((group, name, on_tester, 40,
                                 lambda band, y, height, name=name, kind=group[:-1]: self.draw_bar(band, y, height, name, kind)))
        rows.append(("unit", "settled", "", 46, self.draw_settled))
        rows.append(("unsettled", "total", "", 40, self.draw_totals))
        return rows

    def mark_stretches(self, band):
        """What was sent: neighbours of which the same is said, and the lines of it, level or turned."""
        found = []
        for place in band:
            column = self.columns[place]
            if found and found[-1][1] == place - 1 and found[-1][2] == column.marks and not column.fresh:
                found[-1][1] = place
            else:
                found.append([place, place, column.marks])
        for first, last, texts in found:
            if texts:
                x, width = self.span(first, last)
                level = self.level_lines(texts, width - 8)
                side_by_side = width >= LINE * len(texts)
                yield x, width, level, [brief([text]) for text in texts] if side_by_side else [brief(texts)]

    def level_lines(self, texts, room):
        """Size and lines of texts that are written level, and "" between two texts; none where a word has no room. In a narrow column none is broken."""
        whole = texts if self.roomy else [brief(texts)]
        hyphened = [HYPHENED.get(text, text) for text in texts] if self.roomy else []
        for size, tried in ((VALUE, whole), (SMALL, whole), (VALUE, hyphened), (SMALL, hyphened)):
            if tried and all(width_of(word, size) <= room for text in tried for word in (text.split(" ") if self.roomy else [text])):
                return size, [line for text in tried for line in ["", *wrapped(text, size, room)]][1:]
        return None

    def marks_height(self, band):
        height = 44
        for _, _, level, turned in self.mark_stretches(band):
            height = max(height, 18 + LINE * len(level[1]) if level else 26 + max(width_of(text, SMALL) for text in turned))
        return height

    def draw_marks(self, band, y, height):
        for x, width, level, turned in self.mark_stretches(band):
            self.out.rect(x + 2, y + 5, width - 4, height - 10, "mark", rx=4, data_row="sent")
            size, lines = level or (min(SMALL, width), turned)
            for k, line in enumerate(lines):
                aside = (k - (len(lines) - 1) / 2) * LINE
                if not line:
                    self.out.line(x + 12, y + height / 2 + aside, x + width - 12, y + height / 2 + aside, "rule")
                elif level:
                    self.out.text(x + width / 2, y + height / 2 + aside, line, size)
                else:
                    self.out.text(x + width / 2 + aside, y + height / 2, line, size, turned=True)

    def draw_words(self, band, y, height):
        for place in band:
            if self.columns[place].word:
                self.out.text(self.middle(place), y + height / 2, self.columns[place].word, min(VALUE, self.span(place, place)[1] / 2.6))

    def draw_states(self, band, y, height):
        for first, last, state in stretches(self.columns, band, lambda column: column.state):
            x, width = self.span(first, last)
            self.out.rect(x + 1, y + 4, width - 2, height - 8, state, data_row="state")
            self.out.fitted(x, y + 4, width, height - 8, [state], NAME, "light" if state == "lost" else "ink", bold=True)

    def draw_offsets(self, band, y, height):
        for first, last, offset in stretches(self.columns, band, lambda column: column.offset or None):
            x, width = self.span(first, last)
            self.out.rect(x + 1, y + 4, width - 2, height - 8, "offset", data_row="offset")
            if self.roomy:
                for place in range(first, last + 1):
                    self.out.text(self.middle(place), y + height / 2, offset, NAME, bold=place == first)
            else:
                self.out.fitted(x, y + 4, width, height - 8, [offset], VALUE, bold=True)

    def draw_ended(self, band, y, height):
        """A box for each container that ended, with their number where there is room for it."""
        for place in band:
            column = self.columns[place]
            if not column.unit:
                continue
            middle, text = self.middle(place), str(column.ended)
            if self.roomy:
                side, gap = 26, 6
                left = middle - (column.ended * (side + gap) + width_of(text, NAME)) / 2
                for k in range(column.ended):
                    self.out.rect(left + k * (side + gap), y + height / 2 - side / 2, side, side, "ended", data_row="ended")
                self.out.text(left + column.ended * (side + gap), y + height / 2, text, NAME, anchor="start", bold=column.ended != 1)
                continue
            side = min(20, self.cell - 6)
            for k in range(column.ended):
                self.out.rect(middle - side / 2, y + height - 5 - (k + 1) * 21, side, 18, "ended", data_row="ended")
            if not column.ended:
                self.out.text(middle, y + height - 15, text, min(22, self.cell), "over", bold=True)

    def draw_numbers(self, band, y, height, value, kind):
        for place in band:
            column = self.columns[place]
            if not column.unit:
                continue
            number, middle = value(column), self.middle(place)
            if number:
                side = min(self.cell - 2, 64)
                self.out.rect(middle - side / 2, y + 5, side, height - 10, kind, rx=4, data_row=kind)
                self.out.fitted(middle - self.cell / 2, y + 4, self.cell, height - 8, [str(number)], VALUE, bold=True)
            elif self.roomy:
                self.out.text(middle, y + height / 2, "0", VALUE, "pale")

    def draw_violations(self, band, y, height):
        self.draw_numbers(band, y, height, lambda column: column.violations, "violations")

    def draw_bit_columns(self, band, y, height):
        """The eight bit columns of a container with violations, 1 at the top, the violated ones filled, and where there is room their byte below. Those of
        two containers of a unit stand side by side, so that it is seen whose they are; one column that comes back is one line through the units."""
        top, bit = y + 8, self.bit
        for level, what in ((bit / 2, "1"), (7.5 * bit, "8"), (8 * bit + BYTE / 2, "p="))[: 3 if self.byte else 2]:
            self.out.text(GUTTER - 14, top + level, what, SMALL, "pale", anchor="end")
        for number in range(9):
            self.out.line(GUTTER, top + number * bit, self.end[band[-1]], top + number * bit, "grid")
        for place in (place for place in band if self.columns[place].unit):
            (x, width), violated = self.span(place, place), self.columns[place].violated
            each = width / max(1, len(violated))
            side = min(each - (4 if self.roomy else 2), 36)
            for k, byte in enumerate(violated):
                for number in range(8):
                    kind = "violated" if byte & 0x80 >> number else "sound"
                    self.out.rect(x + (k + 0.5) * each - side / 2, top + number * bit + 1, side, bit - 2, kind, data_row="columns")
                if byte and self.byte:
                    self.out.fitted(x + k * each, top + 8 * bit, each, self.byte, [f"{byte:02X}"], VALUE, bold=True, least=0.72, data_row="columns")

    def draw_returned(self, band, y, height):
        self.draw_numbers(band, y, height, lambda column: column.returned, "returned")

    def draw_bar(self, band, y, height, name, kind):
        """A bar while `name` stands, with its units: in the bar, else behind it where there is room, else small."""
        parts = stretches(self.columns, band, lambda column: True if name in column.standing else None)
        for k, (first, last, _) in enumerate(parts):
            x, width = self.span(first, last)
            texts = self.intervals[name][self.columns[first].unit]
            self.out.rect(x + 1, y + 5, width - 2, height - 10, kind, data_row=name)
            if self.out.fitted(x, y + 5, width, height - 10, texts, VALUE, "light", bold=True, least=0.85):
                continue
            behind = range(last + 1, last + 2 + int((width_of(texts[0], VALUE, True) + 16) // self.cell))
            next_one = parts[k + 1][0] if k + 1 < len(parts) else band[-1] + 1
            if behind[-1] < next_one and all(self.columns[place].unit for place in behind):
                self.out.text(x + width + 8, y + height / 2, texts[0], VALUE, "over", anchor="start", bold=True)
            else:
                self.out.fitted(x, y + 5, width, height - 10, texts[1:], VALUE, "light", bold=True)

    def draw_settled(self, band, y, height):
        for first, last, settled in stretches(self.columns, band, lambda column: column.settled):
            x, width = self.span(first, last)
            kind, text, colour = ("settled", "yes", "light") if settled else ("unsettled", "no", "ink")
            self.out.rect(x + 1, y + 4, width - 2, height - 8, kind, data_row=kind)
            self.out.fitted(x, y + 4, width, height - 8, [text], NAME, colour, bold=True)

    def draw_totals(self, band, y, height):
        if self.roomy:
            for place in band:
                column = self.columns[place]
                if column.unit:
                    self.out.text(self.middle(place), y + height / 2, str(column.total), NAME, data_row="total")
            return
        for first, last, _ in stretches(self.columns, band, lambda column: column.settled):
            x, width = self.span(first, last)
            low, high = self.columns[first].total, self.columns[last].total
            texts = [str(high)] if low == high else [f"{low} to {high}", f"{low}\u2013{high}", str(high)]
            self.out.fitted(x, y + 2, width, height - 4, texts, VALUE, "over", data_row="total")

    # -- a band: letters, numbers of the units, rows

    def flag_levels(self, band):
        """The letters of a band, each on the lowest level on which it has room."""
        ends, placed = [], []
        for place, mark in sorted(self.letters.items()):
            if place not in band and not (place == len(self.columns) and band and band[-1] == place - 1):
                continue
            half = 6 + width_of(mark, VALUE, True) / 2
            x = self.middle(place) if place in band else min(self.end[place - 1] + 8, self.width - half - 2)
            level = next((k for k, end in enumerate(ends) if end + 4 <= x - half), len(ends))
            ends[level:level + 1] = [x + half]
            placed.append((x, half, mark, level))
        return placed, len(ends)

    def numbered(self, band):
        """The columns above which the number of their unit is written: first and last, and every one, fifth or tenth."""
        units = {place: self.columns[place].unit for place in band if self.columns[place].unit}
        room = width_of(str(max(units.values(), default=0)), NAME, True) + 12
        step = next((step for step in (1, 5) if step * self.cell >= room), 10)
        ends = {min(units), max(units)} if units else set()
        return [place for place, unit in units.items()
                if place in ends or unit % step == 0 and all(abs(self.middle(place) - self.middle(end)) >= room for end in ends)]

    def draw_band(self, k, y):
        out, band, rows, (flags, levels) = self.out, self.bands[k], self.rows_of[k], self.flags_of[k]
        right, axis, bottom = self.end[band[-1]], y + levels * LETTER, y + self.band_height(k)
        top = axis + AXIS
        # the grid, under everything
        for place in band:
            (x, width), column = self.span(place, place), self.columns[place]
            out.rect(x, axis, width, bottom - axis, "unit", **({"data_unit": str(column.unit)} if column.unit else {}))
            out.line(x, top, x, bottom, "grid")
            if column.unit and column.unit % 10 == 0 and not self.roomy:
                out.line(x + width, top, x + width, bottom, "tens")
        # numbers of the units
        for place in self.numbered(band):
            out.text(self.middle(place), axis + 24, str(self.columns[place].unit), NAME, bold=True)
        out.text(MARGIN, axis + 24, "unit", NAME, anchor="start", bold=True)
        # rows with their names; `sent` is where those end that are about the line
        sent = top
        out.line(MARGIN, top, right, top, "edge")
        at, group = top, None
        for name, label, on_tester, tall, draw in rows:
            if name != group:
                if group:
                    out.line(MARGIN, at + GAP / 2, right, at + GAP / 2, "rule")
                at, group = at + GAP, name
                out.text(MARGIN, at + tall / 2, name, GROUP, "pale", anchor="start")
            out.text(GUTTER - 14, at + tall / 2, label, NAME, anchor="end", bold=True)
            if on_tester:
                out.text(GUTTER - 122, at + tall / 2, on_tester, SMALL, "pale", anchor="end")
            draw(band, at, tall)
            at += tall
            if name == "line":
                sent = at
        out.line(MARGIN, bottom, right, bottom, "edge")
        for place in band:
            column, (x, width) = self.columns[place], self.span(place, place)
            if column.fresh and place and not self.columns[place - 1].fresh:
                out.line(x, top, x, bottom, "anew")
            if column.refused:
                out.rect(x + 2, sent + 6, width - 4, bottom - sent - 8, "refused", data_row="refused")
                level = all(width_of(other.refused or "", NAME, True) + 14 <= width for other in self.columns)
                room = width if level else min(width, REFUSED)  # all of them level, or all turned
                out.fitted(x + (width - room) / 2, sent, room, bottom - sent, [column.refused], NAME, "warn", bold=True, plate="plate")
        for x, half, mark, level in flags:
            high = axis - (level + 1) * LETTER
            out.rect(x - half, high, 2 * half, LETTER - 6, "flag", rx=4)
            out.element("path", class_="flag", d=f"M {short(x - 6)} {short(high + LETTER - 7)} h 12 l -6 7 z")
            out.text(x, high + (LETTER - 6) / 2, mark, VALUE, "light", bold=True)

    # -- what is said, and what was asked

    def place_text(self, place):
        if place == len(self.columns):
            return "at the end" if self.columns else ""
        return self.columns[place].refused or f"unit {self.columns[place].unit}"

    def headed(self):
        """Each remark with the bold text that it begins with, and its other texts."""
        units = None
        for remark in self.run.remarks:
            if isinstance(remark, Note):
                yield remark, self.place_text(remark.place), remark.texts
            else:
                when = "" if remark.units == units or not self.run.units else f"after unit {remark.units}" if remark.units else "before unit 1"
                units = remark.units
                yield remark, when, [remark.comment] if remark.comment or when else []

    def remark_columns(self):
        """How high the remarks are and how wide a column of them, in as many columns as make them lowest; for each its remarks with their lines."""
        best = 0, 0, []
        for count in range(1, 5) if self.run.remarks else ():
            wide = (self.width - 2 * MARGIN - (count - 1) * BETWEEN) / count
            if count > 1 and wide < max(LEAST_NOTES, self.asked[-1]):
                break
            items, heights = [], []
            for remark, head, texts in self.headed():
                before, indent = width_of(head, VALUE, True) + 14 if head else 0, self.indent if isinstance(remark, Note) else 0
                lines = [line for k, text in enumerate(texts) for line in wrapped(text, VALUE, wide - indent, before=0 if k else before)]
                items.append((remark, head, before, lines))
                heights.append(LETTER * len(lines) + 6 + (0 if isinstance(remark, Note) else LINE * max(len(remark.lines), len(remark.answers))))
            lengths = balanced(heights, count)
            columns = [items[sum(lengths[:k]) : sum(lengths[: k + 1])] for k in range(len(lengths))]
            high = max(sum(heights[sum(lengths[:k]) : sum(lengths[: k + 1])]) for k in range(len(lengths)))
            if not best[0] or high < best[0] - LETTER / 2:
                best = high, wide, columns
        return best

    def draw_remarks(self, top):
        for k, column in enumerate(self.remarks_in):
            left, y = MARGIN + k * (self.remarks_wide + BETWEEN), top
            for remark, head, before, lines in column:
                x, refused = left, False
                if isinstance(remark, Note) and self.letters:
                    mark, half = self.letters[remark.place], 6 + width_of(self.letters[remark.place], VALUE, True) / 2
                    self.out.rect(left, y + 3, 2 * half, LETTER - 6, "flag", rx=4)
                    self.out.text(left + half, y + LETTER / 2, mark, VALUE, "light", bold=True)
                    x, refused = left + self.indent, remark.place < len(self.columns) and self.columns[remark.place].refused
                elif lines and y > top:
                    self.out.line(left, y - 2, left + self.remarks_wide, y - 2, "rule")
                if head:
                    self.out.text(x, y + LETTER / 2, head, VALUE, "warn" if refused else "ink", anchor="start", bold=True)
                for row, line in enumerate(lines):
                    self.out.text(x + (0 if row else before), y + LETTER / 2, line, VALUE, anchor="start")
                    y += LETTER
                if isinstance(remark, Question):
                    y = self.draw_question(remark, left, y)
                y += 6

    def asked_columns(self):
        """From the left edge of the remarks: where the words, the bytes and the answers of all questions stand, and where the answers end."""
        asked, at = [remark for remark in self.run.remarks if isinstance(remark, Question)], [20]
        for texts in ([[question.asked] for question in asked], [question.lines for question in asked], [question.answers for question in asked]):
            at.append(at[-1] + max((width_of(text, SMALL, True) + 24 for each in texts for text in each), default=0))
        return at

    def draw_question(self, question, left, y):
        words, lines, answers, _ = (left + x for x in self.asked)
        self.out.text(words, y + LINE / 2, question.asked, SMALL, anchor="start", bold=True, data_row="asked")
        for k, text in enumerate(question.lines):
            self.out.text(lines, y + (k + 0.5) * LINE, text, SMALL, anchor="start", data_row="bytes")
        for k, text in enumerate(question.answers):
            self.out.text(answers, y + (k + 0.5) * LINE, text, SMALL, "warn" if question.refused else "ink", anchor="start", bold=True, data_row="answer")
        return y + LINE * max(len(question.lines), len(question.answers))

    # -- all of it

    def summary(self):
        settled = sum(1 for column in self.columns if column.unit and column.settled)
        texts = [f"{self.run.units} units: {self.run.units - settled} unsettled, {settled} settled" if self.run.units != 1 else
                 f"1 unit, {'settled' if settled else 'unsettled'}"] if self.run.units else []
        asked = sum(1 for remark in self.run.remarks if isinstance(remark, Question))
        for count, what in ((self.run.refusals, "refusal"), (asked, "question")):
            if count:
                texts.append(f"{count} {what}{'s' if count > 1 else ''}")
        return "; ".join(texts)

    def draw(self):
        out, (size, lines) = self.out, self.heading
        y = 24
        for line in lines:
            out.text(MARGIN, y + 24, line, size, anchor="start", bold=True)
            y += 50
        out.text(MARGIN, y + 18, self.summary(), NAME, "pale", anchor="start")
        y += 44
        for k in range(len(self.bands)):
            self.draw_band(k, y)
            y += self.band_height(k) + 26
        self.draw_remarks(y)
        y += self.remarks_high
        for line in self.foot:
            out.text(MARGIN, y + LETTER / 2, line, VALUE, "pale", anchor="start")
            y += LETTER
        size = f'width="{short(self.width)}" height="{short(self.height)}"'
        # no size: a browser then fits the picture to its window, and to the page when it prints
        head = ['<?xml version="1.0" encoding="UTF-8"?>',
                f'<svg xmlns="http://www.w3.org/2000/svg" viewBox="0 0 {short(self.width)} {short(self.height)}">',
                f"<title>{escape(self.run.title or self.title)}</title>", f"<style>{escape(STYLE)}</style>", "<defs>", *PATTERNS, "</defs>",
                f'<rect {size} class="paper"/>']
        return "\n".join(head + out.lines + ["</svg>", ""])


# ---------------------------------------------------------------------------


def read(path, what):
    """The bytes of a file, or of standard input."""
    try:
        if path is None:
            if sys.stdin is None:
                raise OSError("standard input is closed")
            return sys.stdin.buffer.read()
        with open(path, "rb") as file:
            return file.read()
    except OSError as error:
        raise script.Fault(f"{what} cannot be read: {error}") from None


def write(path, data):
    """Writes a file, or standard output. A reader that has gone, as `head` does, is told nothing."""
    if path is None and sys.stdout is None:
        raise OSError("standard output is closed")
    try:
        # standard output once more, for its own buffer may be none (python3 -u), and would write a part
        with open(sys.stdout.fileno() if path is None else path, "wb", closefd=path is not None) as file:
            file.write(data)
    except BrokenPipeError:
        sys.exit(1)


def picture_of(printed, lines=None, name="", every_row=False):
    """The SVG file of a run: of the lines that were printed and, where they are there, the script's Lines and its name."""
    run = without_script(printed) if lines is None else with_script(lines, printed)
    title = prose(run.title) if run.title else script.clean(name) or "A run of the bench"
    return Drawing(run, title, every_row).draw().encode("utf-8")


def main():
    parser = argparse.ArgumentParser(prog="timeline.py", formatter_class=argparse.RawDescriptionHelpFormatter,
                                     description=__doc__.partition("\n\n")[0], epilog=__doc__.split("\n\n", 2)[2])
    parser.add_argument("printed", metavar="PRINTED", nargs="?", help="a file with what the bench printed; else standard input")
    parser.add_argument("--script", metavar="SCRIPT", help="the script that was played")
    parser.add_argument("--all", action="store_true", help="rows in which nothing stands are drawn too")
    parser.add_argument("-o", metavar="PICTURE", dest="file", help="the SVG file to be written; else standard output")
    asked = parser.parse_args()
    try:
        printed = script.printed_lines(read(asked.printed, "what the bench printed"))
        lines = None if asked.script is None else script.read(read(asked.script, "the script"))
        write(asked.file, picture_of(printed, lines, os.path.basename(asked.script or ""), asked.all))
    except script.Fault as fault:
        sys.exit(f"timeline.py: {fault}")
    except OSError as error:
        sys.exit(f"timeline.py: cannot be written: {error}")


if __name__ == "__main__":
    main()
