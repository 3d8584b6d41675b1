#!/usr/bin/env python3
"""Says in words what a script of the bench did, and what the card answered.

    tools/explain.py SCRIPT OUTPUT                    OUTPUT is a file with what the bench printed
    bench < SCRIPT | tools/explain.py SCRIPT -        the same from a pipe, as it comes
    tools/explain.py SCRIPT --bench PROGRAM [ARGS..]  plays the script itself

Comments of the script stand where they stand there. Units are counted through the whole script, and equal ones that follow each other
have one sentence. Causes have the names of a tester beside ours, violations their bit columns, of which 1 is the highest bit; a refusal says
what to do, and of a refused character which byte it is; the check of a catalogue says how many pairs of traces it compared; what is in hex
for import and export is shown as text, and of a refused text the line that is named; a line that was not understood says why.
What is said is what the printed lines and the script show; where they leave a cause open it is left open here.

    --brief      few short lines for a projector: large events only, no comments but the title
    --lines      each line of the script has its own answer, as tools/desk gives it: equal units of two lines are not drawn together
    --width N    wrapped at N characters; 0 is not at all

Words of refusals are those of docs/REFUSALS.md, names of a tester those of docs/GLOSSARY.md. Input that is no run of the script, or
cannot be read, gives a message and exit status 1; a usage that is not understood 2.
"""

import argparse
import os
import re
import shlex
import shutil
import subprocess
import sys
import textwrap
import unicodedata

sys.dont_write_bytecode = True  # no folder beside the tools
import script

ROOT = os.path.dirname(os.path.dirname(os.path.abspath(__file__)))
BENCH = os.path.join(ROOT, "target", "bin", "bench")
CONTAINER, PAYLOAD, VALUES, RECORD = 2349, 2340, 783, 21
WIDTH = 100
COLUMN = ["J1", "B3", "C2", "G1", "F2", "H4", "F3", "K3", "N1"]  # column 1 of a container, from the top
NDF = {0b0110: "normal", 0b1110: "normal", 0b0010: "normal", 0b0100: "normal", 0b0111: "normal",
       0b1001: "enabled", 0b0001: "enabled", 0b1101: "enabled", 0b1011: "enabled", 0b1000: "enabled"}
I_BITS, D_BITS = 0x2AA, 0x155
NO_ACTION = ["dRDI"]  # defects from which neither AIS nor RDI follows
SIGNS = {0x00: "NUL", 0x09: "TAB", 0x0A: "LF", 0x0D: "CR", 0x1B: "ESC", 0x7F: "DEL"}  # what cannot be seen, and has a name
LONGEST_LINE = 100  # signs of a text's line that are shown
LABELS = {0x00: "unequipped", 0x01: "equipped, non-specific", 0x02: "TUG structure", 0x12: "140 Mbit/s", 0x13: "ATM", 0xFE: "test signal", 0xFF: "alarm"}


# ---------------------------------------------------------------------------
# Words out of the pages
# ---------------------------------------------------------------------------


def rows_of(page, heading):
    """The rows of a page's table that has this heading, as lists of cells, without the marks of code."""
    path = os.path.join(ROOT, page)
    try:
        with open(path, encoding="utf-8") as file:
            lines = [line.strip() for line in file]
    except (OSError, UnicodeDecodeError) as error:
        raise script.Fault(f"{page} cannot be read: {error}") from None
    if heading not in lines:
        raise script.Fault(f"{page} has no table `{heading}`")
    rows = []
    for line in lines[lines.index(heading) + 2 :]:
        if not line.startswith("|"):
            break
        rows.append([cell.strip().replace("`", "") for cell in line.strip("|").split("|")])
    return rows


class Words:
    """What the pages say: of a refusal what is wrong and what to do, of a cause or defect what it is, and a tester's name for it."""

    def __init__(self):
        self.refusals = {int(number): (wrong, to_do) for number, wrong, to_do, _ in rows_of("docs/REFUSALS.md", "| No. | What is wrong | What to do | Given by |")}
        self.names, self.testers, self.meanings = {}, {}, {}
        for ours, tester, words in rows_of("docs/GLOSSARY.md", "| Ours | On a tester | In words |"):
            for name in ours.split(", "):
                self.testers[name] = tester.split(", ")[0]
                self.names[name], self.meanings[name] = words.split(":")[0], words

    def tester(self, name):
        """`cTIM (HP-TIM)`; a name that the glossary has not stands alone."""
        return f"{name} ({self.testers[name]})" if name in self.testers else name

    def name(self, name, *more):
        """`trace mismatch (dTIM)`, and what else is to stand behind the name; one that the glossary has not stands alone."""
        return f"{self.names[name]} ({', '.join([name, *more])})" if name in self.names else name


# ---------------------------------------------------------------------------
# Small texts
# ---------------------------------------------------------------------------


def counted(number, one, many=None):
    """`no container`, `one container`, `two containers`, `3 containers`."""
    word = {0: "no", 1: "one", 2: "two"}.get(number, str(number))
    return f"{word} {one if number < 2 else many or one + 's'}"


def bytes_text(number):
    return f"{number} byte{'s' if number != 1 else ''}"


def listed(texts, last="and"):
    """`a, b and c`."""
    texts = list(texts)
    return texts[0] if len(texts) == 1 else f"{', '.join(texts[:-1])} {last} {texts[-1]}"


def trace_text(trace):
    """A trace in quotes with all its blanks, which no line end takes away; what is no character as <00>."""
    return '"' + "".join(chr(c) if 0x20 < c <= 0x7E else "\u00a0" if c == 0x20 else f"<{c:02X}>" for c in trace) + '"'


def label_text(label):
    return f"{label:02X}" + (f" ({LABELS[label]})" if label in LABELS else "")


def flags_text(flags):
    """`flags 15 (monitored; RDI, SSF and AIS reported)`."""
    names = ["RDI", "SSF", "AIS"]
    reported = [name for bit, name in enumerate(names, 1) if flags >> bit & 1]
    return f"flags {flags} ({'' if flags & 1 else 'not '}monitored; {listed(reported) if reported else 'no RDI, SSF or AIS'} reported)"


def circuit_text(fields):
    return f"label {label_text(fields['label'])}, trace {trace_text(fields['trace'])}, {flags_text(fields['flags'])}"


def sign_of(data, code):
    """The one sign that these bytes are in a code, as it looks, or by its name where it cannot be seen; none where they are no sign."""
    try:
        text = data.decode(code)
    except UnicodeDecodeError:
        return None
    if len(text) == 1 and text.isprintable() and not unicodedata.combining(text):
        return text
    return unicodedata.name(text, "").lower() if len(text) == 1 else None


def byte_text(trace, place):
    """The character at a place, from 1, and what it is where that can be told: `09, TAB`; `DC, \u00dc in Latin-1`; `C3, which with 9C is \u00dc in UTF-8`."""
    text, here = f"{trace[place - 1]:02X}", trace[place - 1 :]
    if here[0] < 0x80:
        return f"{text}, {SIGNS[here[0]]}" if here[0] in SIGNS else text
    for length in (2, 3, 4):
        sign = sign_of(here[:length], "utf-8")
        if sign:
            return f"{text}, which with {here[1:length].hex(' ').upper()} is {sign} in UTF-8"
    sign = sign_of(here[:1], "cp1252")
    return f"{text}, {sign} in {'Latin-1' if here[0] >= 0xA0 else 'Windows-1252'}" if sign else text


def where_text(said):
    """What a refusal names behind its number: ` in record 4 at character 2`; of a text ` in line 4`."""
    text = "".join(f" {place}" for place in said["places"] or [])
    first = "line" if "line" in said else "record"
    for name, words in (("line", " in line"), ("record", " in record"), ("character", " at character"), ("first", f", as in {first}")):
        text += f"{words} {said[name]}" if name in said else ""
    return text


def line_text(line, most=LONGEST_LINE):
    """A line of a text as it stands, with all its blanks; what is no character as <00>, and no more than so many signs."""
    text = trace_text(line)[1:-1]
    return text if len(text) <= most else text[: most - 3] + "..."


def pairs_text(pairs, brief=False):
    """How many pairs of traces a catalogue check compared: `3 pairs of traces were compared`, `no trace was compared with another`."""
    if brief:
        return f"{pairs or 'no'} pair{'s' if pairs > 1 else ''} compared"
    if not pairs:
        return "no trace was compared with another"
    return f"{pairs} pairs of traces were compared" if pairs > 1 else "1 pair of traces was compared"


def columns_text(byte):
    """`in column 3`, `in columns 6, 7 and 8`: the bit columns of a byte, 1 being the highest bit."""
    columns = script.columns_of(byte)
    return f"in column{'s' if len(columns) > 1 else ''} {listed(map(str, columns))}"


def ones_in(number):
    return bin(number).count("1")


def parts_of(word):
    """NDF kind, SS and value of a pointer word."""
    return NDF.get(word >> 12, "neither"), word >> 10 & 3, word & 0x3FF


def word_text(word):
    """`NDF normal (0110), SS 10, value 5`."""
    if word == 0xFFFF:
        return "all ones, an alarm word"
    kind, ss, value = parts_of(word)
    return f"NDF {kind} ({word >> 12:04b}), SS {ss:02b}, value {value}" + ("" if value < VALUES else ", out of range")


def asks_for(word, offset):
    """The adjustment that the inverted bits of a word ask of a pointer at this offset, as in G.707; "" for none."""
    kind, ss, value = parts_of(word)
    if kind != "normal" or ss != 2 or offset == "-" or value == offset:
        return ""
    turned = value ^ offset
    i_bits, d_bits = ones_in(turned & I_BITS), ones_in(turned & D_BITS)
    return "increment" if i_bits >= 3 and d_bits <= 2 else "decrement" if d_bits >= 3 and i_bits <= 2 else ""


def byte_name(place, sent, asked):
    """What a byte of the line is, in a unit as the source wrote it (`sent` printed, `asked` of it); "" where it is none of the source's."""
    if place < 6:
        return ["H1", "Y", "Y", "H2", "1*", "1*"][place]
    if sent is None:
        return "H3" if place < 9 else ""
    if place < 9 and asked != "d":
        return "H3, which carries nothing here"
    if 9 <= place < 12 and asked == "i":
        return "skipped in an increment, so it carries nothing"
    # J1 stands at byte offset 3 times the value, counted from the byte after the third H3; what stands before it ends the container before
    row, column = divmod((place - 9 - 3 * sent["off"]) % CONTAINER, 261)
    name = "payload" if column else f"{COLUMN[row]} of a container"
    return f"H3, which carries {name} here" if place < 9 else name


def check_text(data, good):
    """What a trace check says, and of a bad message why it is none."""
    if good:
        return f"check: a good trace message, start byte {data[0]:02X}, trace {trace_text(data[1:])}" if len(data) == 16 else "check: a good trace message"
    if len(data) != 16:
        why = f"it has {bytes_text(len(data))}, and a message has 16"
    elif not data[0] & 0x80:
        why = f"its first byte, {data[0]:02X}, is no start byte: the top bit is not set"
    elif any(c & 0x80 for c in data[1:]):
        why = "one of its fifteen characters has the top bit set"
    else:
        why = f"the check in the start byte {data[0]:02X} does not fit {trace_text(data[1:])}"
    return f"check: no good trace message: {why}"


def read_text(data, number):
    if len(data) != 2:
        return f"read: {number}: {bytes_text(len(data))}, and a pointer word has two"
    kind = {0: "neither", 1: "normal", 2: "enabled"}.get(number >> 12, "?")
    return f"read: {number}: NDF {kind}, SS {number >> 10 & 3:02b}, value {number & 0x3FF}"


# ---------------------------------------------------------------------------
# Telling a run
# ---------------------------------------------------------------------------


class Item:
    """A paragraph: its text, and what it is (comment, unit, said, warn, part, end)."""

    def __init__(self, kind, text):
        self.kind, self.text = kind, text


class Told:
    """A unit, or a call of the sink that was refused (its unit is None), in clauses; equal ones that follow can be drawn together."""

    def __init__(self, unit, again, clauses, head=""):
        self.unit, self.again, self.clauses, self.name = unit, again, clauses, head
        self.last, self.count, self.same = unit, 1, None

    def joins(self, other):
        """Takes another one in, where it is equal and fed in the same way: each a new line, or all of them one line."""
        if self.name != other.name or [key for *_, key in self.clauses] != [key for *_, key in other.clauses]:
            return False
        if self.same not in (None, other.again) or self.again and not other.again:
            return False
        self.same, self.last, self.count = other.again, other.unit, self.count + 1
        return True

    def head(self):
        if self.unit is None:
            return f"{self.name}, {self.count} times" if self.count > 1 else self.name
        if self.count == 1:
            return f"unit {self.unit}" + (", the same line again" if self.again else "")
        text = f"units {self.unit} {'and' if self.count == 2 else 'to'} {self.last}"
        if self.same:
            text += ", the same line again" if self.again else f", one line fed {f'{self.count} times' if self.count > 2 else 'twice'}"
        return text

    def text(self):
        return f"{self.head()}: " + "; ".join(many if self.count > 1 else one for one, many, _ in self.clauses)


class Clauses:
    """What is said of a unit, in one and in many, and its large events."""

    def __init__(self):
        self.all, self.events = [], []

    def add(self, one, many=None, key=None):
        """A clause; by its key it is equal to that of another unit."""
        self.all.append((one, one if many is None else many, key or one))

    def event(self, text):
        self.events.append((text, text, text))


class Teller:
    """Takes the steps of a run and gives Items, as soon as they can be told.

    `brief` keeps to large events; `by_line` lets no sentence go over the end of a script's line, for a desk that answers each line."""

    def __init__(self, words, brief=False, by_line=False):
        self.words, self.brief, self.by_line = words, brief, by_line
        self.items, self.fold, self.title, self.line = [], None, None, None
        self.gap = self.begun = False  # an empty line before what comes; and whether anything was told
        self.units = self.settled = self.refused = self.strange = 0
        self.named = []  # refusals in words up to now
        self.since = None  # the first unit of those that ended settled up to now
        self.tx, self.rx = {"label": 0x12, "violations": 0}, {"label": 0x12, "flags": 0}
        self.tx["trace"] = self.rx["trace"] = b"03E5".ljust(15)
        self.renew()

    def renew(self):
        """What is fresh with the bench."""
        self.before = None  # the sink's answer to the unit before
        self.found = False  # whether the pointer was ever found
        self.run, self.value = 0, None  # equal words in a row, and their value
        self.waiting = []  # units sent and not fed: texts
        self.no_source = None  # the refusal, where the source had nothing for the line since it was fed
        self.told_source = None  # and the one that was told last, with its line
        self.sent, self.asked = None, "-"  # of the unit on the line: what the source printed, and what was asked of it
        self.lengths = {"held": CONTAINER, "done": CONTAINER}
        self.handed = self.ever_settled = False
        self.violated = 0  # the bit columns of the last container that had violations
        self.length = script.UNIT

    # -- items

    def item(self, kind, text):
        self.flush()
        if self.gap and self.begun and kind == "comment":
            self.items.append(Item("gap", ""))
        self.gap, self.begun = False, True
        self.items.append(Item(kind, text))

    def say(self, text, brief=None):
        """A sentence, and what stands for it in the brief form: "" for nothing, None for the same."""
        if not self.brief:
            self.item("said", text)
        elif brief != "":
            self.item("said", text if brief is None else brief)

    def flush(self):
        if self.fold is not None:
            told, self.fold = self.fold, None
            self.items.append(Item("unit" if told.unit is not None else "warn", told.text()))

    def add(self, told):
        if self.fold is None or not self.fold.joins(told):
            self.flush()
            self.fold = told

    def taken(self):
        """The items that can be told now."""
        items, self.items = self.items, []
        return items

    # -- steps

    def step(self, step):
        if step.line is not self.line:
            self.line_end()
            self.line = step.line
            if step.line.name == "":
                self.comment(step.line)
        getattr(self, {"?": "not_understood", "": "nothing"}.get(step.name, f"do_{step.name}"), self.as_printed)(step)

    def line_end(self):
        """Behind a line of the script: a comment that stood behind its command is told after what the command did."""
        line, self.line = self.line, None
        if self.by_line:
            self.flush()
        if line is not None and line.name != "" and line.comment is not None:
            self.comment(line)

    def end(self):
        """What is left to tell, and the sum of it."""
        self.line_end()
        self.flush()
        self.unfed()
        if self.units or self.refused or self.strange:
            self.item("end", self.sum_text())

    def sum_text(self):
        texts = []
        if self.units:
            unsettled = self.units - self.settled
            if self.brief:
                texts.append(f"settled from unit {self.since} on; {counted(unsettled, 'unit')} did not" if self.since else
                             f"{counted(self.units, 'unit')}, the last not settled")
            else:
                text = f"{counted(self.units, 'unit')}, "
                text += "none settled" if not self.settled else "all settled" if not unsettled else f"{self.settled} settled and {unsettled} not"
                texts.append(text + (f"; settled from unit {self.since} on" if self.since and unsettled else "" if not self.settled or self.since else "; the last did not"))
        if self.refused:
            texts.append(f"{counted(self.refused, 'call')} refused")
        if self.strange:
            texts.append(f"{counted(self.strange, 'line')} not understood")
        return ("" if self.brief else "In all: ") + "; ".join(texts)

    def comment(self, line):
        if line.comment is None:
            self.gap = True
            return
        text = line.comment.lstrip("#").strip()
        if self.brief:
            if self.title is None and text:
                self.title = text
                self.item("comment", "# " + (re.match(r".*?[.?!](?= |$)", text) or re.match(r".*", text)).group())
        else:
            self.item("comment", line.comment.rstrip())

    def nothing(self, step):
        pass

    def as_printed(self, step):
        """A command that has no words here."""
        self.say(f"{script.shown(step.line.command)}: " + ("; ".join(said.text for said in step.said) or "done"))

    def not_understood(self, step):
        self.strange += 1
        self.item("warn", f"line {step.line.number} is not understood (? {step.line.number}) and skipped, `{step.line.shown(24 if self.brief else 60)}`: {step.why}")

    # -- refusals

    def refusal(self, name, said, detail=None):
        """`lookup refused 4 in record 2`, and its words: what is wrong (with a detail of what is known) and what to do."""
        number = said["number"]
        wrong, to_do = self.words.refusals.get(number, (f"docs/REFUSALS.md has no words for {number}", ""))
        self.refused += 1
        if self.brief and number in self.named:
            wrong = "as above"
        text = wrong + (f" ({detail})" if detail else "")
        if not self.brief and self.named[-1:] != [number]:  # advice is not given twice in a row
            text = f"{text}. {to_do}".rstrip()
        self.named.append(number)
        return f"{name} refused {number}{where_text(said)}", text

    def refuse(self, name, said, detail=None):
        self.item("warn", ": ".join(self.refusal(name, said, detail)))

    def settings_detail(self, said, settings, whose, shown=True):
        """What label, trace or violations have of what a refusal says; `shown`: the whole trace too, where it was not said just before."""
        number, trace = said["number"], settings["trace"]
        if number == 4 and settings["label"] in (0x00, 0xFF):
            return f"the label is {settings['label']:02X}"
        if number in (5, 20) and script.trace_refused(trace[said["character"] - 1 : said["character"]]) == number:
            whole = f" {trace_text(trace)}" if shown and not self.brief else ""
            return f"character {said['character']} of {whose} trace{whole} is {byte_text(trace, said['character'])}"
        if number == 6 and settings.get("violations", 0) > 8:
            return f"{settings['violations']} are asked for"
        return None

    def catalogue_detail(self, said, data):
        """What the catalogue's bytes have at the place that a refusal names, where that is what it says."""
        number, place = said["number"], said["record"]
        if number == 9:
            rest = f", {len(data) % RECORD} more than a whole number of records" if len(data) % RECORD else ""
            return f"it has {bytes_text(len(data))}{rest}"
        if not place or place > len(data) // RECORD:
            return None
        record = data[(place - 1) * RECORD : place * RECORD]
        circuit = int.from_bytes(record[2:4], "big")
        if number == 10:
            return f"it begins with {record[0]:02X} {record[1]:02X}"
        if number == 11:
            return f"the number is {circuit}"
        if number == 12:
            return f"circuit {circuit}, flags {record[20]}"
        if number == 13:
            return f"circuit {circuit}, trace {trace_text(record[5:20])}"
        detail = self.settings_detail(said, {"label": record[4], "trace": record[5:20]}, "its")
        return f"circuit {circuit}, {detail}" if detail else f"circuit {circuit}"

    def text_detail(self, said, data):
        """The line of a text that a refusal names, as it stands, and what in it is refused, where that is what it says."""
        number, place, lines = said["number"], said["line"], script.text_lines(data)
        if number == 18:
            return f"it has {len(lines)} lines"
        if not 1 <= place <= len(lines):
            return None
        line, ended = lines[place - 1]
        most = 40 if self.brief else LONGEST_LINE
        text = f"line {place} is {line_text(line, most)}" if line else f"line {place} is empty"
        try:
            fields, why = script.text_line(line, ended), None
        except script.Wrong as wrong:
            fields, why = None, str(wrong)
        if number == 15:
            return f"{text}: {why}" if why and line else text
        if fields is None or fields["trace"] is None:
            return text
        if number == 17 and len(fields["trace"]) > 15:
            bytes_of = "" if line.isascii() or self.brief else "; each byte counts, and a sign above 7E may have two or more"
            why = f"its trace has {len(fields['trace'])} characters{bytes_of}"
        elif number == 13 and 1 <= said["first"] < place and not self.brief:
            return f"{text}; line {said['first']} is {line_text(lines[said['first'] - 1][0], most)}"
        elif number in (4, 5, 20):
            why = self.settings_detail(said, {**fields, "trace": fields["trace"].ljust(15)}, "its", shown=False)
        elif number == 11:
            why = f"the number is {fields['circuit']}"
        elif number == 12:
            why = f"the flags are {fields['flags']}"
        return f"{text}: {why}" if why else text

    # -- settings

    def do_tx(self, step):
        self.tx = step.given
        text = f"tx: the source is set to label {label_text(self.tx['label'])}, trace {trace_text(self.tx['trace'])}"
        if self.tx["violations"]:
            text += f", {counted(self.tx['violations'], 'violation')} returned in each container ({self.words.testers.get('fe=', 'REI')})"
        text += ", with remote defect (RDI)" if self.tx["remote"] else ", no remote defect"
        self.say(text, "")
        self.order_form(step, self.tx, "the sent")

    def do_rx(self, step):
        self.rx = step.given
        self.say(f"rx: the sink is set to expect {circuit_text(self.rx)}", "")
        self.order_form(step, self.rx, "the expected")

    def order_form(self, step, settings, whose):
        if step.answer:
            self.refuse(step.name, step.answer, self.settings_detail(step.answer, settings, whose, shown=False))

    def do_fresh(self, step):
        self.flush()
        self.unfed()
        self.renew()
        self.since = None
        self.say("fresh: sources, sink, buffers and total begin anew; the settings stay", "fresh" if self.units else "")

    def do_fill(self, step):
        self.say(f"held filled with {step.given['held']:02X}, done with {step.given['done']:02X}", "")

    def do_lens(self, step):
        self.lengths = step.given
        self.say(f"held is now {bytes_text(self.lengths['held'])} of AA long, done {self.lengths['done']}", "")

    # -- the line

    def do_src(self, step):
        said, asked = step.answer, step.given["asked"]
        turns = step.turn > 0  # of `run`: told with its unit
        if said.kind == "refused":
            text = f"{said['call']} refused {said['number']}{where_text(said)}"
            if not turns or self.told_source != (step.line, text):  # of one `run` once, and then with each unit
                detail = self.settings_detail(said, self.tx, "the sent") if said["call"] == "container" else None
                self.refuse(said["call"], said, detail)
            else:
                self.refused += 1
            self.no_source, self.told_source = text, (step.line, text)
            if said["call"] == "unit":
                self.length = script.UNIT
            return
        offset, name = said["off"], {"-": "no adjustment", "i": "an increment", "d": "a decrement"}[asked]
        earlier = (offset + {"-": 0, "i": -1, "d": 1}[asked]) % VALUES
        text = f"{name}, {earlier} to {offset}" if asked != "-" else f"{name}, offset {offset}"
        text += f" (word {said['word']:04X})"
        if self.by_line and not turns:
            if not self.brief:
                self.item("said", f"sent: {text}; {counted(said['ended'], 'container')} ended in it")
        else:
            self.unfed()
            self.waiting = [text]
        self.sent, self.asked, self.no_source, self.length = said, asked, None, script.UNIT

    def unfed(self):
        """Units that were sent and that the sink was never fed."""
        for text in self.waiting:
            self.say(f"sent, and not fed to the sink: {text}", "" if "no adj" in text else None)
        self.waiting = []

    def touch(self, text, brief=None):
        self.say(f"on the line: {text}", f"line: {brief or text}")

    def do_word(self, step):
        word = step.given["word"]
        asks = asks_for(word, self.before["off"] if self.before else "-")
        asks = f"; at offset {self.before['off']} it asks for {'an' if asks[0] == 'i' else 'a'} {asks}" if asks else ""
        self.touch(f"H1 and H2 overwritten, the pointer word is now {word:04X}: {word_text(word)}{asks}", f"pointer word {word:04X}")

    def do_xor(self, step):
        place, bits = step.given["place"], step.given["with"]
        name = byte_name(place, self.sent, self.asked)
        name = f": {name}" if name else ""
        self.touch(f"{counted(ones_in(bits), 'bit')} of byte {place} turned over (xor {bits:02X}){name}", f"byte {place} xor {bits:02X}{name}")

    def do_ones(self, step):
        self.sent = None
        self.touch("every byte is FF, as from a failed section", "all ones")

    def do_len(self, step):
        length = step.given["length"]
        done = f"cut from {self.length} to" if length < self.length else f"lengthened with 00 from {self.length} to" if length > self.length else "left at"
        self.touch(f"{done} {bytes_text(length)}", f"{bytes_text(length)}")
        self.length = length

    # -- units

    def do_sink(self, step):
        self.waiting = []
        told = self.refused_call(step) if step.answer.kind == "refused" else self.unit(step)
        self.no_source = None
        if told.clauses:
            self.add(told)
        else:
            self.flush()

    def refused_call(self, step):
        number = step.answer["number"]
        detail = (f"the line has {bytes_text(step.fed.length)}" if number == 1 else
                  f"held has {self.lengths['held']}, done {self.lengths['done']}" if number == 3 else self.settings_detail(step.answer, self.rx, "the expected"))
        head, text = self.refusal("sink", step.answer, detail)
        return Told(None, False, [(text, text, "")], head)

    def unit(self, step):
        said, fed, before = step.answer, step.fed, self.before
        self.units += 1
        word = fed.word or 0  # a line without one is refused
        kind, ss, value = parts_of(word)
        alike = kind == "normal" and ss == 2 and value < VALUES
        self.run, self.value = (self.run + 1 if value == self.value else 1, value) if alike else (0, None)
        clauses = Clauses()
        if self.no_source:
            clauses.add(f"nothing new was sent ({self.no_source})")
        elif fed.origin == "zeros":
            clauses.add("nothing was sent: the line is all 00")
        self.pointer(said, word, before, clauses)
        self.containers(said, clauses)
        self.parity(said, clauses)
        self.defects(said, before, clauses)
        self.causes(said, before, clauses)
        self.settling(said, before, clauses)
        if said["settled"]:
            self.settled += 1
            self.since = self.since or self.units
            self.ever_settled = True
        else:
            self.since = None
        self.found = self.found or said["st"] == "normal"
        self.handed = self.handed or said["ended"] > 0
        self.before = said
        if self.brief:
            return Told(self.units, False, clauses.events)
        return Told(self.units, fed.taken > 0 and not fed.touched, clauses.all)

    def pointer(self, said, word, before, clauses):
        """How the word was taken, by what the sink said before and after. Where that leaves it open, only what it said."""
        was, now = (before["st"] if before else "lost"), said["st"]
        at, to = (before["off"] if before else "-"), said["off"]
        kind, ss, value = parts_of(word)
        new_data = kind == "enabled" and ss == 2 and value < VALUES
        asks = asks_for(word, at)
        why = ""

        def large(text, short=None):
            clauses.add(why + text)
            if to != "-" and was == "normal" and said["ended"] != 1:
                clauses.event(f"{short or text}, {counted(said['ended'], 'container')}")
            else:
                clauses.event(short or text)

        if now == "alarm":
            if was == "alarm":
                clauses.add("still in alarm")
                return
            if word == 0xFFFF:
                why = "three alarm words in a row, so "
            large("the pointer goes to alarm", "alarm")
        elif now == "lost":
            if was == "lost":
                clauses.add("pointer still lost" if self.found else "no pointer found yet (lost)")
                return
            if word != 0xFFFF:
                why = "new data for the eighth time in a row, so " if new_data else "the eighth invalid word in a row, so "
            large("the pointer is lost", "pointer lost")
        elif was != "normal":
            if value == to:
                why = "new data, so " if new_data else "three equal words, so " if self.run >= 3 else ""
            large(f"the pointer is found at offset {to}", f"pointer found at {to}")
        elif at != to:
            taken = ("new data, " if new_data and value == to else "three equal words, " if self.run >= 3 and value == to else
                     f"{asks} " if asks and to == (at + {"increment": 1, "decrement": -1}[asks]) % VALUES else "offset ")
            large(f"{taken}{at} to {to}")
        elif word == 0xFFFF:
            large(f"an alarm word (FFFF), offset {to} stays", "alarm word")
        elif new_data and value == to:
            large(f"new data at the same offset, {to}")
        elif kind == "normal" and ss == 2 and value == to:
            clauses.add("plain")
        else:
            wrong = (f"NDF {word >> 12:04b}" if kind == "neither" else f"SS {ss:02b}" if ss != 2 else
                     f"{asks} too soon after the last adjustment or new data" if asks else f"value {value}")
            large(f"invalid word {word:04X} ({wrong}), offset {to} stays", f"invalid word {word:04X}")

    def containers(self, said, clauses):
        if said["st"] != "normal":
            clauses.add("nothing handed back" if not said["ended"] else f"{counted(said['ended'], 'container')} ended")
            return
        where = [{"D": "begun earlier", "U": "whole in this unit"}[c["in"]] for c in said["c"] if c["in"]]
        where = [f"one {text}" for text in where] if len(where) > 1 else where
        clauses.add(f"{counted(said['ended'], 'container')} ended" + (f", {listed(where)}" if where else ""),
                    "no container ended" if not said["ended"] else f"{counted(said['ended'], 'container')} each")

    def parity(self, said, clauses):
        """Violations with their bit columns, of two containers each with its own; and how many the far end returned."""
        containers = said["c"]
        violations, returned = (sum(c[name] for c in containers) for name in ("v", "fe"))
        if violations:
            tester = self.words.testers.get("v=", "v=")
            whose = ("",) if len(containers) == 1 else (" of the first container", " of the second container")
            where = listed(columns_text(c["p"]) + of for c, of in zip(containers, whose) if c["p"])
            again = "again " if len(containers) == 1 and containers[0]["p"] == self.violated else ""
            self.violated = next(c["p"] for c in reversed(containers) if c["p"])
            text = f"{counted(violations, 'parity violation')}, {again}{where} ({tester})"
            clauses.add(text, f"{text} each", key=f"violations {where}")  # of equal units the first says whether it is so again
            clauses.event(f"{counted(violations, 'violation')} {where} ({tester})")
        if returned:
            tester = self.words.testers.get("fe=", "fe=")
            text = counted(returned, "violation returned by the far end", "violations returned by the far end")
            text += f", {listed(str(c['fe']) for c in containers)} in the two containers" if len(containers) > 1 else ""
            clauses.add(f"{text} ({tester})", f"{text} ({tester}) each")
            clauses.event(f"{counted(returned, 'violation')} returned ({tester})")

    def defects(self, said, before, clauses):
        words, had, has = self.words, (before["d"] if before else []), said["d"]
        for name in had:
            if name not in has:
                clauses.add(f"{words.name(name)} clears")
                clauses.event(f"{name} clears")
        for name in has:
            if name not in had:
                clauses.event(f"{name} sets" + (f" ({words.names[name]})" if name in words.names else ""))
        # what the actions follow from is said with them, and the other defects behind
        causing = ["server signal fail (SSF)"] if said["ssf"] else []
        causing += self.standing([name for name in has if name not in NO_ACTION], had)
        actions = [name for bit, name in ((said["ais"], "AIS"), (said["rdi"], "RDI")) if bit]
        if before and (before["ais"], before["rdi"]) == (said["ais"], said["rdi"]):
            text = f"{listed(actions)} go{'es' if len(actions) == 1 else ''} on" if actions else ""
        else:
            text = listed({"AIS": "payload AIS is sent down", "RDI": "RDI goes to the far end"}[name] for name in actions) if actions else ""
        if causing:
            clauses.add(listed(causing) + (f", so {text}" if text else ""), key=listed(causing) + str(actions))
        elif text:
            clauses.add(text, key=str(actions))
        for each in self.standing([name for name in has if name in NO_ACTION], had):
            clauses.add(each)
        ended = [name for key, name in (("ais", "AIS"), ("rdi", "RDI")) if before and before[key] and not said[key]]
        if ended:
            clauses.add(f"{listed(ended)} end{'s' if len(ended) == 1 else ''}")

    def standing(self, names, had):
        """Defects that stand, as texts: those that stood before, then each that is new."""
        stood = [self.words.name(name) for name in names if name in had]
        return ([f"{listed(stood)} still stand{'s' if len(stood) == 1 else ''}"] if stood else []) + [
            f"{self.words.name(name, self.words.testers.get(name, ''))} sets" for name in names if name not in had]

    def causes(self, said, before, clauses):
        had, has = (before["cause"] if before else []), said["cause"]
        if has:
            clauses.add("reported: " + ", ".join(self.words.tester(name) for name in has))
        elif said["d"] or said["ssf"]:
            clauses.add("nothing reported" + ("" if self.rx["flags"] & 1 else " (not monitored)"))
        for name in has:
            if name not in had:
                clauses.event(self.words.tester(name))
        gone = [name for name in had if name not in has]
        if gone and not clauses.events:  # else what took them away is named
            clauses.event(f"no more {listed(gone, 'or')}")

    def settling(self, said, before, clauses):
        was = bool(before and before["settled"])
        if said["settled"]:
            if not was:
                clauses.event("settled")
            if not self.ever_settled and said["total"]:
                clauses.add(f"settled for the first time; {counted(said['total'], 'unit')} did not")
            else:
                clauses.add("settled again" if self.ever_settled and not was else "settled")
            return
        text = "no longer settled" if was else "not settled"
        if was:
            clauses.event(text)
        if said["st"] == "normal" and not said["d"]:
            text += ", though no defect stands: the accepted label and trace are not (yet) the expected ones"
        clauses.add(text)

    # -- answers

    def do_show(self, step):
        data = step.answer["bytes"]
        text = f"show: the line has {bytes_text(len(data))}"
        if len(data) > 3:
            word = data[0] << 8 | data[3]
            text += f", pointer word {word:04X}: {word_text(word)}"
        self.say(text, "")

    def do_payload(self, step):
        if step.answer.kind == "refused":
            self.refuse("payload", step.answer)
            return
        what = "of the container handed back last" if self.handed else "of 2349 bytes of 00, as none was handed back yet"
        text = f"payload: {PAYLOAD} bytes {what}" if not step.given["ais"] else f"payload: {PAYLOAD} bytes of FF, as AIS was asked for"
        self.say(f"{text}; fingerprint {step.answer['fnv']}", "")

    def do_cat(self, step):
        compared = pairs_text(step.answer["pairs"], self.brief)
        if step.answer.kind == "refused":
            detail = self.catalogue_detail(step.answer, step.given["bytes"])
            self.refuse("catalogue", step.answer, f"{detail}; {compared}" if detail else compared)
            return
        records = step.answer["records"]
        self.say(f"cat: a good catalogue of {counted(records, 'record')}{'' if records else ', as an empty file is'}; {compared}")

    def do_lookup(self, step):
        if step.answer.kind == "refused":
            detail = f"circuit {step.given['circuit']}" if step.answer["number"] == 14 else self.catalogue_detail(step.answer, step.given["bytes"])
            self.refuse("lookup", step.answer, detail)
            return
        found = step.answer
        self.say(f"lookup: circuit {step.given['circuit']} has {circuit_text(found)}",
                 f"circuit {step.given['circuit']}: label {found['label']:02X}, trace {trace_text(found['trace'])}, flags {found['flags']}")

    def do_list(self, step):
        if step.answer.kind == "listing":
            self.refuse("listing", step.answer, self.catalogue_detail(step.answer, step.given["bytes"]))
            return
        records = step.said[1:]
        self.say(f"list: {counted(len(records), 'circuit')}" + (":" if records and not self.brief else ""))
        if not self.brief:
            for record in records:
                self.item("part", f"circuit {record['circuit']}: {circuit_text(record)}")

    def do_import(self, step):
        if step.answer.kind == "refused":
            self.refuse("import", step.answer, self.text_detail(step.answer, step.given["bytes"]))
            return
        lines, data = script.text_lines(step.given["bytes"]), step.answer["bytes"]
        self.say(f"import: {counted(len(lines), 'line')} make{'s' if len(lines) < 2 else ''} a good catalogue of {counted(len(lines), 'circuit')}"
                 + ("" if lines else ", as an empty file is") + (":" if lines and not self.brief else ""))
        for place, (line, _) in enumerate(() if self.brief else lines):
            record = data[place * RECORD : (place + 1) * RECORD]
            fields = {"label": record[4], "trace": record[5:20], "flags": record[20]}
            self.item("part", f"line {place + 1} is {line_text(line)}: circuit {int.from_bytes(record[2:4], 'big')}, {circuit_text(fields)}")

    def do_export(self, step):
        if step.answer.kind == "refused":
            self.refuse("export", step.answer, self.catalogue_detail(step.answer, step.given["bytes"]))
            return
        lines = script.text_lines(step.answer["bytes"])
        self.say(f"export: {counted(len(lines), 'circuit')}, a text of {counted(len(lines), 'line')}" + (":" if lines and not self.brief else ""))
        for place, (line, _) in enumerate(() if self.brief else lines, 1):
            self.item("part", f"line {place} is {line_text(line)}")

    def do_parity(self, step):
        self.say(f"parity: {step.answer['byte']:02X}, of {bytes_text(len(step.given['bytes']))}")

    def do_check(self, step):
        self.say(check_text(step.given["bytes"], step.answer["good"]))

    def do_read(self, step):
        self.say(read_text(step.given["bytes"], step.answer["number"]))


# ---------------------------------------------------------------------------
# On paper, a terminal or a pipe
# ---------------------------------------------------------------------------


def wrapped(item, width):
    """The lines of an item. A comment stands as it is; what goes on below is set in."""
    text, first, rest = item.text, "", "    "
    if item.kind == "part":
        first, rest = "    ", "      "
    if item.kind == "comment":
        rest = "# "
        width = width if sys.stdout is not None and sys.stdout.isatty() else 0  # elsewhere it stands as it stands
    if width <= 0 or len(first + text) <= width:
        lines = [first + text]
    else:
        lines = textwrap.wrap(text, max(width, 20), initial_indent=first, subsequent_indent=rest, break_long_words=False, break_on_hyphens=False) or [""]
    return [line.replace("\u00a0", " ") for line in lines]


def width_now(stream):
    """How wide lines may be: as a terminal is, and not wider than one likes to read."""
    if stream is not None and stream.isatty():
        return max(40, min(shutil.get_terminal_size((80, 24)).columns, WIDTH))
    return WIDTH


def coloured(stream):
    return stream is not None and stream.isatty() and "NO_COLOR" not in os.environ and os.environ.get("TERM", "dumb") != "dumb"


COLOURS = {"comment": "2", "raw": "2", "warn": "33", "echo": "1", "end": "1"}


class Writer:
    """Writes items, and each at once."""

    def __init__(self, stream, width=None):
        self.stream, self.width, self.colour = stream, width, coloured(stream)

    def write(self, items):
        if self.stream is None:  # closed before we began
            return
        for item in items:
            for line in wrapped(item, width_now(self.stream) if self.width is None else self.width):
                code = COLOURS.get(item.kind) if self.colour and line else None
                self.stream.write(f"\033[{code}m{line}\033[0m\n" if code else line + "\n")
        if items:
            self.stream.flush()


def bench_command(given):
    """The bench's program and its arguments, of what stands behind --bench; the one of this repository where nothing does."""
    if given is None:
        if not os.access(BENCH, os.X_OK):
            raise script.Fault(
                "there is no bench yet at target/bin/bench. `tools/build bench` proves and builds the one of this repository, in some minutes.\n"
                "The second program plays the same scripts; it is tested and not proved. It is built in seconds:\n"
                "    mkdir -p target/host && rustc --edition 2021 -O second/main.rs -o target/host/second\n"
                "and then used with    --bench target/host/second bench")
        return [BENCH]
    command = shlex.split(given[0]) if len(given) == 1 else given
    if not command:
        raise script.Fault("--bench needs a program")
    return command


def start(command, stdin):
    try:
        # a group of its own, so that Ctrl-C ends what reads it and not the bench under it
        return subprocess.Popen(command, stdin=stdin, stdout=subprocess.PIPE, start_new_session=True)
    except (OSError, ValueError) as error:
        raise script.Fault(f"{command[0]} cannot be run: {error}") from None


def stop(bench, seconds):
    """Waits for a bench; one that goes on is ended."""
    try:
        bench.wait(seconds)
    except subprocess.TimeoutExpired:
        bench.kill()
        bench.wait()


def texts(stream):
    """The lines of what a bench prints, as they come."""
    while True:
        raw = stream.readline()
        if not raw:
            return
        yield raw.decode("utf-8", errors="replace").rstrip("\r\n")


def read_file(path, what):
    try:
        with open(path, "rb") as file:
            return file.read()
    except OSError as error:
        raise script.Fault(f"{what} cannot be read: {error}") from None


def explain(lines, printed, teller, write):
    """Tells a run; where it turns out to be none, what could be told is told first."""
    try:
        for step in script.pair(lines, printed):
            teller.step(step)
            if teller.items:
                write(teller.taken())
        teller.end()
    except script.Fault:
        teller.flush()
        write(teller.taken())
        raise
    write(teller.taken())


def arguments():
    about, _, more = __doc__.partition("\n\n")
    parser = argparse.ArgumentParser(prog="explain.py", formatter_class=argparse.RawDescriptionHelpFormatter, description=about, epilog=more,
                                     usage="explain.py [--brief] [--lines] [--width N] SCRIPT (OUTPUT | - | --bench PROGRAM [ARGS..])")
    parser.add_argument("script", metavar="SCRIPT", help="the script that was played, or is to be")
    parser.add_argument("output", metavar="OUTPUT", nargs="?", help="what the bench printed; - for standard input")
    parser.add_argument("--brief", action="store_true", help="few short lines, large events only")
    parser.add_argument("--lines", action="store_true", help="each line of the script has its own answer")
    parser.add_argument("--width", metavar="N", type=int, help="wrapped at N characters; 0 is not at all")
    parser.add_argument("--bench", metavar="PROGRAM", nargs=argparse.REMAINDER, help="play the script; everything behind is the program and its arguments")
    asked = parser.parse_args()
    if asked.output is not None and asked.bench is not None:
        parser.error("either OUTPUT or --bench")
    return asked


def told(asked):
    lines = script.read(read_file(asked.script, "the script"))
    teller = Teller(Words(), asked.brief, asked.lines)
    write = Writer(sys.stdout, asked.width).write
    if asked.output == "-":
        if sys.stdin is None:
            raise script.Fault("standard input is closed")
        explain(lines, texts(sys.stdin.buffer), teller, write)
    elif asked.output is not None:
        explain(lines, script.printed_lines(read_file(asked.output, "what the bench printed")), teller, write)
    else:
        command = bench_command(asked.bench)
        with open(asked.script, "rb") as file:
            bench = start(command, file)
        try:
            explain(lines, texts(bench.stdout), teller, write)
        except script.Fault as fault:
            stop(bench, 1)
            raise script.Fault(f"{command[0]} ended with {bench.returncode}; {fault}" if bench.returncode > 0 else str(fault)) from None
        finally:  # nobody reads any more
            stop(bench, 5 if sys.exc_info()[0] is None else 0)
        if bench.returncode:
            raise script.Fault(f"{command[0]} ended with {bench.returncode}")


def quietly(main, name):
    """Runs a program's main: a fault is a message, and a reader that went away, or Ctrl-C, is the end and no fault."""
    try:
        if sys.stdout is not None:
            sys.stdout.reconfigure(errors="replace")
        main()
        if sys.stdout is not None:
            sys.stdout.flush()
    except script.Fault as fault:
        sys.exit(f"{name}: {fault}")
    except OSError as error:
        os.dup2(os.open(os.devnull, os.O_WRONLY), 1)  # so that the end of the program has somewhere to flush to
        if not isinstance(error, BrokenPipeError):
            sys.exit(f"{name}: cannot be written: {error}")
    except KeyboardInterrupt:
        sys.exit(130)


if __name__ == "__main__":
    quietly(lambda: told(arguments()), "explain.py")
