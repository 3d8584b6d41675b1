#!/usr/bin/env python3
"""The pictures and captures of bench runs: tools/timeline.py and tools/pcap.py.

    tests/pictures.py PROGRAM [ARGS..]     PROGRAM plays a bench script from its standard input; tshark must be there.

Every script under examples and lessons is played, and script and printed lines are read here once more. Its picture is
taken from the drawn shapes, not from how they came about: the units' cells by their places, then which cells each bar,
band and box covers, which row name stands beside it and which text in it; of violations the bit columns, container by
container, from the places of the filled cells; letters by the cells that they stand above,
and behind each letter the text; questions with their bytes and answers. Blanks of a trace must be there one by one.
Texts may not lie upon one another or outside the picture, and must be large enough on a screen and on a page. Damaged
pictures must be found out, and bad input must give a message, a status and no picture. The pictures of runs in
docs/pictures must be what the tool makes of their scripts, byte for byte, and docs/PICTURES.md must have what tshark prints.

The capture of every script is cut back into units, and tshark reads all of them in one call: H1 and H2 must be those of
the unit as fed, worked out from the script and the source's printed words; J1 the byte where the dissector looks for it.
"""

import contextlib
import io
import os
import re
import struct
import sys
import tempfile
import xml.etree.ElementTree as ET

sys.dont_write_bytecode = True
ROOT = os.path.dirname(os.path.dirname(os.path.abspath(__file__)))
sys.path.insert(0, os.path.join(ROOT, "tools"))
import pcap
import script as tools_script  # for timeline.picture_of alone: what is expected is read here
import timeline
from playing import containers_of, play, read_line, refused_at_once, run, trace_of

TIMELINE, PCAP = os.path.join(ROOT, "tools", "timeline.py"), os.path.join(ROOT, "tools", "pcap.py")
KEPT = {"steps.svg": "examples/steps.bench", "worst.svg": "examples/settling/worst.bench", "stuck.svg": "lessons/19-one-stuck-line.bench"}
OTHERS = ["crates.svg"]  # no run: tools/crates.py makes and compares it
NAMES = "dUNEQ dTIM dPLM dRDI SSF TSF AIS RDI cAIS cLOP cSSF cUNEQ cTIM cRDI cPLM".split(" ")
ON_TESTER = dict(zip(NAMES[8:], "AU-AIS AU-LOP HP-SSF HP-UNEQ HP-TIM HP-RDI HP-PLM".split(" ")))
NEAR = 3  # how far a bar's edge may lie from the edge of a cell
CATALOGUES = ("cat", "lookup", "list", "export")  # commands that are given a catalogue
NARROW = "fijlrtI .,:;'\"!|()[]-\u00a0"
SCREEN, PAGE = (1920, 1080), (277, 190)  # dots; millimetres within the margins of A4, laid across
LEAST_DOTS, LEAST_MILLIMETRES = 9, 1.3  # of the smallest letters on them, in the scripts of examples and lessons
BLANK = "\u00b7"  # a blank of a trace

SHOWN = 8  # faults of one thing

failures = {}


def fault(what, text):
    failures.setdefault(what, []).append(text)
    if len(failures[what]) <= SHOWN:
        print(f"pictures.py: {what}: {text}")


RECORD, OTHER_RECORD = "5A4D0007123033453520202020202020202020200F", "5A4D00081220202020205D20205B202020202020200F"
RECORDS = "".join(f"5A4D{k:04X}12{k + 65:02X}{'20' * 14}0F" for k in range(1, 13))
BELOW, ABOVE, SPACES = (f"5A4D000912{trace}0F" for trace in (f"30330045{'20' * 11}", f"{'20' * 14}7F", "20" * 15))
LINES = b'7,12,"03E5 ",15\n8,FE,NORD  SUED,3\n'.hex().upper()
NAMED = "".join(f'{k},12,"] {k}""[ LF",15\n' for k in range(1, 11)).encode().hex()
# What the examples do not have: lines of other lengths among units, all that can be done to a line, refusals of every call, at places where
# the sink is called next and where it is not, lines that are not understood or not about the path, questions between notes, traces with blanks,
# quotes and brackets in them, comments behind commands, characters that XML has for itself.
ODD = f"""# Odd: <&> "quoted", and a word of {"many" * 30} letters; a sentence that ends. And one that
# goes on in the second line.
sink
src -
sink # behind it, "a  b" and   three
Sink
tx 12 "not closed 0 0
len 2357
sink
sink
len 2360
sink
src i
xor 0 01
xor 3 80
xor 9 ff
sink
ones
sink
sink
word 6801
xor 5 01
sink
#
# not marked

  lens   10 2349
sink
lens 2349 2349 # the right ones
fill 00 1a
tx 00 "" 0 0
src -
tx 01 "a  b ""c"" ]" 0 1
rx 01 {"20" * 14}1F 15
sink
tx 01 {"41" * 6}DC09{"20" * 7} 0 0
src -
src -
sink
run 1
src -
tx 01 "" 0 1
run 1
tx 01 "a  b ""c"" ]" 0 1
# what was asked stands between two texts of one place
cat {RECORD}
rx 01 " [x]  " 9
src d
src i
sink
rx 02 "" 15
sink
rx 02 "Q" 15
sink
# see: nothing
fresh
len 3
sink
word 6800
len 0
sink
payload 0
# a comment above what is not drawn
payload 1
cat 00
list 00
list
list {RECORD}
list {RECORD}{OTHER_RECORD} # two
list {RECORDS}
cat {RECORD * 12}
lookup 7
lookup 0007 {RECORD.lower()}
cat {RECORD}{BELOW}
lookup 7 {RECORD}{RECORDS}{ABOVE}
list {ABOVE}{BELOW}
list {RECORD}{SPACES} # an empty cell
export {RECORD}{OTHER_RECORD}
export {RECORDS}
export {RECORD}{ABOVE}
export {BELOW[:-2]}
export
import
import {LINES}
import {LINES * 9}
import {LINES}372C31322C41 # no LF
import {LINES}0A
import 0A372C31322C41
import 382C31322C22612222622009222C31350A # a doubled quote, a blank and a TAB
import {LINES}{"41" * 81}0A
import {NAMED}
parity {"0102" * 120}
check
check 8B{"41" * 15}
read 6800
show
tx 12 "x" 9 0
src -
sink
run 2
tx 12 "x" 0 0
src -
src -
src -
sink
# {"long " * 60}
run 2 # of two units the first
# Question: is this to be seen?
# No, and this is not either.
src -
sink
src -
"""


# Units in which two containers end: both have violations, then the first alone; and in narrow cells the second alone too, with all columns and none.
TWO = """run 3\nsrc i\nsink\nrun 1\nsrc -\nxor 100 A0\nsink\nsrc -\nxor 100 07\nsink\nsrc d\nsink\nrun 3
src i\nsink\nrun 1\nsrc -\nxor 100 81\nsink\nrun 1\nsrc d\nsink
"""
TWO_AND_MORE = TWO + """run 30\nsrc i\nsink\nrun 2\nsrc -\nxor 100 FE\nsink\nsrc d\nsink\nrun 30\nsrc -\nxor 100 FF\nsink\nrun 30\nsrc i\nsink\nrun 3\nsrc d\nsink
"""


def long_run(units):
    """Many units with something among them everywhere, so that it comes at the edges of bands too."""
    lines = ["# A long run", "# Not of the title", 'rx 01 "a" 15', 'tx 01 "a" 0 0']
    for k in range(units):
        lines += {3: ["# A long run has comments"], 7: ["src i", "sink"], 11: ["src d"], 12: ["src -", "ones", "sink", "sink", "sink"], 17: ["len 2350", "sink"],
                  19: ["src -", "word 0800", "sink", "xor 100 07"], 22: [f'tx 0{1 + k % 2} "a" {k % 10} {k % 2}'], 5: ["rx FF \"\" 1", "sink", 'rx 01 "a" 15'],
                  14: [f"rx 01 {'41' * (k % 15)}{'07' if k % 2 else 'FE'}{'20' * (14 - k % 15)} 0", "sink", 'rx 01 "a" 15']}.get(k % 23, [])
        lines += ["run 1"] + ["fresh"] * (k in (77, 78, 79, 150))
    return "\n".join(lines) + "\n"


def scripts(folder):
    """Name and path of every script: those of examples and lessons, and some that are made here."""
    made = {"odd": ODD, "odd with one unit": "run 1\n", "odd and long": long_run(300), "odd and 26 units": long_run(17), "odd and refused": "rx 00 \"\" 0\n" * 90,
            "odd and two": TWO, "odd and two, narrow": TWO_AND_MORE,
            "odd questions": f"check\nrx 12 \"a  b\" 15 # c\n? # d\n# \"e  f\"\ncat {RECORD}\n"}
    for name, text in made.items():
        with open(os.path.join(folder, f"{name}.bench"), "w", encoding="ascii") as file:
            file.write(text)
        yield name, file.name
    for top in ("examples", "lessons"):
        for here, folders, files in os.walk(os.path.join(ROOT, top)):
            folders.sort()
            for file in sorted(files):
                if file.endswith(".bench"):
                    yield os.path.relpath(os.path.join(here, file), ROOT), os.path.join(here, file)


# ---------------------------------------------------------------------------
# Script and printed lines, read once more
# ---------------------------------------------------------------------------


class Call:
    """A call of the sink, or another that was refused: what was printed of it, and the pointer word and length of the line that the sink was fed;
    `marks`: what is to be said of the line, without blanks, each in a long or a short form, and "" where it may be left out."""

    def __init__(self, text, fresh, word=None, length=None, marks=()):
        self.refused = text if " refused " in f" {text}" else None
        self.fresh, self.word, self.length, self.marks, self.unit = fresh, word, length, list(marks), None
        if self.refused is None:
            parts = [part.partition("=") for part in text.split(" ")[1:]]
            self.said = {key: value for key, _, value in parts if key != "c"}
            ended = containers_of(text, lambda what: fault("what was printed", what))
            self.violations, self.returned = sum(container.violations for container in ended), sum(container.returned for container in ended)
            self.columns = [container.columns for container in ended] if self.violations else []  # of each container, as a byte
            actions = [name for name in NAMES[4:8] if self.said[name.lower()] == "1"]
            self.standing = [name for name in NAMES if name in self.said["d"].split(",") + actions + self.said["cause"].split(",")]


def printable(text):
    return "".join(each if each.isprintable() and each != "\ufffd" else "?" for each in text)


def squeezed(text):
    """Without blanks, but for those of a trace, which are to be seen."""
    return re.sub("[ \u00a0]", "", text)


def character_in(data, place):
    return f"character {place} is {data[place - 1]:02X}"


def trace_shown(data):
    return ("[" + data.decode("ascii").replace(" ", BLANK) + "]") if all(0x20 <= byte <= 0x7E for byte in data) else data.hex().upper()


def prose(text):
    text = text if len(text) <= 1000 else text[:1000] + "..."
    return squeezed(re.sub('"[^"]{1,15}"', lambda found: found[0].replace(" ", BLANK), text))


def shown_as_text(data):
    """Whether the lines of a text are drawn as they stand: all of them, if none is too long and each character can be shown."""
    return re.fullmatch(rb"([ -~]{0,80}\n)*[ -~]{0,80}", data) is not None


def drawn_lines(what, data):
    """The lines in which a catalogue or a text that was answered stands."""
    if what == "text":
        lines = [f"[{line}] LF" for line in data.decode("ascii").split("\n")[:-1]]
    else:
        lines = [f"{data[k : k + 2].hex()} {data[k + 2 : k + 4].hex()} {data[k + 4 : k + 5].hex()} ".upper() + f"[{data[k + 5 : k + 20].decode('ascii')}] {data[k + 20]:02X}" for k in range(0, len(data), 21)]
    return lines if len(lines) <= 8 else lines[:8] + [f"and so on: {len(data)} bytes"]


def trace_of_line(data, number):
    """The characters of the trace in a line of a text, doubled quotes made one."""
    return re.match(rb'[^,]*,[^,]*,"((?:[^"]|"")*)",', data.split(b"\n")[number - 1])[1].replace(b'""', b'"')


class Reading:
    """The calls, and in their order what is said of their places and what was asked; a script of None is one that is not known."""

    def __init__(self, script, printed):
        self.printed, self.place = printed, 0
        self.calls, self.remarks, self.refusals = [], [], 0
        self.renew()
        self.of_script, self.title = script is not None, None if script is None else heading_of(script)
        if script is None:
            while self.upcoming is not None:
                self.answered(self.take())
        else:
            self.follow(script)
        self.source_alone()
        if self.sent and script is not None:
            self.say(f"{self.sent if self.sent > 1 else 'one'}moresentandnotfed")
        total = None
        for number, call in enumerate((call for call in self.calls if call.refused is None), 1):
            call.unit = number
            if script is None:  # then a total that does not go on tells of `fresh`
                now = int(call.said["total"])
                call.fresh, total = total is not None and now != total + (call.said["settled"] == "0"), now

    @property
    def upcoming(self):
        return self.printed[self.place] if self.place < len(self.printed) else None

    def take(self):
        self.place += 1
        return self.printed[self.place - 1]

    def renew(self):
        self.fresh, self.length, self.h1, self.h2 = True, 2358, 0, 0
        # of the line, and since the sink was fed; `source` is a refusal of the source that was the last thing printed
        self.sent, self.step, self.filled, self.marks, self.was_fed, self.source = 0, [], [("all00",)], [], False, None

    def source_alone(self):
        if self.source:
            self.calls.append(Call(self.source, self.fresh))
            self.source = None

    def say(self, text):
        self.remarks.append((len(self.calls), text))

    def answered(self, text, asked=None):
        """What a call printed that has to do with the path."""
        self.refusals += re.fullmatch(r"((container|unit|tx|rx) )?refused \d+( \d+)?", text) is not None
        if re.match("(ok|refused) ", text):
            changed = [mark for mark in self.marks if "xor" in mark[0]]
            marks = [mark for mark in self.marks if mark not in changed] + [(f"{len(changed)}bytesxor",)] if len(changed) > 1 else list(self.marks)
            if self.was_fed and not self.sent and not self.source and not self.filled:
                marks.append(("again", "") if marks else ("again",))
            marks += [(f"{self.sent - 1}notfed",)] if self.sent > 1 else []
            marks += [(squeezed(self.source), squeezed(self.source.split(" ", 1)[1]))] if self.source else []
            self.calls.append(Call(text, self.fresh, self.h1 << 8 | self.h2, self.length, (self.filled or (self.step if self.sent else [])) + marks))
            self.fresh = self.fresh and self.calls[-1].refused is not None
            self.sent, self.marks, self.was_fed, self.source = 0, [], True, None
            return
        self.source_alone()
        if re.match("(container|unit) refused ", text):
            self.source = text
            self.length = 2358 if text.startswith("unit") else self.length
        elif re.match("(tx|rx) refused ", text):
            self.calls.append(Call(text, self.fresh))
        elif text.startswith("unit "):
            found = re.search(r" word=(..)(..) fnv=\S+ off=(\d+)", text)
            self.length, self.h1, self.h2 = 2358, int(found[1], 16), int(found[2], 16)
            self.sent, self.filled, self.was_fed, self.marks = self.sent + 1, [], False, []
            self.step = {"i": [("increment",)], "d": [("decrement",)]}.get(asked, [])

    def follow(self, script):
        """Line by line. Noted are comments right above a command and behind it, and what is set."""
        above, heading, seen = [], self.title, False
        for number, line in enumerate(script, 1):
            words, comment = read_line(line)
            comment = printable(comment).lstrip("#").strip()
            if words == [] and self.upcoming != f"? {number}":
                above = above + [comment.removeprefix("not understood:")] * (not comment.startswith("see:")) if comment else []
                seen, heading = seen or bool(comment), heading if above or not seen else None  # None: the title's own lines have passed
                continue
            told = [text for k, text in enumerate(above) if not any(earlier.startswith(("Question:", "Answer:")) for earlier in above[: k + 1])]
            told = prose(" ".join(told).removeprefix(heading or "").strip())
            above, heading, behind = [], None if seen else heading, "" if comment.startswith("see:") else prose(comment)
            if self.upcoming == f"? {number}":
                self.take()
                self.source_alone()
                self.say(told)
                shown = printable(" ".join(words) if words else line.removeprefix("\ufeff")).replace(" ", BLANK)
                self.say(f"line{number}notunderstood:{shown[:40]}\0" + (f"#{behind}" if behind else ""))
            elif words[0] == "run":
                self.source_alone()
                self.say(told)
                self.say(behind)
                for _ in range(int(words[1])):
                    self.answered(self.take(), "-")
                    self.answered(self.take())
            else:
                self.command(words, told, behind)

    def command(self, words, told, behind):
        name, *given = words
        if name != "sink":
            self.source_alone()
        if name in ("cat", "lookup", "list", "import", "export", "parity", "check", "read"):
            data = given[-1] if len(given) > (name == "lookup") else ""
            answers = [self.take()]
            while answers[0].startswith("circuit ") and len(answers) <= len(data) // 42:
                answers.append(self.take())
            number = f" {int(given[0])}" if name == "lookup" else ""
            answers = answers[1:] or answers
            made = re.fullmatch(r"((import|export) ok)(?: ([0-9A-F]+))?", answers[0])
            if made:
                answers = [made[1]] + (drawn_lines("text" if made[2] == "export" else "catalogue", bytes.fromhex(made[3])) if made[3] else [])
            refused = re.fullmatch(r"(?:(?:cat|lookup|export) refused )?(?:5|20) (\d+) (\d+)(?: pairs=0)?", answers[0]) if name in CATALOGUES else None
            of_text = re.fullmatch(r"import refused (?:5|20) (\d+) (\d+)", answers[0])
            more = [f"line {of_text[1]}, {character_in(trace_of_line(bytes.fromhex(data), int(of_text[1])), int(of_text[2]))}"] if of_text else [f"record {refused[1]}, {character_in(bytes.fromhex(data)[21 * int(refused[1]) - 16 :], int(refused[2]))}"] if refused else []
            self.remarks.append((self.units_before(), told + behind, name + number, data.upper(), answers, more))
            return
        own = ""
        if name == "tx":
            returned = f",{int(given[2])}violationsreturned" if int(given[2]) else ""
            own = f"sent:label{given[0].upper()}{trace_shown(trace_of(given[1]))}{returned},{'no' if int(given[3]) == 0 else ''}remotedefect"
        elif name == "rx":
            flags = int(given[2])
            reported = ",".join(each for bit, each in ((2, "RDI"), (4, "SSF"), (8, "AIS")) if flags & bit) or "nothing"
            own = f"expected:label{given[0].upper()}{trace_shown(trace_of(given[1]))},{'' if flags & 1 else 'not'}monitored,{reported}reported"
        elif name == "fill":
            own = f"heldfilledwith{given[0].upper()},donewith{given[1].upper()}"
        elif name == "lens":
            own = f"heldof{int(given[0])}bytes,doneof{int(given[1])}"
        refused = re.fullmatch(rf"{name} refused (?:5|20) (\d+)", self.upcoming or "")
        if name in ("tx", "rx") and refused:
            own += f";{squeezed(character_in(trace_of(given[1]), int(refused[1])))}"
        elif name == "fresh" and self.calls:
            own = "fresh:sources,sinkandtotalbeginanew"
        if name not in ("show", "payload"):
            self.say(told)
            self.say(own + (f"#{behind}" if own and behind else behind))
        if name in ("src", "sink", "show", "payload") or name in ("tx", "rx") and refused_at_once(words):
            text = self.take()
            self.answered(text, *given[:1])
            if name == "payload" and "refused" in text:
                self.say(squeezed(text))
        elif name == "fresh":
            self.renew()
        elif name == "ones":
            self.h1 = self.h2 = 0xFF
            self.filled, self.marks = [("allones",)], []
        elif name == "word":
            self.h1, self.h2 = int(given[0][:2], 16), int(given[0][2:], 16)
            self.marks.append((f"word{given[0].upper()}",))
        elif name == "xor":
            self.h1 ^= int(given[1], 16) if int(given[0]) == 0 else 0
            self.h2 ^= int(given[1], 16) if int(given[0]) == 3 else 0
            self.marks.append((f"byte{int(given[0])}xor{given[1].upper()}", f"xor{given[1].upper()}"))
        elif name == "len":
            self.length = int(given[0])
            self.h1, self.h2 = self.h1 if self.length >= 1 else 0, self.h2 if self.length >= 4 else 0
            self.marks.append((f"{self.length}bytes",))

    def units_before(self):
        return sum(1 for call in self.calls if call.refused is None)

    def remarks_told(self):
        """All that stands below the bands in the order in which it is read: a letter in braces, a question in angles; \\0 is any text. And for each
        letter its place."""
        merged, notes, when = [], {}, None
        for remark in self.remarks:
            if len(remark) > 2:
                units, comment, asked, data, answers, more = remark
                head = "" if units == when or not any(call.unit for call in self.calls) else f"afterunit{units}" if units else "beforeunit1"
                when = units
                most = 8 * (42 if asked.split(" ")[0] in CATALOGUES and len(data) % 42 == 0 else 48)  # digits that are drawn
                if asked == "import" and shown_as_text(bytes.fromhex(data)):
                    most = 2 * sum(len(line) for line in bytes.fromhex(data).splitlines(keepends=True)[:8])
                data = data if len(data) <= most else f"{data[:most]}({len(data) // 2})"
                answers = (answers if len(answers) <= 8 or answers[0].endswith(" ok") else answers[:8] + [f"and so on: {len(answers)} lines"]) + more
                merged.append([f"{head}{comment}<{asked}|{data}|{'|'.join(answers)}>"])
                continue
            place, text = remark
            unit = self.calls[place].unit if place < len(self.calls) else None
            text = re.sub(rf"^[Uu]nit{unit}([.:]|$)", "", text) if unit and text else text
            if not text:
                continue
            if not self.calls:
                merged.append([text])
            elif place in notes:
                notes[place].append(text)
            else:
                head = "attheend" if place == len(self.calls) else squeezed(self.calls[place].refused or f"unit{unit}")
                notes[place] = [head, text]
                merged.append(notes[place])
        letters = {place: letter_of(k) for k, place in enumerate(notes)}
        marked = {id(texts): letters[place] for place, texts in notes.items()}
        return "".join((f"{{{marked[id(texts)]}}}" if id(texts) in marked else "") + "".join(texts) for texts in merged), letters


def letter_of(k):
    return chr(65 + k) if k < 26 else letter_of(k // 26 - 1) + chr(65 + k % 26)


def heading_of(script):
    """The first comment's first sentence with as many more as make at most 110 characters, of its first line and of those into which a sentence goes
    on; None where there is none."""
    block = []
    for line in script:
        words, comment = read_line(line)
        comment = comment.lstrip("#").strip()
        if words == [] and comment:
            if not block or not (block[-1][-1] in ".?!:" or len(block[-1]) < 70 and comment[0].isupper()):
                block.append(comment)
                continue
        if block:
            break
    if not block:
        return None
    parts = re.split(r"(?<=[.?!]) +", " ".join(block))
    title = parts.pop(0)
    while parts and len(title) + 1 + len(parts[0]) <= 110:
        title += " " + parts.pop(0)
    return title


# ---------------------------------------------------------------------------
# The picture
# ---------------------------------------------------------------------------


class Shape:
    """A rectangle or a text of the picture."""

    def __init__(self, element):
        self.kind = element.tag.rpartition("}")[2]
        self.classes, self.row, self.unit = element.get("class", ""), element.get("data-row"), element.get("data-unit")
        self.text = "".join(element.itertext())
        self.bold = element.get("font-weight") == "bold"
        if self.kind == "rect":
            self.x, self.y, self.width, self.height = (float(element.get(key, "0")) for key in ("x", "y", "width", "height"))
        else:
            self.size = float(element.get("font-size"))
            self.fixed = [part for part in element if part.get("class") == "fixed"]
            of_one_width = sum(len("".join(part.itertext())) for part in self.fixed)
            others = (element.text or "") + "".join(part.tail or "" for part in element)
            # letters by and large; the foot lies a third of their size below their middle
            long = self.size * (sum(0.28 if letter in NARROW else 0.54 for letter in others) + 0.59 * of_one_width)
            before = {"start": 0, "middle": 0.5, "end": 1}[element.get("text-anchor")]
            turned = re.fullmatch(r"translate\((\S+) (\S+)\) rotate\(-90\)", element.get("transform", ""))
            if turned:
                foot, along = float(turned[1]), float(turned[2])
                self.x, self.y, self.width, self.height = foot - 0.7 * self.size, along - long * (1 - before), 0.7 * self.size, long
            else:
                foot, along = float(element.get("y")), float(element.get("x"))
                self.x, self.y, self.width, self.height = along - long * before, foot - 0.7 * self.size, long, 0.7 * self.size
        self.middle = self.x + self.width / 2, self.y + self.height / 2

    def has(self, x, y):
        return self.x <= x <= self.x + self.width and self.y <= y <= self.y + self.height


class Picture:
    def __init__(self, data):
        root = ET.fromstring(data)
        if root.tag != "{http://www.w3.org/2000/svg}svg":
            raise ValueError(f"the root is {root.tag}")
        self.width, self.height = (float(number) for number in root.get("viewBox").split(" ")[2:])
        self.sized = root.get("width") or root.get("height")
        self.title = next(element.text for element in root.iter() if element.tag.endswith("}title"))
        # what stands in a pattern is no shape of the picture
        shapes = [Shape(element) for element in root if element.tag.rpartition("}")[2] in ("rect", "text")]
        self.cells = [shape for shape in shapes if shape.classes == "unit"]
        self.rects = [shape for shape in shapes if shape.kind == "rect" and shape.row]
        self.texts = [shape for shape in shapes if shape.kind == "text"]
        self.plain = [shape for shape in shapes if shape.kind == "rect"]
        self.flags = [shape for shape in shapes if shape.classes == "flag" and shape.kind == "rect"]
        self.bottom = max((cell.y + cell.height for cell in self.cells), default=0)

    def of(self, *rows):
        return [rect for rect in self.rects if rect.row in rows]

    def in_it(self, shape):
        return [text for text in self.texts if shape.has(*text.middle)]

    def covered(self, shape):
        """The places of the cells that a shape covers; none unless it begins and ends with a cell's edges."""
        cells = [(k, cell) for k, cell in enumerate(self.cells) if cell.y <= shape.middle[1] <= cell.y + cell.height]
        inside = [(k, cell) for k, cell in cells if shape.x <= cell.middle[0] <= shape.x + shape.width]
        if not inside or abs(inside[0][1].x - shape.x) > NEAR:
            return []
        last = inside[-1][1]
        return [k for k, _ in inside] if abs(last.x + last.width - shape.x - shape.width) <= NEAR else []

    def letters(self):
        """The letters above the bands, each with the place of its cell: that of the last cell and one more where it stands behind it."""
        found = {}
        for flag in self.flags:
            below = [cell.y for cell in self.cells if cell.y >= flag.y + flag.height - 1]
            if not below:
                continue
            band = [(k, cell) for k, cell in enumerate(self.cells) if cell.y == min(below)]
            middle = flag.middle[0]
            place = next((k for k, cell in band if cell.x <= middle <= cell.x + cell.width), band[-1][0] + 1 if middle > band[-1][1].x else None)
            found[place] = "".join(text.text for text in self.in_it(flag))
        return found

    def remarks(self):
        """What stands below the bands, as Reading has it: column by column."""
        below = [shape for shape in self.flags + self.texts if shape.y > self.bottom and shape.classes not in ("pale", "light")]
        below = [shape for shape in below if shape.kind == "rect" or shape.size < 36]
        edges = sorted({round(shape.x) for shape in below if shape.kind == "rect"} | {round(shape.x) - 20 for shape in below if shape.row == "asked"})
        edges = [edge for k, edge in enumerate(edges) if k == 0 or edge > edges[k - 1] + 5]
        found = []
        for edge, end in zip(edges, edges[1:] + [self.width]):
            column = sorted((shape for shape in below if edge - 2 <= shape.x < end - 2), key=lambda shape: (round(shape.middle[1]), shape.x))
            for shape in column:
                if shape.kind == "rect":
                    found.append("{" + "".join(text.text for text in self.in_it(shape)) + "}")
                elif shape.row == "asked":
                    # its lines go down to the next text that is none of it
                    ends = min((other.y for other in column if other.y > shape.y + 9 and other.row not in ("bytes", "answer")), default=self.height)
                    rows = {row: [other.text for other in column if other.row == row and shape.y - 9 < other.y < ends - 9] for row in ("bytes", "answer")}
                    data = "".join(map(digits_of, rows["bytes"]))
                    answers = "|".join(text.replace("\u00a0", " ").replace(BLANK, " ") for text in rows["answer"])
                    found.append(f"<{shape.text}|{data}|{answers}>")
                elif shape.row is None:
                    found.append(squeezed(shape.text))
        return "".join(found)


def digits_of(text):
    """The hex digits of bytes that are drawn: a trace, or a line of a text, stands in brackets. Of many bytes the number is told, in parentheses."""
    more = re.fullmatch(r"and\u00a0so\u00a0on:\u00a0(\d+)\u00a0bytes", text)
    if more or text == "no\u00a0bytes":
        return f"({more[1]})" if more else ""
    text = re.sub(r"\[(.*)\]", lambda found: found[1].replace(BLANK, " ").encode("ascii").hex().upper(), text)
    return re.sub("LF$", "0A", text).replace("\u00a0", "")


def intervals(calls, name):
    """The units in which `name` stands, as (first, last); `fresh` ends an interval, a refused call does not."""
    found = []
    for call in calls:
        if call.refused is not None or name not in call.standing:
            continue
        if found and found[-1][1] == call.unit - 1 and not call.fresh:
            found[-1][1] = call.unit
        else:
            found.append([call.unit, call.unit])
    return found


def interval_texts(first, last, units):
    if first == last:
        return {f"unit {first}", f"{first}"}
    return {f"from {first} on", f"{first}\u2013"} if last == units else {f"{first} to {last}", f"{first}\u2013{last}"}


def faults_of(data, reading, every_row=False):
    """What is wrong with a picture of what was read."""
    try:
        picture = Picture(data)
    except (ET.ParseError, ValueError, AttributeError, TypeError, KeyError, StopIteration) as error:
        yield f"no picture: {error}"
        return
    calls = reading.calls
    units = [call for call in calls if call.unit]
    if [cell.unit for cell in picture.cells] != [str(call.unit) if call.unit else None for call in calls]:
        yield f"{len(picture.cells)} cells, not those of {len(units)} units and {len(calls) - len(units)} refused calls"
        return
    for one, other in zip(picture.cells, picture.cells[1:]):
        if not (one.y == other.y and abs(one.x + one.width - other.x) < 0.2 or other.y >= one.y + one.height and other.x <= one.x):
            yield f"the cells of unit {one.unit} and unit {other.unit} do not follow one another"
    yield from column_faults(picture, calls, units, every_row)
    yield from line_faults(picture, reading)
    # title and count
    if reading.title is not None:
        title = " ".join(text.text for text in picture.texts if text.bold and text.size >= 36)
        if picture.title != reading.title or squeezed(title) != prose(reading.title):
            yield f"the title is {title!r}, not {reading.title!r}"
    unsettled = sum(1 for call in units if call.said["settled"] == "0")
    told = [f"{len(units)} units: {unsettled} unsettled, {len(units) - unsettled} settled" if len(units) > 1 else
            f"1 unit, {'unsettled' if unsettled else 'settled'}"] * (len(units) > 0)
    questions = sum(1 for remark in reading.remarks if len(remark) > 2)
    told += [f"{count} {what}{'s' if count > 1 else ''}" for count, what in ((reading.refusals, "refusal"), (questions, "question")) if count]
    if "; ".join(told) not in [text.text for text in picture.texts]:
        yield f"nowhere is told: {'; '.join(told)}"
    yield from layout_faults(picture)


def column_faults(picture, calls, units, every_row):
    """What is wrong with the rows."""

    def covered(*rows):
        """For each place the shapes of these rows that cover it."""
        by_place = [[] for _ in calls]
        for rect in picture.of(*rows):
            places = picture.covered(rect)
            if not places:
                yield_later.append(f"a shape of the row {rect.row} does not fit the cells")
            for place in places:
                by_place[place].append(rect)
        return by_place

    yield_later = []
    left = picture.cells[0].x if calls else 0
    # bars: where they stand, beside which name, with which units
    for name in NAMES:
        drawn = [call.unit for call, shapes in zip(calls, covered(name)) for _ in shapes]
        expected = [call.unit for call in units if name in call.standing]
        if drawn != expected:
            yield f"{name} is drawn in units {drawn}, and stands in {expected}"
        stands = intervals(calls, name)
        for rect in picture.of(name):
            beside = [text for text in picture.texts if text.x + text.width <= left and rect.y <= text.middle[1] <= rect.y + rect.height]
            if [text.text for text in beside if text.bold] != [name]:
                yield f"a bar of {name} stands beside the name {[text.text for text in beside if text.bold]}"
            if [text.text for text in beside if "-" in text.text] != [ON_TESTER.get(name)] * (name in ON_TESTER):
                yield f"a bar of {name} has the names {[text.text for text in beside]}"
            # a text behind a bar, up to the next one, is that bar's
            row = [other for other in picture.of(name) if other.y == rect.y]
            end = min((other.x for other in row if other.x > rect.x), default=picture.width)
            texts = [text.text for text in picture.texts
                     if rect.x <= text.middle[0] < end and text.x > left - NEAR and rect.y <= text.middle[1] <= rect.y + rect.height
                     and " refused " not in f" {text.text}"]
            at = calls[(picture.covered(rect) or [0])[0]].unit
            allowed = [interval_texts(first, last, len(units)) for first, last in stands if first <= (at or 0) <= last]
            if len(texts) > 1 or any(text not in allowed[0] for text in texts if allowed):
                yield f"a bar of {name} from unit {at} on is labelled {texts}"
    # what never stands is named at the foot
    foot = " ".join(text.text for text in picture.texts if text.classes == "pale" and text.y > picture.bottom and calls)
    never = [] if every_row or not units else [name for name in NAMES if not any(name in call.standing for call in units)]
    if re.findall(r"\b(?:[cd]?(?:[A-Z]{3,4}))\b", foot.replace("Not once", "")) != never:
        yield f"at the foot there is {foot!r}, and not once stand {never}"
    # bands and boxes, unit by unit
    states, settled = covered("state"), covered("settled", "unsettled")
    offsets, violations, returned = covered("offset"), picture.of("violations"), picture.of("returned")
    refused = covered("refused")
    for place, (call, cell) in enumerate(zip(calls, picture.cells)):
        what = f"unit {call.unit}"
        if not call.unit:
            texts = [text.text for rect in refused[place] for text in picture.in_it(rect)]
            if texts != [call.refused]:
                yield f"the refusal at place {place + 1} is marked {texts}, not {call.refused}"
            if states[place] or settled[place] or offsets[place]:
                yield f"the refusal at place {place + 1} is drawn as a unit"
            continue
        if refused[place]:
            yield f"{what} is drawn as refused"
        if [rect.classes for rect in states[place]] != [call.said["st"]]:
            yield f"{what} is drawn {[rect.classes for rect in states[place]]}, and is {call.said['st']}"
        for rect in states[place]:
            if any(text.text != call.said["st"] for text in picture.in_it(rect)):
                yield f"{what}: the band {call.said['st']} is labelled {[text.text for text in picture.in_it(rect)]}"
        if [rect.classes for rect in settled[place]] != ["settled" if call.said["settled"] == "1" else "unsettled"]:
            yield f"{what} is drawn {[rect.classes for rect in settled[place]]}, and settled is {call.said['settled']}"
        if len(offsets[place]) != (call.said["off"] != "-"):
            yield f"{what} has {len(offsets[place])} boxes for offset {call.said['off']}"
        for rect in offsets[place]:
            texts = {text.text for text in picture.in_it(rect)}
            if texts != {call.said["off"]}:
                yield f"{what}: offset {texts}, not {call.said['off']}"
        ended = [rect for rect in picture.of("ended") if cell.has(*rect.middle)]
        if len(ended) != int(call.said["ended"]):
            yield f"{what}: {len(ended)} containers are drawn, {call.said['ended']} ended"
        for name, rects, number in (("violations", violations, call.violations), ("returned", returned, call.returned)):
            here = [text.text for rect in rects if cell.has(*rect.middle) for text in picture.in_it(rect)]
            if here != [str(number)] * (number > 0):
                yield f"{what}: {name} {here}, not {number}"
    yield from bit_column_faults(picture, calls, left)
    # totals: of one unit, or of the first and the last of a stretch
    told = set()
    for text in (text for text in picture.texts if text.row == "total"):
        cells = [k for k, cell in enumerate(picture.cells) if cell.has(*text.middle)]
        if len(cells) == 1 and picture.cells[cells[0]].width >= 60:
            places = cells
        else:
            bands = [rect for rect in picture.of("settled", "unsettled") if rect.x <= text.middle[0] <= rect.x + rect.width
                     and picture.cells[picture.covered(rect)[0]].y == picture.cells[cells[0]].y] if cells else []
            places = picture.covered(bands[0]) if bands else []
        totals = [int(calls[place].said["total"]) for place in places if calls[place].unit]
        numbers = [int(number) for number in re.findall(r"\d+", text.text)]
        # where a stretch is narrow its last total is enough
        narrow = sum(picture.cells[place].width for place in places) < 120
        if not totals or numbers not in ([totals[0], totals[-1]], [totals[-1]]) or len(numbers) < min(2, len(set(totals))) and not narrow:
            yield f"the total {text.text} stands where it is {totals[:1]} to {totals[-1:]}"
        told.update(places)
    if units and calls.index(units[-1]) not in told:
        yield "the last total is not told"
    yield from yield_later


def bit_column_faults(picture, calls, left):
    """What is wrong with the bit columns of violations: in each cell a pile of eight for each container, side by side, filled where violated, 1 at the top."""
    cells = picture.of("columns")
    for call, cell in zip(calls, picture.cells):
        here = sorted((rect for rect in cells if cell.has(*rect.middle)), key=lambda rect: (round(rect.x), rect.y))
        piles = [[rect for rect in here if round(rect.x) == x] for x in sorted({round(rect.x) for rect in here})]
        drawn = ["".join({"violated": "1", "sound": "0"}.get(rect.classes, "?") for rect in pile) for pile in piles]
        expected = call.columns if call.unit else []
        if drawn != [f"{byte:08b}" for byte in expected]:
            yield f"unit {call.unit}: the bit columns drawn are {drawn}, and those of its containers {[f'{byte:08b}' for byte in expected]}"
            continue
        if any(one.x + one.width > other.x for one, other in zip(here[::8], here[8::8])):
            yield f"unit {call.unit}: the bit columns of two containers lie upon one another"
        for pile in piles:
            # level with the numbers of the first and the last beside the band, with the row's name between them
            texts = [text for text in picture.texts if text.x + text.width <= left and pile[0].y - 2 <= text.middle[1] <= pile[-1].y + pile[-1].height + 2]
            level = [next((text.text for text in texts if text.classes == "pale" and abs(text.middle[1] - rect.middle[1]) <= 2), None) for rect in pile]
            if level != ["1", *[None] * 6, "8"] or [text.text for text in texts if text.bold] != ["bit columns"]:
                yield f"unit {call.unit}: beside its bit columns stand {level} and {[text.text for text in texts if text.bold]}"
        # the bytes below; in a narrow cell there is no room for them
        bytes_below = sorted((text for text in picture.texts if text.row == "columns" and cell.has(*text.middle)), key=lambda text: text.x)
        told = [text.text for text in bytes_below]
        printed = [f"{byte:02X}" for byte in expected]
        if told != [text for text in printed if text != "00"] and (told or cell.width >= (60 if len(expected) > 1 else 18)):
            yield f"unit {call.unit}: the bytes of its bit columns are {told}, not {printed}"
        for text in bytes_below:
            above = [byte for byte, pile in zip(printed, piles) if pile[0].x - 6 <= text.middle[0] <= pile[0].x + pile[0].width + 6 and text.y > pile[-1].y]
            if text.text not in above:
                yield f"unit {call.unit}: {text.text} stands below {above}"


def line_faults(picture, reading):
    """What is wrong with that which only a script tells: what was done to the line, words, letters, notes and questions."""
    if not reading.of_script:
        return
    for place, (call, cell) in enumerate(zip(reading.calls, picture.cells)):
        boxes = [rect for rect in picture.of("sent") if rect.x <= cell.middle[0] <= rect.x + rect.width and cell.has(cell.middle[0], rect.middle[1])]
        text = "".join(re.sub(r"[ \u00a0,-]", "", text.text) for rect in boxes for text in picture.in_it(rect))
        rest = text
        for forms in sorted(call.marks, key=lambda forms: -len(forms[0])):
            found = next((form for form in forms if form in rest), None)
            rest = rest + "?" if found is None else rest.replace(found, "", 1)
        if rest or len(boxes) != (len(call.marks) > 0):
            yield f"place {place + 1}, unit {call.unit}, is marked {text!r} in {len(boxes)} boxes, and it is {call.marks}"
    label = next((text.middle[1] for text in picture.texts if text.text == "word" and text.x < picture.cells[0].x), None) if reading.calls else None
    if any(cell.width >= 60 and cell.unit for cell in picture.cells) or label is not None:
        words = [[text.text for text in picture.texts if cell.has(*text.middle) and abs(text.middle[1] - (label or 0)) < 9] for cell in picture.cells]
        if words != [[f"{call.word:04X}"] * (call.length >= 4) if call.word is not None else [] for call in reading.calls]:
            yield f"the words drawn are {words}"
    told, letters = reading.remarks_told()
    if picture.letters() != letters:
        yield f"the letters stand at {picture.letters()}, and should at {letters}"
    drawn = picture.remarks()
    if not re.fullmatch(".+?".join(map(re.escape, told.split("\0"))), drawn):
        same = len(os.path.commonprefix([told, drawn]))
        yield f"below the bands there is, behind {drawn[max(0, same - 40) : same]!r}, {drawn[same : same + 60]!r}, and should be {told[same : same + 60]!r}"
    for text in picture.texts:
        for part in text.fixed:
            blanks = "".join(inner.text or "" for inner in part if inner.get("class") == "blank")
            if " " in "".join(part.itertext()) or blanks != BLANK * "".join(part.itertext()).count(BLANK):
                yield f"blanks cannot be counted in {text.text}"


def layout_faults(picture):
    if picture.sized:
        yield "a picture with a size of its own does not fit every screen"
    for shape in picture.plain + picture.texts:
        if shape.x < 0 or shape.y < 0 or shape.x + shape.width > picture.width or shape.y + shape.height > picture.height:
            yield f"cut off: {shape.row or shape.text or shape.classes}"
    for shapes in (picture.texts, picture.flags):
        shapes = sorted(shapes, key=lambda shape: shape.y)
        for k, one in enumerate(shapes):
            for other in shapes[k + 1 :]:
                if other.y >= one.y + one.height:
                    break
                if one.x < other.x + other.width and other.x < one.x + one.width:
                    yield f"one upon the other: {one.text or 'a letter'} and {other.text or 'a letter'}"


def size_faults(data):
    """Where the smallest letters of a picture are too small on a screen or on a page."""
    picture = Picture(data)
    least = min(text.size for text in picture.texts)
    for (width, height), limit, what in ((SCREEN, LEAST_DOTS, "dots on a screen"), (PAGE, LEAST_MILLIMETRES, "mm on a page")):
        high = least * min(width / picture.width, height / picture.height)
        if high < limit:
            yield f"the smallest letters have {high:.1f} {what}"


def in_process(tool, *arguments):
    """A tool's run: status, standard output, standard error."""
    said, errors, given = io.StringIO(), io.StringIO(), sys.argv
    sys.argv = [tool.__file__, *arguments]
    try:
        with contextlib.redirect_stdout(said), contextlib.redirect_stderr(errors):
            tool.main()
        status = 0
    except SystemExit as ended:
        status = ended.code if isinstance(ended.code, int) else 1
        errors.write("" if isinstance(ended.code, int) else str(ended.code))
    finally:
        sys.argv = given
    return status, said.getvalue(), errors.getvalue()


def check_picture(name, path, data, printed, folder):
    """The picture as a file, with its script; and what it is without the script, and with every row. How many pictures there were, and the reading."""
    file, said_by_bench = os.path.join(folder, "picture.svg"), os.path.join(folder, "printed")
    script, lines = data.decode("utf-8", errors="replace").split("\n"), printed.decode("ascii").splitlines()
    reading, alone = Reading(script[:-1] if script[-1] == "" else script, lines), Reading(None, lines)
    with open(said_by_bench, "wb") as written:
        written.write(printed)
    status, said, errors = in_process(timeline, "--script", path, "-o", file, said_by_bench)
    if status != 0 or said or errors:
        fault(name, f"timeline.py: status {status}: {errors[-500:]}")
        return 0, reading
    with open(file, "rb") as picture:
        drawn = picture.read()
    os.remove(file)
    every_row = timeline.picture_of(lines, tools_script.read(data), every_row=True)
    pictures = [(name, drawn, reading, False), (f"{name}, every row", every_row, reading, True)]
    if alone.calls:
        pictures.append((f"{name}, without the script", timeline.picture_of(lines), alone, False))
    for what, picture, read, every in pictures:
        for text in faults_of(picture, read, every):
            fault(what, text)
    for text in size_faults(drawn) if not name.startswith("odd") else ():
        fault(name, text)
    return len(pictures), reading


# ---------------------------------------------------------------------------
# Damage, bad input, kept pictures
# ---------------------------------------------------------------------------

PILE = r'(?:<rect [^>]*data-row="columns"/>\n){8}<text [^>]*data-row="columns"[^>]*>'  # bit columns of a container, up to their byte


def exchanged(found):
    """Two piles of bit columns, each in the place of the other, with their bytes."""
    places = sorted(set(re.findall(r' x="([^"]*)"', found[0])), key=float)
    first, second = places[: len(places) // 2], places[len(places) // 2 :]
    other = dict(zip(first + second, second + first))
    return re.sub(r' x="([^"]*)"', lambda x: f' x="{other[x[1]]}"', found[0])


# Edits of the pictures of these scripts, each of which must be found out. A shape is moved by so many cells.
DAMAGE = {
    "lessons/19-one-stuck-line.bench": [
        ("another bit column", r'class="violated"( data-row="columns"/>\n<rect [^>]*)class="sound"', r'class="sound"\1class="violated"', None),
        ("a bit column too many", r'class="sound" data-row="columns"', 'class="violated" data-row="columns"', None),
        ("a bit column too few", r'class="violated" data-row="columns"', 'class="sound" data-row="columns"', None),
        ("a bit column of another unit", r'class="violated" data-row="columns"/>', None, ("x", 1)),
        ("a unit's bit columns left out", PILE + "20</text>\n", "", None),
        ("bit columns where there are none", r'data-row="columns"/>', None, ("x", 2)),
        ("the byte of other bit columns", r'(data-row="columns"[^>]*>)20<', r"\g<1>04<", None),
        ("a byte left out", r'<text [^>]*data-row="columns"[^>]*>76</text>\n', "", None),
        ("bit columns numbered from the other end", r'(<text class="pale"[^>]*>)1(</text>\n<text class="pale"[^>]*>)8<', r"\g<1>8\g<2>1<", None),
        ("bit columns of another name", r">bit columns<", ">violations<", None),
        ("another number of violations", r'(class="violations" [^>]*/>\n<text [^>]*>)5<', r"\g<1>1<", None),
    ],
    "odd and two": [
        ("bit columns of the other container", f"{PILE}A0</text>\n{PILE}07</text>\n", exchanged, None),
        ("bit columns of the first container alone", f"({PILE}A0</text>\n){PILE}07</text>\n", r"\1", None),
        ("bit columns of the second container alone", f"{PILE}A0</text>\n({PILE}07</text>\n)", r"\1", None),
        ("no bit columns of a container without violations", r'(?:<rect [^>]*class="sound" data-row="columns"/>\n){8}', "", None),
        ("bytes of the other container", r'(data-row="columns"[^>]*>)A0((?:.|\n)*?data-row="columns"[^>]*>)07<', r"\g<1>07\g<2>A0<", None),
    ],
    "examples/steps.bench": [
        ("a bar shorter by a unit", r'class="defect" data-row="dTIM"/>', None, ("width", -1)),
        ("a bar later by a unit", r'class="action" data-row="SSF"/>', None, ("x", 1)),
        ("a bar gone", r'<rect [^>]*class="cause" data-row="cLOP"/>\n', "", None),
        ("a bar of another name", r'data-row="TSF"', 'data-row="AIS"', None),
        ("a row of another name", r">TSF<", ">SSF<", None),
        ("another name on a tester", r">AU-LOP<", ">AU-AIS<", None),
        ("a bar with other units", r">from 3 on<", ">from 2 on<", None),
        ("another state", r'class="lost" data-row="state"', 'class="alarm" data-row="state"', None),
        ("a state with another name", r">lost<", ">alarm<", None),
        ("a container too few", r'<rect [^>]*class="ended" data-row="ended"/>\n', "", None),
        ("a cell too few", r'<rect [^>]*class="unit" data-unit="8"/>\n', "", None),
        ("another total", r'(data-row="total"[^>]*>)8<', r"\g<1>7<", None),
        ("settled", r'class="unsettled" data-row="unsettled"', 'class="settled" data-row="settled"', None),
        ("another title", r"offset 0 ends no", "offset 1 ends no", None),
        ("another count", r">8 units: 8 unsettled", ">8 units: 7 unsettled", None),
        ("a name missing at the foot", r"run: dUNEQ, ", "run: ", None),
        ("a letter above another unit", r'class="flag" rx="4"/>', None, ("x", 1)),
        ("a note of another unit", r">unit 4<", ">unit 5<", None),
        ("a note with another text", r">P2: 0 to 1<", ">P2: 1 to 0<", None),
        ("a text upon another", r'(<text [^>]*)y="[^"]*">increment<', r'\1y="190">increment</text>\n\1y="192">decrement<', None),
        ("a size", r'<svg ', '<svg width="1920" height="1080" ', None),
        ("no XML", r"</svg>", "", None),
    ],
    "lessons/04-traces-alike.bench": [
        ("a blank too few", BLANK * 3 + "<", BLANK * 2 + "<", None),
        ("blanks that are not seen", r'<tspan class="blank">·+</tspan>', "           ", None),
        ("blanks in another face", r'class="blank"', 'class="ink"', None),
    ],
    "lessons/08-impossible-label.bench": [
        ("a refusal of another call", r">tx refused 4</text>\n<rect", ">rx refused 4</text>\n<rect", None),
        ("a refused setting under the next refusal", r'class="flag" rx="4"/>', None, ("x", 0.6)),
        ("another label", r"expected: label FF", "expected: label 00", None),
        ("a refusal too few", r'<rect [^>]*class="refused" data-row="refused"/>\n', "", None),
        ("another count of refusals", r"\d+ refusals", "2 refusals", None),
    ],
    "lessons/02-03E5-is-a-name.bench": [
        ("another answer", r">check\u00a01<", ">check\u00a00<", None),
        ("another refusal", r"cat\u00a0refused\u00a013\u00a02\u00a01", "cat\u00a0refused\u00a013\u00a01\u00a02", None),
        ("another number of pairs", r"cat\u00a0ok\u00a02\u00a0pairs=1<", "cat\u00a0ok\u00a02\u00a0pairs=2<", None),
        ("pairs left out", r"cat\u00a0ok\u00a01\u00a0pairs=0<", "cat\u00a0ok\u00a01<", None),
        ("no pair before a refusal", r"\u00a013\u00a02\u00a01\u00a0pairs=1<", "\u00a013\u00a02\u00a01\u00a0pairs=0<", None),
        ("pairs of a refusal left out", r"cat\u00a0refused\u00a09\u00a0pairs=0<", "cat\u00a0refused\u00a09<", None),
        ("other bytes", r">8B\u00a0\[03E5", ">8B\u00a0[03E6", None),
        ("a blank too few", BLANK * 3 + "<", BLANK * 2 + "<", None),
        ("an answer too few", r'<text [^>]*data-row="answer"[^>]*>.*</text>\n', "", None),
        ("another question", r">lookup 7<", ">lookup 8<", None),
    ],
    "lessons/16-which-character.bench": [
        ("another character", r">rx refused 5 3</text>\n<rect", ">rx refused 5 4</text>\n<rect", None),
        ("above for below", r">rx refused 5 3</text>\n<rect", ">rx refused 20 3</text>\n<rect", None),
        ("no character", r">rx refused 20 2</text>\n<rect", ">rx refused 20</text>\n<rect", None),
        ("spaces alone with a character", r">rx refused 21</text>\n<rect", ">rx refused 21 1</text>\n<rect", None),
        ("another byte in a note", r"character 3 is 09", "character 3 is 0A", None),
        ("another place in a note", r"character 7 is DC", "character 8 is DC", None),
        ("another character in a catalogue", r"cat\u00a0refused\u00a020\u00a02\u00a07", "cat\u00a0refused\u00a020\u00a02\u00a06", None),
        ("pairs with a character", r"\u00a020\u00a02\u00a07\u00a0pairs=0<", "\u00a020\u00a02\u00a07\u00a0pairs=1<", None),
        ("another record", r">record 2, character 7 is DC<", ">record 1, character 7 is DC<", None),
        ("another byte of a record", r">record 2, character 7 is DC<", ">record 2, character 7 is 44<", None),
        ("a record's character left out", r'<text [^>]*data-row="answer"[^>]*>record 2, character 7 is DC</text>\n', "", None),
    ],
    "lessons/17-pairs-counted.bench": [
        ("a pair too many", r"cat\u00a0ok\u00a03\u00a0pairs=3<", "cat\u00a0ok\u00a03\u00a0pairs=4<", None),
        ("a pair too few", r"cat\u00a0ok\u00a04\u00a0pairs=6<", "cat\u00a0ok\u00a04\u00a0pairs=5<", None),
        ("pairs of no record", r"cat\u00a0ok\u00a00\u00a0pairs=0<", "cat\u00a0ok\u00a00\u00a0pairs=1<", None),
        ("no pairs at all", r"cat\u00a0ok\u00a04\u00a0pairs=6<", "cat\u00a0ok\u00a04<", None),
        ("good for refused", r"cat\u00a0refused\u00a013\u00a04\u00a03\u00a0pairs=6<", "cat\u00a0ok\u00a04\u00a0pairs=6<", None),
        ("a repeat without its pair", r"\u00a013\u00a02\u00a01\u00a0pairs=1<", "\u00a013\u00a02\u00a01\u00a0pairs=0<", None),
        ("all pairs of a repeat", r"\u00a013\u00a03\u00a02\u00a0pairs=3<", "\u00a013\u00a03\u00a02\u00a0pairs=6<", None),
        ("pairs before the repeat", r"\u00a012\u00a04\u00a0pairs=0<", "\u00a012\u00a04\u00a0pairs=1<", None),
        ("pairs of a lookup", r"(>found\u00a012\u00a0[0-9A-F]+\u00a015)<", "\\1\u00a0pairs=6<", None),
    ],
    "lessons/18-the-sheet.bench": [
        ("another line", r">import\u00a0refused\u00a016\u00a02<", ">import\u00a0refused\u00a016\u00a01<", None),
        ("another number", r">import\u00a0refused\u00a017\u00a02<", ">import\u00a0refused\u00a016\u00a02<", None),
        ("quotes left out", r'>\[7,12,"03E5",15\]', ">[7,12,03E5,15]", None),
        ("an LF too few", r">\[7,12,300000,15\]\u00a0LF<", ">[7,12,300000,15]<", None),
        ("an LF too many", r">(\[8,FE,[^\n]*,3\])<", ">\\1\u00a0LF<", None),
        ("a record too few", r'<text [^>]*data-row="answer"[^>]*><tspan class="fixed">5A4D\u00a00008[^\n]*\n', "", None),
        ("another label", r">5A4D\u00a00008\u00a0FE\u00a0", ">5A4D\u00a00008\u00a012\u00a0", None),
        ("another trace", r"\u00a0\[03E5<", "\u00a0[03E6<", None),
        ("good for refused", r">import\u00a0refused\u00a015\u00a01<", ">import\u00a0ok<", None),
        ("an answer of another", r">export\u00a0ok<", ">import\u00a0ok<", None),
    ],
}


def check_damage(data, reading, edits):
    text = data.decode()
    cell = float((re.search(r'<rect [^>]*width="([^"]*)"[^>]*class="unit"', text) or [0, 0])[1])
    for what, pattern, replacement, moved in edits:
        found = re.search(pattern, text)
        if not found:
            fault("damage", f"{what}: nothing in the picture to be damaged")
            continue
        if moved:
            start = text.rindex("<rect", 0, found.end())
            key, by = moved
            element = re.sub(rf'\b{key}="([^"]*)"', lambda match: f'{key}="{float(match[1]) + by * cell}"', text[start : found.end()], count=1)
            damaged = text[:start] + element + text[found.end() :]
        else:
            damaged = re.sub(pattern, replacement, text, count=1)
        if not next(faults_of(damaged.encode(), reading), None):
            fault("damage", f"{what} is not found out")


OK = ("ok st=normal off=0 held=0 ended=1 c=U@9,BF3B2C3B,v=0,fe=0 ssf=0 tsf=1 ais=1 rdi=1 d=dTIM cause=- settled=0 total=3 "
      "hb=A718826F db=A718826F\n")


def check_bad_input(bench, folder):
    """Bad input: a status, a message with these words, nothing written."""
    out, script = os.path.join(folder, "none"), os.path.join(folder, "bad.bench")
    good, nowhere = os.path.join(ROOT, "examples", "steps.bench"), os.path.join(folder, "nowhere")
    refused = os.path.join(ROOT, "examples", "settling", "refused_violations.bench")
    cut = os.path.join(ROOT, "examples", "settling", "cut_unit.bench")
    said_by_bench = os.path.join(folder, "printed")

    def expect(what, tool, given, arguments, status, words):
        with open(said_by_bench, "wb") as file:
            file.write(given)
        ended, said, errors = in_process(tool, *arguments)
        if ended != status or words not in errors or said or os.path.exists(out):
            fault("bad input", f"{what}: status {ended}, not {status} with `{words}`: {errors[-300:]}")

    printed = play(bench, open(good, "rb").read(), good)
    # what lesson 02 printed before the pairs were counted
    named = os.path.join(ROOT, "lessons", "02-03E5-is-a-name.bench")
    kept = re.sub(rb" pairs=\d+\n", b"\n", play(bench, open(named, "rb").read(), named))
    ok = OK.encode()
    for what, options, given, status, words in (
        ("nothing", [], b"", 1, "no unit in it"),
        ("other lines", [], b"parity 00\ncat ok 1 pairs=0\n", 1, "no unit in it"),
        ("an earlier bench", [], ok + b"cat refused 13 2 1\n", 1, "printed line 2 is not understood: cat refused 13 2 1 (an earlier bench printed this, without pairs=; play the script again)"),
        ("an earlier bench, with the script", ["--script", named], kept, 1, "`cat ok 1`, which the bench does not print (an earlier bench printed this, without pairs="),
        ("pairs of a lookup", [], ok + b"lookup refused 14 pairs=0\n", 1, "printed line 2 is not understood: lookup refused 14 pairs=0"),
        ("no line of the bench", [], ok + b"hello\n", 1, "printed line 2 is not understood: hello"),
        ("a line cut short", [], ok[:60] + b"\n", 1, "printed line 1 is not understood"),
        ("the language before this one", [], ok.replace(b"d=dTIM", b"d=0100"), 1, "printed line 1 is not understood"),
        ("a defect that has no row", [], ok.replace(b"d=dTIM", b"d=dTIM,dDEG"), 1, "no picture has a place for that"),
        ("defects in another order", [], ok.replace(b"d=dTIM", b"d=dRDI,dTIM"), 1, "no picture has a place for that"),
        ("a field that has no row", [], ok.replace(b" d=", b" send=2 d="), 1, "no picture has a place for that"),
        ("a container's field that has no row", [], ok.replace(b",fe=", b",q=01,fe="), 1, "no picture has a place for that"),
        ("bit columns that are not as many as the violations", [], ok.replace(b"v=0,", b"v=2,p=01,"), 1, "printed line 1 is not understood"),
        ("bit columns of no violations", [], ok.replace(b"v=0,", b"v=0,p=00,"), 1, "printed line 1 is not understood"),
        ("a bench before bit columns", [], ok.replace(b"v=0,", b"v=2,"), 1, "(an earlier bench printed this, without p=; play the script again)"),
        ("bytes that are no text", [], b"\xff\x00\n", 1, "not understood"),
        ("too many units", [], ok * 2001, 1, "at most 2000"),
        ("a run of another script", ["--script", good], ok, 1, "not a run of this script"),
        ("less than the script prints", ["--script", good], printed[:300].rpartition(b"\n")[0] + b"\n", 1, "ends too soon"),
        ("more than the script prints", ["--script", good], printed + b"parity 00\n", 1, "behind its end"),
        ("a script that is not there", ["--script", nowhere], printed, 1, "cannot be read"),
        ("an option that is not there", ["--colour"], printed, 2, "usage"),
    ):
        expect(f"timeline, {what}", timeline, given, [*options, "-o", out, said_by_bench], status, words)
    expect("timeline, a file that is not there", timeline, b"", ["-o", out, nowhere], 1, "cannot be read")
    expect("timeline, no such folder", timeline, printed, ["-o", os.path.join(nowhere, "x"), said_by_bench], 1, "cannot be written")
    # the bench would have refused this line
    with open(script, "wb") as file:
        file.write(b"word 12\nsink\n")
    expect("timeline, no command", timeline, ok, ["--script", script, "-o", out, said_by_bench], 1, "not a run of this script")
    for what, path, program, status, words in (
        ("no unit", refused, bench, 1, "no unit in it"),
        ("no unit of 2358 bytes", cut, bench, 1, "2357 bytes, not 2358"),
        ("no bench", good, [nowhere], 1, "cannot be run"),
        ("another program", good, ["cat"], 1, "does not play it"),
        ("a program that fails", good, ["false"], 1, "ended with 1"),
        ("a script that is not there", nowhere, bench, 1, "cannot be read"),
        ("no program", good, [], 2, "--bench needs a program"),
    ):
        expect(f"pcap, {what}", pcap, b"", [path, "-o", out, "--bench", *program], status, words)
    expect("pcap, no such folder", pcap, b"", [good, "-o", os.path.join(nowhere, "x"), "--bench", *bench], 1, "cannot be written")


def check_closed(bench):
    """A reader that goes away, and an output or input that is closed: no traceback, and a status."""
    path = os.path.join(ROOT, "examples", "settling", "early_adjustment.bench")  # its picture is more than a pipe holds
    printed = play(bench, open(path, "rb").read(), path)
    draw = [sys.executable, TIMELINE, "--script", path]
    for what, shell, status, words in (
        ("timeline, a reader that has gone", '"$@" | head -c 10; exit ${PIPESTATUS[0]}', 1, ""),
        ("timeline, a closed output", 'exec "$@" >&-', 1, "cannot be written: standard output is closed"),
        ("timeline, a closed input", 'exec "$@" <&-', 1, "cannot be read: standard input is closed"),
    ):
        done = run(["bash", "-c", shell, "bash", *draw], printed)
        said = done.stderr.decode(errors="replace")
        if done.returncode != status or words not in said or not words and said:
            fault("closed", f"{what}: status {done.returncode}, not {status} with `{words}`: {said[-300:]}")
    with tempfile.NamedTemporaryFile(suffix=".pcap") as file:
        capture = [sys.executable, PCAP, path, "-o", file.name, "--bench", *bench]
        for what, shell in (("pcap, a reader that has gone", '"$@" | true; exit ${PIPESTATUS[0]}'), ("pcap, a closed output", 'exec "$@" >&-')):
            done = run(["bash", "-c", shell, "bash", *capture])
            if done.returncode != 0 or done.stderr or os.path.getsize(file.name) < 8 * 2430:
                fault("closed", f"{what}: status {done.returncode}: {done.stderr.decode(errors='replace')[-300:]}")


def check_line_ends(bench, folder):
    """Scripts with CR LF, with a byte order mark and without a last LF are drawn and captured as they are without."""
    for name in ("examples/steps.bench", "lessons/02-03E5-is-a-name.bench", "lessons/04-traces-alike.bench"):
        with open(os.path.join(ROOT, name), "rb") as file:
            plain = file.read()
        made = []
        for data in (plain, b"\xef\xbb\xbf" + plain.replace(b"\n", b"\r\n"), plain.rstrip(b"\n")):
            path, picture, capture, said = (os.path.join(folder, file) for file in ("ends.bench", "ends.svg", "ends.pcap", "printed"))
            with open(path, "wb") as file:
                file.write(data)
            with open(said, "wb") as file:
                file.write(play(bench, data, name))
            done = in_process(timeline, "--script", path, "-o", picture, said), in_process(pcap, path, "-o", capture, "--bench", *bench)
            made.append([open(file, "rb").read() if status[0] == 0 else status for file, status in zip((picture, capture), done)])
        if made[0] != made[1] or made[0] != made[2] or made[0][0] == made[0][1]:
            fault(name, "its lines end otherwise, and picture or capture is another")


def check_kept(bench):
    folder = os.path.join(ROOT, "docs", "pictures")
    if sorted(os.listdir(folder)) != sorted([*KEPT, *OTHERS]):
        fault("docs/pictures", f"has {sorted(os.listdir(folder))}, not {sorted([*KEPT, *OTHERS])}")
    for name, script in KEPT.items():
        path = os.path.join(ROOT, script)
        made = run([sys.executable, TIMELINE, "--script", path], play(bench, open(path, "rb").read(), path)).stdout
        kept = os.path.join(folder, name)
        if not os.path.exists(kept) or open(kept, "rb").read() != made:
            fault(f"docs/pictures/{name}", f"is not what timeline.py makes of {script}")


# ---------------------------------------------------------------------------
# Captures
# ---------------------------------------------------------------------------


def shown(bench, script):
    """The line's bytes at each `sink`, by a `show` put before it."""
    longer = []
    for line in script.split(b"\n"):
        words, _ = read_line(line.decode("utf-8", errors="replace"))
        if words == ["sink"]:
            longer += [b"show", b"sink"]
        elif words and words[0] == "run" and re.fullmatch(r"0*[1-9]\d{0,3}", " ".join(words[1:])):
            longer += [b"src -", b"show", b"sink"] * int(words[1])
        else:
            longer.append(line)
    lines = play(bench, b"\n".join(longer), "a script with `show`").decode("ascii").split("\n")
    return [bytes.fromhex(before[5:]) for before, line in zip(lines, lines[1:]) if re.match(r"ok |refused ", line)]


def frames_of(data):
    """Times in microseconds and bytes of a capture."""
    magic, major, minor, _, _, _, link = struct.unpack_from("<IHHiIII", data)
    if (magic, major, minor, link) != (0xA1B2C3D4, 2, 4, 147):
        raise ValueError(f"the header is {data[:24].hex()}")
    at, found = 24, []
    while at < len(data):
        seconds, micro, kept, length = struct.unpack_from("<IIII", data, at)
        if kept != length or at + 16 + kept > len(data):
            raise ValueError(f"a frame of {kept} of {length} bytes")
        found.append((seconds * 1000000 + micro, data[at + 16 : at + 16 + kept]))
        at += 16 + kept
    return found


def check_capture(name, path, bench, script, calls, folder):
    """The capture of a script cut back into units; its frames, and for each H1, H2, value and J1 that are to be found."""
    file = os.path.join(folder, "units.pcap")
    status, _, errors = in_process(pcap, path, "-o", file, "--bench", *bench)
    lines, calls = shown(bench, script), [call for call in calls if call.length is not None]
    framed = [k for k, call in enumerate(calls) if call.length == 2358]
    if status != 0:
        if framed or "no unit" not in errors:
            fault(name, f"pcap.py: status {status}: {errors[-500:]}")
        return b"", []
    with open(file, "rb") as capture:
        data = capture.read()
    os.remove(file)
    try:
        frames = frames_of(data)
    except (ValueError, struct.error) as error:
        fault(name, f"pcap.py: {error}")
        return b"", []
    if [time for time, _ in frames] != [125 * k for k in framed] or any(len(frame) != 2430 for _, frame in frames):
        fault(name, f"pcap.py: {len(frames)} frames with the times {[time for time, _ in frames][:5]}.., for {len(framed)} units")
        return b"", []
    skipped = [len(lines[k]) for k in range(len(calls)) if k not in framed]
    if [int(count) for count in re.findall(r": (\d+) bytes, not 2358", errors)] != skipped:
        fault(name, f"pcap.py left out lines of {skipped} bytes and said: {errors}")
    wanted, end_before = [], bytes(783)
    for place, k in enumerate(framed):
        rows = [frames[place][1][270 * r : 270 * r + 270] for r in range(9)]
        unit = lines[k]
        if rows[0][:6] != bytes.fromhex("F6F6F6282828") or rows[3][:9] != unit[:9] or \
                b"".join(row[9:] for row in rows) != end_before + unit[9 : 9 + 1566]:
            fault(name, f"frame {place + 1} is not that of the {k + 1}. line fed")
        value = calls[k].word & 0x3FF
        j1 = None if value > 782 else unit[9 + 3 * value] if value < 522 else end_before[9 + 3 * value - 1575]
        wanted.append((calls[k].word >> 8, calls[k].word & 0xFF, value if value <= 782 else None, j1, f"{name}, line {k + 1}"))
        end_before = unit[9 + 1566 :]
    return data[24:], wanted


def check_tshark(header, captures, wanted, folder):
    """All captures behind one another in one file, read by tshark. How many J1 were compared."""
    file = os.path.join(folder, "all.pcap")
    with open(file, "wb") as capture:
        capture.write(header + b"".join(captures))
    own = {**os.environ, "HOME": folder, "XDG_CONFIG_HOME": folder, "WIRESHARK_CONFIG_DIR": folder, "LC_ALL": "C"}
    command = ["tshark", "-n", "-r", file, "-o", pcap.SETTING, "-T", "fields"]
    for field in ("sdh.h1", "sdh.h2", "sdh.au", "sdh.j1"):
        command += ["-e", field]
    done = run(command, env=own)
    lines = done.stdout.decode("ascii").splitlines()
    found = [[int(text, 0) if text else None for text in line.split("\t")] for line in lines]
    if done.returncode != 0 or len(found) != len(wanted):
        fault("tshark", f"status {done.returncode}, {len(found)} lines for {len(wanted)} frames: {done.stderr.decode(errors='replace')[-500:]}")
        return 0
    # what docs/PICTURES.md says that tshark prints
    steps = [line for line, fields in zip(lines, wanted) if fields[-1].startswith("examples/steps.bench,")]
    with open(os.path.join(ROOT, "docs", "PICTURES.md"), encoding="utf-8") as page:
        if "".join(f"    {number}\t{line}\n" for number, line in enumerate(steps, 1)) not in page.read():
            fault("docs/PICTURES.md", f"tshark prints for examples/steps.bench {steps}")
    compared = 0
    for (h1, h2, value, j1, what), seen in zip(wanted, found):
        if seen[:2] != [h1, h2]:
            fault(what, f"tshark reads H1 and H2 as {seen[:2]}, they are {[h1, h2]}")
        elif j1 is not None:
            compared += 1
            if seen[2:] != [value, j1]:
                fault(what, f"tshark finds value and J1 {seen[2:]}, they are {[value, j1]}")
    return compared


def main():
    if len(sys.argv) < 2:
        sys.exit("usage: pictures.py PROGRAM [ARGS..]")
    bench = [os.path.abspath(sys.argv[1]) if os.path.exists(sys.argv[1]) else sys.argv[1], *sys.argv[2:]]
    pictures = units = refused = 0
    captures, wanted, damaged = [], [], set()
    with tempfile.TemporaryDirectory(prefix="pictures-") as folder:
        for name, path in scripts(folder):
            with open(path, "rb") as file:
                data = file.read()
            printed = play(bench, data, name)
            count, reading = check_picture(name, path, data, printed, folder)
            pictures += count
            units += sum(1 for call in reading.calls if call.unit)
            refused += reading.refusals
            frames, fields = check_capture(name, path, bench, data, reading.calls, folder)
            captures.append(frames)
            wanted += fields
            if name in DAMAGE:
                damaged.add(name)
                drawn = timeline.picture_of(printed.decode("ascii").splitlines(), tools_script.read(data))
                check_damage(drawn, reading, DAMAGE[name])
        if damaged != set(DAMAGE):
            fault("damage", f"there is no {set(DAMAGE) - damaged}")
        j1 = check_tshark(pcap.pcap([]), captures, wanted, folder)
        check_bad_input(bench, folder)
        check_closed(bench)
        check_line_ends(bench, folder)
        check_kept(bench)
    failed = sum(len(texts) for texts in failures.values())
    print(f"pictures.py: {pictures} pictures of {units} units and {refused} refusals; tshark read {len(wanted)} frames, {j1} J1; "
          f"{sum(map(len, DAMAGE.values()))} damages found out; {failed} failures" if not failed else f"pictures.py: {failed} failures")
    sys.exit(1 if failures else 0)


if __name__ == "__main__":
    main()
