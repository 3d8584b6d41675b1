#!/usr/bin/env python3
"""The words for bench runs: tools/explain.py, tools/desk, tools/script.py, and the pages that the words are taken from.

    tests/explain.py PROGRAM [ARGS..]     PROGRAM plays a bench script from its standard input.

Every script under lessons and examples is played, and so are random lines. What was printed is read here once more, and each sentence is
held to it: every unit has exactly one; its causes, defects, actions, containers, violations with their bit columns, offsets and whether it
settled are those of the printed line; every refusal has the words of docs/REFUSALS.md and the places that were printed, and of a refused character the byte that
the script's own line or catalogue has there; every check of a catalogue has its records and the pairs of traces that were compared; every
import and export has its lines and circuits, and of a refused text the line that is named, with a reason that is true of it; every
`? N` has its line; comments stand in their order. Each refusal that the bench can give is given by a script; 2 and 8, which it cannot give,
are told from lines made up here. The bytes that the words name on the line are held to what damage to them does. docs/REFUSALS.md,
docs/GLOSSARY.md and include/card.h must have the same words, docs/CARD.md the same orders, the traces of docs/REFUSALS.md must be refused as
it says, and what the pages print of a catalogue check must have its pairs. A desk must say what explain says. Last, spoiled words and spoiled lines must be found out by these checks.
"""

import os
import pty
import random
import re
import select
import subprocess
import sys
import tempfile
import time

sys.dont_write_bytecode = True  # no folder beside the tests
ROOT = os.path.dirname(os.path.dirname(os.path.abspath(__file__)))
sys.path.insert(0, os.path.join(ROOT, "tools"))
import explain
import script as scripts
from playing import containers_of, play, read_line, refused_at_once, run, trace_of

EXPLAIN, DESK = os.path.join(ROOT, "tools", "explain.py"), os.path.join(ROOT, "tools", "desk")
# The names on a tester, and the orders of refusals, written down once more.
TESTERS = {"AIS": "AU-AIS", "LOP": "AU-LOP", "SSF": "HP-SSF", "UNEQ": "HP-UNEQ", "TIM": "HP-TIM", "RDI": "HP-RDI", "PLM": "HP-PLM"}
TRACE = [5, 20, 21]  # what is wrong with a trace: one of these
ORDERS = {
    "container source": [8, 4, *TRACE, 2, 3, 6],
    "unit source": [8, 3, 1, 7],
    "sink": [8, 4, *TRACE, 1, 3],
    "payload call": [3, 2],
    "settings check": [4, *TRACE],
    "catalogue check": [9, 10, 11, 4, *TRACE, 12, 13],
    "lookup": [9, 10, 11, 4, *TRACE, 12, 13, 14],
    "listing": [9, 10, 11, 4, *TRACE, 12, 13],
    "import": [18, 15, 16, 17, 11, 4, *TRACE, 12, 13],
    "export": [9, 10, 11, 4, *TRACE, 12, 13],
    "tx": [4, *TRACE, 6],
    "rx": [4, *TRACE],
}
ALL = [*range(1, 19), 20, 21]  # the refusals
CHARACTERS = (5, 20)  # those that name a character of a trace
CATALOGUES = ("cat", "lookup", "list", "export")  # commands that are given a catalogue
NUMBERS = {"no": 0, "one": 1, "two": 2}
MOST_BRIEF = 40  # lines of a lesson in its brief form, on a projector
LONGEST_BRIEF = 200  # characters of one of them before it is wrapped
SHOWN = 8  # faults of one thing

failures = {}
checked = {"units": 0, "sentences": 0, "refusals": 0, "catalogues": 0, "sheets": 0, "strange": 0, "runs": 0}


def fault(what, text):
    failures.setdefault(what, []).append(text)
    if len(failures[what]) <= SHOWN:
        print(f"explain.py: {what}: {text}")


def read(path):
    try:
        with open(os.path.join(ROOT, path), "rb") as file:
            return file.read()
    except OSError as error:
        sys.exit(f"explain.py: {error}")


# ---------------------------------------------------------------------------
# The pages
# ---------------------------------------------------------------------------


def refusals_of(page):
    """Rows of docs/REFUSALS.md: number, what is wrong, what to do, who gives it."""
    return {int(number): (wrong, to_do, calls) for number, wrong, to_do, calls in re.findall(r"^\| (\d+) \| (.+?) \| (.+?) \| (.+?) \|$", page, re.MULTILINE)}


def numbers_in(text):
    return [int(number) for number in re.findall(r"\d+", text)]


def look_at_pages(refusals_page, glossary, header, card, fault):
    refusals = refusals_of(refusals_page)
    if list(refusals) != ALL:
        fault("REFUSALS.md", f"the numbers are {list(refusals)}")
    # the same words in the glossary and in the header
    table = dict(re.findall(r"^\| (\d+) \| ([^|]+?) \|$", glossary, re.MULTILINE))
    comment = next((text for text in re.findall(r"/\*(.*?)\*/", header, re.DOTALL) if "refusals of the card's calls" in text), "")
    listed = re.findall(r"^ {4,5}(\d+) {2}(.*?)(?=^ {4,5}\d+ {2}|\Z)", re.sub(r"^ \* ?", "", comment, flags=re.MULTILINE), re.DOTALL | re.MULTILINE)
    in_header = {number: " ".join(text.split()) for number, text in listed}
    for number, (wrong, _, _) in refusals.items():
        if table.get(str(number)) != wrong:
            fault("GLOSSARY.md", f"refusal {number} is `{table.get(str(number))}`, and in REFUSALS.md `{wrong}`")
        if in_header.get(str(number)) != wrong.replace("`", ""):
            fault("card.h", f"refusal {number} is `{in_header.get(str(number))}`, and in REFUSALS.md `{wrong}`")
    for name, found in (("GLOSSARY.md", table), ("card.h", in_header)):
        if len(found) != len(refusals):
            fault(name, f"it has {len(found)} refusals")
    long = [line for line in comment.split("\n") if len(line) > 79]
    if long or not comment:
        fault("card.h", f"no comment on refusals, or lines of more than 79 characters: {long}")
    # orders, and who gives a number
    orders = dict(re.findall(r"^\| (?:`?)([a-z ]+?)(?:`?) \| ([^|]*?) \| [^|]*\|$", refusals_page, re.MULTILINE))
    check = numbers_in(orders.get("catalogue check", ""))
    for call, order in ORDERS.items():
        text = orders.get(call, "")
        found = numbers_in(text)
        if text.startswith("as the catalogue check"):
            found = check + found
        if found != order:
            fault("REFUSALS.md", f"the order of {call} is {found}, not {order}")
        for number, (_, _, given) in refusals.items():
            if (number in order) != (call in [each.strip("` ") for each in given.split(",")]):
                fault("REFUSALS.md", f"refusal {number} is given by `{given}`, and the order of {call} is {order}")
    # the card's rules have the same orders
    for call, text in re.findall(r"\| <a id=\"r13-\d+\">[\d.]+</a> \| ([a-z ]+) \| ([^|]*) \|", card):
        found = numbers_in(text.replace("as the catalogue check", " ".join(map(str, ORDERS["catalogue check"]))))
        found = [number for number in found if number not in (9, 10)] if call == "import" else found  # its result has length and marks
        if found != ORDERS.get(call):
            fault("CARD.md", f"the order of {call} is {found}, and in REFUSALS.md {ORDERS.get(call)}")
    # the tester's names, and the rules that the glossary names
    for line in glossary.split("\n"):
        found = re.match(r"\| ((?:[cd][A-Z]+(?:, )?)+) \| ([A-Z]+-[A-Z]+)[^|]*\| ([^|:]+: [^|]+) \|$", line)
        for name in found.group(1).split(", ") if found else []:
            if TESTERS.get(name[1:]) != found.group(2):
                fault("GLOSSARY.md", f"{name} is {found.group(2)} on a tester, not {TESTERS.get(name[1:])}")
    for name in [f"c{name}" for name in TESTERS] + ["dUNEQ", "dTIM", "dPLM", "dRDI"]:
        if not re.search(rf"^\| [^|]*\b{name}\b[^|]* \| {TESTERS[name[1:]]}\b", glossary, re.MULTILINE):
            fault("GLOSSARY.md", f"{name} has no tester's name")
    for shown, section, rule in re.findall(r"\[(\d+\.\d+)\]\(CARD\.md#r(\d+)-(\d+)\)", glossary):
        if shown != f"{section}.{rule}" or f'<a id="r{section}-{rule}">' not in card:
            fault("GLOSSARY.md", f"there is no rule {shown} in CARD.md, or the link leads to another")
    if not re.search(r"CARD\.md#r", glossary) or "In 01" in glossary:
        fault("GLOSSARY.md", "its words have no rules of CARD.md")
    return refusals


# ---------------------------------------------------------------------------
# A run, and its sentences
# ---------------------------------------------------------------------------


class Unit:
    """A printed `ok` line, read here once more."""

    def __init__(self, text, fault):
        fields = dict(each.split("=", 1) for each in text.split(" ")[1:] if not each.startswith("c="))
        containers = containers_of(text, fault)
        self.state, self.offset, self.ended = fields["st"], fields["off"], int(fields["ended"])
        self.violations, self.returned = sum(each.violations for each in containers), sum(each.returned for each in containers)
        self.columns = [each.columns for each in containers]  # of each container the violated bit columns, as a byte
        self.ssf, self.ais, self.rdi, self.settled = (fields[name] == "1" for name in ("ssf", "ais", "rdi", "settled"))
        self.total = int(fields["total"])
        self.defects, self.causes = ([] if fields[name] == "-" else fields[name].split(",") for name in ("d", "cause"))


NOTHING_BEFORE = Unit("ok st=lost off=- held=0 ended=0 ssf=0 tsf=0 ais=0 rdi=0 d=- cause=- settled=0 total=0", print)
HEAD = re.compile(r"(units?) (\d+)(?: (and|to) (\d+))?(, the same line again|, one line fed (?:twice|\d+ times))?: (.*)")
REFUSED = re.compile(r"(container|unit|tx|rx|payload|catalogue|lookup|listing|import|export|sink) refused (\d+)"
                     r"((?: in (?:record|line) \d+)?(?: at character \d+)?(?:, as in (?:record|line) \d+)?)(?:, (\d+) times)?: (.*)")
CHARACTER = re.compile(r"\((?:circuit (\d+), )?character (\d+) of (the sent|the expected|its) trace(?: \"(.*)\")? is ([0-9A-F]{2})\b")
GOOD_CATALOGUE = re.compile(r"cat: a good catalogue of (no|one|two|\d+) record(s?)(, as an empty file is)?(; .*)?")
# How many pairs of traces were compared: at the end of a sentence, or of what a refusal says in parentheses.
COMPARED = re.compile(r"; (no \w+ [a-z ]*|(\d+) pairs? [a-z ]*)(?=$|\)$|\)\. )")


# The bit columns of violations; of two containers it is said whose they are.
COLUMNS = re.compile(r"in (columns?) (\d(?:, \d)*(?: and \d)?)(?: of the (first|second) container)?")
VIOLATIONS = re.compile(rf"(\w+) parity violations?, (again )?({COLUMNS.pattern}(?: and {COLUMNS.pattern})?) \(HP-BIP\)")


def columns_said(text):
    """The bit columns that a text names, container by container, as bytes; the text where it does not name them as it should."""
    found = {}
    for many, numbers, whose in COLUMNS.findall(text):
        columns = numbers_in(numbers)
        if columns != sorted(set(columns)) or not set(columns) <= set(range(1, 9)) or (many == "columns") != (len(columns) > 1) or whose in found:
            return text
        found[whose] = sum(2 ** (8 - column) for column in columns)
    return [found[""]] if list(found) == [""] else [found.get(whose, 0) for whose in ("first", "second")] if list(found) == sorted(found) and "" not in found else text


def number_of(word):
    return NUMBERS[word] if word in NUMBERS else int(word)


def sentence_faults(body, unit, before, many, seen):
    """What a sentence says of a unit that its printed line does not, or leaves out. `seen`: the bit columns of the violations before, since `fresh`;
    None where the sentence has begun with another unit."""
    wrong = []

    def same(what, said, printed):
        if said != printed:
            wrong.append(f"{what}: said {said}, printed {printed}")

    clauses = body.split("; ")
    causes = re.findall(r"(c[A-Z]+) \(([A-Z-]+)\)", "".join(each for each in clauses if each.startswith("reported: ")))
    same("causes", [name for name, _ in causes], unit.causes)
    same("testers", [tester for _, tester in causes], [TESTERS[name[1:]] for name in unit.causes])
    same("nothing reported", "nothing reported" in body, bool((unit.defects or unit.ssf) and not unit.causes))
    same("defects set", re.findall(r"\((d[A-Z]+), [A-Z-]+\) sets\b", body), [name for name in unit.defects if name not in before.defects])
    stand = "".join(re.findall(r"((?:[a-z ]+\(d[A-Z]+\)(?:, | and )?)+) still stands?\b", body))
    same("defects standing", re.findall(r"\((d[A-Z]+)\)", stand), [name for name in unit.defects if name in before.defects])
    # what an action follows from is what the card's rules 9.2 to 9.5 have
    for reason, action in re.findall(r"([^;]*), so ([^;]*)", body):
        if "pointer" not in action:
            named = set(re.findall(r"\b(d[A-Z]{3,})\b|\((SSF)\)", reason))
            named = {name for pair in named for name in pair if name}
            same(f"reason of `{action}`", named, {name for name in ["SSF"] * unit.ssf + unit.defects if name in ("SSF", "dUNEQ", "dTIM") or name == "dPLM" and unit.ais})
    same("defects cleared", re.findall(r"\((d[A-Z]+)\) clears\b", body), [name for name in before.defects if name not in unit.defects])
    same("SSF", "server signal fail (SSF)" in body, unit.ssf)
    # equal units that follow each other share "is sent down" with the first of them
    same("AIS", bool(re.search(r"payload AIS is sent down|\bAIS (?:and RDI )?go(?:es)? on", body)), unit.ais)
    same("RDI", bool(re.search(r"RDI goes to the far end|\bRDI go(?:es)? on", body)), unit.rdi)
    ends = next((each for each in clauses if re.fullmatch(r"(?:AIS|RDI|AIS and RDI) ends?", each)), "")
    same("AIS ends", "AIS" in ends, before.ais and not unit.ais)
    same("RDI ends", "RDI" in ends, before.rdi and not unit.rdi)
    # containers
    ended = re.search(r"(?:^|; )(no|one|two) containers? (ended|each)\b", body)
    if unit.state == "normal":
        same("containers", number_of(ended.group(1)) if ended else None, unit.ended)
        same("in many", ended.group(2) if ended else None, "each" if many and unit.ended else "ended")
    else:
        same("handed back", "nothing handed back" in body and not ended, True)
    found = VIOLATIONS.search(body)
    same("violations", number_of(found[1]) if found else 0, unit.violations)
    same("bit columns", columns_said(found[3]) if found else None, unit.columns if any(unit.columns) else None)
    if seen is not None:
        same("again", bool(found and found[2]), unit.columns == [seen] != [0])
    found = re.search(r"(\w+) violations? returned by the far end(?:, [^;]*)? \(HP-REI\)", body)
    same("returned", number_of(found[1]) if found else 0, unit.returned)
    # the pointer
    moved = re.search(r"(?:^|; )(?:increment|decrement|new data,|three equal words,|offset) (\d+) to (\d+)", body)
    same("moved", moved.groups() if moved else None,
         (before.offset, unit.offset) if before.state == unit.state == "normal" and before.offset != unit.offset else None)
    if moved and moved.group().lstrip("; ").startswith(("increment", "decrement")):
        up = (int(unit.offset) - int(before.offset)) % 783
        same("direction", "increment" in moved.group(), up == 1)
    found = re.search(r"the pointer is found at offset (\d+)", body)
    same("found", found.group(1) if found else None, unit.offset if unit.state == "normal" != before.state else None)
    for offset in re.findall(r"offset (\d+) stays|at the same offset, (\d+)", body):
        same("stays", "".join(offset), unit.offset if before.state == "normal" and before.offset == unit.offset else None)
    same("lost", bool(re.search(r"pointer is lost|still lost|\(lost\)", body)), unit.state == "lost")
    same("lost now", "pointer is lost" in body, unit.state == "lost" != before.state)
    same("alarm", bool(re.search(r"goes to alarm|still in alarm", body)), unit.state == "alarm")
    same("plain", "plain" in clauses, "plain" in clauses and unit.state == before.state == "normal" and unit.offset == before.offset)
    # settled
    settled = [each for each in clauses if re.match(r"(not |no longer )?settled", each)]
    if len(settled) != 1:
        wrong.append(f"settled: said {settled}")
    else:
        same("settled", settled[0].startswith("settled"), unit.settled)
        same("no longer", settled[0].startswith("no longer"), before.settled and not unit.settled)
        same("no defect", "no defect stands" in settled[0], not unit.settled and unit.state == "normal" and not unit.defects)
    first = re.search(r"settled for the first time; (\w+) units? did not", body)
    if first:
        same("did not settle", number_of(first.group(1)), unit.total)
    return wrong


def pairs_told(text, brief):
    """How many pairs of traces were compared, as a text has it; None where it has nothing of it, and the text where it is not said as it should."""
    if not re.search(r"\bcompared\b|\bpairs?\b", text):
        return None
    found = COMPARED.search(text)
    pairs = int(found[2] or 0) if found else 0
    few = ("no pair compared", "1 pair compared") if brief else ("no trace was compared with another", "1 pair of traces was compared")
    wanted = few[pairs] if pairs < 2 else f"{pairs} pairs compared" if brief else f"{pairs} pairs of traces were compared"
    return pairs if found and found[1] == wanted and text.count("compared") == 1 else text


def refusal_told(found, brief=False):
    """Of a sentence about a refusal: whose, number, places; where a character is named its circuit, its place, whose trace, the trace as shown, the byte;
    and the pairs of traces that were compared."""
    character = CHARACTER.search(found[5])
    if ("line" in found[3], "record" in found[3]) not in ([(True, False)] if found[1] == "import" else [(False, True), (False, False)]):
        return found[1], int(found[2]), found[3], None, None  # a line of a text for a record, or the other way round
    named = (character[1] and int(character[1]), int(character[2]), character[3], character[4], int(character[5], 16)) if character else None
    return found[1], int(found[2]), tuple(numbers_in(found[3])), named, pairs_told(found[5], brief)


def good_told(texts, brief=False):
    """Of each sentence about a good catalogue: how many records it has, and how many pairs of traces were compared."""
    for text in texts:
        found = GOOD_CATALOGUE.fullmatch(text)
        if found:
            records = number_of(found[1])
            # an empty file is said to be one, and of one record there is no s
            well = bool(found[2]) == (records > 1) and bool(found[3]) == (records == 0)
            yield (records, pairs_told(found[4] or "", brief)) if well else text
        elif text.startswith("cat: "):
            yield text


def words_of_lines(data):
    """The number and the words of each line, whatever bytes it has."""
    lines = data.decode("utf-8", errors="surrogateescape").removeprefix("\ufeff").split("\n")
    return [(number, read_line(line)[0]) for number, line in enumerate(lines, 1)]


def refusals_printed(data, printed):
    """The same of each refusal of a run, by what was printed and the script's own bytes: the settings that it follows, or the catalogue."""
    said, settings = list(printed), {"tx": b"03E5".ljust(15), "rx": b"03E5".ljust(15)}
    for number, words in words_of_lines(data):
        if said[:1] == [f"? {number}"]:
            del said[0]
            continue
        for name in ["src", "sink"] * int(words[1]) if words and words[0] == "run" else words[:1] if words else []:
            if name in settings:
                settings[name] = trace_of(words[2])
            if name in ("fresh", "fill", "lens", "word", "xor", "ones", "len") or name in settings and not refused_at_once(words) or not said:
                continue
            found = re.fullmatch(r"(?:(container|unit|tx|rx|payload|cat|lookup|import|export) )?refused (\d+)((?: \d+)*)(?: pairs=(\d+))?", said[0])
            listing = re.fullmatch(r"()(\d+)((?: \d+)*)()", said[0]) if name == "list" else None
            catalogue = bytes.fromhex(words[-1]) if name in CATALOGUES and len(words) > 1 + (name == "lookup") else b""
            if found or listing:
                yield refusal_key(name, found or listing, settings, catalogue)
            del said[: 1 + (len(catalogue) // 21 if said[0].startswith("circuit ") else 0)]


def refusal_key(name, found, settings, catalogue):
    number, places, named = int(found[2]), numbers_in(found[3]), None
    call = {"cat": "catalogue", "list": "listing"}.get(name, found[1] or "sink")
    if number in CHARACTERS and places and name != "import":  # whose lines are looked at by themselves
        if name in CATALOGUES:
            record = catalogue[21 * places[0] - 21 : 21 * places[0]]
            circuit, whose, trace = int.from_bytes(record[2:4], "big"), "its", record[5:20]
        else:
            circuit, whose, trace = (None, "the sent", settings["tx"]) if call in ("tx", "container") else (None, "the expected", settings["rx"])
        byte = trace[places[-1] - 1] if 1 <= places[-1] <= len(trace) else 0x20
        # the number says what the byte must be
        named = (circuit, places[-1], whose, None if call in settings else trace_shown(trace), byte) if byte < 0x20 and number == 5 or byte > 0x7E and number == 20 else "no such character"
    return call, number, tuple(places), named, int(found[4]) if found[4] else None


def trace_shown(trace):
    return "".join(chr(c) if 0x20 <= c <= 0x7E else f"<{c:02X}>" for c in trace)


# Why a line of a text is malformed, and what then is true of it.
FIELD = rb'(?:"(?:[^"]|"")*"|(?!")[^,]*)'  # a trace, with quotes or without
REASONS = {
    r"it has (\d+) bytes, and a line has at most 80": lambda line, ended, said: len(line) == int(said[1]) > 80,
    r"no LF ends it": lambda line, ended, said: not ended,
    r"a CR stands before its LF": lambda line, ended, said: line[-1:] == b"\r",
    r"it begins with the mark of UTF-8, EF BB BF": lambda line, ended, said: line[:3] == b"\xef\xbb\xbf",
    r"semicolons stand between its fields, and commas must": lambda line, ended, said: line.count(b";") >= 3 > line.count(b","),
    r"no comma stands behind the (number|label|trace)": lambda line, ended, said: line.count(b",") == ["number", "label", "trace"].index(said[1]),
    r"its number is not one to four digits": lambda line, ended, said: not re.match(rb'([0-9]{1,4},|"|[^,]* )', line),
    r"its number is not one to four digits alone: a blank stands there": lambda line, ended, said: re.match(rb"[^,]* ", line) is not None,
    r"its number is in quotes, and only the trace may be": lambda line, ended, said: line[:1] == b'"',
    r"its label is not two hex digits": lambda line, ended, said: not re.match(rb'[^,]*,([0-9A-Fa-f]{2},|"|[^,]* )', line),
    r"its label is not two hex digits alone: a blank stands there": lambda line, ended, said: re.match(rb"[^,]*,[^,]* ", line) is not None,
    r"its label is in quotes, and only the trace may be": lambda line, ended, said: re.match(rb'[^,]*,"', line) is not None,
    r"a double quote opens the trace, and none closes it": lambda line, ended, said: re.fullmatch(rb'[^,]*,[^,]*,"([^"]|"")*', line) is not None,
    r"no comma stands behind the trace's closing quote": lambda line, ended, said: re.fullmatch(rb'[^,]*,[^,]*,"([^"]|"")*"', line) is not None,
    r"no comma stands behind the trace's closing quote; a quote in a trace is written twice": lambda line, ended, said: re.match(rb'[^,]*,[^,]*,"([^"]|"")*"[^",]', line) is not None,
    r"more than four fields stand in it": lambda line, ended, said: re.match(rb"[^,]*,[^,]*," + FIELD + rb",[^,]*,", line) is not None,
    r"its flags are in quotes, and only the trace may be": lambda line, ended, said: re.match(rb"[^,]*,[^,]*," + FIELD + rb',"', line) is not None,
    r"its flags are not one or two digits": lambda line, ended, said: re.fullmatch(rb"[^,]*,[^,]*," + FIELD + rb',(?![0-9]{1,2}$|")[^, ]*', line) is not None,
    r"its flags are not one or two digits alone: a blank stands there": lambda line, ended, said: re.fullmatch(rb"[^,]*,[^,]*," + FIELD + rb",[^,]* [^,]*", line) is not None,
}
WELL_FORMED = re.compile(rb"([0-9]{1,4}),([0-9A-Fa-f]{2}),(" + FIELD + rb"),([0-9]{1,2})")


def reason_is_true(why, line, ended):
    found = [(said, true) for said, true in ((re.fullmatch(form, why), true) for form, true in REASONS.items()) if said]
    return len(found) == 1 and found[0][1](line, ended, found[0][0])


def lines_in(data):
    """The lines of a text, each with whether an LF ends it."""
    return [(line.rstrip(b"\n"), line.endswith(b"\n")) for line in re.findall(rb"[^\n]*\n|[^\n]+", data)]


def line_shown(line, brief):
    """A line as it is shown, and no more than so much of it."""
    text, most = trace_shown(line), 40 if brief else 100
    return text if len(text) <= most else text[: most - 3] + "..."


def detail_faults(detail, number, places, data, brief=False):
    """What is said in parentheses of a refused text, against the text: the line as it stands, and what in it is refused."""
    lines = lines_in(data)
    if number == 18:
        return [] if detail == f"it has {len(lines)} lines" else [detail]
    line, ended = lines[places[0] - 1]
    text = f"line {places[0]} is {line_shown(line, brief) if line else 'empty'}"
    found = WELL_FORMED.fullmatch(line) if ended and len(line) <= 80 else None
    quoted = found is not None and found[3][:1] == b'"'
    trace = found[3][1:-1].replace(b'""', b'"') if quoted else b""
    if number == 15:
        return [] if not found and (detail == text if not line else detail.startswith(text + ": ") and reason_is_true(detail[len(text) + 2 :], line, ended)) else [detail]
    if number == 16:
        return [] if found and not quoted and detail == text else [detail]
    if not quoted or (number == 17) != (len(trace) > 15):
        return [f"{detail}, and no such line"]
    wanted = text
    if number == 17:
        wanted += f": its trace has {len(trace)} characters" + ("" if line.isascii() or brief else "; each byte counts, and a sign above 7E may have two or more")
    elif number == 13:
        wanted += "" if brief else f"; line {places[1]} is {line_shown(lines[places[1] - 1][0], brief)}"
    elif number in (4, 11, 12):
        wanted += {4: f": the label is {found[2].decode().upper()}", 11: f": the number is {int(found[1])}", 12: f": the flags are {int(found[4])}"}[number]
    elif number in CHARACTERS:
        byte = trace.ljust(15)[places[1] - 1]
        wanted += f": character {places[1]} of its trace is {byte:02X}"
        return [] if re.match(re.escape(wanted) + r"($|, )", detail) and (byte < 0x20 if number == 5 else byte > 0x7E) else [detail]
    return [] if detail == wanted else [detail]


def sheets_of(data, printed):
    """Each import and export of a run, in order: its name, the bytes that it was given, and what was printed."""
    said = [line for line in printed if re.match("(import|export) ", line)]
    strange = {int(line[2:]) for line in printed if re.fullmatch(r"\? \d+", line)}
    given = [words for number, words in words_of_lines(data) if words and words[0] in ("import", "export") and number not in strange]
    return [(words[0], bytes.fromhex("".join(words[1:])), line) for words, line in zip(given, said)] if len(given) == len(said) else None


def sheets_told(told):
    """What is said of each import and export, in order, with the lines that stand below it."""
    found = []
    for text in told:
        if re.match(r"(import|export)(:| refused )", text):
            found.append([text])
        elif re.match(r"line \d+ is (?!not understood \(\?)", text) and found:
            found[-1].append(text)
    return found


def sheet_faults(sheet, texts, words, advice, brief=False):
    """What is said of an import or export that its bytes, or what was printed, do not say."""
    name, data, line = sheet
    head, *parts = texts
    refused = re.fullmatch(rf"{name} refused ([\d ]+)", line)
    if refused:
        number, *places = numbers_in(refused[1])
        found = REFUSED.fullmatch(head)
        if not found or found[1] != name or parts:
            return texts
        if name == "export":
            return []
        for begin, end in ((begin, end) for begin in [f"{words.get(number)} ("] + ["as above ("] * brief for end in ([] if brief else [f"). {advice.get(number)}"]) + [")"]):
            if found[5].startswith(begin) and found[5].endswith(end):
                return detail_faults(found[5][len(begin) : -len(end)], number, places, data, brief)
        return texts
    made = bytes.fromhex(line.partition(" ok")[2])
    text, catalogue = (data, made) if name == "import" else (made, data)
    lines = lines_in(text)
    count = ["no", "one", "two"][len(lines)] if len(lines) < 3 else len(lines)
    some, end = "s" if len(lines) > 1 else "", ":" if lines and not brief else ""
    if name == "import":
        wanted = f"import: {count} line{some} make{'' if some else 's'} a good catalogue of {count} circuit{some}{'' if lines else ', as an empty file is'}{end}"
    else:
        wanted = f"export: {count} circuit{some}, a text of {count} line{some}{end}"
    wrong = [] if head == wanted and len(catalogue) == 21 * len(lines) else [head]
    if brief:
        return wrong + parts
    if len(parts) != len(lines):
        return wrong + [f"{len(parts)} lines of {len(lines)}"]
    for place, ((each, _), part) in enumerate(zip(lines, parts)):
        record = catalogue[21 * place : 21 * place + 21]
        shown = f"line {place + 1} is {trace_shown(each)}"
        said = f': circuit {record[2] * 256 + record[3]}, label {record[4]:02X}'
        rest = f', trace "{trace_shown(record[5:20])}", flags {record[20]} ('
        good = part == shown if name == "export" else re.match(re.escape(shown + said) + r"(?: \([^()]*\))?" + re.escape(rest), part)
        wrong += [] if good else [part]
    return wrong


def look_at_sheets(name, data, printed, told, refusals, fault, brief=False):
    """Each import and export has its words, with the lines of its text."""
    sheets, texts = sheets_of(data, printed), sheets_told(told)
    if sheets is None or len(sheets) != len(texts):
        fault(name, f"{'?' if sheets is None else len(sheets)} imports and exports, and {len(texts)} are told")
        return
    words, advice = ({number: row[k].replace("`", "") for number, row in refusals.items()} for k in (0, 1))
    for sheet, said in zip(sheets, texts):
        for wrong in sheet_faults(sheet, said, words, advice, brief)[:1]:
            fault(name, f"to {sheet[0]}, which prints {sheet[2][:60]}: {wrong[:200]}")
    checked["sheets"] += len(sheets)


def look_at_run(name, data, printed, told, refusals, fault):
    """The sentences of a run against its script and what was printed. Counts how much was looked at."""
    words = {number: wrong.replace("`", "") for number, (wrong, _, _) in refusals.items()}
    lines = data.decode("utf-8", errors="replace").removeprefix("\ufeff").removesuffix("\n").split("\n") if data else []
    units = [Unit(line, lambda what: fault(name, what)) for line in printed if line.startswith("ok ")]
    strange = {int(line[2:]) for line in printed if re.fullmatch(r"\? \d+", line)}
    # units, in order, each in one sentence; `fresh` forgets what was before
    place, before, freshes, seen = 0, NOTHING_BEFORE, 0, 0
    for text in told:
        if text.startswith("fresh: "):
            before, freshes, seen = NOTHING_BEFORE, freshes + 1, 0
        found = HEAD.fullmatch(text)
        if not found:
            continue
        first, last = int(found[2]), int(found[4] or found[2])
        if first != place + 1 or last < first or last > len(units) or (found[1] == "units") != (last > first) or found[3] and (found[3] == "and") != (last == first + 1):
            fault(name, f"units {first} to {last} behind unit {place}, of {len(units)}: {text[:80]}")
            return
        body = re.sub(r"^nothing (?:new )?was sent[^;]*; ", "", found[6])
        for unit in units[place:last]:
            for each in sentence_faults(body, unit, before, last > first, seen if place + 1 == first else None):
                fault(name, f"unit {place + 1}: {each}: {text[:160]}")
            place, before, seen = place + 1, unit, next((byte for byte in reversed(unit.columns) if byte), seen)
            checked["units"] += 1
        checked["sentences"] += 1
    if place != len(units):
        fault(name, f"{place} of {len(units)} units have a sentence")
    commands = [(number, *read_line(line)) for number, line in enumerate(lines, 1)]
    if freshes != sum(1 for number, given, _ in commands if given == ["fresh"] and number not in strange):
        fault(name, f"{freshes} times fresh")
    # refusals
    given, said = {}, {}
    for key in refusals_printed(data, printed):
        given[key] = given.get(key, 0) + 1
    for text in told:
        found = REFUSED.fullmatch(text)
        if found:
            key = refusal_told(found)
            said[key] = said.get(key, 0) + int(found[4] or 1)
            if not found[5].startswith(words.get(key[1], "\0")):
                fault(name, f"not the words of refusal {key[1]}: {text[:160]}")
    if set(given) != set(said) or any(given[key] != said[key] for key in given if key[0] not in ("container", "unit")):
        only = [[key for key in one if one[key] != other.get(key)] for one, other in ((given, said), (said, given))]
        fault(name, f"refusals printed {only[0]}, told {only[1]}")
    for number in {key[1] for key in given} & set(refusals):
        advice = refusals[number][1].replace("`", "")
        if not any(REFUSED.fullmatch(text) and text.endswith(advice) for text in told):
            fault(name, f"nowhere the advice of refusal {number}")
    checked["refusals"] += sum(given.values())
    # good catalogues, in order
    good = [(int(found[1]), int(found[2])) for found in (re.fullmatch(r"cat ok (\d+) pairs=(\d+)", line) for line in printed) if found]
    if list(good_told(told)) != good:
        fault(name, f"good catalogues and their pairs: printed {good[:9]}, told {list(good_told(told))[:9]}")
    checked["catalogues"] += len(good)
    look_at_sheets(name, data, printed, told, refusals, fault)
    # lines that were not understood
    skipped = [re.fullmatch(r"line (\d+) is not understood \(\? (\d+)\) and skipped, `(.*)`: (.+)", text, re.DOTALL) for text in told]
    skipped = [found for found in skipped if found]
    if [int(found[1]) for found in skipped] != sorted(strange) or any(found[1] != found[2] for found in skipped):
        fault(name, f"not understood were {sorted(strange)}, told {[found[1] for found in skipped]}")
    for found in skipped:
        line = scripts.clean(lines[int(found[1]) - 1].removesuffix("\r")) if int(found[1]) <= len(lines) else None
        if line is None or not (found[3] == line or found[3].endswith("...") and line.startswith(found[3][:-3])):
            fault(name, f"line {found[1]} is `{line}`, told `{found[3]}`")
    checked["strange"] += len(strange)
    # comments, in order
    comments = [scripts.clean(comment).rstrip() for number, _, comment in commands if comment and len(lines[number - 1].encode()) <= 100_000]
    if [text for text in told if text.startswith("#")] != comments:
        fault(name, "the comments are not those of the script")
    # settings, with all blanks of a trace, and what is no character
    for number, words_of in words_of_lines(data):
        if words_of and words_of[0] in ("tx", "rx") and number not in strange:
            trace = trace_shown(trace_of(words_of[2]))
            text = f'{words_of[0]}: the {"source" if words_of[0] == "tx" else "sink"} is set to {"expect " if words_of[0] == "rx" else ""}label {words_of[1].upper()}'
            if not any(each.startswith(text) and f'trace "{trace}"' in each for each in told):
                fault(name, f"line {number} has no words with the whole trace")
    for text in told:
        if re.search(r"\bNone\b|[{}]|\bTraceback\b", text) and not text.startswith("#") and "`" not in text:
            fault(name, f"odd text: {text[:100]}")
    checked["runs"] += 1
    return units


def told_of(data, printed, brief=False, by_line=False):
    """What explain says of a run, a text for each item, not wrapped."""
    texts = []

    def keep(items):
        texts.extend(item.text.replace("\u00a0", " ") for item in items if item.kind != "gap")

    explain.explain(scripts.read(data), printed, explain.Teller(explain.Words(), brief, by_line), keep)
    return texts


def lines_of(printed):
    return printed.decode("utf-8", errors="replace").split("\n")[:-1]


def look_at_script(name, data, program, refusals, fault):
    """A script played and told; the printed lines, the sentences, and the brief form."""
    printed = lines_of(play(program, data, name))
    try:
        told = told_of(data, printed)
        each = told_of(data, printed, by_line=True)
        brief = told_of(data, printed, brief=True)
    except scripts.Fault as wrong:
        fault(name, f"explain: {wrong}")
        return printed, [], []
    look_at_run(name, data, printed, told, refusals, fault)
    look_at_run(f"{name} by lines", data, printed, each, refusals, fault)
    look_at_brief(name, printed, told, brief, fault)
    look_at_sheets(f"{name} in brief", data, printed, brief, refusals, fault, brief=True)
    return printed, told, brief


def look_at_brief(name, printed, told, brief, fault):
    """The brief form has each defect that sets or clears at its unit, each move of the pointer, the bit columns of violations, and little else."""
    if any(len(text) > LONGEST_BRIEF for text in brief[1:]):
        fault(f"{name} in brief", f"too long: {max(brief[1:], key=len)}")
    step = r"(?:increment|decrement|new data,|three equal words,) (\d+ to \d+)"
    for pattern, short in ((r"\((d[A-Z]+), [A-Z-]+\) sets", r"(d[A-Z]+) sets"), (r"\((d[A-Z]+)\) clears", r"(d[A-Z]+) clears"), (step, step), (COLUMNS, COLUMNS)):
        for wanted, texts, other in ((pattern, told, short), (short, brief, pattern)):
            for text in texts:
                head = HEAD.fullmatch(text)
                if head:
                    for what in re.findall(wanted, head[6]):
                        opposite = brief if texts is told else told
                        if not any(found and int(found[2]) <= int(head[2]) <= int(found[4] or found[2]) and what in re.findall(other, found[6])
                                   for found in map(HEAD.fullmatch, opposite)):
                            fault(f"{name} in brief", f"only in one form: unit {head[2]}: {what}")
    # each refusal with its places, the byte of its character, and its pairs; each good catalogue
    whole, short = ({(*key[:3], key[3] and (key[3][1], key[3][4]), key[4]) for key in (refusal_told(found, texts is brief) for found in map(REFUSED.fullmatch, texts) if found)}
                    for texts in (told, brief))
    if whole != short:
        fault(f"{name} in brief", f"refusals only in one form: {whole ^ short}")
    if list(good_told(told)) != list(good_told(brief, True)):
        fault(f"{name} in brief", f"good catalogues: {list(good_told(told))[:9]}, and in brief {list(good_told(brief, True))[:9]}")
    for number in {int(text[2:]) for text in printed if re.fullmatch(r"\? \d+", text)}:
        if not any(text.startswith(f"line {number} is not understood") for text in brief):
            fault(f"{name} in brief", f"line {number} is not named")


# ---------------------------------------------------------------------------
# Scripts made here
# ---------------------------------------------------------------------------

GOOD = "5A4D000712" + b"03E5".ljust(15).hex() + "0F"
OTHER = "5A4D000812" + b"03E6".ljust(15).hex() + "0F"


def record(**changed):
    """A record with some fields changed, in hex."""
    fields = {"mark": "5A4D", "circuit": "0009", "label": "02", "trace": b"NORD-SUED".ljust(15).hex(), "flags": "03", **changed}
    return "".join(fields[name] for name in ("mark", "circuit", "label", "trace", "flags"))


BAD = {9: GOOD + "00", 10: GOOD + record(mark="5A4E"), 11: GOOD + record(circuit="2710"), 4: GOOD + record(label="FF"),
       5: GOOD + record(trace="4E6F7264" + "09" + "20" * 10), 12: GOOD + record(flags="10"), 13: GOOD + OTHER + record(trace=b"03E5".ljust(15).hex()),
       20: GOOD + OTHER + record(trace=b"NORD-S\xdcD".ljust(15).hex()), 21: GOOD + record(trace="20" * 15)}
PLACES = {9: "", 10: " 2", 11: " 2", 4: " 2", 5: " 2 5", 12: " 2", 13: " 3 1", 20: " 3 7", 21: " 2"}
TAB = "303309453520202020202020202020"  # 03, a TAB, E5


def hexed(*parts):
    """A trace of these bytes and texts and of spaces behind them, in hex."""
    return b"".join(part.encode() if isinstance(part, str) else bytes([part]) for part in parts).ljust(15).hex().upper()


def text_of(*lines, end=b"\n"):
    """The bytes of a text of these lines, an LF behind each, in hex; behind the last what is asked for."""
    return (b"\n".join(line.encode() for line in lines) + end).hex().upper()


# lines of a text: a good one, one as Calc writes it, one with a trace too long; and what is malformed, with its reason
SEVEN, EIGHT, SIXTEEN = '7,12,"03E5",15', "8,FE,NORD-SUED 102,3", '9,12,"NORD-SUED 102 AB",3'
UMLAUT, QUOTES = '7,12,"NORD-S\u00dcD 101 AB",15', '7,12,"' + '"' * 32 + '",15'  # of 15 signs and 16 bytes; sixteen doubled quotes
DOUBLED, INSIDE = '0008,fe,"N""S",03', '0,00, ",99'
MALFORMED = {
    '7,"12","03E5",15': "its label is in quotes, and only the trace may be",
    '"7",12,"03E5",15': "its number is in quotes, and only the trace may be",
    '7,12,"03E5","15"': "its flags are in quotes, and only the trace may be",
    "circuit,label,trace,flags": "its number is not one to four digits",
    ',12,"03E5",15': "its number is not one to four digits",
    '10000,12,"03E5",15': "its number is not one to four digits",
    '-7,12,"03E5",15': "its number is not one to four digits",
    ' 7,12,"03E5",15': "its number is not one to four digits alone: a blank stands there",
    '7,1,"03E5",15': "its label is not two hex digits",
    '7,1G,"03E5",15': "its label is not two hex digits",
    '7, 12,"03E5",15': "its label is not two hex digits alone: a blank stands there",
    '7,12,"03E5",255': "its flags are not one or two digits",
    '7,12,"03E5",0F': "its flags are not one or two digits",
    '7,12,"03E5",': "its flags are not one or two digits",
    '7,12,"03E5",15 ': "its flags are not one or two digits alone: a blank stands there",
    '7,12,"03E5",15,': "more than four fields stand in it",
    "7,12,03E5,15,": "more than four fields stand in it",
    "7,12,NORD,SUED,15": "more than four fields stand in it",
    '7,12,"03E5,15': "a double quote opens the trace, and none closes it",
    '7,12,"03E5"",15': "a double quote opens the trace, and none closes it",
    '7,12,"': "a double quote opens the trace, and none closes it",
    '7,12,"03E5"': "no comma stands behind the trace's closing quote",
    '7,12,"03E5" ,15': "no comma stands behind the trace's closing quote; a quote in a trace is written twice",
    '7,12,"NORD "A" SUED",15': "no comma stands behind the trace's closing quote; a quote in a trace is written twice",
    "7": "no comma stands behind the number",
    "7,12": "no comma stands behind the label",
    "7,12,03E5": "no comma stands behind the trace",
    '7;12;"03E5";15': "semicolons stand between its fields, and commas must",
    SEVEN + "\r": "a CR stands before its LF",
    '7,12,"' + "x" * 71 + '",15': "it has 81 bytes, and a line has at most 80",
}
# number: scripts, and the printed line in which it is given
GIVEN = {
    15: [(f"import {text_of(line)}\n", "import refused 15 1") for line in MALFORMED] + [
        (f"import {text_of(SEVEN, '8,12,NORD-SUED 102,x')}\n", "import refused 15 2"), (f"import {text_of(SEVEN)[:-2]}\n", "import refused 15 1"), ("import 0A\n", "import refused 15 1"),
        (f"import {text_of(SEVEN, '8,12,300000,15', end=b'')}\n", "import refused 15 2"), (f"import {text_of(SEVEN, '', '8,12,300000,15')}\n", "import refused 15 2"),
        ("import " + text_of("7,12," + "x" * 74 + ",15") + "\n", "import refused 15 1"), ("import EFBBBF" + text_of(SEVEN) + "\n", "import refused 15 1")],
    16: [(f"import {text_of(SEVEN, EIGHT)}\n", "import refused 16 2"), (f"import {text_of('7,12,300000,15')}\n", "import refused 16 1"), (f"import {text_of('7,00,,99')}\n", "import refused 16 1"),
         ("import " + text_of("7,12," + "x" * 72 + ",15", "") + "\n", "import refused 16 1"), (f"import {text_of(INSIDE, SIXTEEN)}\n", "import refused 16 1")],
    17: [(f"import {text_of(SEVEN, SIXTEEN)}\n", "import refused 17 2"), (f"import {text_of(QUOTES)}\n", "import refused 17 1"),
         (f"import {text_of(UMLAUT, EIGHT)}\n", "import refused 17 1")],
    18: [(f"import {text_of(SEVEN) * 513}\n", "import refused 18 513"), ("import " + "0A" * 600 + "\n", "import refused 18 513"), (f"import {text_of(SEVEN) * 512}41\n", "import refused 18 513")],
    1: [("src -\nlen 2357\nsink\n", "refused 1"), ("len 0\nsink\n", "refused 1")],
    3: [("src -\nlens 2348 2349\nsink\n", "refused 3"), ("lens 2349 0\nsrc -\nsink\n", "refused 3")],
    4: [('tx 00 "" 0 0\n', "tx refused 4"), ('tx ff "A" 0 0\nsrc -\n', "container refused 4"), ('rx 00 "" 0\n', "rx refused 4"), ('rx FF "A" 3\nrun 2\n', "refused 4"),
        (f"rx FF {TAB} 0\n", "rx refused 4")],
    5: [('tx 12 "A\tB" 0 0\nsrc -\n', "tx refused 5 2"), (f"rx 12 {TAB} 15\n", "rx refused 5 3"), (f"tx 12 {TAB} 9 0\nrun 2\n", "container refused 5 3"),
        ("rx 12 3033453500" + "20" * 10 + " 0\nsink\n", "refused 5 5"), ('tx 12 "a\tb" 0 0\nsrc -\n', "container refused 5 2"),
        (f"rx 12 {hexed(' ' * 14, 0)} 15\nsink\n", "refused 5 15"), (f"rx 12 {hexed(0x1F, 0x80)} 0\n", "rx refused 5 1"),
        (f"rx 12 {TAB} 15\nrun 2\n", "refused 5 3"), ('rx 12 "ABCDEFGHIJKLMN\x1b" 1\n', "rx refused 5 15")],
    20: [('rx 12 "\x7f" 0\nsink\n', "rx refused 20 1"), (f"rx 12 {hexed('0', 0x80, 0x1F)} 0\nsink\n", "refused 20 2"),
         (f"tx 12 {hexed(' ' * 14, 0x7F)} 0 0\nsrc -\n", "container refused 20 15"), ('rx 12 "NORD-S\u00dcD 101" 15\n', "rx refused 20 7"),
         (f"rx 12 {hexed('NORD-S', 0xDC, 'D')} 15\n", "rx refused 20 7"), (f"tx 12 {hexed(0x93)} 0 0\n", "tx refused 20 1"), (f"tx 12 {hexed('A', 0xA0)} 0 0\n", "tx refused 20 2"),
         ('rx 12 "A\u2013B" 0\n', "rx refused 20 2"), ('rx 12 "U\u0308" 0\n', "rx refused 20 2"), (f"rx 12 {hexed(0x81)} 0\n", "rx refused 20 1")],
    21: [('rx 12 "" 15\nsink\n', "rx refused 21"), (f'rx 12 {"20" * 15} 0\nrun 2\n', "refused 21"), ('tx 12 " " 0 0\n', "tx refused 21"), ('tx 12 "" 9 0\nsrc -\n', "container refused 21")],
    6: [('tx 12 "A" 9 0\nsrc -\n', "tx refused 6"), ('tx 12 "A" 255 1\nsrc -\n', "container refused 6")],
    7: [("src i\nsrc -\nsrc -\nsrc d\n", "unit refused 7")],
    14: [(f"lookup 8 {GOOD}\n", "lookup refused 14"), ("lookup 7\n", "lookup refused 14")],
}
for number, data in BAD.items():
    places = f"{number}{PLACES[number]}"
    pairs = f"pairs={2 if number == 13 else 0}"
    GIVEN.setdefault(number, []).extend([(f"cat {data}\n", f"cat refused {places} {pairs}"), (f"lookup 7 {data}\n", f"lookup refused {places}"), (f"list {data}\n", places),
                                         (f"export {data}\n", f"export refused {places}")])
# and of a text the line: what a line's record is refused for
TEXTS = {
    11: (text_of(SEVEN, '0,FF,"",99'), "2"), 4: (text_of(SEVEN, '8,ff,"",99'), "2"), 5: (text_of(SEVEN, '8,12,"Nord\t",99'), "2 5"), 12: (text_of(SEVEN, '8,12,"NORD",16'), "2"),
    13: (text_of(SEVEN, '8,12,"03E6",3', '9,02,"03E5 ",0'), "3 1"), 20: (text_of(SEVEN, '8,12,"""N"" \u00dc",3'), "2 5"), 21: (text_of(SEVEN, '8,12,"   ",3'), "2"),
}
for number, (data, places) in TEXTS.items():
    GIVEN[number].append((f"import {data}\n", f"import refused {number} {places}"))


def named_by(*traces):
    """A catalogue of records with the traces of these numbers, in hex; the k-th is of circuit k."""
    return "".join(record(circuit=f"{k:04X}", trace=f"NORD-SUED {number}".encode().ljust(15).hex()) for k, number in enumerate(traces, 1))


# catalogues: what is printed, and what must be said. Later record by later record, each with those before it, up to the first repeat
ALIKE = "two records have the same trace"
COUNTED = {
    "": ("cat ok 0 pairs=0", "cat: a good catalogue of no record, as an empty file is; no trace was compared with another"),
    named_by(1): ("cat ok 1 pairs=0", "cat: a good catalogue of one record; no trace was compared with another"),
    named_by(1, 2): ("cat ok 2 pairs=1", "cat: a good catalogue of two records; 1 pair of traces was compared"),
    named_by(1, 2, 3): ("cat ok 3 pairs=3", "cat: a good catalogue of 3 records; 3 pairs of traces were compared"),
    named_by(1, 2, 3, 4): ("cat ok 4 pairs=6", "cat: a good catalogue of 4 records; 6 pairs of traces were compared"),
    named_by(1, 1, 3, 4): ("cat refused 13 2 1 pairs=1", f'in record 2, as in record 1: {ALIKE} (circuit 2, trace "NORD-SUED 1    "; 1 pair of traces was compared). Ask'),
    named_by(1, 2, 1): ("cat refused 13 3 1 pairs=2", f'in record 3, as in record 1: {ALIKE} (circuit 3, trace "NORD-SUED 1    "; 2 pairs of traces were compared). Ask'),
    named_by(1, 2, 3, 3): ("cat refused 13 4 3 pairs=6", f'in record 4, as in record 3: {ALIKE} (circuit 4, trace "NORD-SUED 3    "; 6 pairs of traces were compared). Ask'),
    named_by(1, 2, 2, 1): ("cat refused 13 3 2 pairs=3", f'in record 3, as in record 2: {ALIKE} (circuit 3, trace "NORD-SUED 2    "; 3 pairs of traces were compared). Ask'),
    named_by(1, 1) + record(flags="10"): ("cat refused 12 3 pairs=0", "catalogue refused 12 in record 3: flags are above 15 (circuit 9, flags 16; no trace was compared with another). Add"),
    named_by(*range(512)): ("cat ok 512 pairs=130816", "cat: a good catalogue of 512 records; 130816 pairs of traces were compared"),
    named_by(*range(511), 510): ("cat refused 13 512 511 pairs=130816", "; 130816 pairs of traces were compared). Ask"),
    named_by(*range(513)): ("cat refused 9 pairs=0", "(it has 10773 bytes; no trace was compared with another). The file"),
}
def damaged(container):
    """A printed line with one container that has these fields."""
    return f"ok st=normal off=0 held=0 ended=1 c=U@9,433335CD,{container} ssf=0 tsf=0 ais=0 rdi=0 d=- cause=- settled=1 total=63 hb=A718826F db=A718826F"


# lines that no bench prints: a place too few or too many, or one that no character has; pairs where none are counted, and a catalogue check without;
# bit columns that are not as many as the violations, or do not stand where they must
NEVER = {
    'rx 12 "" 0\n': ("rx refused 15", "rx refused 16 1", "rx refused 21 1", "rx refused 5", "rx refused 5 0", "rx refused 20 16", "rx refused 20 2 7", "rx refused 4 1", "rx refused 21 pairs=0"),
    "sink\n": ("refused 5", "refused 20 3 1", "refused 21 15", "refused 4 pairs=0",
               *(damaged(container) for container in ("v=3,p=03,fe=0", "v=3,p=0F,fe=0", "v=0,p=00,fe=0", "v=0,p=01,fe=0", "v=9,p=FF,fe=0", "v=1,p=1,fe=0", "v=2,p=0a,fe=0", "v=1,p=001,fe=0",
                                                      "p=07,v=3,fe=0", "v=3,fe=0,p=07", "v=3,p=07,p=07,fe=0", "v=3,p=07", "p=07,fe=0", "v=3,p=,fe=0", "v=9,fe=0"))),
    f"cat {GOOD}\n": ("cat refused 15 1 pairs=0", "cat refused 18 513 pairs=0", "cat refused 5 1 pairs=0", "cat refused 20 1 pairs=0", "cat refused 21 pairs=0", "cat refused 21 1 1 pairs=0", "cat refused 20 1 16 pairs=0", "cat refused 4 pairs=0",
                      "cat refused 13 2 pairs=1", "cat refused 9 1 pairs=0", "cat ok 1 pairs=", "cat ok 1 pairs=-1", "cat ok 1 0", "cat ok 1 pairs=0 0", "cat ok 1 pairs=0 pairs=0", "cat ok pairs=0",
                      "cat pairs=0", "cat refused pairs=0", "cat refused 9 pairs=", "cat refused pairs=0 9", "cat refused 13 2 1 1"),
    f"lookup 7 {GOOD}\n": ("lookup refused 15 1", "lookup refused 17 1", "lookup refused 14 1", "lookup refused 5 3", "lookup refused 14 pairs=0", "found 12 303345352020202020202020202020 15 pairs=0"),
    f"list {GOOD}\n": ("20 1", "21", "5 1 0", "13 2", "9 pairs=0", "13 2 1 pairs=1", "15 1", "18 513"),
    f"import {text_of(SEVEN)}\n": ("import refused 9", "import refused 10 1", "import refused 14", "import refused 14 1", "import refused 15", "import refused 16 1 1", "import refused 17", "import refused 18",
                                   "import refused 18 512", "import refused 18 514", "import refused 4", "import refused 5 1", "import refused 5 1 16", "import refused 13 2", "import refused 21 1 1",
                                   "import refused 16 1 pairs=0", "import refused", "import ok ", "import ok 5A", f"import ok {GOOD.lower()}", f"import ok {GOOD}00", f"import ok {GOOD} 0", "import"),
    f"export {GOOD}\n": ("export refused 14", "export refused 15 1", "export refused 16 1", "export refused 17 1", "export refused 18 513", "export refused 9 1", "export refused 10", "export refused 5 1",
                         "export refused 13 2", "export refused 12 1 pairs=0", "export ok ", "export ok 3", "export ok 0a", f"export ok {text_of(SEVEN)} 1", "export"),
}
# and lines that an earlier bench printed
EARLIER = {f"cat {GOOD}\n": ("pairs=", "cat ok 1", "cat refused 9", "cat refused 13 2 1", "cat refused 20 1 3"),
           "sink\n": ("p=", damaged("v=1,fe=0"), damaged("v=8,fe=8"))}
# what the words must have beside those of the table, from the script's own bytes
DETAILS = {
    f"cat {BAD[9]}\n": "(it has 22 bytes, 1 more than a whole number of records; no trace was compared with another). ",
    f"cat {BAD[10]}\n": "catalogue refused 10 in record 2: a record does not begin with the mark 5A 4D (it begins with 5A 4E; no trace was compared with another). ",
    f"cat {BAD[11]}\n": "(the number is 10000; no trace was compared with another). ",
    f"cat {BAD[4]}\n": "(circuit 9, the label is FF; no trace was compared with another). ",
    f"lookup 7 {BAD[4]}\n": "lookup refused 4 in record 2: label 00 means that nothing is carried and FF means alarm: neither can be sent, expected or listed (circuit 9, the label is FF). ",
    f"cat {BAD[5]}\n": 'catalogue refused 5 in record 2 at character 5: a trace character is below 20, which is the space (circuit 9, character 5 of its trace "Nord<09>          " is 09, TAB; '
                       'no trace was compared with another). Look',
    f"cat {BAD[20]}\n": 'catalogue refused 20 in record 3 at character 7: a trace character is above 7E, which is ~ '
                        '(circuit 9, character 7 of its trace "NORD-S<DC>D       " is DC, \u00dc in Latin-1; no trace was compared with another). Look',
    f"lookup 7 {BAD[20]}\n": "lookup refused 20 in record 3 at character 7: ",
    f"list {BAD[21]}\n": "listing refused 21 in record 2: all fifteen characters of the trace are spaces, which nobody means (circuit 9). The name is missing",
    f"rx 12 {TAB} 15\n": "rx refused 5 at character 3: a trace character is below 20, which is the space (character 3 of the expected trace is 09, TAB). Look",
    f"rx 12 {TAB} 15\nrun 2\n": 'sink refused 5 at character 3, 2 times: a trace character is below 20, which is the space (character 3 of the expected trace "03<09>E5          " is 09, TAB)',
    f"tx 12 {TAB} 9 0\nrun 2\n": 'nothing new was sent (container refused 5 at character 3)',
    'tx 12 "a\tb" 0 0\nsrc -\n': 'container refused 5 at character 2: a trace character is below 20, which is the space (character 2 of the sent trace "a<09>b            " is 09, TAB)',
    f"rx 12 {hexed(' ' * 14, 0)} 15\nsink\n": "character 15 of the expected trace is 00, NUL). ",
    f"rx 12 {hexed(0x1F, 0x80)} 0\n": "character 1 of the expected trace is 1F). ",
    'rx 12 "\x7f" 0\nsink\n': "rx refused 20 at character 1: a trace character is above 7E, which is ~ (character 1 of the expected trace is 7F, DEL). Look",
    'rx 12 "NORD-S\u00dcD 101" 15\n': "character 7 of the expected trace is C3, which with 9C is \u00dc in UTF-8). ",
    f"rx 12 {hexed('NORD-S', 0xDC, 'D')} 15\n": "character 7 of the expected trace is DC, \u00dc in Latin-1). ",
    f"tx 12 {hexed(0x93)} 0 0\n": "tx refused 20 at character 1: a trace character is above 7E, which is ~ (character 1 of the sent trace is 93, \u201c in Windows-1252). ",
    f"tx 12 {hexed('A', 0xA0)} 0 0\n": "character 2 of the sent trace is A0, no-break space in Latin-1). ",
    'rx 12 "A\u2013B" 0\n': "character 2 of the expected trace is E2, which with 80 93 is \u2013 in UTF-8). ",
    'rx 12 "U\u0308" 0\n': "character 2 of the expected trace is CC, which with 88 is combining diaeresis in UTF-8). ",
    f"rx 12 {hexed(0x81)} 0\n": "character 1 of the expected trace is 81). ",
    'rx 12 "" 15\nsink\n': "rx refused 21: all fifteen characters of the trace are spaces, which nobody means. The name is missing",
    f"cat {BAD[21]}\n": "which nobody means (circuit 9; no trace was compared with another). ",
    f"cat {BAD[12]}\n": "(circuit 9, flags 16; no trace was compared with another). ",
    f"cat {BAD[13]}\n": 'catalogue refused 13 in record 3, as in record 1: two records have the same trace (circuit 9, trace "03E5           "; 2 pairs of traces were compared). ',
    f"lookup 7 {BAD[13]}\n": 'lookup refused 13 in record 3, as in record 1: two records have the same trace (circuit 9, trace "03E5           "). ',
    f"list {BAD[13]}\n": 'listing refused 13 in record 3, as in record 1: two records have the same trace (circuit 9, trace "03E5           "). ',
    **{f"import {text_of(line)}\n": f"import refused 15 in line 1: a line of the text is malformed, or longer than 80 bytes (line 1 is {line[:97] if line[-1] != chr(13) else line[:-1] + '<0D>'}: {why}). A line is 7,12,"
       for line, why in MALFORMED.items()},
    f"import {text_of(SEVEN, '8,12,NORD-SUED 102,x')}\n": "import refused 15 in line 2: a line of the text is malformed, or longer than 80 bytes (line 2 is 8,12,NORD-SUED 102,x: its flags are not one or two digits). ",
    f"import {text_of(SEVEN)[:-2]}\n": '(line 1 is 7,12,"03E5",15: no LF ends it). ',
    "import 0A\n": "(line 1 is empty). ",
    f"import {text_of(SEVEN, '', '8,12,300000,15')}\n": "(line 2 is empty). ",
    "import EFBBBF" + text_of(SEVEN) + "\n": '(line 1 is <EF><BB><BF>7,12,"03E5",15: it begins with the mark of UTF-8, EF BB BF). ',
    f"import {text_of(SEVEN, EIGHT)}\n": "import refused 16 in line 2: a trace is not in double quotes (line 2 is 8,FE,NORD-SUED 102,3). Do not just put quotes around it",
    f"import {text_of(SEVEN, SIXTEEN)}\n": 'import refused 17 in line 2: a trace has more than 15 characters (line 2 is 9,12,"NORD-SUED 102 AB",3: its trace has 16 characters). Count',
    f"import {text_of(UMLAUT, EIGHT)}\n": "its trace has 16 characters; each byte counts, and a sign above 7E may have two or more). Count",
    f"import {text_of(SEVEN) * 513}\n": "import refused 18 in line 513: the text has more than 512 lines (it has 513 lines). ",
    "import " + "0A" * 600 + "\n": "(it has 600 lines). ",
    f"import {TEXTS[11][0]}\n": 'import refused 11 in line 2: a circuit number is 0 or above 9999 (line 2 is 0,FF,"",99: the number is 0). ',
    f"import {TEXTS[4][0]}\n": '(line 2 is 8,ff,"",99: the label is FF). ',
    f"import {TEXTS[5][0]}\n": 'import refused 5 in line 2 at character 5: a trace character is below 20, which is the space (line 2 is 8,12,"Nord<09>",99: character 5 of its trace is 09, TAB). ',
    f"import {TEXTS[12][0]}\n": '(line 2 is 8,12,"NORD",16: the flags are 16). ',
    f"import {TEXTS[13][0]}\n": 'import refused 13 in line 3, as in line 1: two records have the same trace (line 3 is 9,02,"03E5 ",0; line 1 is 7,12,"03E5",15). ',
    f"import {TEXTS[20][0]}\n": 'import refused 20 in line 2 at character 5: a trace character is above 7E, which is ~ (line 2 is 8,12,"""N"" <C3><9C>",3: character 5 of its trace is C3, '
                                'which with 9C is \u00dc in UTF-8). ',
    f"import {TEXTS[21][0]}\n": '(line 2 is 8,12,"   ",3). The name is missing',
    f"export {BAD[13]}\n": 'export refused 13 in record 3, as in record 1: two records have the same trace (circuit 9, trace "03E5           "). ',
    f"export {BAD[20]}\n": "export refused 20 in record 3 at character 7: ",
    "src -\nlen 2357\nsink\n": "the line has 2357 bytes",
    "src -\nlens 2348 2349\nsink\n": "held has 2348, done 2349",
    'rx FF "A" 3\nrun 2\n': "sink refused 4, 2 times: ",
    f"lookup 8 {GOOD}\n": "circuit 8",
}
AT_ONE = "run 3\nsrc i\nsink\nrun 3\n"  # at offset 1 byte 100 is one of the container that ends in the next unit; a decrement then ends two
# other answers: a script, and what must be said
ANSWERS = {
    f"cat {GOOD}{OTHER}\n": "cat: a good catalogue of two records; 1 pair of traces was compared",
    "cat\n": "cat: a good catalogue of no record, as an empty file is; no trace was compared with another",
    f"lookup 7 {GOOD}\n": 'lookup: circuit 7 has label 12 (140 Mbit/s), trace "03E5           ", flags 15 (monitored; RDI, SSF and AIS reported)',
    f"list {GOOD}{OTHER}\n": 'circuit 8: label 12 (140 Mbit/s), trace "03E6           ", flags 15 (monitored; RDI, SSF and AIS reported)',
    "import\n": "import: no line makes a good catalogue of no circuit, as an empty file is",
    f"import {text_of(SEVEN)}\n": "import: one line makes a good catalogue of one circuit:",
    f"import {text_of(SEVEN, DOUBLED)}\n": 'line 2 is 0008,fe,"N""S",03: circuit 8, label FE (test signal), trace "N"S            ", flags 3 (monitored; RDI reported)',
    "export\n": "export: no circuit, a text of no line",
    f"export {GOOD}{OTHER}\n": "export: two circuits, a text of two lines:",
    f"export {OTHER}{GOOD}\n": 'line 2 is 7,12,"03E5           ",15',
    f"export {record(trace=hexed('N', 0x22, 'S'))}\n": 'line 1 is 9,02,"N""S            ",3',
    "import 7\n": "HEX: 7 has 1 hex digits, and a byte has two",
    "import 7,12\n": "HEX: , in 7,12 is no hex digit",
    "parity 0102\n": "parity: 03, of 2 bytes",
    "check 8B" + b"03E5".ljust(15).hex() + "\n": 'check: a good trace message, start byte 8B, trace "03E5           "',
    "check 8B30\n": "check: no good trace message: it has 2 bytes, and a message has 16",
    "check 0B" + b"03E5".ljust(15).hex() + "\n": "check: no good trace message: its first byte, 0B, is no start byte: the top bit is not set",
    "check 8B" + b"03E6".ljust(15).hex() + "\n": 'check: no good trace message: the check in the start byte 8B does not fit "03E6           "',
    "check 8BB0" + "20" * 14 + "\n": "check: no good trace message: one of its fifteen characters has the top bit set",
    "read 9805\n": "read: 10245: NDF enabled, SS 10, value 5",
    "read 00\n": "read: 0: 1 byte, and a pointer word has two",
    "payload 0\n": "payload: 2340 bytes of 2349 bytes of 00, as none was handed back yet; fingerprint",
    "run 3\npayload 0\n": "payload: 2340 bytes of the container handed back last; fingerprint",
    "payload 1\n": "payload: 2340 bytes of FF, as AIS was asked for; fingerprint 17FC0311",
    "src i\nshow\n": "show: the line has 2358 bytes, pointer word 6AAA: NDF normal (0110), SS 10, value 682",
    "len 0\nshow\n": "show: the line has 0 bytes",
    "ones\n": "on the line: every byte is FF, as from a failed section",
    "len 3\n": "on the line: cut from 2358 to 3 bytes",
    "len 3\nword 6800\n": "the line has 3 bytes, and H2 is byte 3, counted from 0",
    "len 3\nxor 3 01\n": "the line has 3 bytes, and byte 3, counted from 0, lies behind its end",
    "len 2400\n": "on the line: lengthened with 00 from 2358 to 2400 bytes",
    "fill aA 00\n": "held filled with AA, done with 00",
    "lens 5 0\n": "held is now 5 bytes of AA long, done 0",
    "word 0800\n": "on the line: H1 and H2 overwritten, the pointer word is now 0800: NDF neither (0000), SS 10, value 0",
    "word ffff\n": "the pointer word is now FFFF: all ones, an alarm word",
    "run 3\nword 6AAA\n": "SS 10, value 682; at offset 0 it asks for an increment",
    "run 3\nword 6955\n": "value 341; at offset 0 it asks for a decrement",
    'rx 12 "a ""b""#" 5\n': 'rx: the sink is set to expect label 12 (140 Mbit/s), trace "a "b"#         ", flags 5 (monitored; SSF reported)',
    'tx 02 "A" 8 1\n': 'tx: the source is set to label 02 (TUG structure), trace "A              ", 8 violations returned in each container (HP-REI), with remote defect (RDI)',
    "src i\nsrc -\n": "sent, and not fed to the sink: an increment, 0 to 1 (word 6AAA)",
    "sink\n": "unit 1: nothing was sent: the line is all 00; ",
    # why the pointer is where it is
    "run 3\n": "unit 3: three equal words, so the pointer is found at offset 0; ",
    "run 3\nsrc -\nword 692C\nsink\nsink\nsink\n": "three equal words, 0 to 300; ",
    "run 3\nones\nsink\n": "unit 4: an alarm word (FFFF), offset 0 stays; ",
    "run 3\nones\nsink\nsink\nsink\n": "three alarm words in a row, so the pointer goes to alarm; ",
    "run 3\nones\nsink\nsink\nsink\nsink\n": "still in alarm; ",
    "run 3\nones\nsink\nsink\nsink\nsrc -\nword 9805\nsink\n": "unit 7: new data, so the pointer is found at offset 5; ",
    "run 3\nsrc -\nword 9800\nsink\n": "unit 4: new data at the same offset, 0; ",
    "run 3\nsrc -\nword 0800\n" + "sink\n" * 8: "unit 11, the same line again: the eighth invalid word in a row, so the pointer is lost; ",
    "run 3\nsrc -\nword 9800\n" + "sink\n" * 8: "unit 11, the same line again: new data for the eighth time in a row, so the pointer is lost; ",
    "run 3\nsrc -\nword 0800\n" + "sink\n" * 9: "pointer still lost; ",
    "run 3\nsrc -\nword 6801\nsink\n": "unit 4: invalid word 6801 (value 1), offset 0 stays; ",
    "run 3\nsrc -\nword 6C00\nsink\n": "unit 4: invalid word 6C00 (SS 11), offset 0 stays; ",
    "run 3\nsrc -\nword 0800\nsink\n": "unit 4: invalid word 0800 (NDF 0000), offset 0 stays; ",
    "run 3\nword 9800\nsink\nword 6AAA\nsink\n": "unit 5: invalid word 6AAA (increment too soon after the last adjustment or new data), offset 0 stays; ",
    "src i\nlen 3\nsrc i\nword 6800\n": "the pointer word is now 6800",  # a refused unit has made the line long again
    # violations: their bit columns, of two containers whose they are, and whether they are those of violations before
    "run 4\nsrc -\nxor 100 07\nsink\nrun 1\n": "; 3 parity violations, in columns 6, 7 and 8 (HP-BIP); ",
    "run 4\nsrc -\nxor 100 80\nsink\nrun 1\n": "; one parity violation, in column 1 (HP-BIP); ",
    "run 4\nsrc -\nxor 100 FF\nsink\nrun 1\n": "; 8 parity violations, in columns 1, 2, 3, 4, 5, 6, 7 and 8 (HP-BIP); ",
    "run 4\nsrc -\nxor 100 20\nsink\nrun 2\nsrc -\nxor 200 20\nsink\nrun 1\n": "; one parity violation, again in column 3 (HP-BIP); ",
    "run 4\nsrc -\nxor 270 01\nsink\nrun 1\n": "units 5 and 6: plain; one container each; one parity violation, in column 8 (HP-BIP) each; ",
    f"{AT_ONE}src -\nxor 100 A0\nsink\nrun 1\nsrc d\nsink\n": "; two parity violations, in columns 1 and 3 of the first container (HP-BIP); ",
    f"{AT_ONE}run 1\nsrc -\nxor 100 A0\nsink\nsrc d\nsink\n": "; two parity violations, in columns 1 and 3 of the second container (HP-BIP); ",
    f"{AT_ONE}src -\nxor 100 A0\nsink\nsrc -\nxor 100 07\nsink\nsrc d\nsink\n":
        "; 5 parity violations, in columns 1 and 3 of the first container and in columns 6, 7 and 8 of the second container (HP-BIP); ",
    f"{AT_ONE}src -\nxor 100 A0\nsink\nsrc -\nxor 100 07\nsink\nsrc d\nxor 200 07\nsink\nrun 1\n": "; 3 parity violations, again in columns 6, 7 and 8 (HP-BIP); ",
    "run 4\nsrc -\nxor 100 20\nsink\nrun 1\nfresh\nrun 4\nsrc -\nxor 100 20\nsink\nrun 1\n": "; one parity violation, in column 3 (HP-BIP); ",  # both times
    "run 80\n": "In all: 80 units, 17 settled and 63 not; settled from unit 64 on",
    'tx 00 "" 0 0\nrun 3\n': "units 1 to 3, one line fed 3 times: nothing new was sent (container refused 4); ",
    'tx 12 03E5 0 0\n': 'has no quotes; as a name it is written "03E5"',
    "snik\n": "snik is no command; sink is one",
    "SINK\n": "SINK is no command; sink is one",
    "run 0\n": "N: 0 is not from 1 to 9999",
    "sink\tx\n": "a TAB is no blank",
    'rx 12 "A 3\n': "a double quote opens a trace, and no quote closes it",
    'rx 12 "1234567890123456" 3\n': "has 16 characters, and a trace has at most 15",
    'rx 12 "NORD-S\u00dcD 101 AB" 3\n': "has 16 characters, and a trace has at most 15; each byte counts, and a sign above 7E may have two or more",
    "rx 12 NORD SUED 3\n": "a trace with blanks in it needs double quotes",
    "xor 2358 01\n": "byte 2358, counted from 0, lies behind its end",
    "cat 5A4D0z\n": "HEX: z in 5A4D0z is no hex digit",
    "cat 5A4\n": "HEX: 5A4 has 3 hex digits, and a byte has two",
    "# " + "x" * 100_000 + "\n": "it has 100002 bytes, and a line has at most 100000",
}


def look_at_refusals(program, refusals, fault):
    """Each number that the bench can give, and every form of line that it prints or damages."""
    seen = set()
    for number, tried in sorted(GIVEN.items()):
        for text, wanted in tried:
            name = f"refusal {number}: {text.strip()[:40]!r}"
            printed, told, _ = look_at_script(name, text.encode(), program, refusals, fault)
            if wanted not in printed:
                fault(name, f"the bench does not print `{wanted}`: {printed[-1:]}")
            seen.add(number)
            if text in DETAILS and not any(DETAILS[text] in each for each in told):
                fault(name, f"nowhere `{DETAILS[text]}`: {told[-2:]}")
    # no bench gives these: its payloads have the right length, and its states are the card's own
    for number, made in ((2, ["container refused 2"]), (8, ["container refused 8"])):
        told = told_of(b"src -\n", made)
        look_at_run(f"refusal {number}, made up", b"src -\n", made, told, refusals, fault)
        look_at_run(f"refusal {number}, made up", b"sink\n", [f"refused {number}"], told_of(b"sink\n", [f"refused {number}"]), refusals, fault)
        seen.add(number)
    if seen != set(refusals):
        fault("refusals", f"tried were {sorted(seen)}")
    unused = [text for text in DETAILS if not any(text == each for tried in GIVEN.values() for each, _ in tried)]
    if unused:
        fault("refusals", f"no script for the words of {unused}")
    for text, lines in NEVER.items():
        for line in lines:
            try:
                told = told_of(text.encode(), [line])
                fault("refusals", f"`{line}` is told, and no bench prints it: {told}")
            except scripts.Fault as wrong:
                if "which the bench does not print" not in str(wrong) or "earlier" in str(wrong):
                    fault("refusals", f"`{line}`: {wrong}")
    # nor is a line that an earlier bench printed told, and it is said what to do
    for text, (missing, *lines) in EARLIER.items():
        for line in lines:
            try:
                fault("an earlier bench", f"`{line}` is told: {told_of(text.encode(), [line])}")
            except scripts.Fault as wrong:
                if f"which the bench does not print (an earlier bench printed this, without {missing}; play the script again)" not in str(wrong):
                    fault("an earlier bench", f"`{line}`: {wrong}")
    for data, (wanted, said) in COUNTED.items():
        name = f"pairs: {wanted}"
        printed, told, _ = look_at_script(name, f"cat {data}\n".encode(), program, refusals, fault)
        if printed != [wanted]:
            fault(name, f"the bench prints {printed}")
        if not any(said in each for each in told):
            fault(name, f"nowhere `{said}`: {told}")
    # another number of circuits than the text has lines is no answer to it
    for text, line in ((f"import {text_of(SEVEN)}\n", "import ok"), (f"import {text_of(SEVEN)}\n", f"import ok {GOOD}{OTHER}"), ("import\n", f"import ok {GOOD}"),
                       (f"export {GOOD}\n", "export ok"), (f"export {GOOD}\n", f"export ok {text_of(SEVEN, SEVEN)}")):
        try:
            fault("import", f"`{line}` is told: {told_of(text.encode(), [line])}")
        except scripts.Fault as wrong:
            if "the answer has more circuits or fewer" not in str(wrong):
                fault("import", f"`{line}`: {wrong}")
    # a raw byte of another code in quotes is a byte like any other
    look_at_script("a byte of Latin-1", b'rx 12 "NORD-S\xdcD" 15\nsink\n', program, refusals, fault)
    for text, wanted in ANSWERS.items():
        name = f"answer to {text.strip()[:40]!r}"
        _, told, _ = look_at_script(name, text.encode(), program, refusals, fault)
        if not any(wanted in each for each in told):
            fault(name, f"nowhere `{wanted}`: {[each[:200] for each in told[-3:]]}")


def look_at_lines(fault):
    """Lines of texts, good ones spoiled at random: one has a reason exactly if it is malformed, and the reason is true of it."""
    dice, seen = random.Random(15), set()
    for _ in range(20_000):
        line = bytearray(dice.choice((SEVEN, EIGHT, SIXTEEN, '0,00,"a""b",9', "1,12,,1", *MALFORMED)).encode())
        for _ in range(dice.randrange(4)):
            place = dice.randrange(len(line) + 1)
            line[place : place + dice.randrange(3)] = dice.choice((b"", b'"', b",", b" ", b";", b"\r", b"\xef\xbb\xbf", b'""', b"7", b"x", b'",', b"x" * 60))
        line, ended = bytes(line), dice.random() < 0.95
        good = WELL_FORMED.fullmatch(line) if ended and len(line) <= 80 else None
        try:
            fields, why = scripts.text_line(line, ended), None
        except scripts.Wrong as wrong:
            fields, why = None, str(wrong)
        if (good is None) != (fields is None) or why and line and not reason_is_true(why, line, ended):
            fault("lines of a text", f"{line}: {why}")
        if good and fields:
            trace = good[3][1:-1].replace(b'""', b'"') if good[3][:1] == b'"' else None
            if fields != {"circuit": int(good[1]), "label": int(good[2], 16), "trace": trace, "flags": int(good[4])}:
                fault("lines of a text", f"{line}: {fields}")
        seen.add(re.sub(r"\d+ bytes", "N bytes", why) if why else None)
    if len(seen) < len(REASONS) + 2:  # and nothing in it, and no reason
        fault("lines of a text", f"only {len(seen)} reasons are met: {seen}")


def look_at_traces(program, page, fault):
    """The traces of docs/REFUSALS.md are refused as it says, and with the same words where they are sent."""
    rows = re.findall(r"^\| `([0-9A-F]{30})` \| [^|]+ \| `rx refused ([\d ]+)` \|$", page, re.MULTILINE)
    if len(rows) < 5 or {int(said.split(" ")[0]) for _, said in rows} != set(TRACE):
        fault("REFUSALS.md", f"its traces are {rows}")
    for trace, said in rows:
        for call, line in (("rx", f"rx 12 {trace} 15\n"), ("tx", f"tx 12 {trace} 0 0\n")):
            printed = lines_of(play(program, line.encode(), "REFUSALS.md"))
            if printed != [f"{call} refused {said}"]:
                fault("REFUSALS.md", f"`{line.strip()}` prints {printed}, not refused {said}")


def look_at_examples(name, page, fault):
    """What a page says that `cat` prints: the pairs are those of n records without a repeat, of the repeat that is named, or none."""
    examples = re.findall(r"`(cat (?:ok|refused) \d[^`]*)`", page)
    for text in examples:
        found = re.fullmatch(r"cat (?:ok (\d+)|refused (?:13 (\d+) (\d+)|\d+(?: \d+){0,2})) pairs=(\d+)", text)
        records, later, first, pairs = (int(number or 0) for number in found.groups()) if found else (0, 0, 0, -1)
        if pairs != (records * (records - 1) // 2 if records else (later - 1) * (later - 2) // 2 + first if later else 0):
            fault(name, f"no bench prints `{text}`")
    if not examples:
        fault(name, "it does not say what `cat` prints")


def look_at_played(program, name, page, fault):
    """An import or export that a page sets out with its answer below is answered so."""
    lines = page.split("\n")
    played = [(line.strip(), lines[number].strip()) for number, line in enumerate(lines[:-1], 1) if re.fullmatch(r"    (import|export) [0-9A-F]+", line)]
    for line, answer in played:
        printed = lines_of(play(program, f"{line}\n".encode(), name))
        if printed != [answer]:
            fault(name, f"`{line}` prints {printed}, not {answer}")
    if {line.split(" ")[0] for line, _ in played} != {"import", "export"}:
        fault(name, "it has no example of import, or none of export")


def look_at_rows(program, card, fault):
    """A unit with the word of each row of the card's pointer table is told as the table has it."""
    rows = re.findall(r"\| (P\d+) \| (\d+) \| ([0-9A-F]{4})[^|]* \| ([a-z ]+)[^|]* \| (\d+) \|", card)
    if len(rows) != 12:
        fault("CARD.md", f"{len(rows)} rows in its pointer table")
    for row, offset, word, taken, then in rows:
        at = int(offset)
        # three alike at the offset, then units enough for the wait, then the word
        data = (f"src -\nword {0x6800 + at:04X}\nsink\nsink\nsink\nsink\nsink\nsink\nword {word}\nsink\n").encode()
        told = told_of(data, lines_of(play(program, data, row)))
        sentence = next((text for text in told if text.startswith("unit 7: ")), "")
        wanted = {"plain": "unit 7: plain; ", "increment": f"unit 7: increment {offset} to {then}; ", "decrement": f"unit 7: decrement {offset} to {then}; ",
                  "invalid": f"unit 7: invalid word {word} (", "new data": f"unit 7: new data, {offset} to {then}; "}[taken.strip()]
        if not sentence.startswith(wanted):
            fault(row, f"`{wanted}` is not said: {sentence[:100]}")


def look_at_bytes(program, fault):
    """What a byte of the line is called, against what a turned-over bit of it does to parity, label, trace and violations returned."""
    header = {0: "H1", 1: "Y", 2: "Y", 3: "H2", 4: "1*", 5: "1*"}
    for place, name in header.items():
        told = told_of(f"src -\nxor {place} 01\n".encode(), ["unit ended=1 word=6800 fnv=00000000 off=0"])
        if not any(text == f"on the line: one bit of byte {place} turned over (xor 01): {name}" for text in told):
            fault("bytes", f"byte {place} is not called {name}: {told}")
    for asked, lead in (("-", ""), ("i", ""), ("d", ""), ("-", "src i\nsink\nrun 5\n"), ("d", "src i\nsink\nrun 5\n"), ("i", "src d\nsink\nrun 5\n"), ("-", "src d\nsink\nrun 5\n")):
        data = f"run 8\n{lead}src {asked}\n"
        offset = int(re.search(r"off=(\d+)", lines_of(play(program, data.encode(), "bytes"))[-1]).group(1))
        j1 = 3 * offset + 9
        columns = [(j1 - 9 + 261 * row) % 2349 + 9 for row in range(9)]
        for place in sorted({6, 8, 9, 10, 11, 12, 100, 2357, *columns, *[column + 1 for column in columns]} & set(range(2358))):
            text = f"{data}xor {place} 80\nsink\nrun 4\n"
            printed = lines_of(play(program, text.encode(), "bytes"))
            clean = lines_of(play(program, f"{data}sink\nrun 4\n".encode(), "bytes"))
            told = told_of(text.encode(), printed)
            called = next(each for each in told if "turned over" in each).partition("): ")[2]
            units = [[Unit(line, lambda what: fault("bytes", what)) for line in lines if line.startswith("ok ")] for lines in (printed, clean)]
            violations, returned = ([sum(getattr(unit, what) for unit in each) for each in units] for what in ("violations", "returned"))
            effect = violations[0] - violations[1]
            if {byte for unit in units[0] for byte in unit.columns} - {0, 0x80}:
                fault("bytes", f"`src {asked}` at offset {offset}, byte {place}: a bit of column 1 shows in another: {[unit.columns for unit in units[0]]}")
            expected = ("carries nothing" if not effect else "B3" if effect == 2 else "G1" if returned[0] != returned[1] else "")
            if expected and expected not in called or not expected and (re.search("nothing|B3|G1", called) or not called):
                fault("bytes", f"`src {asked}` at offset {offset}, byte {place}: called `{called}`; {effect} violations, {returned[0] - returned[1]} more returned")
            by_place = next((name for row, name in enumerate("J1 B3 C2 G1 F2 H4 F3 K3 N1".split()) if columns[row] == place), "payload")
            if effect and not (by_place in called or place < 9):
                fault("bytes", f"`src {asked}` at offset {offset}, byte {place}: called `{called}`, not {by_place}")


def random_script(seed, lines):
    """Lines of every kind, most of them good, some not: each command with words in and out of their ranges, and with bytes turned over."""
    dice = random.Random(seed)
    pick = dice.choice

    def hexes(most=6):
        text = dice.randbytes(dice.randrange(most)).hex()
        return pick((text, text.upper(), text[:-1] if dice.random() < 0.2 else text))

    def trace():
        return pick(('"03E5"', '"03E5"', "303345352020202020202020202020", '""', '"a""b"', '"x" ', '"1234567890123456"', '"abc', '"a"b', "03E5", '"#"', '"\x7f"', b"\xc3\xa4".decode(),
                     '"N\u00f6rd"', '"a\tb"', TAB, hexed("A", pick((0x00, 0x1F, 0x7F, 0x80, 0xFF)), pick((0x00, 0x1F, 0x7F, 0x80, 0xFF))), hexed(" " * dice.randrange(16))))

    made = {
        "fresh": lambda: "fresh" if dice.random() < 0.1 else "src -",
        "fill": lambda: f"fill {hexes(3)} 0{dice.randrange(20):X}",
        "lens": lambda: f"lens {pick((2349, 2349, 2348, 4096, 4097))} {pick((2349, 2349, 0))}\nfresh",
        "tx": lambda: f"tx {pick(('12', '12', '02', '00', 'fF', '1'))} {trace()} {pick((0, 0, 3, 8, 9, 255, 256))} {pick((0, 1, 0, 2))}",
        "rx": lambda: f"rx {pick(('12', '12', '02', '00', 'fF'))} {trace()} {pick((0, 1, 15, 15, 16))}",
        "mend": lambda: 'tx 12 "03E5" 0 0\nrx 12 "03E5" 15',
        "run": lambda: f"run {pick((1, 2, 3, 5, 8, 20, 0, 10000, '07'))}",
        "src": lambda: f"src {pick('--iid')}\nsink",
        "sent": lambda: f"src {pick('-idx')}",
        "word": lambda: f"word {pick(('6800', '6AAA', '6955', '9800', '1801', 'ffff', '6C00', '0800', hexes(3), f'{0x6800 + dice.randrange(790):X}'))}" + "\nsink" * dice.randrange(4),
        "xor": lambda: f"xor {pick((0, 3, 6, 9, 270, 792, 2357, 2358, dice.randrange(2358), '000000001', '0000000001'))} {hexes(2)}",
        "ones": lambda: "ones" + "\nsink" * dice.randrange(5),
        "len": lambda: f"len {pick((2358, 2357, 0, 3, 4, 4096, 4097))}",
        "show": lambda: "show",
        "sink": lambda: "sink",
        "payload": lambda: f"payload {pick((0, 1, 2))}",
        "cat": lambda: f"cat {pick((GOOD, GOOD + OTHER, '', hexes(), named_by(*[dice.randrange(9) for _ in range(dice.randrange(9))]), *BAD.values()))}",
        "lookup": lambda: f"lookup {pick((7, 8, 0, 10000, 999999999, 1000000000))} {pick((GOOD, BAD[5], BAD[13], BAD[20], BAD[21], ''))}",
        "list": lambda: f"list {pick((GOOD, GOOD + OTHER, '', BAD[4], BAD[5], BAD[20], BAD[21], hexes()))}",
        "import": lambda: f"import {pick((text_of(*[pick((SEVEN, SEVEN, EIGHT, SIXTEEN, *MALFORMED)) for _ in range(dice.randrange(1, 4))]), '', hexes(), *[text for text, _ in TEXTS.values()]))}",
        "sheet": lambda: f"import {text_of(*[f'{dice.randrange(1, 10000)},{dice.randrange(1, 255):02x},`{number:x}`,{dice.randrange(16)}'.replace('`', chr(34)) for number in range(dice.randrange(1, 5))])}",
        "export": lambda: f"export {pick((GOOD, GOOD + OTHER, '', hexes(), named_by(*[dice.randrange(9) for _ in range(dice.randrange(5))]), *BAD.values()))}",
        "parity": lambda: f"parity {hexes()}",
        "check": lambda: f"check {pick(('8B' + b'03E5'.ljust(15).hex(), hexes(20)))}",
        "read": lambda: f"read {hexes(4)}",
        "comment": lambda: pick(("# a comment", "", "   ", "#", "sink # behind", "  sink  ", "sink#", "\tsink", "# \u00e4 \" quote", ".", "Sink", "help", "tx", "rx 12", "sink 1", "ones x")),
    }
    text = "\n".join(pick(list(made.values()))() for _ in range(lines)) + "\n"
    data = bytearray(text.encode())
    for _ in range(lines // 12):  # and some bytes hit
        place = dice.randrange(len(data))
        if data[place] != 0x0A:
            data[place] = dice.choice(b' "#i-0F\r\t\x00')
    return bytes(data)


# ---------------------------------------------------------------------------
# The programs as a person starts them
# ---------------------------------------------------------------------------


def explained(*arguments, given=b"", env=None):
    return run([sys.executable, EXPLAIN, *arguments], given, env)


def look_at_program(folder, program, lesson, data, printed, fault):
    """explain.py by its command line: three ways in, bad input, a reader that goes away, and a pipe that is slow."""
    output, odd = os.path.join(folder, "output"), os.path.join(folder, "odd")
    with open(output, "wb") as file:
        file.write(printed)
    whole = explained("--width", "0", lesson, output).stdout
    wanted = "\n".join(told_of(data, lines_of(printed))) + "\n"
    if re.sub(rb"(?m)^    ", b"", whole).decode().replace("\n\n", "\n") != wanted:
        fault("command line", "not what the module tells")
    for way, arguments, given in (("a pipe", (lesson, "-"), printed), ("--bench", (lesson, "--bench", *program), b""), ("--bench in one", (lesson, "--bench", " ".join(program)), b"")):
        done = explained("--width", "0", *arguments, given=given)
        if done.stdout != whole or done.returncode:
            fault("command line", f"{way}: other words, or status {done.returncode}: {done.stderr.decode()[-200:]}")
    for width in ("40", "72"):
        lines = explained("--width", width, lesson, output).stdout.decode().split("\n")
        if any(len(line) > int(width) for line in lines if not line.startswith("#")):
            fault("command line", f"--width {width}: a line is longer")
    lines = printed.split(b"\n")
    spoiled = {
        "a line missing": b"\n".join(lines[:10] + lines[11:]), "cut": b"\n".join(lines[:20]) + b"\n", "a line twice": b"\n".join(lines[:7] + lines[6:]),
        "a line more": printed + b"ok\n", "nothing": b"", "bytes": bytes(range(256)) * 4, "a cause that is none": printed.replace(b"cause=cLOP", b"cause=LOP", 1),
        "bits for names": printed.replace(b"d=- cause=cLOP,cSSF", b"d=0000 cause=0110000", 1), "another number": printed.replace(b"? 69", b"? 70").replace(b"ended=1 c", b"ended=2 c", 1),
        "another script's": b"cat ok 1 pairs=0\n",
    }
    for name, text in spoiled.items():
        with open(odd, "wb") as file:
            file.write(text)
        done = explained(lesson, odd)
        if text == printed or done.returncode != 1 or b"Traceback" in done.stderr or done.stderr.count(b"\n") != 1 or not done.stderr.startswith(b"explain.py: "):
            fault("bad input", f"{name}: status {done.returncode}, {done.stderr.decode()[-300:]!r}")
    for name, status, arguments in (("no script", 1, (os.path.join(folder, "none"), output)), ("no output", 1, (lesson, os.path.join(folder, "none"))), ("a folder", 1, (folder, output)),
                                    ("no arguments", 2, ()), ("both", 2, (lesson, output, "--bench", *program)), ("a strange option", 2, (lesson, output, "--bref")),
                                    ("no such bench", 1, (lesson, "--bench", os.path.join(folder, "none"))), ("a bench that fails", 1, (lesson, "--bench", "/bin/false")),
                                    ("a bench of nothing", 1, (lesson, "--bench", ""))):
        done = explained(*arguments)
        if done.returncode != status or b"Traceback" in done.stderr or not done.stderr:
            fault("bad input", f"{name}: status {done.returncode}, {done.stderr.decode()[-300:]!r}")
    # nobody reads: no traceback
    for name, command in (("closed", f"exec >&-; '{sys.executable}' '{EXPLAIN}' '{lesson}' '{output}'"), ("a reader that went away", f"'{sys.executable}' '{EXPLAIN}' '{lesson}' '{output}' | head -n 1 >/dev/null"),
                          ("a full disk", f"'{sys.executable}' '{EXPLAIN}' '{lesson}' '{output}' >/dev/full")):
        done = run(["/bin/sh", "-c", command])
        if b"Traceback" in done.stderr or b"Exception" in done.stderr:
            fault("nobody reads", f"{name}: {done.stderr.decode()[-300:]}")
    # what is known is said while the bench still runs
    with open(odd, "wb") as file:
        file.write(b"src -\nsink\n# mark\nsrc -\nsink\n")
    lines = lines_of(play(program, b"src -\nsink\nsrc -\nsink\n", "a slow pipe"))
    early, rest = early_and_late([sys.executable, EXPLAIN, "--width", "0", odd, "-"], "\n".join(lines[:2]) + "\n", b"# mark\n", "\n".join(lines[2:]) + "\n")
    if not early.startswith(b"unit 1: ") or not early.endswith(b"# mark\n") or b"unit 2: " not in rest:
        fault("a slow pipe", f"before its end it said {early!r}, and then {rest[:100]!r}")


def early_and_late(command, first, mark, then):
    """What a program says to the first lines, up to a mark, while it waits for more; and what it says to the rest."""
    env = {name: value for name, value in os.environ.items() if name != "PYTHONUNBUFFERED"}
    slow = subprocess.Popen(command, stdin=subprocess.PIPE, stdout=subprocess.PIPE, env=env)
    slow.stdin.write(first.encode())
    slow.stdin.flush()
    early, until = b"", time.monotonic() + 10
    while mark not in early and time.monotonic() < until:
        if select.select([slow.stdout], [], [], 0.5)[0]:
            early += os.read(slow.stdout.fileno(), 4096)
    rest, _ = slow.communicate(then.encode(), 20)
    return early, rest


def at_terminal(command, typed, mark):
    """What a program says at a terminal to what is typed once it asks, up to a mark or its end."""
    ours, theirs = pty.openpty()
    program = subprocess.Popen(command, stdin=theirs, stdout=theirs, stderr=theirs, start_new_session=True, env={**os.environ, "TERM": "dumb", "COLUMNS": "100"})
    os.close(theirs)
    said, until = b"", time.monotonic() + 20
    while mark not in said and time.monotonic() < until:
        if select.select([ours], [], [], 0.5)[0]:
            try:
                said += os.read(ours, 4096)
            except OSError:  # it has ended
                break
            if typed and b"1> " in said:
                os.write(ours, typed)
                typed = b""
    program.kill()
    program.wait()
    os.close(ours)
    return said


def look_at_desk(folder, program, everything, lesson, data, fault):
    """A desk says what explain --lines says: typed through a pipe, and as a lesson; it helps, and ends when told to."""
    path = os.path.join(folder, "everything.bench")
    with open(path, "wb") as file:
        file.write(everything)
    printed = play(program, everything, "all lessons")
    output = os.path.join(folder, "everything.out")
    with open(output, "wb") as file:
        file.write(printed)
    wanted = explained("--lines", path, output)
    done = run([sys.executable, DESK, "--bench", *program], everything)
    if wanted.returncode or done.returncode or done.stderr:
        fault("desk", f"status {wanted.returncode} and {done.returncode}: {done.stderr.decode()[-300:]}")
    if not same_text(done.stdout, wanted.stdout):
        fault("desk", f"not the words of explain --lines: {first_difference(done.stdout, wanted.stdout)}")
    # a lesson: the same, with each command above its answer; step by step the same again
    with open(output, "wb") as file:
        file.write(play(program, data, "a lesson"))
    wanted = explained("--lines", lesson, output).stdout
    count = data.count(b"\n")
    for name, arguments, typed in (("as a lesson", [lesson], b""), ("step by step", ["--step", lesson], b"\n" * count), ("and the prompt", ["--prompt", lesson], b"help\n")):
        done = run([sys.executable, DESK, *arguments, "--bench", *program], typed)
        text = b"\n".join(line for line in done.stdout.split(b"\n") if not re.match(rb"\d+> |# Answer:  $|Enter plays", line))
        if name == "and the prompt":
            text = re.sub(rb"(?ms)^  tx LABEL.*`quit`\.\n", b"", text)
        if not same_text(text, wanted) or done.returncode:
            fault("desk", f"{name}: status {done.returncode}, {first_difference(text, wanted)}")
        echoes = [line.partition(b"> ")[2].strip() for line in done.stdout.split(b"\n") if re.match(rb"\d+> ", line)]
        commands = [" ".join(words).encode() for words, _ in map(read_line, data.decode().split("\n")) if words]
        if [b" ".join(echo.split()) for echo in echoes] != commands:
            fault("desk", f"{name}: the commands shown are {echoes[:5]}..")
    # each line is answered at once, a comment behind it too
    early, rest = early_and_late([sys.executable, DESK, "--bench", *program], "sink # behind\n", b"# behind\n", "sink\n")
    if not early.startswith(b"unit 1: ") or not early.endswith(b"# behind\n") or not rest.startswith(b"unit 2"):
        fault("desk", f"to its first line it said {early!r}, and then {rest[:100]!r}")
    # the bench's own lines, numbered as they were typed
    done = run([sys.executable, DESK, "--raw", "--bench", *program], b"parity 0102\nsnk\n\nhelp\nsnk\nquit\nparity 01\n").stdout.decode()
    if [line.strip() for line in done.split("\n") if re.match(r" {4}(parity|\?) ", line)] != ["parity 03", "? 2", "? 4"] or "parity: 01" in done:
        fault("desk", f"--raw, or the numbers of lines, or quit: {done[-400:]}")
    # help
    done = run([sys.executable, DESK, "--bench", *program], b"help\nhelp sink\nhelp 4\nhelp 5\nhelp 20\nhelp 21\nhelp 16\nhelp 19\nhelp import\nhelp cTIM\nhelp cat\nhelp nothing\n").stdout.decode()
    for name in scripts.COMMANDS:
        if not re.search(rf"^  {re.escape(scripts.form(name))}  ", done, re.MULTILINE):
            fault("desk", f"help has no {name}")
    joined = " ".join(done.split())
    for text in ["st=", "off=", "held=", "ended=", "c=", "ssf=", "tsf=", "ais=", "rdi=", "d=", "cause=", "settled=", "total=", "hb=", "db=",
                 "p= their bit columns, a byte (80 is column 1, 01 is column 8)", "refusal 4: label 00 means", "refusal 5: a trace character is below 20, which is the space. Look", "refusal 20: a trace character is above 7E, which is ~. Look",
                 "refusal 21: all fifteen characters of the trace are spaces, which nobody means. The name is missing", "refusal 16: a trace is not in double quotes. Do not just put quotes around it", "There is no help on 19",
                 'import HEX: the catalogue of a text whose bytes these are; a line of it is 7,12,"03E5",15 and an LF (0A)',
                 "cTIM (HP-TIM): trace mismatch: ", "cat HEX: the check of a catalogue of these bytes; pairs= is how many pairs of traces it compared", "There is no help on nothing"]:
        if text not in joined:
            fault("desk", f"help does not say {text}")
    for name, arguments, given in (("a bench that is not there", ["--bench", os.path.join(folder, "none")], b""), ("no such lesson", [os.path.join(folder, "none"), "--bench", *program], b""),
                                   ("a bench that ends", ["--bench", "/bin/true"], b"sink\n"), ("a step without a lesson", ["--step", "--bench", *program], b"")):
        done = run([sys.executable, DESK, *arguments], given)
        if done.returncode not in (1, 2) or b"Traceback" in done.stderr or not done.stderr:
            fault("desk", f"{name}: status {done.returncode}, {done.stderr.decode()[-300:]!r}")
    # at a terminal a TAB in quotes is a TAB, as it came, and elsewhere completes a command
    said = at_terminal([sys.executable, DESK, "--bench", *program], b'par\t01\nrx 12 "03\tE5" 15\nquit\n', b"In all: ")
    if b"parity: 01" not in said or b"rx refused 5 at character 3" not in said:
        fault("desk", f"a TAB typed: {said[-400:]!r}")
    # a bench that says something else is shown, and no reason to stop
    done = run([sys.executable, DESK, "--bench", "/bin/sh", "-c", "k=0; while read -r line; do k=$((k+1)); [ \"$line\" = . ] && echo \"? $k\" || echo peek; done"], b"sink\nsink\n")
    if done.stdout.count(b"cannot be put into words") != 2 or done.stdout.count(b"    peek") != 2 or b"Traceback" in done.stderr:
        fault("desk", f"a bench that says something else: {done.stdout[-300:]} {done.stderr[-300:]}")


def same_text(one, other):
    return one.replace(b"\n\n", b"\n") == other.replace(b"\n\n", b"\n")


def first_difference(one, other):
    ours, theirs = one.split(b"\n"), other.split(b"\n")
    for place in range(max(len(ours), len(theirs))):
        a, b = (lines[place] if place < len(lines) else None for lines in (ours, theirs))
        if a != b:
            return f"line {place + 1}: {a!r} for {b!r}"
    return "the empty lines"


# ---------------------------------------------------------------------------
# These checks, on words and lines that are wrong
# ---------------------------------------------------------------------------


def look_at_checks(program, pages, refusals, fault):
    """Each of these faults, put in by hand, must be found by the checks above."""
    found = []

    def note(what, text):
        found.append((what, text))

    def tried(name, look):
        found.clear()
        look()
        if not found:
            fault("these checks", f"not found: {name}")

    base = b'rx 12 "03E5" 15\nrun 70\ntx 12 "03E6" 2 0\nrun 60\nones\nsink\nsink\nsink\nsnk\nrun 9\nsrc i\nsink\nrun 4\nsrc d\nxor 300 07\nsink\nrun 3\nsrc -\nxor 400 20\nsink\nrun 2\nsrc -\nxor 500 20\nsink\nrun 2\n'
    base += b'src i\nsink\nrun 3\nsrc -\nxor 100 A0\nsink\nsrc -\nxor 100 11\nsink\nsrc d\nsink\nfresh\nrx 00 "" 0 # ends\nrun 2\n'
    base += f'rx 12 {TAB} 15\nsink\ntx 12 {hexed("NORD-S", 0xDC, "D")} 0 0\nsrc -\nrx 12 "" 15\nsink\ncat {BAD[5]}\ncat {BAD[20]}\nlookup 7 {BAD[20]}\nlist {BAD[20]}\ncat {BAD[21]}\n'.encode()
    base += f"import {text_of(SEVEN, EIGHT)}\nimport {text_of(SEVEN, SIXTEEN)}\nimport {text_of(list(MALFORMED)[0])}\nimport {TEXTS[20][0]}\nimport {TEXTS[13][0]}\n".encode()
    base += f"import {text_of(SEVEN, SEVEN.replace('03E5', 'N').replace('7', '8'))}\nexport {OTHER}{GOOD}\nexport {BAD[12]}\nimport\nimport {text_of(SEVEN) * 513}\n".encode()
    base += f"cat\ncat {named_by(1)}\ncat {named_by(1, 2)}\ncat {named_by(1, 2, 3)}\ncat {BAD[13]}\nlookup 7 {BAD[13]}\ncat {named_by(1, 1)}\n".encode()
    printed = lines_of(play(program, base, "these checks"))
    told = told_of(base, printed)
    look_at_run("a good run", base, printed, told, refusals, fault)

    def change(old, new):
        place = next((place for place, text in enumerate(told) if old in text), None)
        if place is None:
            fault("these checks", f"no sentence has `{old}`")
            return told
        return told[:place] + [told[place].replace(old, new, 1)] + told[place + 1 :]

    words = {
        "another cause": change("reported: cTIM (HP-TIM)", "reported: cPLM (HP-PLM)"), "a tester's name": change("cLOP (AU-LOP)", "cLOP (AU-AIS)"),
        "a cause left out": change("reported: cLOP (AU-LOP), cSSF (HP-SSF)", "reported: cLOP (AU-LOP)"), "a defect left out": change("trace mismatch (dTIM, HP-TIM) sets, so ", ""),
        "sets for stands": change("trace mismatch (dTIM) still stands", "trace mismatch (dTIM, HP-TIM) sets"), "another defect": change("(dTIM) clears", "(dPLM) clears"),
        "no AIS": change("AIS and RDI go on", "RDI goes on"), "containers": change("two containers ended", "one container ended"), "none for one": change("one container each", "no container ended"),
        "violations": change("parity violations", "no violations"), "another number returned": change("two violations returned by", "one violation returned by"),
        # the bit columns of violations: which, in number and in words, whose, and whether they come again
        "no bit columns": change(", in columns 6, 7 and 8 (HP-BIP)", " (HP-BIP)"), "another bit column": change("in columns 6, 7 and 8 (", "in columns 5, 7 and 8 ("),
        "a bit column left out": change("in columns 6, 7 and 8 (", "in columns 6 and 8 ("), "a bit column too many": change("in columns 6, 7 and 8 (", "in columns 5, 6, 7 and 8 ("),
        "bit columns from the other end": change("in columns 6, 7 and 8 (", "in columns 1, 2 and 3 ("), "bit columns from 0": change("in columns 6, 7 and 8 (", "in columns 5, 6 and 7 ("),
        "bit columns in another order": change("in columns 6, 7 and 8 (", "in columns 8, 7 and 6 ("), "column for columns": change("in columns 6, 7", "in column 6, 7"),
        "columns for column": change("in column 3 (", "in columns 3 ("), "again at first": change("violation, in column 3 (", "violation, again in column 3 ("),
        "again left out": change("again in column 3", "in column 3"), "again in another": change("again in column 3", "again in column 4"),
        "again in others": change("violations, in columns 6, 7 and 8", "violations, again in columns 6, 7 and 8"),
        "whose bit columns": change("in columns 1 and 3 of the first container and in columns 4 and 8 of the second", "in columns 1 and 3 of the second container and in columns 4 and 8 of the first"),
        "each has the other's": change("in columns 1 and 3 of the first container and in columns 4 and 8 of the second", "in columns 4 and 8 of the first container and in columns 1 and 3 of the second"),
        "all are the first's": change("in columns 1 and 3 of the first container and in columns 4 and 8 of the second container", "in columns 1, 3, 4 and 8 of the first container"),
        "nobody's": change("in columns 1 and 3 of the first container and in columns 4 and 8 of the second container", "in columns 1, 3, 4 and 8"),
        "the first's alone": change(" and in columns 4 and 8 of the second container", ""), "the second's alone": change("in columns 1 and 3 of the first container and ", ""),
        "of two where one ended": change("in column 3 (", "in column 3 of the first container ("),
        "an offset": change("found at offset 0", "found at offset 1"), "up for down": change("decrement 1 to 0", "increment 1 to 0"), "another step": change("increment 0 to 1", "increment 0 to 2"),
        "settled": change("; settled", "; not settled"), "not settled": change("; not settled", "; settled"), "how many did not": change("63 units did not", "64 units did not"),
        "a unit's number": change("units 4 to ", "units 5 to "), "a unit twice": told + [text for text in told if text.startswith("unit 3")], "a unit left out": [text for text in told if not text.startswith("unit 3:")],
        "a refusal's words": change("label 00 means that nothing is carried", "label 00 means alarm"), "a refusal left out": [text for text in told if not text.startswith("rx refused")],
        "how often": change(", 2 times", ", 3 times"), "the advice": change("Send the order form back", "Try again"), "another line": change("line 9 is", "line 8 is"),
        "another line's text": change("`snk`", "`snik`"), "a comment": change("# ends", "# ended"), "a trace cut": change('trace "03E6           "', 'trace "03E6"'), "alarm": change("goes to alarm", "is lost"),
        "a reason": change("trace mismatch (dTIM) still stands, so", "remote defect (dRDI) still stands, so"), "SSF": change("server signal fail (SSF), so ", ""), "fresh": [text for text in told if not text.startswith("fresh")],
        # refused characters: where they stand, which byte they are, and in whose trace
        "another character": change("rx refused 5 at character 3", "rx refused 5 at character 4"), "no character": change("sink refused 5 at character 3", "sink refused 5"),
        "another byte": change("the expected trace is 09, TAB", "the expected trace is 0A, TAB"), "another byte in a catalogue": change("is DC, ", "is C3, "),
        "a byte left out": change("character 3 of the expected trace is 09, TAB", "character 3 of the expected trace"), "another place in the detail": change("(character 3 of", "(character 4 of"),
        "whose trace": change("character 3 of the expected trace", "character 3 of the sent trace"), "another trace": change('expected trace "03<09>E5  ', 'expected trace "03<09>E6  '),
        "a trace without its character": change('sent trace "NORD-S<DC>D', 'sent trace "NORD-SD'), "a setting with another character": change('trace "03<09>E5', 'trace "03<0A>E5'),
        "above for below": change("rx refused 5 at", "rx refused 20 at"), "words of above": change("is below 20, which is the space", "is above 7E, which is ~"),
        "words of below": change("is above 7E, which is ~", "is below 20, which is the space"), "another record": change("catalogue refused 20 in record 3", "catalogue refused 20 in record 2"),
        "record for character": change("listing refused 20 in record 3 at character 7", "listing refused 20 in record 7 at character 3"),
        "no record": change("lookup refused 20 in record 3 at", "lookup refused 20 at"),
        "another circuit": change("(circuit 9, character 5", "(circuit 7, character 5"), "advice of above": [text.replace("mostly it is an umlaut", "mostly it is a TAB") for text in told],
        "spaces alone": change("rx refused 21: all fifteen characters", "rx refused 21: all characters"), "a character of spaces alone": change("sink refused 21", "sink refused 21 at character 1"),
        "spaces alone left out": [text for text in told if not text.startswith("catalogue refused 21")],
        # pairs of traces: how many, in number and in words, of good catalogues and of refused ones, and of no other call
        "another number of pairs": change("; 3 pairs of traces were", "; 4 pairs of traces were"), "pairs left out": change("; 3 pairs of traces were compared", ""),
        "one pair left out": change("two records; 1 pair of traces was compared", "two records"), "one for none": change("one record; no trace was compared with another", "one record; 1 pair of traces was compared"),
        "none for one": change("two records; 1 pair of traces was compared", "two records; no trace was compared with another"), "none left out": change("is; no trace was compared with another", "is"),
        "many for one": change("two records; 1 pair of traces was", "two records; 1 pairs of traces were"), "were for was": change("; 1 pair of traces was", "; 1 pair of traces were"),
        "one for many": change("; 3 pairs of traces were", "; 3 pair of traces was"), "was for were": change("; 3 pairs of traces were", "; 3 pairs of traces was"),
        "a nought for none": change("one record; no trace was compared with another", "one record; 0 pairs of traces were compared"), "pairs of records": change("; 3 pairs of traces", "; 3 pairs of records"),
        "in brief for whole": change("; 3 pairs of traces were compared", "; 3 pairs compared"), "pairs twice": change("; 3 pairs of traces were compared", "; 3 pairs of traces were compared; 3 pairs of traces were compared"),
        "another number of records": change("a good catalogue of 3 records", "a good catalogue of 4 records"), "records for record": change("of one record;", "of one records;"),
        "an empty file": change("of no record, as an empty file is", "of no record"), "a good catalogue left out": [text for text in told if not text.startswith("cat: a good catalogue of 3")],
        "a good catalogue twice": told + [text for text in told if text.startswith("cat: a good catalogue of 3")], "two good ones in another order": change("of 3 records; 3 pairs of traces were", "of two records; 1 pair of traces was"),
        "another number of pairs with 13": change("; 2 pairs of traces were compared)", "; 3 pairs of traces were compared)"), "pairs left out with 13": change("; 2 pairs of traces were compared)", ")"),
        "none with 13": change("; 2 pairs of traces were compared)", "; no trace was compared with another)"), "many for one with 13": change("; 1 pair of traces was compared)", "; 1 pairs of traces were compared)"),
        "one left out with 13": change("; 1 pair of traces was compared)", ")"), "pairs with 5": change("TAB; no trace was compared with another)", "TAB; 1 pair of traces was compared)"),
        "none left out with 20": change("in Latin-1; no trace was compared with another)", "in Latin-1)"), "none left out with 21": change("(circuit 9; no trace was compared with another)", "(circuit 9)"),
        "pairs behind the advice": change("; 2 pairs of traces were compared). Ask both far ends what they send", "). Ask both far ends what they send; 2 pairs of traces were compared"),
        "pairs of a lookup": [text.replace(")", "; 2 pairs of traces were compared)", 1) if text.startswith("lookup refused 13") else text for text in told],
        # texts: which line, as it stands, and why; how many circuits, and each line of a good one
        "another line of a text": change("import refused 16 in line 2", "import refused 16 in line 1"), "a record for a line": change("import refused 16 in line 2", "import refused 16 in record 2"),
        "a line for a record": change("export refused 12 in record 2", "export refused 12 in line 2"), "no line of a text": change("import refused 17 in line 2", "import refused 17"),
        "another text": change("(line 2 is 8,FE,NORD-SUED 102,3)", "(line 2 is 8,FE,NORD-SUED 103,3)"), "no text": change(" (line 2 is 8,FE,NORD-SUED 102,3)", ""),
        "quotes put in": change("8,FE,NORD-SUED 102,3)", '8,FE,"NORD-SUED 102",3)'), "another reason": change("its label is in quotes", "its number is in quotes"),
        "no reason": change(': its label is in quotes, and only the trace may be)', ")"), "a reason that is none": change("its label is in quotes, and only the trace may be", "it is wrong"),
        "how long a trace is": change("its trace has 16 characters", "its trace has 17 characters"), "words of 16": change("a trace is not in double quotes", "a trace has more than 15 characters"),
        "another character of a line": change("character 5 of its trace is C3", "character 4 of its trace is C3"), "another byte of a line": change("character 5 of its trace is C3", "character 5 of its trace is DC"),
        "another first line": change("; line 1 is 7,12,", "; line 2 is 7,12,"), "no first line": change('; line 1 is 7,12,"03E5",15)', ")"), "how many lines": change("(it has 513 lines)", "(it has 514 lines)"),
        "another number of circuits": change("import: two lines make a good catalogue of two", "import: two lines make a good catalogue of one"), "an import left out": [text for text in told if not text.startswith("import: two")],
        "an empty text": change("no circuit, as an empty file is", "no circuit"), "an import's line left out": [text for text in told if not text.startswith('line 2 is 8,12,"N"')],
        "an import's line": change('line 2 is 8,12,"N",15', 'line 2 is 8,12,"M",15'), "its circuit": change('"N",15: circuit 8', '"N",15: circuit 7'), "its trace": change('trace "N              ", flags', 'trace "N", flags'),
        "its flags": change('trace "N              ", flags 15', 'trace "N              ", flags 14'), "its label": change('"N",15: circuit 8, label 12', '"N",15: circuit 8, label 02'),
        "an export's line": change('line 1 is 8,12,"03E6           ",15', 'line 1 is 8,12,"03E6",15'), "an export's lines in another order": change('line 1 is 8,12,"03E6', 'line 2 is 8,12,"03E6'),
        "another number of lines": change("export: two circuits, a text of two lines", "export: two circuits, a text of 3 lines"), "an export left out": [text for text in told if not text.startswith("export: two")],
        "the advice of 16": change("Do not just put quotes around it", "Put quotes around it"),
        "pairs of a setting": change("of the expected trace is 09, TAB)", "of the expected trace is 09, TAB; no trace was compared with another)"),
    }
    if any(texts == told for texts in words.values()):
        fault("these checks", f"nothing is changed: {[name for name, texts in words.items() if texts == told]}")
    for name, texts in words.items():
        tried(name, lambda texts=texts: look_at_run("spoiled", base, printed, texts, refusals, note))
    # printed lines of another run, told as they stand, are not those of this one
    lines = [("cause=cTIM", "cause=cPLM"), ("d=dTIM", "d=dPLM"), ("settled=1", "settled=0"), ("ended=2 c=", "ended=1 c="), (" off=1 ", " off=2 "), ("v=3,", "v=4,"), ("fe=2", "fe=3"),
             ("p=07", "p=0B"), ("p=07", "p=E0"), ("p=20", "p=10"), ("v=2,p=A0", "v=2,p=11"), ("v=2,p=11", "v=2,p=A0"), ("v=2,p=A0", "v=0"),
             ("st=alarm", "st=lost"), ("ais=1", "ais=0"), ("rdi=1", "rdi=0"), ("ssf=1", "ssf=0"), ("refused 4", "refused 5"), ("? 9", "? 8"),
             ("rx refused 5 3", "rx refused 5 4"), ("rx refused 5 3", "rx refused 20 3"), ("refused 5 3", "refused 5"), ("container refused 20 7", "container refused 20 8"),
             ("container refused 20 7", "container refused 21"), ("cat refused 20 3 7", "cat refused 20 7 3"), ("cat refused 20 3 7", "cat refused 20 3 6"), ("lookup refused 20 3 7", "lookup refused 20 2 7"),
             ("20 3 7", "20 3 8"), ("20 3 7", "5 3 7"),
             ("rx refused 21", "rx refused 20 1"), ("cat refused 21 2", "cat refused 21 1"), ("cat refused 5 2 5", "cat refused 5 2 4"),
             ("cat ok 3 pairs=3", "cat ok 3 pairs=6"), ("cat ok 3 pairs=3", "cat ok 3 pairs=2"), ("cat ok 3 pairs=3", "cat ok 2 pairs=3"), ("cat ok 3 pairs=3", "cat ok 3"), ("cat ok 2 pairs=1", "cat ok 2 pairs=2"),
             ("cat ok 1 pairs=0", "cat ok 1 pairs=1"), ("cat ok 0 pairs=0", "cat ok 0 pairs=1"), ("cat ok 3 pairs=3", "cat refused 13 3 2 pairs=3"), ("cat refused 13 3 1 pairs=2", "cat refused 13 3 1 pairs=1"),
             ("cat refused 13 3 1 pairs=2", "cat refused 13 3 2 pairs=2"), ("cat refused 13 3 1 pairs=2", "cat refused 13 3 1"), ("cat refused 13 2 1 pairs=1", "cat refused 13 2 1 pairs=0"),
             ("import refused 16 2", "import refused 16 1"), ("import refused 16 2", "import refused 15 2"), ("import refused 17 2", "import refused 16 2"), ("import refused 17 2", "import refused 17 1"),
             ("import refused 15 1", "import refused 16 1"), ("import refused 20 2 5", "import refused 20 2 4"), ("import refused 13 3 1", "import refused 13 3 2"), ("import refused 18 513", "import refused 15 1"),
             ("import ok 5A4D000712", "import ok 5A4D000812"), ("export ok 382C", "export ok 392C"), ("export refused 12 2", "export refused 12 1"), ("import ok", f"import ok {GOOD}"),
             ("cat refused 5 2 5 pairs=0", "cat refused 5 2 5 pairs=1"), ("cat refused 21 2 pairs=0", "cat refused 21 2")]
    for old, new in lines:
        place = next((place for place, text in enumerate(printed) if text == old), None)  # the whole line, or the first that has it
        place = place if place is not None else next((place for place, text in enumerate(printed) if old in text and (text.startswith("ok ") or not old.startswith(" "))), None)
        if place is None:
            fault("these checks", f"no printed line has `{old}`")
            continue
        other = list(printed)
        other[place] = other[place].replace(old, new, 1)
        tried(f"printed {new} for {old}", lambda other=other: look_at_run("spoiled", base, other, told, refusals, note))
    brief, seeded = told_of(base, printed, brief=True), 0
    for name, texts in (("a defect", [text for text in brief if "dTIM clears" not in text]), ("a line", [text for text in brief if "line 9" not in text]),
                        ("too much", brief + ["x" * (LONGEST_BRIEF + 1)]), ("a character", [text.replace(" at character 3", "") for text in brief]),
                        ("a byte", [text.replace("trace is DC", "trace is DD") for text in brief]), ("a step", [text.replace("decrement 1 to 0", "") for text in brief]),
                        ("bit columns", [text.replace(" in columns 6, 7 and 8", "") for text in brief]), ("the right bit column", [text.replace("in column 3", "in column 4") for text in brief]),
                        ("whose they are", [text.replace(" of the second container", "") for text in brief]), ("the second's", [text.replace(" and in columns 4 and 8 of the second container", "") for text in brief]),
                        ("pairs", [text.replace("; 3 pairs compared", "") for text in brief]), ("pairs of 13", [text.replace("; 2 pairs compared)", ")") for text in brief]),
                        ("the right pairs", [text.replace("; 1 pair compared", "; 2 pairs compared") for text in brief]), ("one pair", [text.replace("; 1 pair ", "; 1 pairs ") for text in brief]),
                        ("the right pairs of 13", [text.replace("; 2 pairs compared)", "; 3 pairs compared)") for text in brief]), ("none", [text.replace("; no pair compared", "") for text in brief]),
                        ("few words", [text.replace("; 3 pairs compared", "; 3 pairs of traces were compared") for text in brief]), ("a good catalogue", [text for text in brief if "of 3 records" not in text])):
        if texts == brief:
            fault("these checks", f"nothing to change in brief: {name}")
        seeded += 1
        tried(f"brief without {name}", lambda texts=texts: look_at_brief("spoiled", printed, told, texts, note))
    for name, texts in (("a line of a text", [text.replace("line 2 is 8,FE,NORD-SUED 102,3", "line 2") for text in brief]), ("a reason", [text.replace(": its label is in quotes, and only the trace may be", "") for text in brief]),
                        ("the right line", [text.replace("8,FE,NORD-SUED 102,3", "8,FE,NORD-SUED 103,3") for text in brief]), ("an import", [text for text in brief if not text.startswith("import: two")]),
                        ("the right circuits", [text.replace("catalogue of two circuits", "catalogue of 3 circuits") for text in brief]), ("few words", [text.replace("two circuits, a text of", "two circuits: a text of") for text in brief])):
        if texts == brief:
            fault("these checks", f"nothing to change in brief: {name}")
        seeded += 1
        tried(f"brief without {name}", lambda texts=texts: look_at_sheets("spoiled", base, printed, texts, refusals, note, brief=True))
    # pages
    page, glossary, header, card = pages
    for name, changed in (("a word of the glossary", (page, glossary.replace("| 7 | an adjustment", "| 7 | a change"), header, card)),
                          ("a word of the header", (page, glossary, header.replace("flags are above 15", "flags above 15"), card)),
                          ("a word of the page", (page.replace("| 14 | the circuit is not listed", "| 14 | the circuit is unknown"), glossary, header, card)),
                          ("a number", (page.replace("| 8 | the state", "| 19 | the state"), glossary, header, card)),
                          ("an order", (page.replace("| sink | 8, 4, 5/20/21, 1, 3 |", "| sink | 8, 4, 5/20/21, 3, 1 |"), glossary, header, card)),
                          ("a number of an order", (page.replace("| `rx` | 4, 5/20/21 |", "| `rx` | 4, 5/21 |"), glossary, header, card)),
                          ("a word of 20 in the glossary", (page, glossary.replace("| 20 | a trace character is above", "| 20 | a character is above"), header, card)),
                          ("a word of 21 in the header", (page, glossary, header.replace("spaces, which nobody means", "spaces"), card)),
                          ("a word of 16 in the glossary", (page, glossary.replace("| 16 | a trace is not in", "| 16 | a trace is in no"), header, card)),
                          ("the order of import", (page.replace("18; line by line 15, 16, 17;", "18; line by line 16, 15, 17;"), glossary, header, card)),
                          ("who gives 16", (page.replace("| import |\n| 17 |", "| import, export |\n| 17 |"), glossary, header, card)),
                          ("who gives it", (page.replace("| unit source, sink |", "| unit source |", 1), glossary, header, card)),
                          ("the card's order", (page, glossary, header, card.replace("| payload call | 3, 2 |", "| payload call | 2, 3 |"))),
                          ("a tester's name", (page, glossary.replace("| HP-TIM |", "| HP-PLM |"), header, card)),
                          ("a rule that is none", (page, glossary.replace("[4.3](CARD.md#r4-3)", "[4.33](CARD.md#r4-33)"), header, card)),
                          ("a long line", (page, glossary, header.replace("13  two records have the same trace", "13  two records have the same" + " " * 40 + "trace"), card))):
        if changed == pages:
            fault("these checks", f"nothing to change: {name}")
        tried(name, lambda changed=changed: look_at_pages(*changed, note))
    trials = 0
    for name, old, new in (("another character of a trace", "`rx refused 20 2`", "`rx refused 20 3`"), ("another answer to spaces", "`rx refused 21`", "`rx refused 5 1`"),
                           ("no answer", "`rx refused 5 15`", "refused")):
        trials += 1
        tried(name, lambda old=old, new=new: look_at_traces(program, page.replace(old, new), note))
    for name, new in (("another number of pairs on a page", "13 3 1 pairs=3"), ("no pairs on a page", "13 3 1"), ("another record on a page", "13 3 2 pairs=2"), ("pairs before 13 on a page", "12 3 pairs=2"),
                      ("other pairs of a good catalogue on a page", "13 3 1 pairs=2` and `cat ok 4 pairs=4")):
        trials += 1
        tried(name, lambda new=new: look_at_examples("spoiled", page.replace("13 3 1 pairs=2", new), note))
    bench_page = read("docs/BENCH.md").decode()
    for name, old, new in (("another answer on a page", "import refused 16 1\n", "import refused 15 1\n"), ("another text on a page", "export ok 372C", "export ok 382C"),
                           ("no example on a page", "    import 372C", "import 372C")):
        trials += 1
        tried(name, lambda old=old, new=new: look_at_played(program, "spoiled", bench_page.replace(old, new), note))
    return len(words) + len(lines) + seeded + trials + 16


# ---------------------------------------------------------------------------


def main():
    if len(sys.argv) < 2:
        sys.exit("usage: explain.py PROGRAM [ARGS..]")
    program = [os.path.abspath(sys.argv[1]), *sys.argv[2:]]
    pages = tuple(read(path).decode() for path in ("docs/REFUSALS.md", "docs/GLOSSARY.md", "include/card.h", "docs/CARD.md"))
    refusals = look_at_pages(*pages, fault)
    names = [os.path.relpath(os.path.join(folder, name), ROOT) for top in ("lessons", "examples") for folder, _, files in os.walk(os.path.join(ROOT, top))
             for name in sorted(files) if name.endswith(".bench")]
    if len(names) < 30:
        fault("lessons and examples", f"only {len(names)} scripts")
    longest, everything = 0, b""
    for name in sorted(names):
        data = read(name)
        printed, told, brief = look_at_script(name, data, program, refusals, fault)
        wrapped = sum(len(explain.wrapped(explain.Item("said", text), 100)) for text in brief)
        longest = max(longest, wrapped if name.startswith("lessons") else 0)
        if name.startswith("lessons") and wrapped > MOST_BRIEF:
            fault(f"{name} in brief", f"{wrapped} lines, and more than {MOST_BRIEF} do not fit on a projector")
        if name.startswith("lessons"):
            everything += data + b'fresh\ntx 12 "03E5" 0 0\nrx 12 "03E5" 0\n'
            # with CR LF and a byte order mark it is the same script
            other = b"\xef\xbb\xbf" + data.replace(b"\n", b"\r\n")
            _, again, _ = look_at_script(f"{name} with CR LF", other, program, refusals, fault)
            if again != told:
                fault(name, "other words with CR LF and a byte order mark")
    look_at_refusals(program, refusals, fault)
    look_at_lines(fault)
    look_at_traces(program, pages[0], fault)
    look_at_examples("REFUSALS.md", pages[0], fault)
    look_at_examples("BENCH.md", read("docs/BENCH.md").decode(), fault)
    look_at_played(program, "BENCH.md", read("docs/BENCH.md").decode(), fault)
    look_at_rows(program, pages[3], fault)
    look_at_bytes(program, fault)
    for seed in range(4):
        look_at_script(f"random lines {seed}", random_script(seed, 400), program, refusals, fault)
    lesson = "lessons/01-one-plain-path.bench"
    with tempfile.TemporaryDirectory() as folder:
        look_at_program(folder, program, os.path.join(ROOT, lesson), read(lesson), play(program, read(lesson), lesson), fault)
        look_at_desk(folder, program, everything, os.path.join(ROOT, lesson), read(lesson), fault)
    seeded = look_at_checks(program, pages, refusals, fault)
    count = sum(map(len, failures.values()))
    print(f"explain: {len(names)} scripts and {checked['runs']} runs, {checked['units']} units in {checked['sentences']} sentences, {checked['refusals']} refusals, {checked['catalogues']} good catalogues, "
          f"{checked['sheets']} imports and exports, {checked['strange']} lines not understood; refusals 1 to 18, 20 and 21, of which the bench cannot give 2 and 8; brief at most {longest} lines; "
          f"{seeded} faults put in are found; {f'{count} faults' if count else 'all as printed'}")
    if count:
        sys.exit(1)


if __name__ == "__main__":
    main()
