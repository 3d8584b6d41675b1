"""Scripts of the bench, and what the bench printed laid beside them. For the tools that read both; docs/BENCH.md has the language.

    lines = script.read(data)                    the bytes of a script as Lines, each with its words or why it is not understood
    for step in script.pair(lines, printed):     each line with what it printed, call by call: `run 3` is six Steps
        step.line, step.name, step.given         where it stands, which command, its words by name
        step.said                                the printed lines that belong to it, as Printed: a kind and named fields
        step.why                                 for a line that printed `? N`: why it was not understood, in words
        step.fed                                 for a sink: the line that it was fed

`pair` takes the printed lines one by one and only as many as a line of the script prints, so that it follows a bench that is still
running. What is not a run of the script is a Fault that says where. Nothing here prints, and nothing is kept between calls.

What a later language adds goes into five tables: COMMANDS (words of a command), CALLS (what a command may print), FIELDS (fields of a
printed line), FORMS (kinds of printed lines) and PLACES (what a refusal names). A field that no table has is kept as text.
ADDED has what an earlier language did not print.
"""

import difflib
import re

LONGEST = 100_000  # bytes of a line, all that stands before its LF
UNIT = 2358
LONGEST_TEXT_LINE = 80  # bytes of a line of a text that is imported, its LF not counted
BOM = b"\xef\xbb\xbf"


class Fault(Exception):
    """What is wrong with the input."""


def clean(text):
    """Text that can be shown on any terminal: what is not printable is a question mark."""
    return "".join(c if c.isprintable() and c != "\ufffd" else "?" for c in text)


def shown(data, most=60):
    """Bytes of a script for a message: readable, and not too long."""
    text = clean(data.decode("utf-8", errors="replace"))
    return text if len(text) <= most else text[: most - 3] + "..."


# ---------------------------------------------------------------------------
# The words of a line
# ---------------------------------------------------------------------------


class Wrong(Exception):
    """Why a line is not understood, in words."""


class Word(bytes):
    """A word as it stands in the line. For one in quotes `quoted` has its characters, doubled quotes made one."""

    quoted = None


def split(text):
    """The words of a line and its comment, `#` included; no comment is None."""
    words, place = [], 0
    while place < len(text):
        if text[place] == 0x20:
            place += 1
        elif text[place] == ord("#"):
            return words, text[place:]
        elif text[place] == ord('"'):
            end = place + 1
            while True:
                end = text.find(b'"', end)
                if end < 0:
                    raise Wrong("a double quote opens a trace, and no quote closes it")
                if text[end + 1 : end + 2] != b'"':
                    break
                end += 2
            if text[end + 1 : end + 2] not in (b"", b" "):
                raise Wrong("behind a closing quote comes a blank or the line's end (a quote in a trace is written twice)")
            word = Word(text[place : end + 1])
            word.quoted = text[place + 1 : end].replace(b'""', b'"')
            words.append(word)
            place = end + 1
        else:
            end = text.find(b" ", place)
            end = len(text) if end < 0 else end
            words.append(Word(text[place:end]))
            place = end
    return words, None


def unquoted(word, what):
    if word.quoted is not None:
        raise Wrong(f"{what}: only a trace stands in quotes, and here is {shown(word)}")


def number(least, most):
    """A reader of decimal numbers in a range."""

    def read_number(word, what):
        unquoted(word, what)
        if not re.fullmatch(rb"[0-9]{1,9}", word):
            raise Wrong(f"{what}: {shown(word)} is no decimal number of one to nine digits")
        if not least <= int(word) <= most:
            raise Wrong(f"{what}: {int(word)} is not from {least} to {most}")
        return int(word)

    return read_number


def digits(word, what):
    unquoted(word, what)
    wrong = re.search(rb"[^0-9A-Fa-f]", word)
    if wrong:
        raise Wrong(f"{what}: {shown(wrong.group())} in {shown(word, 24)} is no hex digit")
    if len(word) % 2:
        raise Wrong(f"{what}: {shown(word, 24)} has {len(word)} hex digits, and a byte has two")
    return bytes.fromhex(word.decode("ascii"))


def byte(word, what):
    data = digits(word, what)
    if len(data) != 1:
        raise Wrong(f"{what}: {shown(word, 24)} is not one byte of two hex digits")
    return data[0]


def pointer_word(word, what):
    data = digits(word, what)
    if len(data) != 2:
        raise Wrong(f"{what}: {shown(word, 24)} is not four hex digits")
    return int.from_bytes(data, "big")


def trace(word, what):
    if word.quoted is not None:
        if len(word.quoted) > 15:
            bytes_of = "" if word.isascii() else "; each byte counts, and a sign above 7E may have two or more"
            raise Wrong(f"{what}: {shown(word)} has {len(word.quoted)} characters, and a trace has at most 15{bytes_of}")
        return word.quoted.ljust(15)
    if re.fullmatch(rb"[0-9A-Fa-f]{30}", word):
        return bytes.fromhex(word.decode("ascii"))
    if len(word) <= 15 and b'"' not in word:
        raise Wrong(f'{what}: {shown(word)} has no quotes; as a name it is written "{shown(word)}"')
    raise Wrong(f"{what}: {shown(word)} is neither 30 hex digits nor at most 15 characters in double quotes")


def one_of(*allowed):
    def read_choice(word, what):
        if word not in allowed:
            names = [each.decode() for each in allowed]
            raise Wrong(f"{what}: {shown(word)} is not {', '.join(names[:-1])} or {names[-1]}")
        return word.decode()

    return read_choice


LENGTH = number(0, 4096)
BYTES = ("bytes", "HEX", digits)  # may be left out, where there are none

# The words behind each command: a name for the value, how the pages write it, and its reader.
COMMANDS = {
    "fresh": [],
    "fill": [("held", "HH", byte), ("done", "LL", byte)],
    "lens": [("held", "H", LENGTH), ("done", "D", LENGTH)],
    "tx": [("label", "LABEL", byte), ("trace", "TRACE", trace), ("violations", "REI", number(0, 255)), ("remote", "RDI", number(0, 1))],
    "rx": [("label", "LABEL", byte), ("trace", "TRACE", trace), ("flags", "FLAGS", number(0, 15))],
    "run": [("times", "N", number(1, 9999))],
    "src": [("asked", "A", one_of(b"-", b"i", b"d"))],
    "word": [("word", "HHHH", pointer_word)],
    "xor": [("place", "I", number(0, 999_999_999)), ("with", "HH", byte)],
    "ones": [],
    "len": [("length", "N", LENGTH)],
    "show": [],
    "sink": [],
    "payload": [("ais", "A", number(0, 1))],
    "cat": [BYTES],
    "lookup": [("circuit", "N", number(0, 999_999_999)), BYTES],
    "list": [BYTES],
    "import": [BYTES],
    "export": [BYTES],
    "parity": [BYTES],
    "check": [BYTES],
    "read": [BYTES],
}


def form(name):
    """A command as the pages write it: `tx LABEL TRACE REI RDI`."""
    return " ".join([name] + [written for _, written, _ in COMMANDS[name]])


def unknown(word):
    """What is said of a first word that is no command."""
    text = shown(word, 30)
    if b"\t" in word:
        return "a TAB is no blank: words are separated by blanks alone"
    lower = word.decode("utf-8", errors="replace").lower()
    near = [lower] if lower in COMMANDS else difflib.get_close_matches(lower, COMMANDS, 1, 0.6)
    return f"{text} is no command" + (f"; {near[0]} is one" if near else "")


def understand(words):
    """The command's name and its words by name; Wrong where there is none."""
    if any(b"\t" in word for word in words if word.quoted is None):
        raise Wrong("a TAB is no blank: words are separated by blanks alone")
    name = words[0].decode("utf-8", errors="replace")
    if name not in COMMANDS:
        raise Wrong(unknown(words[0]))
    asked, given = COMMANDS[name], words[1:]
    least = len(asked) - (BYTES in asked)
    if not least <= len(given) <= len(asked):
        text = f"{name} stands alone" if not asked else f"{form(name)} has {len(asked)} word{'s' if len(asked) > 1 else ''} behind {name}"
        text += f", and here {'are' if len(given) > 1 else 'is'} {len(given) or 'none'}"
        if any(written == "TRACE" for _, written, _ in asked) and len(given) > len(asked) and all(word.quoted is None for word in given):
            text += "; a trace with blanks in it needs double quotes"
        raise Wrong(text)
    values = {"bytes": b""} if BYTES in asked else {}
    for (key, written, reader), word in zip(asked, given):
        values[key] = reader(word, written)
    return name, values


# ---------------------------------------------------------------------------
# A script
# ---------------------------------------------------------------------------


class Line:
    """A line of a script. `name` is "" where it has no word, None where its form is not understood; `why` then says why.
    `command` is its text without the comment."""

    def __init__(self, number, text, raw_length):
        self.number, self.text, self.command = number, text, text.strip(b" ")
        self.words, self.comment, self.name, self.given, self.why = [], None, "", {}, None
        try:
            if raw_length > LONGEST:
                raise Wrong(f"it has {raw_length} bytes, and a line has at most {LONGEST}")
            self.words, comment = split(text)
            if comment is not None:
                self.command = text[: len(text) - len(comment)].strip(b" ")
                self.comment = clean(comment.decode("utf-8", errors="replace"))
            if self.words:
                self.name, self.given = understand(self.words)
        except Wrong as wrong:
            self.name, self.given, self.why = None, {}, str(wrong)

    def shown(self, most=60):
        return shown(self.text, most)


def line_of(number, raw):
    """The line that these bytes are, which stood before its LF. The first may begin with a byte order mark."""
    text = raw[len(BOM) :] if number == 1 and raw.startswith(BOM) else raw
    return Line(number, text[:-1] if text.endswith(b"\r") else text, len(raw))


def read(data):
    """The lines of a script, counted from 1. A last line needs no LF, and behind a last LF there is no line."""
    raws = data.split(b"\n")
    if raws[-1] == b"":
        raws.pop()
    return [line_of(number, raw) for number, raw in enumerate(raws, 1)]


def calls(line):
    """The commands that a line is, each with its words: `run N` is N times `src -` and `sink`."""
    if line.name == "run":
        for _ in range(line.given["times"]):
            yield "src", {"asked": "-"}
            yield "sink", {}
    elif line.name:
        yield line.name, line.given


def trace_refused(trace):
    """The number by which a trace is refused: its earliest character below 20 or above 7E decides; 21 where all are spaces, 0 where it is good."""
    wrong = next((character for character in trace if not 0x20 <= character <= 0x7E), None)
    if wrong is not None:
        return 5 if wrong < 0x20 else 20
    return 21 if trace == b" " * 15 else 0


def settings_refused(name, given):
    """The number by which `tx` or `rx` is refused at once; 0 where it is not."""
    if given["label"] in (0x00, 0xFF):
        return 4
    return trace_refused(given["trace"]) or (6 if name == "tx" and given["violations"] > 8 else 0)


# ---------------------------------------------------------------------------
# A text that is imported
# ---------------------------------------------------------------------------


def text_lines(data):
    """The lines of a text, each with whether an LF ends it: what stands behind the last LF is a line too."""
    *lines, last = data.split(b"\n")
    return [(line, True) for line in lines] + ([(last, False)] if last else [])


def text_field(bytes_of, what):
    """What stands before the next comma, and what behind it."""
    field, comma, rest = bytes_of.partition(b",")
    if not comma:
        raise Wrong(f"no comma stands behind the {what}")
    return field, rest


def text_trace(bytes_of):
    """The trace that opens here, doubled quotes made one, or None where it opens without a quote; and what stands behind its comma."""
    if not bytes_of.startswith(b'"'):
        return None, text_field(bytes_of, "trace")[1]
    found = re.match(rb'"((?:[^"]|"")*)"(?!")', bytes_of)
    if not found:
        raise Wrong("a double quote opens the trace, and none closes it")
    rest = bytes_of[found.end() :]
    if not rest.startswith(b","):
        raise Wrong("no comma stands behind the trace's closing quote" + ("; a quote in a trace is written twice" if rest else ""))
    return found[1].replace(b'""', b'"'), rest[1:]


def text_line(line, ended=True):
    """The four fields of a line by name, the trace None where it has no quotes. Wrong where the line is malformed or too long, with why, in words."""
    if len(line) > LONGEST_TEXT_LINE:
        raise Wrong(f"it has {len(line)} bytes, and a line has at most {LONGEST_TEXT_LINE}")
    if not ended:
        raise Wrong("no LF ends it")
    if not line:
        raise Wrong("nothing stands in it")
    if line.endswith(b"\r"):
        raise Wrong("a CR stands before its LF")
    if line.startswith(BOM):
        raise Wrong("it begins with the mark of UTF-8, EF BB BF")
    if line.count(b";") > 2 and line.count(b",") < 3:
        raise Wrong("semicolons stand between its fields, and commas must")
    circuit, rest = text_field(line, "number")
    label, rest = text_field(rest, "label")
    for field, pattern, what, form_of in ((circuit, rb"[0-9]{1,4}", "number", "one to four digits"), (label, rb"[0-9A-Fa-f]{2}", "label", "two hex digits")):
        if not re.fullmatch(pattern, field):
            raise Wrong(f"its {what} is in quotes, and only the trace may be" if field.startswith(b'"') else
                        f"its {what} is not {form_of}{' alone: a blank stands there' if b' ' in field else ''}")
    name, flags = text_trace(rest)
    if not re.fullmatch(rb"[0-9]{1,2}", flags):
        raise Wrong("more than four fields stand in it" if b"," in flags else "its flags are in quotes, and only the trace may be" if flags.startswith(b'"') else
                    f"its flags are not one or two digits{' alone: a blank stands there' if b' ' in flags else ''}")
    return {"circuit": int(circuit), "label": int(label, 16), "trace": name, "flags": int(flags)}


# ---------------------------------------------------------------------------
# Printed lines
# ---------------------------------------------------------------------------


class Printed:
    """A printed line: its text, its kind (FORMS) and its fields by name; a field that it has not is None."""

    def __init__(self, text, kind, fields):
        self.text, self.kind, self.fields = text, kind, fields

    def __getitem__(self, name):
        return self.fields.get(name)

    def __contains__(self, name):
        return name in self.fields


def matched(pattern, convert=str):
    """A reader of a field's text; None where it is not of this form."""
    compiled = re.compile(pattern)
    return lambda text: convert(text) if compiled.fullmatch(text) else None


def names_of(text):
    return [] if text == "-" else text.split(",")


def offset_of(text):
    return "-" if text == "-" else int(text)


def columns_of(byte):
    """The bit columns of a byte, in order: column 1 is the highest bit, which is sent first, and column 8 the lowest."""
    return [column for column in range(1, 9) if byte >> 8 - column & 1]


def container_of(text):
    """`D@0,F,v=N,p=HH,fe=N`: where it lies ("D" or "U" and the place), its fnv, and the fields behind; of a monitor the fields alone. `p`, the bit
    columns that are violated, is a byte of v ones; it is not printed where there are none, and is 0 then."""
    found = re.fullmatch(r"(?:([DU])@(\d+),([0-9A-F]{8}),)?v=(\d+)(?:,p=([0-9A-F]{2}))?((?:,[a-z]+=[0-9A-F]+)+)", text)
    if not found:
        return None
    container = {"in": found[1], "place": found[2] and int(found[2]), "fnv": found[3], "v": int(found[4]), "p": int(found[5] or "0", 16)}
    for field in found[6][1:].split(","):
        name, _, value = field.partition("=")
        if name in container:
            return None
        container[name] = int(value) if value.isdigit() else None
    good = isinstance(container.get("fe"), int) and len(columns_of(container["p"])) == container["v"] and (found[5] is None) == (container["v"] == 0)
    return container if good else None


WHOLE = matched(r"\d+", int)
BIT = matched(r"[01]", int)
FNV = matched(r"[0-9A-F]{8}")
# Fields of lines that are made of name=value. `c=` may stand more than once, and is a list.
FIELDS = {
    "st": matched(r"lost|alarm|normal"),
    "off": matched(r"-|\d+", offset_of),
    "held": WHOLE,
    "ended": matched(r"[012]", int),
    "c": container_of,
    "ssf": BIT, "tsf": BIT, "ais": BIT, "rdi": BIT,
    "d": matched(r"-|d[A-Z]+(,d[A-Z]+)*", names_of),
    "cause": matched(r"-|c[A-Z]+(,c[A-Z]+)*", names_of),
    "settled": BIT,
    "total": WHOLE,
    "hb": FNV, "db": FNV, "fnv": FNV,
    "word": matched(r"[0-9A-F]{4}", lambda text: int(text, 16)),
}
SINK = ["st", "off", "held", "ended", "ssf", "tsf", "ais", "rdi", "d", "cause", "settled", "total", "hb", "db"]
SOURCE = ["ended", "word", "fnv", "off"]


def fields_of(text, needed):
    """The fields of `name=value name=value ..`; None where one that is needed is missing or one has not its form."""
    fields = {"c": []} if "st" in needed else {}
    for each in text.split(" "):
        name, equals, value = each.partition("=")
        value = FIELDS.get(name, str)(value)
        if not equals or value is None or name in fields and name != "c":
            return None
        if name == "c":
            fields.setdefault("c", []).append(value)
        else:
            fields[name] = value
    if any(name not in fields for name in needed) or "st" in needed and len(fields["c"]) != fields["ended"]:
        return None
    return fields


# What a refusal names behind its number: the character of a trace, from 1 to 15, or the first record with a trace that comes again. In a
# catalogue the record that is refused stands before it, but where it is no record that is; in a text that is imported its line, always, and
# there `first` is a line too. Of a number that is not here `places` are kept.
PLACES = {**dict.fromkeys([*range(1, 19), 20, 21], ()), 5: ("character",), 13: ("first",), 20: ("character",)}
NO_RECORD = (9, 14)
OF_TEXT = (15, 16, 17, 18)  # what import alone refuses
NEVER = {"import": (9, 10, 14), "export": (14, *OF_TEXT)}  # what a call does not refuse; all others: what is import's alone
TEXT_LINES = 512  # lines of a text, at most; 18 names the next


def refusal_of(found, call=None):
    """Whose refusal, its number, and `record` or `line`, `character` and `first` where it names them; of the catalogue check `pairs` too. None where
    it names too few or too many, has pairs where it may have none, or is no refusal of this call."""
    call, pairs = call or (found["call"] or "sink").strip(), found.groupdict().get("pairs")
    number, *places = [int(each) for each in found["numbers"].split(" ")]
    if (call == "cat") != (pairs is not None):
        return None
    counted = {} if pairs is None else {"pairs": int(pairs)}
    if number not in PLACES:
        return {"call": call, "number": number, "places": places, **counted}
    if number in NEVER.get(call, OF_TEXT):
        return None
    of_record = call in ("cat", "lookup", "list", "export") and number not in NO_RECORD
    names = ("line",) * (call == "import") + ("record",) * of_record + PLACES[number]
    named = dict(zip(names, places))
    if len(names) != len(places) or not 1 <= named.get("character", 1) <= 15 or number == 18 and named["line"] != TEXT_LINES + 1:
        return None
    return {"call": call, "number": number, **named, **counted}


# Kinds of printed lines: the form of the whole line, and its fields; a line is of the first kind whose form and fields it has.
FORMS = [
    ("?", r"\? (\d+)", lambda found: {"line": int(found[1])}),
    ("unit", r"unit (\w+=.*)", lambda found: fields_of(found[1], SOURCE)),
    ("ok", r"ok (st=.*)", lambda found: fields_of(found[1], SINK)),
    ("refused", r"(?P<call>(?:container|unit|tx|rx|payload|cat|lookup|import|export) )?refused (?P<numbers>\d+(?: \d+)*)(?: pairs=(?P<pairs>\d+))?", refusal_of),
    ("line", r"line ?((?:[0-9A-F]{2})*)", lambda found: {"bytes": bytes.fromhex(found[1])}),
    ("payload", r"payload fnv=([0-9A-F]{8})", lambda found: {"fnv": found[1]}),
    ("cat", r"cat ok (\d+) pairs=(\d+)", lambda found: {"records": int(found[1]), "pairs": int(found[2])}),
    ("found", r"found ([0-9A-F]{2}) ([0-9A-F]{30}) (\d+)",
     lambda found: {"label": int(found[1], 16), "trace": bytes.fromhex(found[2]), "flags": int(found[3])}),
    ("heading", r"circuit label trace flags", lambda found: {}),
    ("record", r"(\d+) ([0-9A-F]{2}) \[([ -~]{15})\] (\d+)",
     lambda found: {"circuit": int(found[1]), "label": int(found[2], 16), "trace": found[3].encode("ascii"), "flags": int(found[4])}),
    ("listing", r"(?P<call>)(?P<numbers>\d+(?: \d+)*)", lambda found: refusal_of(found, "list")),  # of a refused file
    ("import", r"import ok(?: ((?:[0-9A-F]{42})+))?", lambda found: {"bytes": bytes.fromhex(found[1] or "")}),  # the catalogue
    ("export", r"export ok(?: ((?:[0-9A-F]{2})+))?", lambda found: {"bytes": bytes.fromhex(found[1] or "")}),  # the text
    ("parity", r"parity ([0-9A-F]{2})", lambda found: {"byte": int(found[1], 16)}),
    ("check", r"check ([01])", lambda found: {"good": found[1] == "1"}),
    ("read", r"read (\d+)", lambda found: {"number": int(found[1])}),
]
FORMS = [(kind, re.compile(pattern), fields) for kind, pattern, fields in FORMS]
# What has come into a printed line since an earlier bench, and how it is put there; a run of that one may have been kept.
ADDED = {
    "pairs=": lambda text: f"{text} pairs=0",
    "p=": lambda text: re.sub(r",v=([1-8]),fe=", lambda found: f",v={found[1]},p={(1 << int(found[1])) - 1:02X},fe=", text),
}

# What a command that always prints may print: kinds, or "refused" and whose.
CALLS = {
    "src": {"unit", "container refused", "unit refused"},
    "sink": {"ok", "sink refused"},
    "show": {"line"},
    "payload": {"payload", "payload refused"},
    "cat": {"cat", "cat refused"},
    "lookup": {"found", "lookup refused"},
    "list": {"heading", "listing"},
    "import": {"import", "import refused"},
    "export": {"export", "export refused"},
    "parity": {"parity"},
    "check": {"check"},
    "read": {"read"},
}


def read_printed(text):
    """A printed line as Printed; None where it is of no kind."""
    for kind, pattern, fields in FORMS:
        found = pattern.fullmatch(text)
        if found:
            values = fields(found)
            if values is not None:
                return Printed(text, kind, values)
    return None


def earlier(text):
    """Behind a message on a printed line that is of no kind: what to do where an earlier bench printed it; else nothing."""
    added = next((name for name, put in ADDED.items() if read_printed(put(text))), None)
    return f" (an earlier bench printed this, without {added}; play the script again)" if added else ""


def whose(printed):
    """The kind of a printed line as CALLS has it."""
    return f"{printed['call']} refused" if printed.kind == "refused" else printed.kind


def printed_lines(data):
    """What a bench printed, as lines of text; a CR before an LF is dropped, as a terminal's copy may have it."""
    lines = data.decode("utf-8", errors="replace").split("\n")
    if lines[-1] == "":
        lines.pop()
    return [line[:-1] if line.endswith("\r") else line for line in lines]


# ---------------------------------------------------------------------------
# Script and printed lines together
# ---------------------------------------------------------------------------


class Fed:
    """The line as the sink is fed it.

    origin    "unit" for one that the source wrote, "ones" or "zeros" for a line of FF or of 00
    sent      for a unit of the source: what the source printed
    touched   what was done to it since it was fed before: names and words of `word`, `xor`, `len`
    again     how often it was fed before; and `taken`, how often the sink did not refuse it
    length    in bytes; and `word`, its pointer word, None on a line of fewer than four bytes
    """

    def __init__(self, origin, length=UNIT, word=(0, 0)):
        self.origin, self.length, self.bytes = origin, length, list(word)
        self.sent, self.touched, self.again, self.taken = None, [], 0, 0

    @property
    def word(self):
        return self.bytes[0] << 8 | self.bytes[1] if self.length > 3 else None

    def copy(self):
        other = Fed(self.origin, self.length, self.bytes)
        other.sent, other.touched, other.again, other.taken = self.sent, list(self.touched), self.again, self.taken
        return other


class Step:
    """A call of the script with what it printed. `name` is "" for a line without a word, "?" for one that was not understood.

    turn      for the calls of `run N`: which of the N it is, from 1; else 0
    """

    def __init__(self, line, name, given, said, turn=0, why=None, fed=None):
        self.line, self.name, self.given, self.said, self.turn, self.why, self.fed = line, name, given, said, turn, why, fed

    @property
    def answer(self):
        return self.said[0] if self.said else None


class Pairing:
    """Follows a script and what is printed, line by line, with as much of the bench's state as tells what each line prints."""

    def __init__(self):
        self.wire = Fed("zeros")

    def why_not(self, line):
        """Why a line whose form is good is not understood now; None where it is understood."""
        length = self.wire.length
        if line.name == "word" and length < 4:
            return f"the line has {length} byte{'s' if length != 1 else ''}, and H2 is byte 3, counted from 0"
        if line.name == "xor" and line.given["place"] >= length:
            return f"the line has {length} bytes, and byte {line.given['place']}, counted from 0, lies behind its end"
        return None

    def steps(self, line, following):
        """The Steps of a line. `following()` is the next printed line, or None where there is none; it is asked for what the line prints."""

        def take(kinds, which):
            text = following()
            if text is None:
                raise Fault(f"what was printed ends too soon: line {line.number} of the script, `{line.shown()}`, has no answer ({which})")
            printed = read_printed(text)
            if printed is None or whose(printed) not in kinds or printed.kind == "?" and printed["line"] != line.number:
                raise Fault(f"not a run of this script: to its line {line.number}, `{line.shown()}`, the answer was `{clean(text)[:100]}`"
                            + ("" if printed else f", which the bench does not print{earlier(text)}"))
            return printed

        if line.name == "":
            yield Step(line, "", {}, [])
            return
        why = line.why or self.why_not(line)
        if why:
            yield Step(line, "?", {}, [take({"?"}, f"? {line.number}")], why=why)
            return
        for place, (name, given) in enumerate(calls(line)):
            turn = place // 2 + 1 if line.name == "run" else 0
            said = []
            if name in CALLS:
                said.append(take(CALLS[name], name))
                if said[0].kind == "heading":
                    said += [take({"record"}, "a record of the listing") for _ in range(len(given["bytes"]) // 21)]
                if said[0].kind in ("import", "export"):
                    text, catalogue = (given["bytes"], said[0]["bytes"])[:: 1 if name == "import" else -1]
                    if len(text_lines(text)) * 21 != len(catalogue):
                        raise Fault(f"not a run of this script: to its line {line.number}, `{line.shown()}`, the answer has more circuits or fewer")
            elif name in ("tx", "rx") and settings_refused(name, given):
                said.append(take({f"{name} refused"}, f"{name} refused"))
            fed = self.wire.copy() if name == "sink" else None
            self.after(name, given, said)
            yield Step(line, name, given, said, turn, fed=fed)

    def after(self, name, given, said):
        wire = self.wire
        if name == "fresh":
            self.wire = Fed("zeros")
        elif name == "src":
            if said[0].kind == "unit":
                self.wire = Fed("unit", UNIT, divmod(said[0]["word"], 256))
                self.wire.sent = said[0]
            elif said[0]["call"] == "unit":  # the line is made long enough before the unit source is called
                self.lengthen(UNIT)
        elif name == "ones":
            self.wire = Fed("ones", wire.length, (0xFF, 0xFF))
            self.lengthen(wire.length)
        elif name == "word":
            wire.bytes = list(divmod(given["word"], 256))
        elif name == "xor":
            if given["place"] in (0, 3):
                wire.bytes[given["place"] // 3] ^= given["with"]
        elif name == "len":
            self.lengthen(given["length"])
        elif name == "sink":
            wire.again, wire.taken, wire.touched = wire.again + 1, wire.taken + (said[0].kind == "ok"), []
        if name in ("word", "xor", "len"):
            wire.touched.append((name, given))

    def lengthen(self, length):
        """The line at this length; what lies behind its end is 00 when it comes back."""
        self.wire.length = length
        for place, needed in ((0, 0), (1, 3)):
            if length <= needed:
                self.wire.bytes[place] = 0


def pair(lines, printed):
    """The Steps of a script, with the printed lines (an iterable of text, taken as it goes). A Fault where they do not belong together."""
    printed, pairing, count = iter(printed), Pairing(), 0

    def following():
        nonlocal count
        count += 1
        return next(printed, None)

    for line in lines:
        yield from pairing.steps(line, following)
    text = following()
    if text is not None:
        raise Fault(f"not a run of this script: behind its end there is printed line {count}, `{clean(text)[:100]}`")
