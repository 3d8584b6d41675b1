#!/usr/bin/env python3
"""Spreadsheets and the card's import: tools/sheet.py with sheets that Calc made, and the import and export programs.

Usage: sheets.py IMPORT EXPORT [LIST]     the built programs; with LIST what was imported is listed too.

Calc (LibreOffice, headless, with a profile of its own) is played like a clerk: names are typed into its cells, comma-separated
files are opened with and without care, and sheets are opened and saved again, .ods and .xlsx. Then:

- what Calc saves as comma-separated text is refused by import, with the number that docs/SHEETS.md says;
- what sheet.py says of each row, and the lines that it writes;
- a catalogue that went to a sheet, through Calc, to lines and through import has its own bytes again;
- what sheet.py says that the card refuses, import refuses with the same number;
- Python's csv module reads from export's text what the records hold, for some hundreds of random catalogues;
- import and export at their streams: one line for what is refused, words on standard error, input in pieces and far too long.
"""
import contextlib
import csv
import functools
import html
import importlib.util
import io
import os
import pathlib
import random
import re
import signal
import subprocess
import sys
import tempfile
import time
import zipfile

ROOT = pathlib.Path(__file__).resolve().parent.parent
TOOL = ROOT / "tools" / "sheet.py"
CSV = "Text - txt - csv (StarCalc)"
# Calc's options for comma-separated text: comma, double quote, UTF-8, from line 1; then what each column is; opening: a language,
# quoted fields as text, special numbers looked for; saving: all text in quotes
CARELESS = "44,34,76,1,,0,false,false"
SPECIAL = "44,34,76,1,,0,false,true"
AS_TEXT = "44,34,76,1,1/2/2/2/3/2/4/2/5/2"
LABEL_AND_TRACE_AS_TEXT = "44,34,76,1,1/1/2/2/3/2/4/1"
QUOTED_AS_TEXT = "44,34,76,1,,0,true,false"
PLAIN = "44,34,76,1,,0,false"
QUOTE_ALL_TEXT = "44,34,76,1,,0,true"
FILTERS = {".ods": "calc8", ".xlsx": "Calc MS Excel 2007 XML", ".csv": CSV}

done, failed = 0, 0


def check(right, what, *seen):
    global done, failed
    done += 1
    if not right:
        failed += 1
        print(f"sheets: {what}", *(f"\n  {each!r}"[:1500] for each in seen), sep="")


def equal(seen, wanted, what):
    check(seen == wanted, what, seen, wanted)


# Records, lines and programs.


def record(circuit, label, trace, flags):
    return b"\x5a\x4d" + circuit.to_bytes(2, "big") + bytes([int(label, 16)]) + trace.encode("ascii").ljust(15) + bytes([flags])


def quoted(trace):
    return '"' + trace.replace('"', '""') + '"'


def line(circuit, label, trace, flags):
    return f"{circuit},{label},{quoted(trace)},{flags}\n".encode()


def run(command, data=b"", **given):
    return subprocess.run(command, input=data, capture_output=True, timeout=60, **given)


def sheet_py(*words, data=b"", apart=False):
    """What sheet.py writes and says, and its exit status: in a process of its own, or, which is much quicker, in this one."""
    if apart:
        ran = run([sys.executable, TOOL, *words], data)
        return ran.stdout, ran.stderr.decode(), ran.returncode
    kept = sys.argv, sys.stdin, sys.stdout, sys.stderr
    streams = [io.TextIOWrapper(io.BytesIO(given), encoding="utf-8", write_through=True) for given in (data, b"", b"")]
    sys.argv, (sys.stdin, sys.stdout, sys.stderr) = ["sheet.py", *map(str, words)], streams
    try:
        status = tool().main()
    except SystemExit as ended:
        status = ended.code
    finally:
        sys.argv, sys.stdin, sys.stdout, sys.stderr = kept
    return streams[1].buffer.getvalue(), streams[2].buffer.getvalue().decode(), status


@functools.cache
def tool():
    spec = importlib.util.spec_from_file_location("sheet", TOOL)
    module = importlib.util.module_from_spec(spec)
    spec.loader.exec_module(module)
    return module


# Calc.

# Plays a script of lines with a TAB between their parts: open URL FILTER OPTIONS, type CELL TEXT, save URL FILTER OPTIONS, close.
# Text is entered as by the keyboard, so that Calc makes of it what it makes of what a clerk types. Between its steps Basic would
# let Calc open the small windows of its view, and without those files of theirs that the packages without a screen lack Calc ends: hence EnableReschedule.
BASIC = """
Sub Play(script As String)
    Dim opened(2) As New com.sun.star.beans.PropertyValue
    Dim place(0) As New com.sun.star.beans.PropertyValue
    Dim entered(0) As New com.sun.star.beans.PropertyValue
    Dim saved(1) As New com.sun.star.beans.PropertyValue
    Dim words As String
    EnableReschedule(False)
    opened(0).Name = "Hidden"
    opened(0).Value = True
    opened(1).Name = "FilterName"
    opened(2).Name = "FilterOptions"
    place(0).Name = "ToPoint"
    entered(0).Name = "StringName"
    saved(0).Name = "FilterName"
    saved(1).Name = "FilterOptions"
    helper = createUnoService("com.sun.star.frame.DispatchHelper")
    number = FreeFile
    Open script For Input As #number
    Do While Not Eof(number)
        Line Input #number, words
        part = Split(words, Chr(9))
        Select Case part(0)
        Case "open"
            opened(1).Value = part(2)
            opened(2).Value = part(3)
            sheet = StarDesktop.loadComponentFromURL(part(1), "_blank", 0, opened())
        Case "type"
            place(0).Value = part(1)
            entered(0).Value = part(2)
            helper.executeDispatch(sheet.CurrentController.Frame, ".uno:GoToCell", "", 0, place())
            helper.executeDispatch(sheet.CurrentController.Frame, ".uno:EnterString", "", 0, entered())
        Case "save"
            saved(0).Value = part(2)
            saved(1).Value = part(3)
            sheet.storeToURL(part(1), saved())
        Case "close"
            sheet.close(True)
        End Select
    Loop
    Close #number
End Sub
"""
LIBRARY = """<?xml version="1.0" encoding="UTF-8"?>
<!DOCTYPE library:library PUBLIC "-//OpenOffice.org//DTD OfficeDocument 1.0//EN" "library.dtd">
<library:library xmlns:library="http://openoffice.org/2000/library" library:name="Standard" library:readonly="false" library:passwordprotected="false">
 <library:element library:name="Sheets"/>
</library:library>
"""
MODULE = """<?xml version="1.0" encoding="UTF-8"?>
<!DOCTYPE script:module PUBLIC "-//OpenOffice.org//DTD OfficeDocument 1.0//EN" "module.dtd">
<script:module xmlns:script="http://openoffice.org/2000/script" script:name="Sheets" script:language="StarBasic">{}</script:module>
"""


class Calc:
    """One script for one start of Calc."""

    def __init__(self, folder):
        self.folder, self.script, self.files = folder, [], []

    def start(self, *words):
        command = ["soffice", f"-env:UserInstallation=file://{self.folder}/profile", "--headless", *words]
        # in a group of its own, as Calc is a child of soffice
        calc = subprocess.Popen(
            command, cwd=self.folder, env={**os.environ, "LC_ALL": "C.UTF-8"}, stdin=subprocess.DEVNULL, stdout=subprocess.PIPE, stderr=subprocess.STDOUT, start_new_session=True
        )
        try:
            said = calc.communicate(timeout=300)[0].decode(errors="replace")
        except subprocess.TimeoutExpired:
            os.killpg(calc.pid, signal.SIGKILL)
            sys.exit("sheets: Calc does not end")
        if calc.returncode != 0:
            sys.exit(f"sheets: soffice ended with {calc.returncode}: {said}")

    def path(self, name):
        return self.folder / name

    def saves(self, names, source, options="", typed=(), saving=""):
        """A file, or a new sheet, is opened, typed into, and saved by each of the names."""
        url = self.path(source).as_uri() if source else "private:factory/scalc"
        self.script.append(("open", url, CSV if source and source.endswith(".csv") else "", options))
        self.script += [("type", f"${cell[0]}${cell[1:]}", text) for cell, text in typed]
        self.script += [("save", self.path(name).as_uri(), FILTERS[self.path(name).suffix], saving) for name in names]
        self.script.append(("close",))
        self.files += names

    def both(self, name, source, options="", typed=()):
        self.saves([name + ".ods", name + ".xlsx"], source, options, typed)

    def play(self):
        library = self.path("profile/user/basic/Standard")
        (library / "script.xlb").write_text(LIBRARY)
        (library / "Sheets.xba").write_text(MODULE.format(html.escape(BASIC)))
        self.path("script").write_text("".join("\t".join(words) + "\n" for words in self.script))
        self.start(f'macro:///Standard.Sheets.Play("{self.path("script")}")')
        for name in self.files:
            if not self.path(name).exists():
                sys.exit(f"sheets: Calc did not write {name}")


# What is typed without care, into a new sheet: the label and the name, and what sheet.py says of the trace: what it is, and what it was. None: nothing.
TYPED = [
    ("12", "03E5", "the number 300000;", "03E5"),
    ("12", "30E4", "the number 300000;", "30E4"),
    ("12", "1E10", "the number 10000000000;", "1E10"),
    ("12", "00123", "the number 123;", "00123"),
    ("12", "12E1", "the number 120;", "12E1"),
    ("12", "05E0", "the number 5;", "05E0"),
    ("12", "00E5", "the number 0;", "00E5"),
    ("12", "4", "the number 4;", "04"),
    ("12", "3E-5", "the number 0.00003;", "3E-5"),
    ("12", "1.5", "the number 1.5;", "1.5"),
    ("12", "-5", "the number -5;", "-5"),
    ("12", "50%", "the number 0.5;", "50%"),
    ("12", "$5", "the number 5;", "$5"),
    ("12", "1/2", "the date 20", "1/2"),
    ("12", "FEB-1", "the date 20", "FEB-1"),
    ("12", "12:30", "the time 12:30:00;", "12:30"),
    ("12", "TRUE", "the truth value TRUE;", "TRUE"),
    ("12", "=1/0", "the error #DIV/0!;", "=1/0"),
    ("12", "=NORD", "the error #NAME?;", "=nord"),
    ("FE", "FE", None, None),
    ("fe", "A, B", None, None),
    ("12", 'a "q" b', None, None),
    ("12", "'03E6", None, None),
    ("12", "  lead", None, None),
    ("12", "trail  ", None, None),
    ("12", "NORD-SUED 102", None, None),
]

# Text in all four columns, and the number that the card refuses it with: the cell that is named, and a word that must be said.
BAD = [
    ("0", "12", "N1", "1", 11, "A", "0,"),
    ("10000", "12", "N2", "1", 15, "A", "[10000],"),
    ("00007", "12", "N3", "1", 15, "A", "[00007],"),
    ("", "12", "N4", "1", 15, "A", "empty"),
    ("7a", "12", "N5", "1", 15, "A", "[7a],"),
    ("-7", "12", "N6", "1", 15, "A", "[-7],"),
    ("7", "00", "N7", "1", 4, "B", "00,"),
    ("7", "ff", "N8", "1", 4, "B", "FF,"),
    ("7", "1", "N9", "1", 15, "B", "[1],"),
    ("7", "123", "N10", "1", 15, "B", "[123],"),
    ("7", "1G", "N11", "1", 15, "B", "[1G],"),
    ("7", " 12", "N12", "1", 15, "B", "12],"),
    ("7", "", "N13", "1", 15, "B", "empty"),
    ("7", "12", "ABCDEFGHIJKLMNOP", "1", 17, "C", "16"),
    ("7", "12", "ABCDEFGHIJKLMN  ", "1", 17, "C", "blanks,"),
    ("7", "12", "M\u00dcNCHEN", "1", 20, "C", "2"),
    ("7", "12", "NORD\u00a01", "1", 20, "C", "no-break"),
    ("7", "12", "~\x7f", "1", 20, "C", "2"),
    ("7", "12", "AB\tC", "1", 5, "C", "3"),
    ("7", "12", "AB\nC", "1", 15, "C", "3,"),
    ("7", "12", "", "1", 21, "C", "empty"),
    ("7", "12", "   ", "1", 21, "C", "blanks"),
    ("7", "12", "N14", "16", 12, "D", "16,"),
    ("7", "12", "N15", "99", 12, "D", "99,"),
    ("7", "12", "N16", "100", 15, "D", "[100],"),
    ("7", "12", "N17", "", 15, "D", "empty"),
    ("7", "12", "N18", "x", 15, "D", "[x],"),
    ("7", "12", "N19", "1.5", 15, "D", "[1.5],"),
]

# Good traces, and a word of the warning that is due; None where none is.
LOOKS = [
    ("300000", "03E5,"),
    ("3.00E+05", "03E5,"),
    ("1,23E+10", "123E8"),
    ("#REF!", "error"),
    ("#N/A", "error"),
    ("Err:502", "error"),
    ("TRUE", "truth"),
    ("WAHR", "truth"),
    ("falsch", "truth"),
    ("'03E5", "apostrophe,"),
    (" NORD", "begins"),
    ("SUED ", "ends"),
    ("2026-02-01", "date"),
    ("01.02.2026", "date"),
    ("Ost 1", None),
    ("OST 1", "case"),
    ("W 1", None),
    ("W1", "blanks"),
    ("w  1", "case"),
    ("03E5", None),
    ("30E4", None),
    ("1E10", None),
    ("00123", None),
    ("12", None),
    ("1-2", None),
    ("NORD-SUED 102", None),
    ('"', None),
    ('A, "B"', None),
    ("E+5", None),
    ("~!@#$%^&*()_+{}", None),
]

# Traces that a sheet must bring back as they are.
NAMES = [
    "03E5", "30E4", "1E10", "00123", "FE", "A, B", 'a "q" b', '"', '""', '"03E5"', " lead", "   three", "in  side", "a   b    c", "=1+1", "=NORD", "+NORD", "-NORD",
    "@NORD", "'03E6", "''", "#N/A", "#REF!", "TRUE", "FALSE", "1-2", "1/2", "12:30", "50%", "$5", "1.5", "3.00E+05", "2026-02-01", "<a>&amp;b</a>", "\\n \\t", "{=A1}",
    "~!@#$%^&*()_+{}", "|;:?.,-", "0", "-0", "1e5", "inf", "nan", "None", "_", "x", "              z", "fifteen letters", "_xGGGG_",
]  # fmt: skip
# In .xlsx these stand for one character, or lose some.
ESCAPED = ["_x0041_", "_x000D_", "Ax005F_B"]


def catalogue(traces):
    labels = ["12", "02", "05", "1E", "FE", "E1", "13", "99"]
    return b"".join(record(k * 37 % 9999 + 1, labels[k % len(labels)], trace, k % 16) for k, trace in enumerate(traces))


def random_traces(random, count):
    """Different traces, with much of what is quoted, doubled or taken for something else."""
    letters = "  \"\"\"'',,=+-#;:/%.E05AZaz~!"
    traces = {}  # in the order that they were made
    while len(traces) < count:
        trace = "".join(random.choice(letters) for _ in range(random.randint(1, 15)))
        if trace.strip():
            traces[trace.ljust(15)] = None
    return list(traces)


def text_of(rows):
    """Comma-separated, everything in quotes, as the card's own form is not: for Calc to open with all columns as text."""
    return "".join(",".join(map(quoted, row)) + "\n" for row in rows)


def refused_rows(said):
    return {int(row) for row in re.findall(r"^row (\d+):", said, re.MULTILINE)}


def said_of(said, row, warning=False):
    """What is said of a row, word by word."""
    return [text.split() for text in re.findall(rf"^{'warning: ' * warning}row {row}: (.*)$", said, re.MULTILINE)]


def nothing_written(seen, what):
    written, said, status = seen
    check(written == b"" and status == 1, f"{what}: it is refused, so nothing is written and the status is 1", written, status, said)


# The parts of the test: first what is asked of Calc, then what is looked for in what it saved.


def comma_separated(calc, imports):
    """Comma-separated text that Calc opened and saved: what the page says of it."""
    plain = b"7,12,03E5,15\n8,FE,NORD-SUED 102,3\n"
    calc.path("plain.csv").write_bytes(plain)
    calc.path("card.csv").write_bytes(line(7, "12", "03E5", 15) + line(8, "FE", "NORD-SUED 102", 3))
    for name, source, opening, saving in (
        ("careless", "plain.csv", CARELESS, PLAIN),
        ("special", "plain.csv", SPECIAL, PLAIN),
        ("quotes-all", "plain.csv", LABEL_AND_TRACE_AS_TEXT, QUOTE_ALL_TEXT),
        ("as-text", "plain.csv", LABEL_AND_TRACE_AS_TEXT, PLAIN),
        ("card-careless", "card.csv", CARELESS, PLAIN),
        ("card-as-text", "card.csv", QUOTED_AS_TEXT, PLAIN),
        ("card-quotes-all", "card.csv", QUOTED_AS_TEXT, QUOTE_ALL_TEXT),
    ):
        calc.saves([f"{name}-saved.csv"], source, opening, saving=saving)
    calc.both("card-as-text", "card.csv", QUOTED_AS_TEXT)
    calc.path("needed.csv").write_bytes(line(9, "FE", "A, B", 1) + line(10, "FE", 'a "q" b', 1))
    calc.saves(["needed-saved.csv"], "needed.csv", QUOTED_AS_TEXT, saving=PLAIN)
    yield
    equal(calc.path("needed-saved.csv").read_bytes(), calc.path("needed.csv").read_bytes(), "Calc puts quotes around a text that has a comma or a quote in it, and no others")
    good = line(1, "12", "first", 1) + line(2, "12", "second", 1)
    page = (ROOT / "docs" / "SHEETS.md").read_text()
    for name, first, second, refusals in (
        ("careless", b"7,12,300000,15", b"8,FE,NORD-SUED 102,3", (16, 16)),
        ("special", b"7,12,3.00E+05,15", b"8,FE,NORD-SUED 102,3", (16, 16)),
        ("quotes-all", b'7,"12","03E5",15', b'8,"FE","NORD-SUED 102",3', (15, 15)),
        ("as-text", b"7,12,03E5,15", b"8,FE,NORD-SUED 102,3", (16, 16)),
        ("card-careless", b"7,12,300000,15", b"8,FE,NORD-SUED 102,3", (16, 16)),
        ("card-as-text", b"7,12,03E5,15", b"8,FE,NORD-SUED 102,3", (16, 16)),
        ("card-quotes-all", b'7,12,"03E5",15', b'8,"FE","NORD-SUED 102",3', (None, 15)),
    ):
        lines = calc.path(f"{name}-saved.csv").read_bytes().splitlines(keepends=True)
        equal(lines, [first + b"\n", second + b"\n"], f"what Calc saves, {name}")
        check(f"| `{first.decode()}` | {refusals[0] or 'good'}" in page, f"docs/SHEETS.md has what Calc saves, {name}, and what import says", first, refusals)
        for text, refusal in zip(lines, refusals):
            wanted = f"{refusal} 3\n".encode() if refusal else b"".join(record(*each) for each in ((1, "12", "first", 1), (2, "12", "second", 1), (7, "12", "03E5", 15)))
            equal(run(imports, good + text).stdout, wanted, f"import of what Calc saves, {name}, as line 3")
    for kind in (".ods", ".xlsx"):
        equal(sheet_py("lines", calc.path("card-as-text" + kind))[0], calc.path("card.csv").read_bytes(), f"the card's own lines, opened with quoted fields as text and saved as {kind}")


def careless(calc, imports):
    """The class's files, opened and saved with no care by --convert-to: 03E5 is a number then, with quotes or without."""
    yield
    for name in ("plain.ods", "card.ods"):
        seen = sheet_py("lines", calc.path(name))
        nothing_written(seen, name)
        words = "row 1: the trace (C1) is the number 300000; typed without an apostrophe before it, 03E5, 3E5, 30E4 or 300000 becomes that\n"
        check(words in seen[1] and refused_rows(seen[1]) == {1}, f"{name}: 03E5 that became 300000", seen[1])


def typing(calc, imports):
    """Names typed into a new sheet of Calc's, and into those that sheet.py makes."""
    cells = [(row, (str(row), label, name, "15")) for row, (label, name, _, _) in enumerate(TYPED, 1)]
    cells.append((len(TYPED) + 2, ("99", "05", '="03E7"', "1")))  # a label that becomes 5; a formula; a row left empty before it
    calc.both("typed", None, typed=[("ABCD"[k] + str(row), text) for row, texts in cells for k, text in enumerate(texts)])
    # the same into columns that are preset as text, the last far below; an apostrophe is a part of the name there
    names = [(label, name) for label, name, _, _ in TYPED] + [("05", "03E7"), ("5E", "last")]
    rows = [*range(2, 1 + len(names)), 3000]
    for kind in (".ods", ".xlsx"):
        for command in (("new",), ("sheet", "-")):
            equal(sheet_py(*command, calc.path(f"{command[0]}{kind}")), (b"", "", 0), f"{command[0]}, {kind}: it says nothing")
            texts = [(row, (str(row), label, name, "15")) for row, (label, name) in zip(rows, names)]
            calc.both(f"{command[0]}{kind[1:]}-typed", f"{command[0]}{kind}", typed=[("ABCD"[k] + str(row), text) for row, given in texts for k, text in enumerate(given)])
    yield
    with zipfile.ZipFile(calc.path("typed.ods")) as parts:
        check(b"<text:p>3.00E+05</text:p>" in parts.read("content.xml"), "Calc shows 3.00E+05 where 03E5 was typed")
    for kind in (".ods", ".xlsx"):
        cells = dict(tool().rows_of(str(calc.path("typed" + kind)), None))
        apostrophe = [name for _, name, _, _ in TYPED].index("'03E6") + 1
        equal(cells.get(apostrophe, {}).get(2, ())[:2], ("text", "03E6"), f"typed{kind}: an apostrophe before a name makes it a text, and is no part of it")
        seen = sheet_py("lines", calc.path("typed" + kind))
        nothing_written(seen, "typed" + kind)
        for row, (_, name, held, was) in enumerate(TYPED, 1):
            words = [" ".join(each) for each in said_of(seen[1], row)]
            if held is None:
                equal(words, [], f"typed{kind}: {name} is good")
            else:
                check(len(words) == 1 and words[0].startswith(f"the trace (C{row}) is {held}"), f"typed{kind}: {name} is {held}", words)
                check(any(was in re.split(r",? |;", each) for each in words), f"typed{kind}: it may have been {was}", words)
        last = len(TYPED) + 2
        label = [" ".join(each) for each in said_of(seen[1], last)]
        check(len(label) == 1 and f"the label (B{last}) is the number 5;" in label[0] and " 05 " in label[0], f"typed{kind}: label 05", label)
        check(any("formula" in words for words in said_of(seen[1], last, True)), f"typed{kind}: a name from a formula is warned of", seen[1])
        check(not any(said_of(seen[1], last - 1)), f"typed{kind}: an empty row is no row", seen[1])
        for command in ("new", "sheet"):
            for saved in (".ods", ".xlsx"):
                name = f"{command}{kind[1:]}-typed{saved}"
                written, said, status = sheet_py("lines", calc.path(name))
                wanted = b"".join(line(row, label.upper(), text, 15) for row, (label, text) in zip(rows, names))
                equal((written, status), (wanted, 0), f"{name}: what is typed into text columns is what was typed")
                check("row 1 is the heading, row 2 is line 1, row 3000 is line" in said, f"{name}: which row is which line", said)
                check("['03E6]: it begins with an apostrophe" in said, f"{name}: an apostrophe is warned of", said)
                equal(run(imports, written).stdout, b"".join(record(row, label, text, 15) for row, (label, text) in zip(rows, names)), f"{name}: import takes it")


def through_calc(calc, imports):
    """A catalogue as a sheet, opened by Calc and saved again, as lines, and imported."""
    catalogues = {
        "names": catalogue(NAMES),
        "most": catalogue(random_traces(random.Random(2), 512)),
        "shelf": (ROOT / "examples" / "shelf.cat").read_bytes(),
        "none": b"",
    }
    for name, data in catalogues.items():
        calc.path(name + ".cat").write_bytes(data)
        for kind in (".ods", ".xlsx"):
            equal(sheet_py("sheet", calc.path(name + ".cat"), calc.path(name + kind)), (b"", "", 0), f"{name} as {kind}: it says nothing")
            if name != "none":
                calc.both(f"{name}{kind[1:]}-again", name + kind)
    calc.path("escaped.cat").write_bytes(catalogue(ESCAPED))
    equal(sheet_py("sheet", calc.path("escaped.cat"), calc.path("escaped.ods")), (b"", "", 0), "escaped as .ods: it says nothing")
    calc.both("escaped-again", "escaped.ods")
    yield
    with zipfile.ZipFile(calc.path("names.ods")) as parts:
        loose = re.findall(rb"<text:p> [^<]*|<text:p>[^<]*  [^<]*", parts.read("content.xml"))
    equal(loose, [], "names.ods: blanks that a reader may drop, as OpenDocument has it, though Calc does not")
    for name, data in catalogues.items():
        for file in [name + ".ods", name + ".xlsx"] + [f"{name}{kind}-again{again}" for kind in ("ods", "xlsx") for again in (".ods", ".xlsx") if name != "none"]:
            written, said, status = sheet_py("lines", calc.path(file))
            check(status == 0 and not refused_rows(said), f"{file}: nothing is refused", said)
            equal(run(imports, written).stdout, data, f"{file}: imported, it is the catalogue again")
            check(b' ",' not in written, f"{file}: the blanks at a trace's end are not in the sheet", written)
            check(("has no circuits" in said) == (name == "none"), f"{file}: a sheet without circuits is warned of", said)
    for file in ("escaped.ods", "escaped-again.ods"):
        equal(run(imports, sheet_py("lines", calc.path(file))[0]).stdout, catalogue(ESCAPED), f"{file}: imported, it is the catalogue again")
    for seen in (sheet_py("sheet", calc.path("escaped.cat"), calc.path("escaped.xlsx")), sheet_py("lines", calc.path("escaped-again.xlsx"))):
        nothing_written(seen, "_x0041_ in .xlsx")
        check(".ods" in seen[1] and not calc.path("escaped.xlsx").exists(), "_x0041_ in .xlsx: .ods is named", seen[1])


def refusals(calc, imports):
    """What the card refuses is told of the row, with the card's number; good rows between are not named."""
    rows = []
    for k, given in enumerate(BAD):
        rows += [(str(k + 1), "12", f"good {k}", "1", ""), (*given[:4], "")]
    repeated = [("1", "12", "first", "1", ""), ("2", "12", "second", "1", ""), ("3", "12", "second", "1", ""), ("4", "12", "first  ", "1", ""), ("5", "12", "First", "1", "")]
    most = [(str(k), "12", f"LINE {k}", "1", "") for k in range(1, 514)]
    heading = ("Circuit", "Label (C2)", "Trace, 15", "Flags", "")
    tables = {
        "bad": rows,
        "repeated": repeated,
        "most": [heading] + most[:512],
        "too-many": [heading] + most,
        "beyond": [most[0], (*most[1][:4], "a remark"), most[2]],
        "swapped": [("Circuit", "Trace", "Sign", "Flags", ""), most[0]],
        "label": [("Nr", "FE", "NAME", "X", ""), most[0]],
        "gaps": [("", "", "", "", ""), heading, ("", "", "", "", ""), ("  ", "", " ", "", " "), most[0], ("", "", "", "", ""), most[1], most[1][:1] + most[2][1:], ("", "", " ", "", "")],
        "no-heading": most[:2],
    }
    for name, table in tables.items():
        calc.path(name + ".csv").write_text(text_of(table), encoding="utf-8")
        calc.both("table-" + name, name + ".csv", AS_TEXT)
    yield
    for kind in (".ods", ".xlsx"):
        seen = {name: sheet_py("lines", calc.path(f"table-{name}{kind}")) for name in tables}
        for name in ("bad", "repeated", "too-many", "beyond", "swapped", "label"):
            nothing_written(seen[name], name + kind)
        said = seen["bad"][1]
        equal(refused_rows(said), {2 * k + 2 for k in range(len(BAD))}, f"bad{kind}: which rows are refused")
        for k, (*_, refusal, column, word) in enumerate(BAD):
            words = said_of(said, 2 * k + 2)
            check(
                len(words) == 1 and f"({column}{2 * k + 2})" in words[0] and words[0][-2:] == ["(refusal", f"{refusal})"] and word in words[0],
                f"bad{kind}: row {2 * k + 2} is refused with {refusal}, and says {word}",
                words,
            )
        equal(refused_rows(seen["repeated"][1]), {3, 4}, f"repeated{kind}: which rows repeat a trace")
        for row, first in ((3, 2), (4, 1)):
            words = said_of(seen["repeated"][1], row)
            check(any(f"as in row {first} (refusal 13)" in " ".join(each) for each in words), f"repeated{kind}: row {row} repeats row {first}", words)
        words = said_of(seen["repeated"][1], 5, True)
        check(any(each[-4:] == ["differ", "in", "case", "only"] for each in words), f"repeated{kind}: a twin in other letters", words)
        wanted = b"".join(line(row[0], *row[1:4]) for row in most[:512])
        equal((seen["most"][0], seen["most"][2]), (wanted, 0), f"most{kind}: 512 circuits and a heading")
        equal(refused_rows(seen["too-many"][1]), {514}, f"too-many{kind}: the row of circuit 513")
        check("(refusal 18)" in seen["too-many"][1], f"too-many{kind}: refusal 18", seen["too-many"][1])
        equal((refused_rows(seen["beyond"][1]), "column E" in seen["beyond"][1]), ({2}, True), f"beyond{kind}: a fifth column")
        equal((refused_rows(seen["swapped"][1]), "column B" in seen["swapped"][1]), ({1}, True), f"swapped{kind}: columns in another order")
        equal(refused_rows(seen["label"][1]), {1}, f"label{kind}: a row with a label is no heading")
        equal((seen["gaps"][0], seen["gaps"][2]), (wanted[: wanted.index(b"3,")] + line(2, "12", "LINE 3", 1), 0), f"gaps{kind}: empty rows and a heading are left out")
        check("row 2 is the heading, row 5 is line 1, row 8 is line 3" in seen["gaps"][1], f"gaps{kind}: which row is which line", seen["gaps"][1])
        check(any("lookup" in words for words in said_of(seen["gaps"][1], 8, True)), f"gaps{kind}: a number listed twice is warned of", seen["gaps"][1])
        equal((seen["no-heading"][0], seen["no-heading"][2]), (wanted[: wanted.index(b"3,")], 0), f"no-heading{kind}")
    for *fields, refusal, _, _ in BAD:
        seen = run(imports, ",".join((*fields[:2], quoted(fields[2]), fields[3])).encode() + b"\n").stdout.split()
        equal(seen[:2], [str(refusal).encode(), b"1"], f"import of {fields}")
    equal(run(imports, b"".join(line(*row[:4]) for row in repeated)).stdout, b"13 3 2\n", "import of a repeated trace")
    equal(run(imports, b"".join(line(*row[:4]) for row in most)).stdout, b"18 513\n", "import of 513 circuits")


def warnings(calc, imports):
    """Traces that look like damage are warned of, and written all the same; others are not warned of."""
    calc.path("looks.csv").write_text(text_of([(str(k), "12", trace, "1") for k, (trace, _) in enumerate(LOOKS, 1)]))
    calc.both("looks", "looks.csv", AS_TEXT)
    yield
    for kind in (".ods", ".xlsx"):
        written, said, status = sheet_py("lines", calc.path("looks" + kind))
        equal((written, status), (b"".join(line(k, "12", trace, 1) for k, (trace, _) in enumerate(LOOKS, 1)), 0), f"looks{kind}: a warning holds nothing up")
        for k, (trace, word) in enumerate(LOOKS, 1):
            words = said_of(said, k, True)
            check(any(word in each for each in words) if word else not words, f"looks{kind}: of {trace!r} {word or 'nothing'} is said", words)
        equal(run(imports, written).stdout, b"".join(record(k, "12", trace, 1) for k, (trace, _) in enumerate(LOOKS, 1)), f"looks{kind}: import takes them")


def files(calc, imports):
    """Files that cannot be read or written, tables that must be named, formulas without results, catalogues that are none."""
    import openpyxl

    book = openpyxl.Workbook()
    book.active.append([1, 12, "first", 1])
    book.create_sheet("empty")
    book.create_sheet("more").append([2, 12, "second", 1])
    book.save(calc.path("tables.xlsx"))
    book = openpyxl.Workbook()
    book.active.append([1, 12, '="03E5"', 1])
    book.active.append([2, 12.5, "label", 1])
    book.active.append([2.5, 12, "circuit", 1])
    book.active.append([3, 100, "label too", -1])
    book.save(calc.path("formula.xlsx"))
    calc.saves(["tables.ods"], "tables.xlsx")
    yield
    for kind in (".ods", ".xlsx"):
        seen = sheet_py("lines", calc.path("tables" + kind))
        nothing_written(seen, "two tables" + kind)
        check("Sheet, more" in seen[1] and "--table" in seen[1], f"two tables{kind}: both are named", seen[1])
        equal(sheet_py("lines", "--table", "more", calc.path("tables" + kind))[0], line(2, 12, "second", 1), f"two tables{kind}: one is named")
        nothing_written(sheet_py("lines", "--table", "other", calc.path("tables" + kind)), "no such table" + kind)
    seen = sheet_py("lines", calc.path("formula.xlsx"))
    nothing_written(seen, "a formula without a result")
    for row, words in ((1, "no result is kept"), (2, "(B2) is the number 12.5"), (3, "(A3) is the number 2.5"), (4, "(B4) is the number 100"), (4, "(D4) are the number -1")):
        check(any(words in " ".join(each) for each in said_of(seen[1], row)), f"formula.xlsx: row {row}: {words}", seen[1])
    calc.path("text.ods").write_text("no spreadsheet")
    calc.path("text.xlsx").write_text("no spreadsheet")
    for name, word in (("text.ods", "cannot be read"), ("text.xlsx", "cannot be read"), ("missing.ods", "No such file"), ("card.csv", "quotes"), ("some.xls", "neither")):
        seen = sheet_py("lines", calc.path(name))
        nothing_written(seen, name)
        check(word in seen[1] and "Traceback" not in seen[1], f"{name}: it says {word}", seen[1])
    # a refused sheet leaves FILE as it was; a good one writes there alone; no sheet is overwritten
    lines = calc.path("lines")
    lines.write_text("before")
    nothing_written(sheet_py("lines", calc.path("table-bad.ods"), "-o", lines), "a refused sheet with -o")
    nothing_written(sheet_py("lines", calc.path("table-bad.ods"), apart=True), "a refused sheet, as a program")
    written, _, status = sheet_py("lines", calc.path("shelf.ods"), apart=True)
    equal((run(imports, written).stdout, status), (calc.path("shelf.cat").read_bytes(), 0), "a good sheet, as a program")
    equal(sheet_py("sheet", "-", calc.path("apart.xlsx"), data=calc.path("shelf.cat").read_bytes(), apart=True), (b"", "", 0), "a catalogue on standard input, as a program")
    equal(sheet_py("lines", calc.path("apart.xlsx"))[0], written, "a catalogue on standard input, as a program: its sheet")
    equal(lines.read_text(), "before", "a refused sheet leaves the file that -o names")
    written, _, status = sheet_py("lines", calc.path("shelf.ods"), "-o", lines)
    equal((written, status), (b"", 0), "with -o nothing goes to standard output")
    equal(run(imports, lines.read_bytes()).stdout, calc.path("shelf.cat").read_bytes(), "with -o the lines are in the file")
    for words in (("new", "shelf.ods"), ("new", "shelf.xlsx"), ("sheet", "names.cat", "shelf.ods"), ("lines", "names.ods", "-o", "shelf.ods")):
        before = calc.path("shelf.ods").read_bytes() + calc.path("shelf.xlsx").read_bytes()
        nothing_written(sheet_py(words[0], *(each if each == "-o" else calc.path(each) for each in words[1:])), f"{words}: the sheet is there already")
        equal(calc.path("shelf.ods").read_bytes() + calc.path("shelf.xlsx").read_bytes(), before, f"{words}: the sheet stays as it was")
    good = catalogue(["first", "second", "third"])

    def damaged(place, *values):
        return good[:place] + bytes(values) + good[place + len(values) :]

    for data, refusal in (
        (good[:-1], "(9)"),
        (good + b"\n", "(9)"),
        (catalogue(random_traces(random.Random(3), 513)), "(9)"),
        (damaged(21, 0x5A, 0x4E), "(10 2)"),
        (damaged(2, 0, 0), "(11 1)"),
        (damaged(23, 0x27, 0x10), "(11 2)"),
        (damaged(46, 0x00), "(4 3)"),
        (damaged(4, 0xFF), "(4 1)"),
        (damaged(28, 0x1F), "(5 2 3)"),
        (damaged(28, 0x7F), "(20 2 3)"),
        (damaged(5, *b" " * 15), "(21 1)"),
        (damaged(20, 16), "(12 1)"),
        (damaged(47, *b"first   "), "(13 3 1)"),
    ):
        seen = sheet_py("sheet", "-", calc.path("damaged.ods"), data=data)
        nothing_written(seen, f"a catalogue that is refused, {refusal}")
        check(refusal in seen[1] and "run list on it" in seen[1] and not calc.path("damaged.ods").exists(), f"a catalogue that is refused: {refusal}", seen[1])
    seen = sheet_py("sheet", "-", calc.path("damaged.ods"), data=b"16 3\n")
    nothing_written(seen, "what import says in the place of a catalogue")
    check("a refusal, 16 3" in seen[1], "what import says in the place of a catalogue is known", seen[1])
    for words, status, out in (((), 2, False), (("--help",), 0, True), (("lines",), 2, False), (("lines", "--help"), 0, True)):
        written, said, ended = sheet_py(*words, apart=True)
        check(ended == status and "usage: sheet.py" in (written.decode() if out else said), f"sheet.py {' '.join(words)}: usage", written, said, ended)


# The programs by themselves.


def refused(command, data, wanted):
    """One line, which is no catalogue, and words that name the line or the record."""
    ran = run(command, data)
    words = wanted.split()
    name = pathlib.Path(command[0]).name
    what = f"{name} of {data[:60]!r}.., {len(data)} bytes"
    equal(ran.stdout, wanted.encode() + b"\n", what)
    check(len(ran.stdout) % 21 != 0, f"{what}: its line is no whole number of records", ran.stdout)
    told = len(re.findall(rb"[A-Za-z]+", ran.stderr)) >= 3 and all(re.search(rf"\b{place}\b".encode(), ran.stderr) for place in words[1:2])
    check(told, f"{what}: words on standard error, with the line or record", ran.stderr)


def streams(command, taken, given):
    """Of a good file nothing is said; pieces are one file; an argument, and what cannot be read or written, is answered on standard error alone."""
    name = pathlib.Path(command[0]).name
    ran = run(command, taken)
    equal((ran.stdout, ran.stderr), (given, b""), f"{name} of a good file")
    ran = run(command)
    equal((ran.stdout, ran.stderr), (b"", b""), f"{name} of no bytes")
    with subprocess.Popen(command, stdin=subprocess.PIPE, stdout=subprocess.PIPE, bufsize=0) as slow:
        with contextlib.suppress(BrokenPipeError):  # where it does not wait for all of them
            for piece in (taken[:1], taken[1:9], taken[9:40], taken[40:]):
                slow.stdin.write(piece)
                time.sleep(0.05)
        equal(slow.communicate(timeout=60)[0], given, f"{name} of a file in pieces")
    for argument in ("--help", "file"):
        ran = run(command + [argument], taken)
        check(ran.stdout == b"" and ran.stderr.startswith(f"usage: {name} <".encode()), f"{name} {argument}: usage, and nothing else", ran.stdout, ran.stderr)
    folder = os.open("/", os.O_RDONLY)
    unread = subprocess.run(command, stdin=folder, capture_output=True, timeout=60)
    os.close(folder)
    check(unread.stdout == b"" and b"read" in unread.stderr, f"{name} of what cannot be read", unread.stdout, unread.stderr)
    with open("/dev/full", "wb") as full:
        unwritten = subprocess.run(command, input=taken, stdout=full, stderr=subprocess.PIPE, timeout=60)
    check(b"written" in unwritten.stderr, f"{name} where nothing can be written", unwritten.stderr)


def programs(imports, exports, lists):
    names = ["03E5", 'a "q", b', " lead", "~" * 15]
    records = [(1 + k, f"{0xFE - k:02X}", name, k) for k, name in enumerate(names)]
    lines = b"".join(line(*each) for each in records)
    data = b"".join(record(*each) for each in records)
    streams(imports, lines, data)
    streams(exports, data, b"".join(line(circuit, label, name.ljust(15), flags) for circuit, label, name, flags in records))
    shelf = [(ROOT / "examples" / name).read_bytes() for name in ("shelf.cat", "shelf.csv")]
    equal((run(exports, shelf[0]).stdout, run(imports, shelf[1]).stdout), (shelf[1], shelf[0]), "examples/shelf.cat and shelf.csv are one shelf")

    def trace(text):
        return b'1,12,"' + text + b'",1\n'

    for text, wanted in (
        (b"0007,fe,\"x\",01\n9999,Fe,\"y\",15\n", record(7, "FE", "x", 1) + record(9999, "FE", "y", 15)),
        (trace(b'""' * 15), record(1, "12", '"' * 15, 1)),
        (trace(b"A" * 15), record(1, "12", "A" * 15, 1)),
    ):
        ran = run(imports, text)
        equal((ran.stdout, ran.stderr), (wanted, b""), f"import of {text!r}")
    good = [line(k, "12", f"LINE {k}", 1) for k in range(1, 601)]
    ran = run(imports, b"".join(good[:512]))
    equal((ran.stdout, ran.stderr), (b"".join(record(k, "12", f"LINE {k}", 1) for k in range(1, 513)), b""), "import of 512 lines")
    longest = b"".join(b'%04d,12,"%s",15\n' % (k, b'""' * 11 + b"%04d" % k) for k in range(1, 513))
    equal(len(run(imports, longest).stdout), 512 * 21, "import of 512 long lines")
    million = 1 << 20
    for text, wanted in (
        (b"7,12,03E5,15\n", "16 1"),
        (good[0] + b"7,12,300000,15\n", "16 2"),
        (good[0] + b"7,12,,15\n", "16 2"),
        (b'7,"12","03E5",15\n', "15 1"),
        (b'7,"12",03E5,15\n', "15 1"),
        (b"7,12,03E5\n", "15 1"),
        (b'7,12,"03E5",15\r\n', "15 1"),
        (b'7,12,"03E5" ,15\n', "15 1"),
        (b' 7,12,"03E5",15\n', "15 1"),
        (b'7,12,"03"E5",15\n', "15 1"),
        (b'7,12,"03E5",15', "15 1"),
        (good[0] + b"\n", "15 2"),
        (good[0] + good[1][:-1], "15 2"),
        (b'circuit,label,trace,flags\n' + good[0], "15 1"),
        (b"\xef\xbb\xbf" + good[0], "15 1"),
        (good[0] + trace(b"A" * 16), "17 2"),
        (good[0] + trace(b'""' * 16), "17 2"),
        (good[0] + trace(b"A" * 15 + b" "), "17 2"),
        (trace(b"A" * 71), "17 1"),  # 80 bytes
        (trace(b"A" * 72), "15 1"),
        (trace(b"A" * 71) * 512, "17 1"),  # the longest text that may be good, by its length
        (trace(b"A" * 71) * 512 + b"x", "18 513"),
        (good[0] + trace(b"A" * 16) + b"7,12,03E5,15\n", "17 2"),
        (b'0,12,"a",1\n', "11 1"),
        (b'1,00,"a",1\n', "4 1"),
        (b'1,fF,"a",1\n', "4 1"),
        (good[0] + trace(b"a\tb"), "5 2 2"),
        (good[0] + trace(b"ab\xc3\x9c"), "20 2 3"),
        (good[0] + trace(b""), "21 2"),
        (good[0] + trace(b" " * 15), "21 2"),
        (b'1,12,"a",16\n', "12 1"),
        (good[0] + good[1] + good[0], "13 3 1"),
        (b"".join(good), "18 513"),
        (b"bad\n" + b"".join(good), "18 513"),
        (b"".join(good[:512]) + b"x", "18 513"),
        (b"".join(good[:511]) + b"x", "15 512"),
        (b"\n" * 513, "18 513"),
        (b"\n" * 512, "15 1"),
        (good[0] * (million // len(good[0])), "18 513"),
        (b"\n" * million, "18 513"),
        (b'7,12,"' + b"A" * million, "15 1"),
        (b'7,12,"' + b"A" * million + b'",15\n', "15 1"),
        (b"".join(good[:400]) + trace(b"A" * 90), "15 401"),
        (b"".join(good[:400]) + trace(b"A" * million), "15 401"),
        # what is not held counts: lines behind the first 41,473 bytes, and a last one that no LF ends
        (trace(b"A" * million) + b"".join(good), "18 513"),
        (trace(b"A" * million) + b"".join(good[:511]), "15 1"),
        (trace(b"A" * million) + b"".join(good[:511]) + b"x", "18 513"),
        (b"".join(good[:400]) + trace(b"A" * 90) + good[400], "15 401"),
    ):
        refused(imports, text, wanted)
    for text, wanted in ((data[:-1], "9"), (data + b"\n", "9"), (b"\x5a\x4e" + data[2:], "10 1"), (data + data[:21], "13 5 1")):
        refused(exports, text, wanted)

    # Python's csv module reads what export writes, and import takes it back
    source = random.Random(1)
    for k in range(300):
        traces = random_traces(source, source.randint(1, 12) if k else 512)
        fields = [(source.choice((1, 9, 10, 999, 1000, 9999, source.randint(1, 9999))), f"{source.randint(1, 254):02X}", each, source.randint(0, 15)) for each in traces]
        data = b"".join(record(*each) for each in fields)
        ran = run(exports, data)
        try:
            read = list(csv.reader(io.StringIO(ran.stdout.decode("ascii"), newline=""), strict=True))
        except csv.Error as error:
            read = f"{error}: {ran.stdout[:200]!r}"
        equal((read, ran.stderr), ([[str(circuit), label, each, str(flags)] for circuit, label, each, flags in fields], b""), f"csv.reader of export's text, catalogue {k}")
        equal(run(imports, ran.stdout).stdout, data, f"import of export's text, catalogue {k}")
        if lists and k < 20:
            listing = "circuit label trace flags\n" + "".join(f"{circuit} {label} [{each}] {flags}\n" for circuit, label, each, flags in fields)
            equal(run(lists, run(imports, ran.stdout).stdout).stdout, listing.encode(), f"the listing of what was imported, catalogue {k}")


def main():
    if len(sys.argv) not in (3, 4):
        sys.exit(__doc__)
    imports, exports, *lists = ([os.path.abspath(word)] for word in sys.argv[1:])
    with tempfile.TemporaryDirectory() as folder:
        calc = Calc(pathlib.Path(folder))
        parts = [part(calc, imports) for part in (comma_separated, careless, typing, through_calc, refusals, warnings, files)]
        for part in parts:
            next(part)
        # the first start makes the profile too
        calc.start("--convert-to", "ods", "plain.csv", "card.csv")
        calc.play()
        for part in parts:
            for _ in part:
                sys.exit("sheets: a part of the test has more than two halves")
    programs(imports, exports, lists[0] if lists else None)
    print(f"sheets: {done} checks, {failed} failed")
    sys.exit(1 if failed or not done else 0)


if __name__ == "__main__":
    main()
