#!/usr/bin/env python3
"""Circuits from a spreadsheet to the card's `import`, and from a catalogue back to a spreadsheet.

    tools/sheet.py new SHEET                 writes an empty sheet to type into
    tools/sheet.py lines SHEET [-o FILE]     writes the lines that `import` takes
    tools/sheet.py sheet CATALOGUE SHEET     writes a catalogue as a sheet

SHEET is a file .ods or .xlsx. Its columns A to D are circuit number, label, trace and flags.
In a sheet from `new` or `sheet` label and trace are preset as text, so that 03E5 typed there
stays 03E5. No file that is there already is overwritten by these two.

`lines` goes by what each cell holds, not by how it looks:

- A trace must be text. A number, a date, a boolean or an error is refused: it is not what was
  typed, and what was typed can only be guessed.
- A label is text of two hex digits, or a number of two digits. A number of one digit is refused.
- Circuit number and flags are whole numbers, or text of digits.
- A first row of words in all four columns (circuit, label, trace, flags) is a heading, and is
  left out; so are empty rows. Rows that are hidden or filtered out are read like the others.
- A cell beyond column D is refused: it would be lost.
- Of several tables with something in them one must be named, by --table.

Every fault of every row is told on standard error, with the card's number where the card would
refuse it. Then nothing is written, and the exit status is 1. Warnings, of traces that look
like damage, do not hold anything up. The judge of what is written is `import`.

A trace is written as it stands in the cell, its blanks too, and `import` fills it up to 15.
`sheet` leaves out the blanks at a trace's end, which `import` puts back, and keeps all others:
so sheet, lines and import give the catalogue's own bytes again. A catalogue that the card would
refuse is refused.
"""

import argparse
import datetime
import decimal
import os
import re
import sys
import typing
import unicodedata
import zipfile

HEADING = ("circuit", "label", "trace", "flags")
NAMES = ("circuit number", "label", "trace", "flags")
MOST = 512
RECORD = 21
MARK = b"\x5a\x4d"
TRACE = 15
ROWS = 1048576  # of a sheet of Calc's


class Refused(Exception):
    """What keeps a whole file from being read or written."""


class Cell(typing.NamedTuple):
    kind: str  # text, number, date, time, boolean, error, or unsaved: a formula of which no result is kept
    value: object = None
    shown: str = ""  # how it looks, where that is kept or can be told from the format
    formula: str = ""


# Reading a sheet: a list of rows, (number from 1, {column from 0: cell}), without the cells that hold nothing.


def blank(cell):
    return cell.kind == "text" and not cell.value.strip(" ")


def elements(parent):
    return [child for child in parent.childNodes if child.nodeType == child.ELEMENT_NODE]


def ods_cell(cell):
    from odf import teletype
    from odf.namespaces import OFFICENS, TABLENS, TEXTNS

    def held(name, namespace=OFFICENS):
        return cell.attributes.get((namespace, name))

    shown = "\n".join(teletype.extractText(p) for p in elements(cell) if p.qname == (TEXTNS, "p"))
    formula = (held("formula", TABLENS) or "").partition(":=")[2]
    kind = held("value-type")
    if any(name == "value-type" and value == "error" for (_, name), value in cell.attributes.items()):
        return Cell("error", shown, shown, formula)
    if kind in ("float", "percentage", "currency"):
        return Cell("number", decimal.Decimal(held("value")), shown, formula)
    if kind == "date":
        return Cell("date", datetime.datetime.fromisoformat(held("date-value").rstrip("Z")[:19]), shown, formula)
    if kind == "time":
        hours, minutes, seconds = re.match(r"-?PT(?:(\d+)H)?(?:(\d+)M)?(?:(\d+))?", held("time-value")).groups("0")
        return Cell("time", (int(hours), int(minutes), int(seconds)), shown, formula)
    if kind == "boolean":
        return Cell("boolean", held("boolean-value") == "true", shown, formula)
    text = held("string-value")
    text = shown if text is None else text
    if kind or text:
        return Cell("text", text, shown, formula)
    return None


def ods_tables(path):
    from odf.namespaces import TABLENS
    from odf.opendocument import load
    from odf.table import Table, TableRow

    def repeated(element, what):
        return int(element.attributes.get((TABLENS, f"number-{what}-repeated"), 1))

    for table in load(path).spreadsheet.getElementsByType(Table):
        rows, place = [], 1
        for row in table.getElementsByType(TableRow):
            cells, column = {}, 0
            for element in elements(row):
                cell = ods_cell(element)
                times = repeated(element, "columns")
                if cell:
                    # five are as good as a thousand: all but four are refused
                    cells.update({column + k: cell for k in range(min(times, len(NAMES) + 1))})
                column += times
            times = repeated(row, "rows")
            if cells:
                rows += [(place + k, cells) for k in range(min(times, MOST + 2))]
            place += times
        yield table.getAttribute("name"), rows


def xlsx_cell(result, written):
    """Of a cell as it was calculated, and as it was written."""
    formula = ""
    if written.data_type == "f":
        formula = str(getattr(written.value, "text", written.value)).removeprefix("=")
    value, form = result.value, result.number_format
    if value is None:
        # a formula's result that is an empty text has its type all the same
        return Cell("text" if result.data_type == "str" else "unsaved", "", "", formula) if formula else None
    if isinstance(value, bool):
        return Cell("boolean", value, formula=formula)
    if isinstance(value, datetime.timedelta):
        minutes, seconds = divmod(int(value.total_seconds()), 60)
        return Cell("time", (*divmod(minutes, 60), seconds), formula=formula)
    if isinstance(value, datetime.time):
        return Cell("time", (value.hour, value.minute, value.second), formula=formula)
    if isinstance(value, (datetime.datetime, datetime.date)):
        return Cell("date", datetime.datetime(*value.timetuple()[:6]), formula=formula)
    if isinstance(value, (int, float)):
        number = decimal.Decimal(repr(value))
        # of the format as much as says what was typed; [$-407] in it names a language, [$€-407] a currency too
        sign = re.search(r"[$€£]", re.sub(r"\[\$([^]-]*)-?[^]]*\]", r"\1", form))
        if re.search(r"0E[+-]", form):
            looks_like = f"{value:.2E}"
        elif form.endswith("%"):
            looks_like = plain(number * 100) + "%"
        else:
            looks_like = sign.group() if sign else ""
        return Cell("number", number, looks_like, formula)
    return Cell("error" if result.data_type == "e" else "text", str(value), str(value), formula)


def xlsx_tables(path):
    import openpyxl

    # In these files a spreadsheet program writes _x000D_ for a character that XML has no place for, and _x005F_ before what only looks so.
    with zipfile.ZipFile(path) as parts:
        for part in parts.namelist():
            if re.match(r"xl/(sharedStrings|worksheets/)", part) and re.search(rb"_x[0-9A-Fa-f]{4}_|x005F_", parts.read(part)):
                raise Refused(f"a text has {ESCAPED}, which cannot be told from a single character in this kind of file: save it as .ods")
    results, written = openpyxl.load_workbook(path, data_only=True), openpyxl.load_workbook(path)
    for result in results.worksheets:
        rows = []
        for pair in zip(result.iter_rows(), written[result.title].iter_rows()):
            cells = {k: xlsx_cell(*both) for k, both in enumerate(zip(*pair))}
            cells = {k: cell for k, cell in cells.items() if cell}
            if cells:
                rows.append((pair[0][0].row, cells))
        yield result.title, rows


ESCAPED = "_x, four hex digits and _"
TABLES = {".ods": ods_tables, ".xlsx": xlsx_tables}


def kind_of(path):
    kind = os.path.splitext(path)[1].lower()
    if kind not in TABLES:
        hint = "comma-separated lines go to import itself, if their traces still stand in quotes" if kind in (".csv", ".txt") else "save it as one of them"
        raise Refused(f"neither .ods nor .xlsx: {hint}")
    return kind


def rows_of(path, name):
    """The rows of the table that is named, or of the only one that has any."""
    read = TABLES[kind_of(path)]
    try:
        tables = {title: [row for row in rows if not all(map(blank, row[1].values()))] for title, rows in read(path)}
    except (Refused, OSError, ImportError):
        raise
    except Exception as error:  # whatever the readers of the two kinds stumble over
        raise Refused(f"cannot be read as a spreadsheet: {type(error).__name__}: {error}") from error
    if name is not None:
        if name not in tables:
            raise Refused(f"has no table {name}; it has {', '.join(tables)}")
        return tables[name]
    filled = [title for title, rows in tables.items() if rows]
    if len(filled) > 1:
        raise Refused(f"has {len(filled)} tables with something in them, {', '.join(filled)}: name one by --table")
    return tables[filled[0]] if filled else []


# What was typed.


def plain(number):
    """A number in digits, or with an exponent where that would be long."""
    whole = number == number.to_integral_value() and abs(number) < 10**TRACE
    return str(int(number)) if whole else f"{number.normalize():f}" if 1e-9 < abs(number) < 1e15 else str(number.normalize())


def with_exponent(number):
    """What is typed with an E and makes this number: of 300000 03E5, 3E5, 30E4."""
    if number == 0:
        return ["00E5", "0E5", "the like"]
    sign, digits, exponent = number.normalize().as_tuple()
    before, digits = "-" * sign, "".join(map(str, digits))
    forms = [f"{before}0{digits}E{exponent}"] if len(digits) == 1 else []
    forms.append(f"{before}{digits}E{exponent}")
    if exponent > 1:
        forms.append(f"{before}{digits}0E{exponent - 1}")
    return forms


def typed_number(cell):
    number, digits, exponent = cell.value, plain(cell.value), with_exponent(cell.value)
    if cell.shown.endswith("%"):
        return [plain(number * 100) + "%"]
    sign = re.search("[$€£]", cell.shown)
    if sign:
        return [sign.group() + digits, digits + sign.group()]
    if re.search(r"E[+-]?[0-9]", cell.shown):
        return exponent
    if number < 0 or number != number.to_integral_value():
        return [digits] + exponent
    # where it ends with zeros an E was typed, more likely than zeros before it
    return exponent + [digits] if digits.endswith("00") else [digits, "0" + digits, "00" + digits] + exponent


def typed_date(cell):
    date = cell.value
    day, month, year, name = date.day, date.month, date.year % 100, date.strftime("%b").upper()
    forms = [f"{day}-{month}", f"{month}-{day}", f"{day}/{month}", f"{month}/{day}", f"{day}.{month}.", f"{name}-{day}"]
    return forms + ([f"{name}-{year:02d}", f"{month}-{year:02d}"] if day == 1 else []) + [f"{date:%Y-%m-%d}", "the like"]


def typed_time(cell):
    hours, minutes, seconds = cell.value
    return [f"{hours}:{minutes:02d}:{seconds:02d}"] if seconds else [f"{hours}:{minutes:02d}", f"{hours}:{minutes}", f"{hours}:{minutes:02d}:00"]


def typed(cell):
    """What was typed, perhaps, where the cell holds this."""
    if cell.kind == "boolean":
        return ["TRUE", "WAHR"] if cell.value else ["FALSE", "FALSCH"]
    forms = {"number": typed_number, "date": typed_date, "time": typed_time}[cell.kind](cell)
    return list(dict.fromkeys(form for form in forms if len(form) <= TRACE)) or [cell.shown or plain(cell.value)]


def either(forms):
    return forms[0] if len(forms) == 1 else ", ".join(forms[:-1]) + " or " + forms[-1]


def held(cell):
    """What a cell holds, in words."""
    if cell.kind == "text":
        return f"the text {shown(cell.value)}"
    if cell.kind == "number":
        return f"the number {plain(cell.value)}"
    if cell.kind == "date":
        return f"the date {cell.value:%Y-%m-%d}"
    if cell.kind == "time":
        return "the time {}:{:02d}:{:02d}".format(*cell.value)
    if cell.kind == "boolean":
        return f"the truth value {str(cell.value).upper()}"
    if cell.kind == "error":
        return f"the error {cell.value}"
    return "a formula of which no result is kept"


def shown(text):
    """A text with all its blanks to be seen, in brackets."""
    return "[" + "".join(c if c.isprintable() else f"<{ord(c):02X}>" for c in text) + "]"


# The rows: what is refused of each, and the four fields where nothing is.


def number_field(cell, digits, least, most, number):
    """A whole number, and nothing; or None, and what is wrong. `number` is the card's refusal of one that has few enough digits."""
    if not cell:
        return None, "empty (refusal 15)"
    if cell.kind == "text" and re.fullmatch(r"[0-9]+", cell.value):
        value, fits = int(cell.value), len(cell.value) <= digits
    elif cell.kind == "number" and cell.value == cell.value.to_integral_value() and cell.value >= 0:
        value, fits = int(cell.value), cell.value < 10**digits
    else:
        return None, f"{held(cell)}, and not a whole number from {least} to {most} (refusal 15)"
    if not fits:
        return None, f"{held(cell)}, with more than {digits} digits (refusal 15)"
    if not least <= value <= most:
        return None, f"{value}, and not from {least} to {most} (refusal {number})"
    return value, None


def label_field(cell):
    if not cell:
        return None, "empty (refusal 15)"
    if cell.kind == "text" and re.fullmatch(r"[0-9A-Fa-f]{2}", cell.value):
        label = cell.value.upper()
    elif cell.kind == "number" and cell.value in range(10, 100):
        label = str(int(cell.value))
    elif cell.kind == "number" and cell.value in range(0, 10):
        digit = int(cell.value)
        return None, f"the number {digit}; typed without an apostrophe before it, 0{digit} becomes that"
    else:
        return None, f"{held(cell)}, and not two hex digits (refusal 15)"
    if label in ("00", "FF"):
        return None, f"{label}, which means {'that nothing is carried' if label == '00' else 'alarm'} (refusal 4)"
    return label, None


def character_fault(place, character):
    if character == "\n":
        return f"has a line break as character {place}, which would end the line (refusal 15)"
    code = ord(character)
    name = {9: "a TAB", 13: "a CR", 0xA0: "a no-break space"}.get(code) or unicodedata.name(character, "a control character")
    way, number = ("below 20", 5) if code < 0x20 else ("above 7E", 20)
    return f"has as character {place} {shown(character)}, {name}, U+{code:04X}, {way} (refusal {number})"


def trace_faults(cell):
    if not cell:
        return ["is empty (refusal 21)"]
    if cell.kind in ("error", "unsaved"):
        formula = f"; the formula is ={cell.formula}" if cell.formula else ""
        return [f"is {held(cell)}{formula}; a name that begins with =, + or - becomes a formula where no apostrophe is typed before it"]
    if cell.kind != "text":
        if cell.formula:
            return [f"is {held(cell)}, from the formula ={cell.formula}"]
        return [f"is {held(cell)}; typed without an apostrophe before it, {either(typed(cell))} becomes that"]
    text, faults = cell.value, []
    if len(text) > TRACE:
        behind = len(text) - len(text.rstrip(" "))
        blanks = f", of which {behind} at the end {'is a blank' if behind == 1 else 'are blanks'}" if behind else ""
        faults.append(f"is {shown(text)}, with {len(text)} characters{blanks}, and not at most {TRACE} (refusal 17)")
    faults += [character_fault(k, c) for k, c in enumerate(text, 1) if not " " <= c <= "~"]
    if not faults and not text.strip(" "):
        faults.append("is nothing but blanks (refusal 21)")
    return faults


def looks(cell):
    """What makes a good trace look like damage."""
    name = cell.value.strip(" ")
    if cell.formula:
        yield f"comes from the formula ={cell.formula}"
    if re.fullmatch(r"[1-9][0-9]*00", name):
        yield f"looks like what a spreadsheet makes of {either(with_exponent(decimal.Decimal(name)))}"
    elif re.fullmatch(r"[+-]?[0-9]+([.,][0-9]+)?[Ee][+-][0-9]+", name):
        number = decimal.Decimal(name.replace(",", "."))
        yield f"looks like how a spreadsheet shows the number {plain(number)}, typed as {either(typed(Cell('number', number, 'E+0')))}"
    elif re.fullmatch(r"[0-9]{4}-[0-9]{2}-[0-9]{2}.*|[0-9]{1,2}([./-])[0-9]{1,2}\1[0-9]{2,4}", name):
        yield "looks like a date that a spreadsheet made of something shorter"
    if re.fullmatch(r"#[A-Z0-9/]+[!?]?|#+|Err:[0-9]+", name):
        yield "looks like an error of a spreadsheet"
    if name.upper() in ("TRUE", "FALSE", "WAHR", "FALSCH", "VRAI", "FAUX", "VERO", "FALSO", "WAAR", "ONWAAR", "VERDADERO", "PRAWDA"):
        yield "looks like a truth value of a spreadsheet"
    if name.startswith("'"):
        yield "begins with an apostrophe, which is a part of the name here"
    if cell.value.startswith(" "):
        yield "begins with a blank, which counts like any other character"
    if cell.value.endswith(" "):
        yield "ends with a blank"


def difference(one, other):
    if one.replace(" ", "") == other.replace(" ", ""):
        return "blanks"
    return "case" if one.casefold() == other.casefold() else "case and blanks"


def is_heading(cells):
    """Words in all four columns, none a label, and no digit in those of number and flags."""
    words = [cells.get(k) for k in range(len(NAMES))]
    if not all(cell and cell.kind == "text" and re.search("[A-Za-z]", cell.value) for cell in words):
        return False
    return not any(re.search("[0-9]", words[k].value) for k in (0, 3)) and label_field(words[1])[0] is None


class Reading(typing.NamedTuple):
    heading: object  # its row, or None
    lines: list  # (row, its line for import), of good rows
    faults: list  # (row, words)
    warnings: list  # (row, words)


def reading(rows):
    lines, faults, warnings = [], [], []
    heading, numbers, traces, alike = None, {}, {}, {}
    if rows and is_heading(rows[0][1]):
        heading = rows[0][0]
        words = [rows[0][1][k].value.strip().lower() for k in range(len(NAMES))]
        for k, word in enumerate(words):
            if word in HEADING and word != HEADING[k]:
                faults.append((heading, f"the heading of column {'ABCD'[k]} is {word}; the columns are {', '.join(HEADING)}"))
        extra = beyond(rows[0])
        faults += [extra] if extra else []
        rows = rows[1:]
    if len(rows) > MOST:
        faults.append((rows[MOST][0], f"this is circuit {MOST + 1}, and there is room for {MOST} (refusal 18)"))
    for row, cells in rows[:MOST]:
        wrong = []
        names = [f"the {name} ({'ABCD'[k]}{row})" for k, name in enumerate(NAMES)]
        circuit, fault = number_field(cells.get(0), 4, 1, 9999, 11)
        wrong += [f"{names[0]} is {fault}"] if fault else []
        label, fault = label_field(cells.get(1))
        wrong += [f"{names[1]} is {fault}"] if fault else []
        broken = trace_faults(cells.get(2))
        wrong += [f"{names[2]} {fault}" for fault in broken]
        flags, fault = number_field(cells.get(3), 2, 0, 15, 12)
        wrong += [f"{names[3]} are {fault}"] if fault else []
        if not broken:
            text = cells[2].value
            first = traces.setdefault(text.ljust(TRACE), row)
            twin, other = alike.setdefault(text.replace(" ", "").casefold(), (row, text))
            if first != row:
                wrong.append(f"{names[2]} is {shown(text)}, as in row {first} (refusal 13)")
            elif twin != row:
                warnings.append((row, f"{names[2]} is {shown(text)}, and in row {twin} {shown(other)}: they differ in {difference(text, other)} only"))
            warnings += [(row, f"{names[2]} is {shown(text)}: it {look}") for look in looks(cells[2])]
        if circuit is not None and numbers.setdefault(circuit, row) != row:
            warnings.append((row, f"{names[0]} is {circuit}, as in row {numbers[circuit]}; lookup finds the first only"))
        extra = beyond((row, cells))
        faults += [(row, fault) for fault in wrong] + ([extra] if extra else [])
        if not wrong and not extra:
            quoted = cells[2].value.replace('"', '""')
            lines.append((row, f'{circuit},{label},"{quoted}",{flags}\n'))
    return Reading(heading, lines, faults, warnings)


def beyond(row):
    """The first cell beyond the four columns."""
    more = [(k, cell) for k, cell in sorted(row[1].items()) if k >= len(NAMES) and not blank(cell)]
    if not more:
        return None
    column, cell = more[0]
    return row[0], f"column {letters(column)} has {held(cell)}; only columns A to D are read: move the others to another table"


def letters(column):
    return (letters(column // 26 - 1) if column >= 26 else "") + chr(ord("A") + column % 26)


# Reading a catalogue.


def records_of(data):
    """Circuit, label, trace without the blanks at its end, flags, of each record of a catalogue that the card would not refuse."""
    if re.fullmatch(rb"[0-9]{1,2}( [0-9]{1,5}){0,2}\n", data):
        raise Refused(f"no catalogue but a refusal, {data.decode().strip()}: whatever wrote it says the same in words on its standard error")

    def no_good(number, *places):
        raise Refused(f"no good catalogue ({' '.join(map(str, (number, *places)))}): run list on it")

    if len(data) % RECORD or len(data) > MOST * RECORD:
        no_good(9)
    records = [data[k : k + RECORD] for k in range(0, len(data), RECORD)]
    for place, record in enumerate(records, 1):
        trace = record[5:20]
        if record[:2] != MARK:
            no_good(10, place)
        if not 1 <= int.from_bytes(record[2:4], "big") <= 9999:
            no_good(11, place)
        if record[4] in (0x00, 0xFF):
            no_good(4, place)
        for k, character in enumerate(trace, 1):
            if not 0x20 <= character <= 0x7E:
                no_good(5 if character < 0x20 else 20, place, k)
        if not trace.strip(b" "):
            no_good(21, place)
        if record[20] > 15:
            no_good(12, place)
    first = {}
    for place, record in enumerate(records, 1):
        if first.setdefault(record[5:20], place) != place:
            no_good(13, place, first[record[5:20]])
    return [(int.from_bytes(r[2:4], "big"), f"{r[4]:02X}", r[5:20].decode("ascii").rstrip(" "), r[20]) for r in records]


# Writing a sheet: a heading, then the records. Label and trace are text, and so is whatever is typed into their columns later.


def write_ods(path, records):
    from odf import number, style
    from odf.opendocument import OpenDocumentSpreadsheet
    from odf.table import Table, TableCell, TableColumn, TableRow
    from odf.text import P, S

    document = OpenDocumentSpreadsheet()
    as_text = number.TextStyle(name="N100")
    as_text.addElement(number.TextContent())
    text = style.Style(name="text", family="table-cell", datastylename=as_text)
    heading = style.Style(name="heading", family="table-cell", datastylename=as_text)
    heading.addElement(style.TextProperties(fontweight="bold"))
    wide = style.Style(name="wide", family="table-column")
    wide.addElement(style.TableColumnProperties(columnwidth="4.5cm"))
    for each in (as_text, text, heading, wide):
        document.automaticstyles.addElement(each)

    def paragraph(words):
        """Blanks at the start, and several together, are elements of their own: OpenDocument lets a reader drop such characters."""
        p = P()
        for k, part in enumerate(re.split(r"((?:^ | (?= )) *)", words)):
            if k % 2:
                p.addElement(S(c=len(part)))
            elif part:
                p.addText(part)
        return p

    def text_cell(words, look):
        cell = TableCell(valuetype="string", stylename=look)
        cell.addElement(paragraph(words))
        return cell

    def number_cell(value):
        cell = TableCell(valuetype="float", value=str(value))
        cell.addElement(P(text=str(value)))
        return cell

    table = Table(name="circuits")
    for given in ({}, {"defaultcellstylename": text}, {"defaultcellstylename": text, "stylename": wide}, {}):
        table.addElement(TableColumn(**given))
    row = TableRow()
    for word in HEADING:
        row.addElement(text_cell(word, heading))
    table.addElement(row)
    for circuit, label, trace, flags in records:
        row = TableRow()
        for cell in (number_cell(circuit), text_cell(label, text), text_cell(trace, text), number_cell(flags)):
            row.addElement(cell)
        table.addElement(row)
    # Calc gives a column's style to those rows alone that the file has: so it has all of them
    row = TableRow(numberrowsrepeated=ROWS - 1 - len(records))
    row.addElement(TableCell(numbercolumnsrepeated=len(HEADING)))
    table.addElement(row)
    document.spreadsheet.addElement(table)
    document.save(path)


def write_xlsx(path, records):
    import openpyxl
    from openpyxl.styles import Font

    for place, record in enumerate(records, 1):
        if re.search("_x[0-9A-Fa-f]{4}_|x005F_", record[2]):
            raise Refused(f"the trace of record {place} has {ESCAPED}, which a spreadsheet program reads as one character in .xlsx: write a file .ods")
    book = openpyxl.Workbook()
    table = book.active
    table.title = "circuits"
    for column in "BC":
        table.column_dimensions[column].number_format = "@"
    table.column_dimensions["C"].width = 20
    for k, word in enumerate(HEADING, 1):
        table.cell(1, k, word).font = Font(bold=True)
    for row, (circuit, label, trace, flags) in enumerate(records, 2):
        for k, value in enumerate((circuit, label, trace, flags), 1):
            cell = table.cell(row, k, value)
            if k in (2, 3):
                # said after the value is set: a text that begins with = would be a formula
                cell.data_type = "s"
                cell.number_format = "@"
    book.save(path)


def write_sheet(path, records):
    write = {".ods": write_ods, ".xlsx": write_xlsx}[kind_of(path)]
    if os.path.exists(path):
        raise Refused("is there already, and is not overwritten: take another name")
    write(path, records)


# The three commands.


def say(*words):
    print(*words, file=sys.stderr)


def lines_command(given):
    if given.output and os.path.splitext(given.output)[1].lower() in TABLES:
        raise Refused(f"its lines are no spreadsheet: {given.output} needs another name")
    found = reading(rows_of(given.sheet, given.table))
    for row, words in sorted(found.faults, key=lambda fault: fault[0]):
        say(f"row {row}: {words}")
    for row, words in found.warnings:
        say(f"warning: row {row}: {words}")
    if found.faults:
        refused = len({row for row, _ in found.faults})
        say(f"{given.sheet}: {refused} {'row is' if refused == 1 else 'rows are'} refused, and nothing is written")
        return 1
    data = "".join(line for _, line in found.lines).encode("ascii")
    if given.output:
        with open(given.output, "wb") as file:
            file.write(data)
    else:
        sys.stdout.buffer.write(data)
        sys.stdout.buffer.flush()
    if not found.lines:
        say(f"warning: {given.sheet} has no circuits")
    else:
        above = f"row {found.heading} is the heading, " if found.heading else ""
        say(f"{given.sheet}: {above}row {found.lines[0][0]} is line 1, row {found.lines[-1][0]} is line {len(found.lines)}; import is the judge of them")
    return 0


def sheet_command(given):
    if given.catalogue == "-":
        data = sys.stdin.buffer.read()
    else:
        with open(given.catalogue, "rb") as file:
            data = file.read()
    try:
        records = records_of(data)
    except Refused as refused:
        say(f"{given.catalogue}: {refused}")
        return 1
    write_sheet(given.sheet, records)
    return 0


def new_command(given):
    write_sheet(given.sheet, [])
    return 0


def main():
    parser = argparse.ArgumentParser(prog="sheet.py", description=__doc__, formatter_class=argparse.RawDescriptionHelpFormatter)
    commands = parser.add_subparsers(title="commands", metavar="COMMAND")
    new = commands.add_parser("new", help="write an empty sheet to type into")
    lines = commands.add_parser("lines", help="write the lines that import takes")
    sheet = commands.add_parser("sheet", help="write a catalogue as a sheet")
    sheet.add_argument("catalogue", metavar="CATALOGUE", help="records of 21 bytes; - is standard input")
    for command, run in ((new, new_command), (lines, lines_command), (sheet, sheet_command)):
        command.add_argument("sheet", metavar="SHEET", help="a file .ods or .xlsx")
        command.set_defaults(run=run)
    lines.add_argument("-o", dest="output", metavar="FILE", help="write there, and not on standard output")
    lines.add_argument("--table", metavar="NAME", help="which table of the file, where several have something in them")
    given = parser.parse_args()
    if "run" not in given:
        parser.print_help(sys.stderr)
        return 2
    try:
        return given.run(given)
    except Refused as refused:
        say(f"{given.sheet}: {refused}")
    except ImportError as missing:
        say(f"sheet.py: {missing}: install Debian's python3-odf and python3-openpyxl")
    except OSError as error:
        say(f"sheet.py: {error}")
    return 1


if __name__ == "__main__":
    sys.exit(main())
