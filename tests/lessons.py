#!/usr/bin/env python3
"""The lessons: each script prints what is kept beside it, and shows what it is there for.

    tests/lessons.py PROGRAM [ARGS..]

PROGRAM with its ARGS reads a script of the bench on standard input: `target/host/second bench`, or
`target/bin/bench`. Each lessons/NAME.bench is played and must print lessons/NAME.out; the first line
that differs is printed with its number. Then the scripts themselves are looked at. Six comments of a
script are read by this test:

    # see: WORDS          behind a command, on its line or the next: the words stand in the line that it printed last, in this order
                          (`c=U@9,F,v=1,p=80,fe=0` is five words; `d=dTIM,dPLM` is one)
    # row P1: ..          the unit that is fed next has the word of that row of the pointer table; ROWS says what must follow
    # not understood: ..  the next line prints `? N`; no other line may
    #   7,12,"03E5",15     set in, above `import` and `export`: the lines of the text that is given or printed, `<CR>` and `<no LF>` where that is so
    # Question: and # Answer:   one of each, and the same question stands in lessons/README.md
    # Rules in docs/CARD.md: ..   one; each number in it is a rule of that page

The pairs of traces that `cat` prints are counted once more, from the script's bytes. lessons/README.md
says of each lesson how many lines there are to type, and its minutes are an hour at most. Links of
lessons/README.md and docs/GLOSSARY.md must lead to files that are there, and a definition that is named
behind one must stand in its file.
"""

import os
import re
import sys

sys.dont_write_bytecode = True  # no folder beside the tests
from playing import containers_of, play, read_line, refused_at_once

ROOT = os.path.dirname(os.path.dirname(os.path.abspath(__file__)))
FOLDER = os.path.join(ROOT, "lessons")
CARD = "docs/CARD.md"
HOUR = 60  # minutes for all of them
PAGES = ("lessons/README.md", "docs/GLOSSARY.md")
PRINTING = ("src", "sink", "show", "payload", "cat", "lookup", "list", "import", "export", "parity", "check", "read")
SETTINGS = ("tx", "rx")
HEADING = "circuit label trace flags"
RECORD = 42  # hex digits of a catalogue's record
TOP = 782

# The pointer table: offset before, word, how it is taken, offset after; then how many containers end in the unit. The wait has passed,
# the state is normal, the word is the first of its run and row. P2b is P2 with two units since the last adjustment.
ROWS = {
    "P1": (0, 0x6800, "plain", 0, 1),
    "P2": (0, 0x6AAA, "increment", 1, 0),
    "P2b": (0, 0x6AAA, "invalid, too soon", 0, 1),
    "P3": (0, 0x6955, "decrement", 782, 1),
    "P4": (782, 0x69A4, "increment", 0, 1),
    "P5": (1, 0x6954, "decrement", 0, 2),
    "P6": (782, 0x6800, "increment", 0, 1),
    "P7": (0, 0x6B0F, "invalid", 0, 1),
    "P8": (0, 0x6C00, "invalid", 0, 1),
    "P9": (0, 0x7800, "plain", 0, 1),
    "P10": (0, 0x0800, "invalid", 0, 1),
    "P11": (5, 0x9800, "new data", 0, 1),
    "P12": (5, 0x1801, "new data", 1, 0),
}
# Lessons that more is asked of than that they print what is kept
STEPS, TOGETHER, MOST, NOTHING, WHICH, PAIRS, SHEET, STUCK = ("05-none-one-or-two", "07-two-causes", "13-exactly-66", "14-unequipped", "16-which-character",
                                                              "17-pairs-counted", "18-the-sheet", "19-one-stuck-line")
LONGEST = 512  # records of a catalogue


class Shown:
    """A command with the lines that it printed; for `sink` also the word of the unit that was fed."""

    def __init__(self, number, command, lines, word=None):
        self.number, self.command, self.lines, self.word = number, command, lines, word

    def field(self, name):
        """A field of the printed line, as text; none where it has none."""
        found = re.search(rf"(?:^| ){name}=(\S*)", self.lines[-1])
        return found.group(1) if found else None

    def fed(self):
        return self.command == "sink" and self.lines[-1].startswith("ok ")


class Lesson:
    def __init__(self, name, script, shown, fault):
        self.name, self.script, self.shown = name, script, shown
        self.containers = [containers_of(one.lines[-1], lambda what, one=one: fault(f"{name}.bench:{one.number}", what)) for one in self.sinks()]

    def sinks(self):
        return [one for one in self.shown if one.fed()]


def compare(name, printed, kept, fault):
    """The first line that is not the one kept."""
    ours, theirs = printed.decode(errors="replace").split("\n"), kept.decode(errors="replace").split("\n")
    for place in range(max(len(ours), len(theirs))):
        a = ours[place] if place < len(ours) else "(no line)"
        b = theirs[place] if place < len(theirs) else "(no line)"
        if a != b:
            fault(f"{name}.out:{place + 1}", f"printed: {a}\n    kept:    {b}")
            return


def how_many(command, argument, first):
    """Lines that a command prints, its first line being given: only a listing has more than one."""
    if command == "list" and first == HEADING:
        return 1 + len(argument) // RECORD
    return 1


def pair(name, script, printed, fault):
    """Each command that prints, with its lines; a `run` as the commands that it stands for."""
    said, shown, word = list(printed), [], None
    for number, line in enumerate(script, 1):
        words, _ = read_line(line)
        if said and said[0] == f"? {number}":
            shown.append(Shown(number, "?", [said.pop(0)]))
            continue
        if not words:
            continue
        command = words[0]
        if command == "word":
            word = int(words[1], 16)
        elif command == "ones":
            word = 0xFFFF
        elif command in SETTINGS:
            due = refused_at_once(words)
            if due and said[:1] == [due]:
                shown.append(Shown(number, command, [said.pop(0)]))
            elif due:
                fault(f"{name}.bench:{number}", f"`{line}` must print {due} at once")
        for command in ("src", "sink") * int(words[1]) if command == "run" else (command,) if command in PRINTING else ():
            if not said:
                fault(f"{name}.bench:{number}", f"`{line}` prints nothing, or too little")
                return shown
            count = how_many(command, words[-1], said[0])
            one = Shown(number, command, said[:count], word if command == "sink" else None)
            del said[:count]
            shown.append(one)
            if command == "src" and one.field("word"):
                word = int(one.field("word"), 16)
    for line in said:
        fault(f"{name}.bench", f"one line more is printed: {line}")
    return shown


def commands(script):
    """What a script does, as words, each `run` told call by call."""
    told = []
    for words in (read_line(line)[0] for line in script):
        if words:
            told += [["src", "-"], ["sink"]] * int(words[1]) if words[0] == "run" else [words]
    return told


# ---- the comments that are read

def look_at_claims(lesson, fault):
    """`# see:` is true of the line that the command before it printed last."""
    command = None  # the number of its line
    for number, line in enumerate(lesson.script, 1):
        words, comment = read_line(line)
        if words:
            command = number
        if not comment.startswith("# see:"):
            continue
        before = [one for one in lesson.shown if one.number == command]
        if not before:
            fault(f"{lesson.name}.bench:{number}", "the command before it printed nothing")
            continue
        last = before[-1].lines[-1]
        words = iter(part for word in last.split() for part in (word.split(",") if word.startswith("c=") else [word]))
        for claim in comment[len("# see:"):].split():
            if claim not in words:  # looks no further than the claim's word, so that the next must come behind it
                fault(f"{lesson.name}.bench:{number}", f"{claim} is not there, or not in this order: {last}")
                break


def look_at_questions(lesson, page, fault):
    """One question and its answer; the page asks the same."""
    for kind in ("# Question: ", "# Answer: "):
        if sum(line.startswith(kind) for line in lesson.script) != 1:
            fault(f"{lesson.name}.bench", f"there is not one `{kind.strip()}`")
    for line in lesson.script:
        if line.startswith("# Question: ") and line[len("# Question: "):] not in page:
            fault("lessons/README.md", f"the question of {lesson.name} is not there: {line}")
    typed = sum(bool(read_line(line)[0]) for line in lesson.script)
    if f"]({lesson.name}.bench) | [out]({lesson.name}.out) | {typed} |" not in page:
        fault("lessons/README.md", f"{lesson.name}.bench is not linked with its .out and its {typed} lines to type")


def look_at_rules(lesson, card, fault):
    """The rules that a lesson names are there."""
    named = [line for line in lesson.script if line.startswith(f"# Rules in {CARD}: ")]
    if len(named) != 1:
        fault(f"{lesson.name}.bench", "there is not one line with its rules")
    for number in re.findall(r"\d+\.\d+", " ".join(named)):
        if f'<a id="r{number.replace(".", "-")}">' not in card:
            fault(f"{lesson.name}.bench", f"{CARD} has no rule {number}")


def look_at_strange_lines(lesson, fault):
    """`? N` is printed where the lesson says so, and nowhere else."""
    said = {number + 1 for number, line in enumerate(lesson.script, 1) if line.startswith("# not understood")}
    strange = {one.number for one in lesson.shown if one.command == "?"}
    for number in sorted(strange ^ said):
        what = "is not understood" if number in strange else "is understood, though the lesson says otherwise"
        fault(f"{lesson.name}.bench:{number}", f"the line {what}")


# ---- the rows of the table

def alike(word):
    """The value of a word that counts in a run (normal NDF, SS 10, in range); none where it does not count."""
    value = word & 0x3FF
    normal = word >> 12 in (0b0110, 0b1110, 0b0010, 0b0100, 0b0111)
    return value if normal and word >> 10 & 3 == 2 and value <= TOP else None


def units_since(sinks):
    """Units fed since the offset of a normal state last moved, that one not counted; a large number where it never did."""
    for back in range(len(sinks) - 1, 0, -1):
        here, before = sinks[back], sinks[back - 1]
        if here.field("st") == before.field("st") == "normal" and here.field("off") != before.field("off"):
            return len(sinks) - 1 - back
    return 1000


def look_at_row(lesson, marker, row, fault):
    before, word, taken, after, ended = ROWS[row]
    place = f"{lesson.name}.bench:{marker}"
    earlier = [one for one in lesson.sinks() if one.number < marker]
    later = [one for one in lesson.sinks() if one.number > marker]
    if not earlier or not later:
        fault(place, "no unit before the row's, or none of the row")
        return
    last, here, then = earlier[-1], later[0], later[1:8]
    if (last.field("st"), last.field("off")) != ("normal", str(before)):
        fault(place, f"{row} begins at offset {before}, not so: {last.lines[-1]}")
    if here.word != word:
        fault(place, f"{row} has the word {word:04X}, not {here.word:04X}")
    found = here.field("st"), here.field("off"), here.field("ended")
    if found != ("normal", str(after), str(ended)):
        fault(place, f"{row} is {taken}: normal, offset {after}, {ended} ended; printed: {here.lines[-1]}")
    # the wait has passed, and the word is the first of its run and row
    since = units_since(earlier)
    if (since != 2) if row == "P2b" else (since < 3):
        fault(place, f"{since} units since the last adjustment")
    if alike(word) is not None and alike(last.word) == alike(word):
        fault(place, f"the word is not the first of its run: {last.word:04X} came before it")
    if taken in ("invalid", "new data") and alike(last.word) != before:
        fault(place, f"the word may not be the first of its row: {last.word:04X} came before it")
    # plain and invalid leave one and the same line; eight in a row tell them apart
    if taken in ("plain", "invalid"):
        states = [one.field("st") for one in then]
        if [one.word for one in then] != [word] * 7:
            fault(place, f"{row} is {taken}: the same word must come seven times more")
        elif states != ["normal"] * 6 + ["normal" if taken == "plain" else "lost"]:
            fault(place, f"{row} is {taken}; the seven units after it end {' '.join(states)}")


def look_at_rows(lessons, page, fault):
    met = {}
    for lesson in lessons:
        for number, line in enumerate(lesson.script, 1):
            found = re.match(r"# row (P\w+)", line)
            if not found:
                continue
            row = found.group(1)
            met.setdefault(row, []).append(lesson.name)
            file_row = re.match(r"P0?(\w+)-", lesson.name)
            if row not in ROWS or not file_row or f"P{file_row.group(1)}" != row:
                fault(f"{lesson.name}.bench:{number}", f"{row} is no row of this lesson")
            else:
                look_at_row(lesson, number, row, fault)
    for row in ROWS:
        if len(met.get(row, [])) != 1:
            fault("lessons", f"row {row} has {len(met.get(row, []))} lessons")
        before, word, *_ = ROWS[row]
        if not any(f"]({name}.bench)" in line and f"| {before}, {word:04X}" in line for name in met.get(row, []) for line in page.splitlines()):
            fault("lessons/README.md", f"{row} has no row that begins with {before}, {word:04X}")


# ---- single lessons

def look_at_steps(lesson, fault):
    for count in ("0", "2"):
        if not any(one.field("st") == "normal" and one.field("ended") == count for one in lesson.sinks()):
            fault(f"{lesson.name}.bench", f"no normal unit has ended={count}")


def look_at_together(lesson, fault):
    if not any(one.field("cause") == "cRDI,cPLM" for one in lesson.sinks()):
        fault(f"{lesson.name}.bench", "no unit has cRDI and cPLM and no other cause")


def look_at_nothing(lesson, fault):
    if not any(one.field("cause") == "cUNEQ" for one in lesson.sinks()):
        fault(f"{lesson.name}.bench", "no unit has cUNEQ and no other cause")
    if any(container.columns for containers in lesson.containers for container in containers):
        fault(f"{lesson.name}.bench", "a container has violations")


def look_at_which(lesson, fault):
    """A character below and one above, the earliest of two, spaces alone and but one; and every call that can name a character does."""
    said = [one.lines[0] for one in lesson.shown]
    for line in ("rx refused 5 3", "rx refused 20 2", "rx refused 21", "rx refused 20 15", "rx refused 5 15", "rx refused 4"):
        if line not in said:
            fault(f"{lesson.name}.bench", f"nothing is answered with {line}")
    for call in ("tx ", "rx ", "container ", "", "cat ", "lookup ", "list "):
        pattern = r"(5|20) \d+ \d+" if call == "list " else rf"{call}refused (5|20)( \d+){'{2}' if call in ('cat ', 'lookup ') else ''}"
        pattern += " pairs=0" if call == "cat " else ""  # no pair of traces is compared in what is refused before 13
        if not any(re.fullmatch(pattern, line) for line in said):
            fault(f"{lesson.name}.bench", f"no {call or 'sink '}names a character")


def traces_of(data):
    """The traces of a catalogue's records, in hex."""
    return [data[place + 10 : place + 40].upper() for place in range(0, len(data), RECORD)]


def pairs_of(traces):
    """How many pairs are compared, up to the first that is alike: later record by later record, each with those before it."""
    pairs = 0
    for later, trace in enumerate(traces):
        for earlier in traces[:later]:
            pairs += 1
            if earlier == trace:
                return pairs
    return pairs


def checks(lesson):
    """Each check of a catalogue, and the traces of its records."""
    for one in lesson.shown:
        if one.command == "cat":
            yield one, traces_of((read_line(lesson.script[one.number - 1])[0] + [""])[1])


def look_at_checks(lesson, fault):
    """The pairs that are printed are those of the script's bytes, and none where length or record was refused before any two were compared."""
    for one, traces in checks(lesson):
        due = pairs_of(traces) if re.match("cat (ok|refused 13) ", one.lines[0]) else 0
        if one.field("pairs") != str(due):
            fault(f"{lesson.name}.bench:{one.number}", f"{due} pairs of traces are compared; printed: {one.lines[0]}")


def look_at_pairs(lesson, fault):
    """Good catalogues of no record to four, a repeat early, in the last pair and of two the earlier, and one refused before it comes to a repeat; the bound."""
    place, said = f"{lesson.name}.bench", [one.lines[0] for one, _ in checks(lesson)]
    for line in [f"cat ok {count} pairs={count * (count - 1) // 2}" for count in range(5)] + ["cat refused 13 2 1 pairs=1", "cat refused 13 4 3 pairs=6", "cat refused 13 3 2 pairs=3"]:
        if line not in said:
            fault(place, f"nothing is answered with {line}")
    if not any(one.field("pairs") == "0" and len(set(traces)) < len(traces) for one, traces in checks(lesson)):
        fault(place, "no catalogue with a repeated trace is refused before any pair")
    for count in (LONGEST, LONGEST // 2):
        if f"{count * (count - 1) // 2:,}" not in "\n".join(lesson.script):
            fault(place, f"nothing is said of the pairs of {count} records")


def sheets(lesson):
    """Each import and export: what it was given, and what it answered where it was not refused, as bytes."""
    for one in lesson.shown:
        if one.command in ("import", "export"):
            given = bytes.fromhex("".join(read_line(lesson.script[one.number - 1])[0][1:]))
            made = re.fullmatch(rf"{one.command} ok ?([0-9A-F]*)", one.lines[0])
            yield one, given, bytes.fromhex(made[1]) if made else None


def look_at_texts(lesson, fault):
    """The text that stands above an import is the one that it is given, and above an export the one that it prints."""
    for one, given, made in sheets(lesson):
        first = one.number - 1
        while lesson.script[first - 1].startswith("#   "):
            first -= 1
        text = "".join(f"{line[4:]}\n" for line in lesson.script[first : one.number - 1]).replace("<CR>", "\r").replace("<no LF>\n", "")
        if (given if one.command == "import" else made) != text.encode():
            fault(f"{lesson.name}.bench:{one.number}", f"above it stands another text than its bytes are: {text!r}")


def look_at_sheet(lesson, fault):
    """A sheet as it came, mended line by line, imported, exported and imported again; what is malformed, too long, or twice; and 300000, with quotes and without."""
    place, said = f"{lesson.name}.bench", list(sheets(lesson))
    for wanted in ("import refused 15 2", "import refused 16 1", "import refused 16 2", "import refused 17 2", "import refused 13 2 1"):
        if not any(one.lines[0] == wanted for one, _, _ in said):
            fault(place, f"nothing is answered with {wanted}")
    back = [(given, made) for one, given, made in said if one.command == "export"]
    if not any(one.command == "import" and (made, given) in back for one, given, made in said):
        fault(place, "no text that was exported is imported again, as the same catalogue")
    for wanted, number in ((b',300000,', "16"), (b',"300000",', None), (b'""', None), (b"\r\n", "15")):
        if not any(one.command == "import" and wanted in given and (made is not None if number is None else f" refused {number} " in one.lines[0]) for one, given, made in said):
            fault(place, f"no import with {wanted} is {f'refused with {number}' if number else 'good'}")
    if not any(one.command == "import" and not given.endswith(b"\n") and given and " refused 15 " in one.lines[0] for one, given, _ in said):
        fault(place, "no last line without its LF is refused with 15")


def sent_at(unit, place):
    """The payload byte at a place of a unit, where all units up to it were plain and at offset 0: that of the seed, after docs/BENCH.md."""
    row, column = divmod(place - 9, 261)
    x = unit - 1
    for _ in range(row * 260 + column):
        x = (x * 1664525 + 1013904223) % 2**32
    return x >> 24


def look_at_stuck(lesson, fault):
    """A line stuck at 0 changes just those bytes of its table that were sent with a 1 there. The same counts come of single hits, in another column each;
    and a burst hits many, once."""
    place, changed, unit = f"{lesson.name}.bench", {}, 1
    for words in commands(lesson.script):
        if words[0] == "xor":
            changed.setdefault(unit, {})[int(words[1])] = int(words[2], 16)
        unit += words[0] == "sink"
    head = next((re.findall(r"\d+", line) for line in lesson.script if re.match(r"# +unit +place \d", line)), [])
    table = {int(row[0]): row[1:] for row in (re.findall(r"[0-9A-F]+\*?", line) for line in lesson.script if re.match(r"#  +\d+ +[0-9A-F]{2}", line))}
    for unit, row in table.items():
        sent = {int(slot): sent_at(unit, int(slot)) for slot in head}
        ones = [slot for slot, byte in sent.items() if byte & 0x20]
        if row != [f"{byte:02X}{'*' if slot in ones else ''}" for slot, byte in sent.items()] + [str(len(ones))] or changed.get(unit, {}) != dict.fromkeys(ones, 0x20):
            fault(place, f"unit {unit} was sent with {[f'{byte:02X}' for byte in sent.values()]}; its table has {row}, and changed are {changed.get(unit, {})}")
    columns = [sum(container.columns for container in containers) for containers in lesson.containers]  # of each unit: none ends two
    ones = [bin(byte).count("1") for byte in columns]
    stuck = slice(min(table, default=1), max(table, default=0) + 1)  # the units that tell of those
    alike = [columns[k : k + len(columns[stuck])] for k in range(stuck.stop, len(columns)) if ones[k : k + len(columns[stuck])] == ones[stuck]]
    if len(table) < 6 or set(columns[stuck]) != {0, 0x20}:
        fault(place, f"the stuck line shows as {columns[stuck]}")
    if not any(len(set(other)) == 1 + sum(map(bool, other)) for other in alike):
        fault(place, "no single hits have the same counts, in another column each")
    if sum(count > 3 for count in ones) != 1:
        fault(place, "there is not one burst")


def look_at_most(lesson, fault):
    place = f"{lesson.name}.bench"
    told = [(one.field("settled"), one.field("total")) for one in lesson.sinks()]
    if told != [("0", str(count)) for count in range(1, 67)] + [("1", "66")]:
        unsettled = sum(settled == "0" for settled, _ in told)
        fault(place, f"{unsettled} of {len(told)} units end unsettled, not the first 66 of 67, or the total is another")
    with open(os.path.join(ROOT, "examples", "settling", "worst.bench"), encoding="ascii") as file:
        worst = file.read().split("\n")
    if commands(lesson.script) != commands(worst):
        fault(place, "its commands are not those of examples/settling/worst.bench")


def look_at_links(page, text, fault):
    """A link leads to a file that is there; `[Word](FILE) `name`` is a definition of that name in it."""
    folder = os.path.dirname(page)
    for target, name in re.findall(r"\]\(([^)#]+)(?:#[^)]*)?\)(?: `([^`]+)`)?", text):
        path = os.path.normpath(os.path.join(folder, target))
        if not os.path.exists(os.path.join(ROOT, path)):
            fault(page, f"{target} is not there")
        elif name and not re.search(rf"^(?:(?:abbrev|unfoldable) pub {re.escape(name)} :|pub record {re.escape(name)}\b)", read(path).decode(), re.MULTILINE):
            fault(page, f"{target} has no definition {name}")


# ---- all of them

def read(path):
    try:
        with open(os.path.join(ROOT, path), "rb") as file:
            return file.read()
    except OSError as error:
        sys.exit(f"lessons.py: {error}")


def lesson_of(program, name, fault):
    text = read(f"lessons/{name}.bench")
    if not text.startswith(b"# ") or not text.endswith(b"\n") or not text.isascii():
        fault(f"{name}.bench", "it does not open with a comment, does not end with LF, or is not ASCII")
    printed = play(program, text, name)
    compare(name, printed, read(f"lessons/{name}.out"), fault)
    script = text.decode(errors="replace").split("\n")
    return Lesson(name, script, pair(name, script, printed.decode(errors="replace").splitlines(), fault), fault)


def main():
    if len(sys.argv) < 2:
        sys.exit("usage: lessons.py PROGRAM [ARGS..]")
    program = [os.path.abspath(sys.argv[1]), *sys.argv[2:]]
    failed = 0

    def fault(place, what):
        nonlocal failed
        failed += 1
        print(f"lessons.py: {place}: {what}")

    try:
        files = os.listdir(FOLDER)
    except OSError as error:
        sys.exit(f"lessons.py: {error}")
    scripts, kept = ({file[:-len(end)] for file in files if file.endswith(end)} for end in (".bench", ".out"))
    for name in sorted(scripts ^ kept):
        fault(name, "a script without its .out, or the other way round")
    lessons = [lesson_of(program, name, fault) for name in sorted(scripts & kept)]
    pages, card = {page: read(page).decode() for page in PAGES}, read(CARD).decode()
    for lesson in lessons:
        look_at_claims(lesson, fault)
        look_at_strange_lines(lesson, fault)
        look_at_questions(lesson, pages[PAGES[0]], fault)
        look_at_rules(lesson, card, fault)
        look_at_checks(lesson, fault)
        look_at_texts(lesson, fault)
    look_at_rows(lessons, pages[PAGES[0]], fault)
    minutes = sum(int(said) for said in re.findall(r"^\*\*.*\*\* \((\d+)\)$", pages[PAGES[0]], re.MULTILINE))
    if not 0 < minutes <= HOUR:
        fault(PAGES[0], f"the lessons take {minutes} minutes")
    by_name = {lesson.name: lesson for lesson in lessons}
    for name, look in ((STEPS, look_at_steps), (TOGETHER, look_at_together), (MOST, look_at_most), (NOTHING, look_at_nothing), (WHICH, look_at_which),
                       (PAIRS, look_at_pairs), (SHEET, look_at_sheet), (STUCK, look_at_stuck)):
        if name in by_name:
            look(by_name[name], fault)
        else:
            fault("lessons", f"{name} is not there")
    for page, text in pages.items():
        look_at_links(page, text, fault)
    units = sum(len(lesson.sinks()) for lesson in lessons)
    if failed:
        print(f"lessons: {len(lessons)} scripts, {units} units, {failed} faults")
        sys.exit(1)
    print(f"lessons: {len(lessons)} scripts, {units} units, all as kept")


if __name__ == "__main__":
    main()
