#!/usr/bin/env python3
"""The rules of the card (docs/CARD.md), where each is held (docs/RULES.md) and the source, held together: no rule without a row, no row without a rule,
each name in a row exists, each row hangs together, and nothing public is left out.

Usage: rules.py            checks, prints each fault with its place and a summary line, and exits with 1 on any fault.
       rules.py --index    writes docs/RULES-INDEX.md anew, and then checks.

In docs/CARD.md a rule is an item of a list, or a row of a table with the heading Rule, and begins with its number, which is its anchor:
<a id="r4-3">4.3</a>. Rules of a section are numbered from 1 on without a gap; those on refusals by the numbers of the refusals.

A row of docs/RULES.md has four cells: the rule, its number a link to that anchor, with some words; the definitions that hold it; the promises
(functions) and theorems that use these; what shows it. A rule may have several rows. In a table a backticked name is one of

    crate/File.name, crate/File.Record.part     a definition of crates/CRATE/specs/File.antt                 second cell
    crate::name                                 a function, constant, struct or enum of crates/CRATE/src     third cell
    crate/proofs/File.name                      a theorem of crates/CRATE/proofs/File.antt                   third cell
    crate/label                                 an edit, crates/CRATE/must-fail/label.edit                   fourth cell
    case NAME                                   a case of second/coverage.rs that a random script must meet  fourth cell

and is no link there. docs/RULES-INDEX.md has the same sections, each with the names that stand in its tables as links to their files; the heading of a
section here is a link to that one. The one literal that may stand in backticks is a pointer word or a trace of four characters, each 0 to 9 or A to F.
Checked is that

- the rules are numbered so, each is an item or a row of its own, and nothing is said in a list, or in a table with the heading Rule, without a number;
- the refusals' rules are the numbers that the definitions give, and the rows P1 to P12 those that are proved;
- every rule has a row, in its own section and in order, and no row is of another rule; the sections of OTHERS follow, whose rows have no number;
- of every rule some row has a definition, or says by one of the words of UNHELD why there is none;
- wherever a page, a lesson or a comment names a rule ("rule 4.3", "rules 4.1 to 4.6", CARD.md#r4-3), there is that rule;
- every name is known and stands in its cell; every link leads to a file, and to a heading or an anchor of it where it says so;
- the index is what the tables give: every name of a section with its file, and no other;
- every definition of a row is cited, itself or by way of other definitions, by a function or a theorem of that row;
- a third cell without a name begins with one of the words of UNHELD, which say plainly that no proof holds the rule;
- every public function, but of the crates of TESTS, stands in a table, and so does every definition that its contract cites; nothing else that is
  public is a function;
- every definition to which one of these contracts or demand 3 comes, by name, stands in the row of a rule; files specs/Inner*.antt have none;
- each of these functions has a theorem in crates/promises/proofs, named after it, that its promise allows one outcome;
- no function of the section on the demands, the card's calls, has a requires.
"""
import collections
import os
import re
import sys

sys.dont_write_bytecode = True  # nothing is left beside the tests
sys.path.insert(0, os.path.dirname(os.path.abspath(__file__)))
import names  # noqa: E402

CARD = names.ROOT / "docs" / "CARD.md"
RULES = names.ROOT / "docs" / "RULES.md"
INDEX = names.ROOT / "docs" / "RULES-INDEX.md"
# what stands before the sections of the index
ABOVE = """# Where the names of the rules stand

Every name in the tables of [RULES.md](RULES.md), section by section, with its file. Written by `tests/rules.py --index`.
"""

# the sections behind those of the card, in which no rule is
OTHERS = ["Where each form goes", "How much each promise must say", "Inside the card"]
# the card's sections on refusals, on the pointer table and on the demands
REFUSALS, POINTERS, DEMANDS = 12, 15, 19
HEADINGS = ["Rule", "Definition", "Promise or theorem", "Shown by"]
# the rule that is demand 3 as a whole
DEMAND = "19.4"
# how the files begin that serve proofs and inner functions alone
INNER = "Inner"
# crates for tests and benchmarks alone
TESTS = ("probe", "probe_sources", "probe_sink")
# how a third cell begins where no promise and no theorem holds the rule
UNHELD = ("a test only", "by its type", "not built", "nothing")

# where rules may be named, beside CARD.md and RULES.md
PAGES = ("README.md", "docs/**/*.md", "lessons/*", "examples/**/*.bench", "crates/**/*.antt", "crates/**/*.rt", "include/*.h")

NUMBER = r"(?<![\w.])\d+\.\d+(?![\w.]*\d)"
SECTION = re.compile(r"## (\d+)\. \S.*")
ANCHOR = re.compile(r'<a id="([^"]*)">([^<]*)</a>')
RULE = re.compile(r'(?:- |\| )<a id="r(\d+)-(\d+)">(\d+)\.(\d+)</a>(?: \|)? +[^ |]')
RULED = re.compile(r"\[(\d+\.\d+)\]\(CARD\.md#(r\d+-\d+)\) +\S")
# a rule, or several, named in a text; and the anchor of one
NAMED = re.compile(rf"\b(?:[Rr]ules?|CARD(?:\.md)?)\s+{NUMBER}(?:(?:,| to| and| or)\s+(?:rules?\s+)?{NUMBER})*")
ANCHORED = re.compile(r"CARD\.md#([\w-]+)")
# what a definition of a refusal's number says; a row of the pointer table, as it is proved
REFUSED = re.compile(r"^(?:number_of|trace_number|catalogue_number|line_number|import_number) .* = (\d+)$", re.M)
PROVED = re.compile(r"^ +(?:∷ )?row (\d+) 0x([0-9a-f]{4}) \(?(?:Adjusted )?(\w+).* (\d+)$", re.M)
TAKEN = {"NewData": "new data"}

LITERAL = re.compile(r"[0-9A-F]{4}")
TICKED = re.compile(r"`([^`]*)`")
BRACKETED = re.compile(r"\[`([^`]+)`\]")
LINK = re.compile(r"\[((?:[^\[\]]|\[[^\[\]]*\])*)\]\(([^()\s]*)\)")
HEADING = re.compile(r"## (?:\[(?P<linked>.*)\]\((?P<target>[^()\s]*)\)|(?P<plain>.*))")
INDEXED = re.compile(r"\[`([^`]+)`\]\((\S+?)\)")

Row = collections.namedtuple("Row", "line section cells")
Rule = collections.namedtuple("Rule", "line section cells")


class Faults:
    """What was found, shown in the order of the files; first what stands nowhere in one."""

    def __init__(self):
        self.all = []

    def add(self, line, text, file=RULES):
        self.all.append((names.shown(file), line or 0, text))

    def show(self):
        first = [names.shown(page) for page in (CARD, RULES)]
        for file, line, text in sorted(self.all, key=lambda fault: (first.index(fault[0]) if fault[0] in first else len(first), fault[:2])):
            print(f"{file}:{line}: {text}" if line else f"{file}: {text}")


# ---- names

def place_of(name):
    """The kind of a name in a table and the file it stands in; nothing for an unknown one."""
    if name.startswith("case "):
        place = names.cases().get(name[len("case "):])
        return ("case", place.file) if place else None
    for kind, table in (
        ("definition", names.definitions),
        ("theorem", names.theorems),
        ("edit", names.edits),
        ("function", names.items),
    ):
        if name in table():
            return kind, table()[name].file
    if name in names.parts():
        place = names.parts()[name]
        return ("theorem" if "/proofs/" in name else "definition"), place.file
    return None


def whole(name):
    """A definition or a theorem, of one of its parts too."""
    return name if name in names.definitions() or name in names.theorems() else name.rpartition(".")[0]


CELL_OF = {"definition": 1, "function": 2, "theorem": 2, "edit": 3, "case": 3}


# ---- the card

def rule_at(line, number, section, last, faults):
    """The number of the rule that a line begins with, as it must be behind the last one; nothing where it has none."""
    found = RULE.match(line)
    if not found:
        faults.add(number, f"'{line[:30]}': an item of a list, or a row under Rule, begins with its number and anchor, and has words behind it", CARD)
        return None
    anchor, said = (tuple(map(int, found.group(*pair))) for pair in ((1, 2), (3, 4)))
    if anchor != said:
        faults.add(number, f"rule {said[0]}.{said[1]} has the anchor of {anchor[0]}.{anchor[1]}", CARD)
    if said[0] != section:
        faults.add(number, f"rule {said[0]}.{said[1]} stands in section {section}", CARD)
    elif said[1] != last[1] + 1 and not (section == REFUSALS and said > last):
        faults.add(number, f"rule {said[0]}.{said[1]} comes behind {last[0]}.{last[1]}", CARD)
    return said


def card(text, faults):
    """The card's sections, and its rules: each number with its place and cells."""
    sections, rules, last, heads = [], {}, (0, 0), []
    for number, line in enumerate(text.split("\n"), 1):
        if line.startswith("## "):
            found = SECTION.fullmatch(line)
            if not found or int(found[1]) != len(sections) + 1:
                faults.add(number, f"the heading of section {len(sections) + 1} is '## {len(sections) + 1}. ' and its words", CARD)
            sections.append(line[len("## ") :])
            last = (len(sections), 0)
        cells = split_row(line) if line.startswith("|") else []
        begins = cells and not heads
        heads = cells and (heads or cells)
        ruled = sections and (line.startswith("- ") or cells and heads[0] == "Rule" and not begins and not line.startswith("|--"))
        if len(cells) != len(heads):
            faults.add(number, f"a row of {len(cells)} cells under {len(heads)} headings", CARD)
        if ruled:
            said = rule_at(line, number, len(sections), last, faults)
            if said:
                rules.setdefault("{}.{}".format(*said), Rule(number, sections[-1], cells))
                last = said
        for anchor, words in ANCHOR.findall(line)[bool(ruled) :]:
            faults.add(number, f"{words} has an anchor, and begins no item of a list and no row", CARD)
    return sections, rules


def check_refusals(rules, faults):
    """The refusals' rules have the numbers that the definitions give."""
    given = {int(number) for path in sorted(names.ROOT.glob("crates/*/specs/Refusals.antt")) for number in REFUSED.findall(names.text_of(path))}
    ruled = {int(number.split(".")[1]): rule.line for number, rule in rules.items() if number.startswith(f"{REFUSALS}.")}
    for number in sorted(given - set(ruled)):
        faults.add(None, f"refusal {number} of the definitions has no rule {REFUSALS}.{number}", CARD)
    for number in sorted(set(ruled) - given):
        faults.add(ruled[number], f"rule {REFUSALS}.{number} is about a refusal that no definition gives", CARD)


def check_pointers(rules, faults):
    """The table of pointer words has the rows of the theorem: offset, word, how it is taken, and the offset then."""
    table = names.ROOT / names.theorems()["pointer/proofs/Table.rows"].file
    proved = PROVED.findall(names.text_of(table))
    ruled = [rule for number, rule in rules.items() if number.startswith(f"{POINTERS}.") and rule.cells]
    if len(ruled) != len(proved) or not proved:
        faults.add(None, f"{len(ruled)} rows of the pointer table, and {len(proved)} that are proved ({names.shown(table)})", CARD)
    for n, (rule, (offset, word, taken, leads)) in enumerate(zip(ruled, proved), 1):
        wanted = [f"P{n}", offset, word.upper(), TAKEN.get(taken, taken.lower()), leads]
        if [re.split("[,:]", cell)[0] for cell in rule.cells[1:]] != wanted:
            faults.add(rule.line, f"the row should say {', '.join(wanted)}, as it is proved", CARD)


def check_named(rules, faults):
    """Wherever a rule is named, in CARD.md, in the words of a row, and on all other pages."""
    known = set(rules)
    for number, line in enumerate(names.text_of(CARD).split("\n"), 1):
        for said in re.findall(NUMBER, ANCHOR.sub("", line)):
            if said not in known:
                faults.add(number, f"there is no rule {said}", CARD)
    anchors = {f"r{number.replace('.', '-')}" for number in known} | set(map(slug, headings_of(CARD)))
    for path in sorted({path for pattern in PAGES for path in names.files(pattern) if path.is_file() and path != CARD}):
        text = names.text_of(path)
        for found in NAMED.finditer(text):
            for said in re.findall(NUMBER, found[0]):
                if said not in known:
                    faults.add(names.line_of(text, found.start()), f"there is no rule {said} of CARD.md", path)
        for found in ANCHORED.finditer(text):
            if found[1] not in anchors:
                faults.add(names.line_of(text, found.start()), f"CARD.md#{found[1]}: no such rule", path)


# ---- the file

def split_row(text):
    return [cell.strip() for cell in text.strip().strip("|").split("|")]


def section_of(heading):
    """The section that a line is the heading of, and where its link leads; nothing where there is none."""
    found = HEADING.fullmatch(heading)
    return (found["linked"] or found["plain"]).strip(), found["target"]


def tables(lines, faults):
    """The rows of the tables, with their sections."""
    rows, section, within = [], None, False
    for number, line in enumerate(lines, 1):
        if line.startswith("## "):
            section, _ = section_of(line)
        if not line.startswith("|"):
            within = False
            continue
        cells = split_row(line)
        if not within:
            within = True
            if cells != HEADINGS:
                faults.add(number, f"a table has the headings {', '.join(HEADINGS)}")
        elif not set("".join(cells)) <= set("-: "):
            if len(cells) != len(HEADINGS) or not all(cells):
                faults.add(number, f"a row has {len(HEADINGS)} cells, and none is empty")
            else:
                rows.append(Row(number, section, cells))
    return rows


def slug(heading):
    return re.sub(r"[^\w\- ]", "", heading.strip().lower()).replace(" ", "-")


def headings_of(file):
    """Those of a page; of one that is a link its words."""
    return [LINK.sub(r"\1", heading) for heading in re.findall(r"^#+ (.*)$", names.text_of(file), re.M)] if file.suffix == ".md" else []


def check_link(page, line, target, faults):
    path, sharp, anchor = target.partition("#")
    file = (page.parent / path).resolve() if path else page
    if names.ROOT not in file.parents or not file.exists():
        faults.add(line, f"{target}: no such file", page)
    elif sharp and anchor not in {*map(slug, headings_of(file)), *(found[0] for found in ANCHOR.findall(names.text_of(file)))}:
        faults.add(line, f"{target}: no such heading or anchor", page)


# ---- rows

def check_cell(row, index, faults):
    """The names of a cell, each with its kind."""
    cell, found = row.cells[index], []
    bracketed = set(BRACKETED.findall(cell))
    for name in TICKED.findall(cell):
        if LITERAL.fullmatch(name):
            continue
        known = place_of(name)
        if not known:
            faults.add(row.line, f"`{name}` is unknown")
        elif name in bracketed:
            faults.add(row.line, f"`{name}` is written in brackets: its link stands in {names.shown(INDEX)}")
        elif CELL_OF[known[0]] != index:
            faults.add(row.line, f"`{name}`, a {known[0]}, stands in the column '{HEADINGS[index]}'")
        else:
            found.append((name, known[0]))
    return found


def check_row(row, faults):
    """All names of a row."""
    found = [check_cell(row, index, faults) for index in range(len(HEADINGS))]
    if found[0]:
        faults.add(row.line, "a name in the rule")
    if not found[2] and not row.cells[2].startswith(UNHELD):
        faults.add(row.line, f"no promise or theorem, and the cell does not begin with one of: {', '.join(UNHELD)}")
    roots = set()
    for name, kind in found[2]:
        if row.section.startswith(f"{DEMANDS}. ") and name in names.asking():
            faults.add(row.line, f"`{name}`, a call of the card, has a requires")
        roots.update([whole(name)] if kind == "theorem" else names.contracts().get(name, ()))
    reached = names.reached(roots)
    for name, kind in found[1]:
        if whole(name) not in reached:
            faults.add(row.line, f"`{name}` is cited by no promise or theorem of its row")
    return [name for cell in found for name, kind in cell]


def rule_of(row):
    """The number that a row begins with, nothing where it has none."""
    found = RULED.match(row.cells[0])
    return found[1] if found else None


def check_ruled(rows, rules, faults):
    """Each row of the card's sections is of a rule of its section, and in order; no rule is without a row, and none without a definition and a word on it."""
    held, last = {}, 0
    order = list(rules)
    for row in rows:
        number = rule_of(row)
        for said in re.findall(NUMBER, RULED.sub("", row.cells[0])):
            if said not in rules:
                faults.add(row.line, f"there is no rule {said} of CARD.md")
        if row.section in OTHERS:
            if number:
                faults.add(row.line, f"rule {number} in '{row.section}', which has none")
            continue
        if not number:
            faults.add(row.line, "a row begins with the number of its rule, [S.N](CARD.md#rS-N), and has words behind it")
        elif number not in rules:
            faults.add(row.line, f"rule {number} does not stand in {names.shown(CARD)}")
        else:
            if RULED.match(row.cells[0])[2] != f"r{number.replace('.', '-')}":
                faults.add(row.line, f"the link of rule {number} leads to {RULED.match(row.cells[0])[2]}")
            if rules[number].section != row.section:
                faults.add(row.line, f"rule {number} stands in '{row.section}'")
            elif order.index(number) < last:
                faults.add(row.line, f"rule {number} comes behind {order[last]}")
            last = max(last, order.index(number))
            told = row.cells[1] != "none" or row.cells[2].startswith(UNHELD)
            held[number] = held.get(number, False) or told
    for number, rule in rules.items():
        if number not in held:
            faults.add(rule.line, f"rule {number} has no row in {names.shown(RULES)}", CARD)
        elif not held[number]:
            faults.add(rule.line, f"rule {number} has no definition in {names.shown(RULES)}, and no word that says why", CARD)


def check_sections(lines, wanted, faults):
    headings = [(number, *section_of(line)) for number, line in enumerate(lines, 1) if line.startswith("## ")]
    sections = [section for _, section, _ in headings]
    if sections != wanted:
        faults.add(None, f"the sections are {', '.join(sections)}\n    and should be {', '.join(wanted)}")
    for number, section, target in headings:
        if target != f"{INDEX.name}#{slug(section)}":
            faults.add(number, f"the heading should be a link to {INDEX.name}#{slug(section)}")


def check_complete(standing, ruled, faults):
    """Every public function, and every definition that its contract cites, in a table; and all that these come to in the row of a rule."""
    theorems = {name.rpartition(".")[2] for name in names.theorems() if name.startswith("promises/")}
    for stray in names.strays():
        faults.add(None, stray)
    for name, place in names.public_functions().items():
        crate, *own = name.lower().split("::")
        own = "_".join(own)
        if name.split("::")[0] in TESTS:
            continue
        if name not in standing:
            faults.add(None, f"{name} ({place.file}:{place.line}), a public function, stands in no table")
        if not theorems & {f"{crate}_{own}_determined", f"{own}_determined"}:
            faults.add(None, f"{name} ({place.file}:{place.line}): no theorem of crates/promises/proofs says that its promise allows one outcome")
        for definition in names.cited()[name]:
            if definition not in standing:
                known = names.definitions().get(definition)
                where = f"{known.file}:{known.line}" if known else "unknown"
                faults.add(None, f"{definition} ({where}), cited by the promise of {name}, stands in no table")
    roots = {name: cited for name, cited in names.cited().items() if name.split("::")[0] not in TESTS}
    roots.update((theorem, names.said_by(theorem)) for theorem in demand())
    whole_ruled, said = {whole(name) for name in ruled}, set()
    for name, cited in roots.items():
        for definition in sorted(set(map(whole, names.reached(cited))) - whole_ruled - said):
            known = names.definitions().get(definition)
            if known and not known.file.rpartition("/")[2].startswith(INNER):
                faults.add(None, f"{definition} ({known.file}:{known.line}), to which {name} comes, stands in the row of no rule")
            said.add(definition)


def demand():
    """The theorems that are demand 3 as a whole."""
    rows = [row for row in tables(names.text_of(RULES).split("\n"), Faults()) if rule_of(row) == DEMAND]
    found = [name for row in rows for name in TICKED.findall(row.cells[2]) if name in names.theorems()]
    if not found:
        raise names.Unreadable(f"docs/RULES.md: no theorem in a row of rule {DEMAND}")
    return found


# ---- links, and the index

def check_links(page, text, faults):
    for number, line in enumerate(text.split("\n"), 1):
        for words, target in LINK.findall(line):
            check_link(page, number, target, faults)


def rows_of_index(standing):
    """The names of one section by their crates, with cases last, each name with its file."""
    crates = collections.defaultdict(list)
    for name in sorted(standing):
        kind, file = place_of(name)
        crates["cases" if kind == "case" else re.match(r"\w+", name)[0]].append((name, f"../{file}"))
    for crate in sorted(crates, key=lambda crate: (crate == "cases", crate)):
        yield f"| {crate} | " + ", ".join(f"[`{name}`]({target})" for name, target in crates[crate]) + " |"


def index_of(sections, standing):
    """The text of the index, from the names that stand in each section."""
    text = ABOVE
    for section in sections:
        text += "\n".join(["", f"## {section}", "", "| Crate | Names |", "|---|---|", *rows_of_index(standing[section]), ""])
    return text


def indexed(text):
    """The names of an index, each with its section and link, and the line that it stands in."""
    section = None
    for number, line in enumerate(text.split("\n"), 1):
        if line.startswith("## "):
            section, _ = section_of(line)
        for name, target in INDEXED.findall(line):
            yield number, section, name, target


def check_index(text, sections, standing, faults):
    wanted = index_of(sections, standing)
    if text == wanted:
        return
    want = {(section, name): target for _, section, name, target in indexed(wanted)}
    seen, before = {}, len(faults.all)
    for number, section, name, target in indexed(text):
        if (section, name) in seen:
            faults.add(number, f"`{name}` stands in line {seen[section, name]} too", INDEX)
        elif (section, name) not in want:
            faults.add(number, f"`{name}` stands in no table of '{section}'", INDEX)
        elif want[section, name] != target:
            faults.add(number, f"the link of `{name}` should lead to {want[section, name]}", INDEX)
        seen[section, name] = number
    missing = [key for key in want if key not in seen]
    if missing:
        faults.add(None, f"{len(missing)} names are missing, `{missing[0][1]}` of '{missing[0][0]}' the first", INDEX)
    if len(faults.all) == before:
        faults.add(None, "not as tests/rules.py --index writes it", INDEX)


# ---- all of it

def check(write):
    faults = Faults()
    card_text, text = names.text_of(CARD), names.text_of(RULES)
    sections, rules = card(card_text, faults)
    sections += OTHERS
    check_refusals(rules, faults)
    check_pointers(rules, faults)
    check_named(rules, faults)
    lines = text.split("\n")
    check_sections(lines, sections, faults)
    rows = tables(lines, faults)
    check_ruled(rows, rules, faults)
    standing, ruled = collections.defaultdict(set), set()
    for row in rows:
        found = check_row(row, faults)
        standing[row.section].update(found)
        ruled.update(found if rule_of(row) in rules else [])
    every = set().union(*standing.values())
    check_complete(every, ruled, faults)
    if write:
        INDEX.write_text(index_of(sections, standing), encoding="utf-8")
    check_links(CARD, card_text, faults)
    check_links(RULES, text, faults)
    check_index(names.text_of(INDEX) if INDEX.exists() else "", sections, standing, faults)
    return faults, rules, rows, every


def summary(rules, rows, standing):
    kinds = collections.Counter(place_of(name)[0] for name in standing)
    said = ", ".join(f"{kinds[kind]} {kind}s" for kind in ("definition", "function", "theorem", "edit", "case"))
    unheld = [row for row in rows if row.cells[2].startswith(UNHELD)]
    by = ", ".join(f"{sum(row.cells[2].startswith(word) for row in unheld)} '{word}'" for word in UNHELD)
    return f"CARD.md: {len(rules)} rules; RULES.md: {len(rows)} rows, {len(standing)} names ({said}); {len(unheld)} rows that no proof holds ({by})"


def main():
    if sys.argv[1:] not in ([], ["--index"]):
        print(__doc__.split("\n\n")[1], file=sys.stderr)
        return 2
    try:
        faults, rules, rows, standing = check(bool(sys.argv[1:]))
    except (OSError, UnicodeDecodeError, names.Unreadable) as fault:
        print(f"rules.py: {fault}", file=sys.stderr)
        return 2
    faults.show()
    print(summary(rules, rows, standing) + f"; faults: {len(faults.all)}")
    return 1 if faults.all else 0


if __name__ == "__main__":
    sys.exit(main())
