#!/usr/bin/env python3
"""Holds docs/PROMISES.md to the repository.

Usage: promises.py [PAGE]     PAGE is docs/PROMISES.md where none is given.

Every public function of a library stands in one row of a table of five columns: function, promise, definition, one outcome, rules out. Of each row:

    definition    names every definition that the function's contract cites (a contract that cites none says "none")
    one outcome   names theorems of crates/promises/proofs that read this function's own contract, and of its outcome the whole answer and every
                  buffer lent for writing, each by itself; the one exception is written out below
    rules out     names two edits or more of the function's own crate, each of which changes the function, or what it rests on there: the
                  code that it calls or the definitions that its contract cites; where it changes a definition, the word stands
                  beside it. A crate for tests may have fewer.

No function of the section of entry points has a requires.
Every theorem of crates/promises/proofs whose name ends in `_determined` stands in a row, and `Determines` says there what is written out below.
Whatever else the page sets in backquotes as a name (`crate::function`, `crate/label`, `crate/File.name`, `a_theorem`) must exist; a name of several
small words is a theorem's, unless a crate has it. What is wrong is printed with its line, then a summary; the status is 1 where anything is, and 2 where
the text cannot be read.
"""
import collections
import functools
import re
import sys

sys.dont_write_bytecode = True  # no folder beside the tests
import names

PAGE = "docs/PROMISES.md"
ENTRY = "## Entry points"  # the section of what a host or a user calls
COLUMNS = ["Function", "Promise", "Definition", "One outcome", "Rules out"]
FOR_TESTS = "probe"  # crates whose names begin so
PROMISES = "promises/proofs/"
# functions whose answer has more than one slice in it: what the theorem says instead, of the definition that the contract cites
EXCEPTIONS = {
    "view::of": "(e : Ended) (size : ℕ) (done unit first second first' second' : List ℕ) "
    "→ Views e size done unit first second → Views e size done unit first' second' → (first ≡ first') × (second ≡ second')",
}
# what all the other theorems say, of a function's contract `Post` and of a reading `f` of its outcome
DETERMINES = (
    "abbrev pub Determines : {O : Type 0} (n : ℕ) (ps : List (ParamKind n)) (r : ResultKind n) "
    "→ Out n ps r → ((κs : Lfts n) → (res_t r κs).Denot → AtExit (ended_of n ps r) κs → O) → Type 0 "
    "Determines n ps r Post f = (κs : Lfts n) (a : Dens κs ps) (x y : (res_t r κs).Denot) (s t : AtExit (ended_of n ps r) κs) "
    "→ Post κs a x s → Post κs a y t → f κs x s ≡ f κs y t"
)
# where the words of these have their meaning; the last of them is a part of what is lent, and no word that a file may have
MEANINGS = {
    "Determines": ["Rattle.promises.proofs.Determined"],
    "Views": ["Rattle.view.specs.View"],
    "◌≡◌": ["Rattle.std.specs.Prelude", "mathlib.Core.Path"],
    **dict.fromkeys(["Out", "ended_of", "ParamKind", "ResultKind", "Dens", "res_t"], ["borrow.Fn.Kinds"]),
    "Lfts": ["contract.Lifetimes"],
    "AtExit": ["denote.Triple.Clauses"],
    "now": [],
}

FUNCTION = re.compile(r"[a-z_0-9]+::(?:[A-Z]\w*::)?[a-z_0-9]+")
EDIT = re.compile(r"[a-z_0-9]+/[a-z_0-9]+")
DEFINITION = re.compile(r"[a-z_0-9]+/(?:proofs/)?[A-Z]\w*\.\S+")
THEOREM = re.compile(r"[a-z0-9]+(?:_[a-z0-9]+)+")

READING = re.compile(r"Determines \{O = [^{}]+\} \d+ (?P<ps>\S+)\.ps (?P<r>\S+)\.r (?P<post>\S+)\.Post \(λ κs r e\. (?P<read>.*)\)")
GATHERED = re.compile(r"record \{ (.*) \}")
# the answer, the bytes of one that is a slice, what a parameter has at exit
READ = re.compile(r"r|r(?:\.bytes)?\.now|e(?:\.1)*\.0\.now(?:\.at|\.out\.now)?")
# structs that are a lent part and nothing else: the reading that has its bytes
SHOWN = {"Record": "r.bytes.now", "Record<'a>": "r.bytes.now"}
# structs that are a lent buffer and the place in it: the parts of what one has at exit
HELD = {"Writer": [".at", ".out.now"]}
# a type of the code: whether it is lent, for writing, and what is
LENT = re.compile(r"(?P<lent>&\s*(?:'\w+\s+)?(?P<writing>mut\b)?)?(?P<what>.*)", re.S)

Row = collections.namedtuple("Row", "line function definition outcome rules")
Stated = collections.namedtuple("Stated", "says aliases place")


# ---- the page

def quoted(text):
    return re.findall(r"`([^`]+)`", text)


def matching(pattern, text):
    """The names of a kind that a text sets in backquotes."""
    return [name for name in quoted(text) if pattern.fullmatch(name)]


def cells(line):
    return [cell.strip() for cell in line.strip().strip("|").split("|")]


def rows(lines, say):
    """The rows of the page's tables. A table whose columns are others is not about functions, and says so by its head."""
    inside = False
    for number, line in enumerate(lines, 1):
        if not line.startswith("|"):
            inside = False
            continue
        row = cells(line)
        if row == COLUMNS:
            inside = True
        elif inside and len(row) != len(COLUMNS):
            say(number, f"a row of {len(row)} columns, not {len(COLUMNS)}")
        elif inside and not set(line) <= set("|- "):
            named = matching(FUNCTION, row[0])
            if len(named) == 1:
                yield Row(number, named[0], *row[2:])
            else:
                say(number, f"a row that begins with no function: {row[0]}")


def entry_points():
    """The functions of the section of entry points, in its order."""
    _, heading, rest = names.text_of(names.ROOT / PAGE).partition(f"\n{ENTRY}\n")
    found = [row.function for row in rows(rest.partition("\n## ")[0].split("\n"), lambda line, what: None)]
    if not found or not set(found) <= set(names.public_functions()):
        raise names.Unreadable(f"{PAGE}: no functions under '{ENTRY}', or one that is not there")
    return found


# ---- what an edit changes, and what a function rests on

@functools.cache
def by_file():
    """The items of the code and the definitions of each file, as (line, name), in order."""
    files = collections.defaultdict(list)
    for name, place in [*names.items().items(), *names.definitions().items()]:
        files[place.file].append((place.line, name))
    return {file: sorted(found) for file, found in files.items()}


def name_at(file, line):
    """The item or the definition that a line belongs to: the last one that begins there or before."""
    return next((name for first, name in reversed(by_file().get(file, [])) if first <= line), f"nothing that has a name in {file}")


@functools.cache
def calls():
    """The items of its own file that each item of the code comes to: functions that it calls, constants and types that it names."""
    found = {}
    for file, starts in by_file().items():
        lines = names.text_of(names.ROOT / file).split("\n")
        here = {name.split("::")[-1]: name for _, name in starts if "::" in name}
        for (first, name), (following, _) in zip(starts, starts[1:] + [(len(lines) + 1, "")]):
            code = "\n".join(line.split("//")[0] for line in lines[first - 1 : following - 1])
            # a small word that is not called is a parameter, whatever function has its name
            named = re.findall(r"\b(?:[a-z]\w*(?=\()|[A-Z]\w*)", code)
            found[name] = {here[word] for word in named if word in here}
    return found


def rests_on(function):
    """The code that a function comes to in its own file, and the definitions that its contract comes to."""
    found, left = set(names.reached(names.cited()[function])), [function]
    while left:
        name = left.pop()
        if name not in found:
            found.add(name)
            left.extend(calls()[name])
    return found


@functools.cache
def changed(edit):
    """The items and definitions that an edit changes. Its `old:` text stands once in its file; a later one is looked for in what the earlier ones left."""
    found, file, old, texts = set(), None, None, {}
    for line in names.text_of(names.ROOT / names.edits()[edit].file).split("\n"):
        if line.startswith("file: "):
            file = f"crates/{edit.split('/')[0]}/{line[6:]}"
            texts.setdefault(file, names.text_of(names.ROOT / file))
        elif line.startswith("old: "):
            old = line[5:]
        elif line.startswith("new:") and file and old:
            at = texts[file].find(old)
            if at < 0 or texts[file].count(old) > 1:
                raise names.Unreadable(f"{edit}: its text does not stand once in {file}: {old}")
            found.add(name_at(file, names.line_of(texts[file], at)))
            texts[file] = texts[file][:at] + line[4:].removeprefix(" ") + texts[file][at + len(old) :]
    return found


# ---- theorems

def one_line(text):
    return " ".join(text.split())


def proofs():
    """The files of crates/promises/proofs, each with its text."""
    for path in sorted((names.ROOT / "crates/promises/proofs").glob("*.antt")):
        yield path, names.antt_text(path)


@functools.cache
def statements():
    """The theorems of crates/promises/proofs by their short names: what each says, and what the aliases of its file are, as `crate::function Kinds`."""
    found = {}
    for path, text in proofs():
        aliases = {}
        for module, alias in re.findall(r"^(?:pub )?use (\S+) as (\S+)$", text, re.M):
            if alias in aliases:
                raise names.Unreadable(f"{names.shown(path)}: two modules are named {alias}")
            aliases[alias] = re.sub(r"^Rattle\.(\w+)\.proofs\.((?:\w+\.)?\w+)\.(Kinds|Reads)$", lambda found: f"{found[1]}::{found[2].replace('.', '::')} {found[3]}", module)
        for stated in names.STATED.finditer(text):
            place = names.Place(names.shown(path), names.line_of(text, stated.start()), True)
            if stated[1] in found:
                raise names.Unreadable(f"{place.file}:{place.line}: there are two theorems {stated[1]}")
            found[stated[1]] = Stated(one_line(stated[2]), aliases, place)
    return found


def at_exit(place):
    """How a theorem reads the parameter at a place, counted from 0, as the call leaves it."""
    return f"e{'.1' * place}.0.now"


def outcome_of(function):
    """What a function leaves, as (what it is, the readings that have all of it): its answer, and what was lent for writing."""
    parameters, result = names.signatures()[function]
    if result not in ("", "()"):
        yield "the answer", [SHOWN[result]] if result in SHOWN else ["r.now", "r"] if LENT.match(result)["lent"] else ["r"]
    for place, (name, kind) in enumerate(parameters):
        lent = LENT.match(kind)
        if lent["writing"]:
            what = lent["what"].strip()
            what = function.split("::")[-2] if what == "Self" else what
            for part in HELD.get(what, [""]):
                yield f"what `{name}{part}` has at exit", [at_exit(place) + part]


def hidden(function):
    """The types of a function's parameters and of its answer in which something is lent: what it leaves there is read by no theorem of this form."""
    parameters, result = names.signatures()[function]
    found = [kind for kind in [*(kind for _, kind in parameters), result] if kind not in SHOWN and re.search("[&']", LENT.match(kind)["what"])]
    return found + [result] * bool(LENT.match(result)["writing"])


def readings(theorem, function):
    """What a theorem reads of the outcome of a function, and a fault, or nothing."""
    stated = statements().get(theorem)
    if not stated:
        return [], f"{theorem} is no public theorem of {PROMISES}"
    found = READING.fullmatch(stated.says)
    if not found:
        return [], f"{theorem} is not of the form Determines {{O = ..}} n F.ps F.r F-promise.Post (λ κs r e. ..)"
    for part, kind in (("ps", "Kinds"), ("r", "Kinds"), ("post", "Reads")):
        if stated.aliases.get(found[part]) != f"{function} {kind}":
            what = "its contract" if part == "post" else f"its .{part}"
            return [], f"{theorem} does not read {what}: {found[part]} is {stated.aliases.get(found[part], 'unknown')}, not {function} {kind}"
    gathered = GATHERED.fullmatch(found["read"])
    read = [field.partition("=")[2].strip() for field in gathered[1].split(";")] if gathered else [found["read"]]
    other = next((reading for reading in read if not READ.fullmatch(reading)), None)
    if other is not None:
        return read, f"{theorem} reads `{other}`, which is neither the whole answer nor all that a buffer has at exit"
    return read, None


# ---- what is held

def short_theorems():
    return {name.split(".", 1)[1] for name in names.theorems()}


def check_outcome(row, say):
    theorems = matching(THEOREM, row.outcome)
    if not theorems:
        say(row.line, f"{row.function}: no theorem is named")
        return
    if row.function in EXCEPTIONS:
        for theorem in theorems:
            stated = statements().get(theorem)
            if "exception" not in row.outcome or not stated or stated.says != EXCEPTIONS[row.function]:
                say(row.line, f"{row.function}: {theorem} of {PROMISES} is not the exception that is written out in tests/promises.py")
        return
    read = set()
    for theorem in theorems:
        found, fault = readings(theorem, row.function)
        read.update(found)
        if fault:
            say(row.line, f"{row.function}: {fault}")
    named, left = ", ".join(theorems), list(outcome_of(row.function))
    for what, ways in left:
        if read.isdisjoint(ways):
            say(row.line, f"{row.function}: {what}, `{ways[0]}`, is not read by {named}")
    for reading in sorted(read - {way for _, ways in left for way in ways}):
        if reading.startswith("e."):
            say(row.line, f"{row.function}: {named} reads `{reading}`, where nothing is lent for writing")
    for kind in hidden(row.function):
        say(row.line, f"{row.function}: what it leaves in {kind} is read by no theorem of this form")


def check_theorems(seen, faults):
    """Each theorem stands in a row, so that it is held to its function; and says what it should."""
    for name, stated in statements().items():
        if name.endswith("_determined") and name not in seen:
            faults.append(f"{stated.place.file}:{stated.place.line}: {name} stands in no row of {PAGE}")
    for path, text in proofs():
        own = dict(names.own_texts(path))
        brought = collections.defaultdict(set)
        for module, items in re.findall(r"^(?:pub )?use (\S+)\.\{([^}]*)\}", text, re.M):
            for item in items.split(","):
                brought[item.split()[-1]].add((module, item.split()[0]))
        for word, modules in MEANINGS.items():
            if word == "Determines" and path.stem == "Determined":
                if one_line(own.get(word, "")) != DETERMINES:
                    faults.append(f"{names.shown(path)}: {word} does not say what is written out in tests/promises.py")
            elif word in own or not brought[word] <= {(module, word) for module in modules}:
                faults.append(f"{names.shown(path)}: {word} is not that of {' or '.join(modules) or 'what is lent'}")


def check_definition(row, say):
    named, cited = matching(DEFINITION, row.definition), names.cited()[row.function]
    for name in cited:
        if name not in named:
            say(row.line, f"{row.function}: its contract cites {name}, which the row does not name")
    if not cited and not row.definition.startswith("none"):
        say(row.line, f"{row.function}: its contract cites no definition, and the row does not begin with 'none'")


def check_rules(row, say):
    crate = row.function.split("::")[0]
    named = [edit for edit in matching(EDIT, row.rules) if edit in names.edits()]
    own = {edit for edit in named if edit.startswith(crate + "/")}
    if len(own) < 2 and not crate.startswith(FOR_TESTS):
        say(row.line, f"{row.function}: {len(own)} edits of its own crate are named, not two")
    for clause in row.rules.split(";"):
        for edit in sorted(own & set(quoted(clause))):
            fault = edit_fault(edit, row.function, clause)
            if fault:
                say(row.line, f"{row.function}: {fault}")


def edit_fault(edit, function, clause):
    """What is wrong with an edit in the clause that says what it does, or nothing."""
    try:
        what = changed(edit)
    except (names.Unreadable, OSError) as fault:
        return fault
    if not what & rests_on(function):
        return f"{edit} changes {', '.join(sorted(what))}, on which it does not rest"
    in_specs = not what.isdisjoint(names.definitions())
    if in_specs != ("definition" in clause.replace(edit, "")):
        return f"{edit} changes {'a' if in_specs else 'no'} definition, and the row says otherwise"
    return None


def check_names(lines, say):
    """Every name on the page exists. Answers with the names of each kind."""
    kinds = [("function", FUNCTION, names.public_functions()), ("edit", EDIT, names.edits()),
             ("definition", DEFINITION, {**names.definitions(), **names.theorems()}), ("theorem", THEOREM, short_theorems())]
    found = {}
    for kind, pattern, known in kinds:
        found[kind] = set()
        for number, line in enumerate(lines, 1):
            for name in matching(pattern, line):
                if kind == "theorem" and name not in known and name in names.crates_of(names.groups()):
                    continue
                found[kind].add(name)
                if name not in known:
                    say(number, f"there is no {kind} {name}")
    return found


def check_page(page, faults):
    lines = names.text_of(names.ROOT / page).split("\n")

    def say(line, what):
        faults.append(f"{page}:{line}: {what}")

    faults.extend(names.strays())
    found = check_names(lines, say)
    seen, theorems = {}, set()
    for row in rows(lines, say):
        if row.function not in names.public_functions():
            continue  # said above
        if row.function in seen:
            say(row.line, f"{row.function} stands at line {seen[row.function]} too")
        seen[row.function] = row.line
        theorems.update(matching(THEOREM, row.outcome))
        check_outcome(row, say)
        check_definition(row, say)
        check_rules(row, say)
    for function, place in names.public_functions().items():
        if function not in seen:
            faults.append(f"{place.file}:{place.line}: {function} stands in no row of {page}")
    for function in entry_points():
        if function in names.asking():
            say(seen.get(function), f"{function}, an entry point, has a requires")
    check_theorems(theorems, faults)
    return len(seen), found


def main():
    if len(sys.argv) > 2 or sys.argv[1:2] in (["-h"], ["--help"]):
        print(__doc__.split("\n\n")[1], file=sys.stderr)
        return 2
    faults = []
    try:
        functions, found = check_page(sys.argv[1] if len(sys.argv) == 2 else PAGE, faults)
    except (names.Unreadable, OSError) as fault:
        print(f"promises.py: {fault}", file=sys.stderr)
        return 2
    for fault in faults:
        print(fault)
    print(f"PROMISES.md: {functions} functions, {len(found['edit'])} edits, {len(found['definition'])} definitions, "
          f"{len(found['theorem'])} theorems, {len(faults)} wrong")
    return 1 if faults else 0


if __name__ == "__main__":
    sys.exit(main())
