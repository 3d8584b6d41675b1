#!/usr/bin/env python3
"""Which definitions one must believe for what is promised and proved: a table, kept in docs/READING.md.

Usage: believe.py            compares the table in docs/READING.md with the repository; what is wrong is printed, and the status is then 1.
       believe.py --write    writes it anew, between its two marks.
       believe.py --names    prints of each statement the files, and in each the definitions that it does not come to; then those to which none comes.

The statements are the promises of the entry points (the first table of docs/PROMISES.md), those of a crate together, and demand 3 (the theorems that
docs/RULES.md names for the whole of it). From the definitions that a promise or a theorem names it goes on by name, through what each of these names in
turn, by the `use` lines of its file, to all that the statement means. What the language brings along (Prim, mathlib, lib) is not followed. The structs
and enums of the code that these definitions or the function's signature name are told too, with those that their fields have.

Lines are counted without blank lines, comments and `use` lines: in the definitions that are reached, with the heads of the modules that these stand in,
and in the whole of their files.

What only proofs and inner functions need stands in files specs/Inner*.antt. A statement that comes to a definition of such a file is a fault.
"""
import collections
import functools
import pathlib
import sys

sys.dont_write_bytecode = True  # nothing is left beside the tests
sys.path.insert(0, str(pathlib.Path(__file__).resolve().parent.parent / "tests"))
import names  # noqa: E402
import promises  # noqa: E402
import rules  # noqa: E402

PAGE = names.ROOT / "docs" / "READING.md"
MARKS = ("<!-- believe -->", "<!-- /believe -->")
INNER = "Inner"
HEAD = ["Statement", "Lines reached", "Whole files", "Definitions, beside those above", "The code's types, beside those above"]

Statement = collections.namedtuple("Statement", "label definitions types")


# ---- what is stated

def statements():
    calls = collections.defaultdict(list)
    for function in promises.entry_points():
        calls[function.split("::")[0]].append(function)
    for functions in calls.values():
        cited = {name for function in functions for name in names.cited()[function]}
        yield statement(", ".join(f"`{function}`" for function in functions), cited, {name for function in functions for name in in_signature(function)})
    for theorem in rules.demand():
        said = names.said_by(theorem)
        yield statement("demand 3: " + ", ".join(f"`{name}`" for name in said), said, set())


def statement(label, roots, types):
    found = {whole(name) for name in names.reached(roots)}
    return Statement(label, found, types_from(types.union(*(names.types_named()[name] for name in found))))


@functools.cache
def cases():
    """A data type's cases, each as a `use` line would bring it in, to the data type."""
    return {f"{owner.rpartition('.')[0]}.{case}": owner for owner, _, case in (part.rpartition(".") for part in names.parts())}


def whole(name):
    """The definition that a reached name is of."""
    if name not in names.definitions():
        if name not in cases():
            raise names.Unreadable(f"{name} is reached, and is no definition")
        name = cases()[name]
    return name


# ---- the code's types

def in_signature(function):
    """The types that a function's parameters and its answer have."""
    source = names.code(names.ROOT / names.public_functions()[function].file)
    parameters, answer = names.signatures()[function]
    return set(names.types_in(" ".join([*(kind for _, kind in parameters), answer]), function.split("::")[0], source))


def types_from(roots):
    """These types and those of their fields."""
    found, left = set(), list(roots)
    while left:
        name = left.pop()
        if name not in names.types():
            raise names.Unreadable(f"{name} is no struct and no enum of a lib.rt")
        if name not in found:
            found.add(name)
            left.extend(names.types()[name].names)
    return found


# ---- lines

def file_of(definition):
    return names.definitions()[definition].file


@functools.cache
def lines_of(file):
    """The numbers of a file's lines that count, and those of each of its definitions."""
    lines = names.text_of(names.ROOT / file).split("\n")
    counted = {number for number, line in enumerate(lines, 1) if line.strip() and not line.lstrip().startswith(("--", "use ", "pub use "))}
    return counted, dict(names.own_lines(names.ROOT / file))


def by_file(definitions):
    """The definitions of each file by their own names, the files in the order of crates.txt."""
    files = collections.defaultdict(set)
    for name in sorted(definitions, key=lambda name: (crates().index(name.split("/")[0]), file_of(name))):
        files[file_of(name)].add(name.partition(".")[2])
    return files


@functools.cache
def crates():
    return names.crates_of(names.groups())


def reached_lines(file, own):
    counted, lines = lines_of(file)
    return len(counted & set().union(*(lines[name] for name in own)))


# ---- the table

def told(files):
    return ", ".join(f"[{file.split('/')[1]}/{pathlib.PurePath(file).stem}](../{file})" for file in files)


def told_types(types):
    """Each crate with its types, in the order of crates.txt."""
    found = collections.defaultdict(list)
    for name in sorted(types, key=lambda name: (crates().index(name.split("::")[0]), names.types()[name].place.line)):
        found[name.split("::")[0]].append(name)
    return "; ".join(f"[{crate}](../{names.types()[own[0]].place.file}) " + ", ".join(f"`{name.split('::')[1]}`" for name in own) for crate, own in found.items())


def table(all_statements):
    yield "| " + " | ".join(HEAD) + " |"
    yield "|---|--:|--:|---|---|"
    seen, seen_types = set(), set()
    for stated in all_statements:
        files = by_file(stated.definitions)
        lines = sum(reached_lines(file, own) for file, own in files.items())
        of = sum(len(lines_of(file)[0]) for file in files)
        cells = [stated.label, str(lines), str(of), told([file for file in files if file not in seen]), told_types(stated.types - seen_types)]
        yield "| " + " | ".join(cell or "none" for cell in cells) + " |"
        seen.update(files)
        seen_types.update(stated.types)


def block(all_statements):
    return "\n".join([MARKS[0], "", *table(all_statements), "", MARKS[1]])


def print_names(all_statements):
    for stated in all_statements:
        print(stated.label.replace("`", ""))
        for file, own in by_file(stated.definitions).items():
            counted, lines = lines_of(file)
            left = [name for name in lines if name not in own]
            print(f"  {file}: {reached_lines(file, own)} lines of {len(counted)}" + (f"; not {', '.join(left)}" if left else ""))
        print(f"  {' '.join(sorted(stated.types))}")
    reached = set().union(*(stated.definitions for stated in all_statements))
    files = {file_of(name) for name in reached}
    print("no statement, though of these files")
    for file, own in by_file(name for name in names.definitions() if name not in reached and file_of(name) in files).items():
        print(f"  {file}: {', '.join(sorted(own))}")


# ---- what is wrong

def inner_faults(all_statements):
    """A definition of an Inner file that a statement comes to, with what names it."""
    for stated in all_statements:
        for name in sorted(stated.definitions):
            if pathlib.PurePath(file_of(name)).name.startswith(INNER):
                naming = sorted(other for other in stated.definitions if name in names.uses().get(other, ()))
                place = names.definitions()[name]
                yield f"{place.file}:{place.line}: {name} is reached from {stated.label.replace('`', '')}, by {', '.join(naming) or 'its own words'}"


def split(text):
    """The page before the block, the block, and what follows; nothing where the marks are not there once, in order."""
    before, begin, rest = text.partition(MARKS[0])
    inside, end, after = rest.partition(MARKS[1])
    if not end or any(mark in part for mark in MARKS for part in (before, inside, after)):
        return None
    return before, begin + inside + end, after


def first_other(found, want):
    """The first line at which the page is another, and how that row should begin."""
    have, wanted = found[1].split("\n"), want.split("\n")
    at = next((at for at, pair in enumerate(zip(have, wanted)) if pair[0] != pair[1]), min(len(have), len(wanted)))
    return found[0].count("\n") + at + 1, wanted[at].split(" | ")[0].strip("| ") if at < len(wanted) else MARKS[1]


def main():
    if sys.argv[1:] not in ([], ["--check"], ["--write"], ["--names"]):
        print(__doc__.split("\n\n")[1], file=sys.stderr)
        return 2
    try:
        all_statements = list(statements())
        if sys.argv[1:] == ["--names"]:
            print_names(all_statements)
            return 0
        faults = list(inner_faults(all_statements))
        want = block(all_statements)
        found = split(names.text_of(PAGE))
    except (OSError, UnicodeDecodeError, names.Unreadable) as fault:
        print(f"believe.py: {fault}", file=sys.stderr)
        return 2
    if not found:
        faults.append(f"{names.shown(PAGE)}: {MARKS[0]} and {MARKS[1]} do not stand in it once, in this order")
    elif sys.argv[1:] == ["--write"]:
        PAGE.write_text(found[0] + want + found[2], encoding="utf-8")
    elif found[1] != want:
        line, row = first_other(found, want)
        faults.append(f"{names.shown(PAGE)}:{line}: what must be believed is not that of the repository (tools/believe.py --write writes it), from here on: {row}")
    for fault in faults:
        print(fault)
    files = {file_of(name) for stated in all_statements for name in stated.definitions}
    print(f"believe: {len(all_statements)} statements, {len(files)} files; faults: {len(faults)}")
    return 1 if faults else 0


if __name__ == "__main__":
    sys.exit(main())
