#!/usr/bin/env python3
"""The names of this repository, read from its own text: public functions, definitions, theorems, edits, and what each promise cites.

Usage: names.py functions|items|definitions|theorems|parts|edits|cases|cited     prints the names, each with its place.

As a module, each of these answers with a dictionary in the order of the files:

    public_functions()   `crate::name`            -> Place     a library's `pub fn` and `pub extern "C" fn`; a program has none. A method is `crate::Type::name`, here and below
    signatures()         `crate::name`            -> its parameters, each a name and a type, and its result; of the public functions
    items()              `crate::name`            -> Place     every function, constant, struct and enum, private ones too; of a module `crate::module::name`
    definitions()        `crate/File.name`        -> Place     the top-level names of crates/*/specs/*.antt
    theorems()           `crate/proofs/File.name` -> Place     those of crates/*/proofs/*.antt, but not of what proves one function, proofs/FUNCTION/*.antt
    parts()              either, `.part` behind   -> Place     a record's fields and a data type's cases, in specs and proofs
    edits()              `crate/label`            -> Place     crates/*/must-fail/*.edit
    cases()              `name`                   -> Place     the cases of second/coverage.rs, each of which a random script must meet
    contracts()          `crate::name`            -> the definitions, `crate/File.name`, that the contract of a library's function cites
    cited()              the same of the public functions alone
    asking()             the functions, `crate::name`, that have a requires
    uses()               definition or theorem    -> the definitions and theorems that its own text names
    said_by(theorem)     the definitions that its statement names
    types()              `crate::Name`            -> Type      the structs and enums of the libraries' lib.rt
    types_named()        definition               -> the structs and enums, `crate::Name`, that its own text names
    groups()             crates.txt: the headings, each with its crates, each with those that it rests on
    exports()            the static libraries, `card_c` -> `card`: each does nothing but export the functions of that library to C
    strays()             faults: whatever else is public and a function in a library, as in a module, where no page could name it; a crate that rests on a program's part;
                         a static library whose exports are not its library's functions by name, parameters, answer, clauses and what these words mean, each a call of its function

A Place is a file, from the repository's root, a line, and whether the name is public there. A fault of the text that stops the reading
(a contract that does not close, a definition named twice, a comment of another kind than `//` and `--`) is raised as Unreadable; the program then exits with 2.
"""
import collections
import fnmatch
import functools
import os
import pathlib
import re
import sys

ROOT = pathlib.Path(__file__).resolve().parent.parent

Place = collections.namedtuple("Place", "file line public")


class Unreadable(Exception):
    """The text is not as it is expected to be."""


def text_of(path):
    return path.read_text(encoding="utf-8")


def shown(path):
    """A path from the repository's root."""
    return path.relative_to(ROOT).as_posix()


def files(pattern):
    """The files of a pattern, in order. A crate's out/ is rt's, which may write there meanwhile: it is not gone into."""
    front, deep, name = pattern.partition("/**/")
    if not deep:
        return sorted(ROOT.glob(pattern))
    found = []
    for top in ROOT.glob(front):
        for at, folders, own in os.walk(top):
            place = pathlib.Path(at)
            if place.parent == ROOT / "crates" and "out" in folders:
                folders.remove("out")
            found += [place / file for file in own if fnmatch.fnmatchcase(file, name)]
    return sorted(found)


def put(names, name, place):
    if name in names:
        raise Unreadable(f"{place.file}:{place.line}: {name} stands at {names[name].file}:{names[name].line} too")
    names[name] = place


# ---- crates

# behind a static library's name in crates.txt; how such a name ends
STATIC, EXPORTS = " staticlib", "_c"


@functools.cache
def groups():
    found, path = [], ROOT / "crates.txt"
    for number, line in enumerate(text_of(path).split("\n"), 1):
        crate, colon, on = line.partition(":")
        if line.startswith("#"):
            found.append((line[1:].strip(), {}))
        elif found and colon and (crate := crate.removesuffix(STATIC)) not in crates_of(found):
            found[-1][1][crate] = on.split()
        elif line:
            raise Unreadable(f"{shown(path)}:{number}: no heading, and no further crate under one")
    return found


def crates_of(of_groups):
    return [crate for _, own in of_groups for crate in own]


@functools.cache
def exports():
    lines = text_of(ROOT / "crates.txt").split("\n")
    static = [line.partition(":")[0].removesuffix(STATIC) for line in lines if not line.startswith("#") and line.partition(":")[0].endswith(STATIC)]
    for crate in static:
        if not crate.endswith(EXPORTS) or crate.removesuffix(EXPORTS) not in crates_of(groups()):
            raise Unreadable(f"crates.txt: {crate} is a static library, and not NAME{EXPORTS} of a library NAME")
    return {crate: crate.removesuffix(EXPORTS) for crate in static}


def is_ours(crate):
    return (ROOT / "crates" / crate).is_dir()


# ---- antt: definitions and theorems

# modifiers; then a name and its type, or a record, data type or set of rules
MODIFIERS = r"(?P<modifiers>(?:(?:pub|abbrev|unfoldable|private) )*)"
TYPED = re.compile(MODIFIERS + r"(?P<names>[^\s(){}:=]\S*(?: [^\s(){}:=]\S*)*?) :(?:\s|$)")
NAMED = re.compile(MODIFIERS + r"(?P<form>record|data|ruleset) (?P<name>[^\s(){}:=]\S*)\s")
MODULE = re.compile(r"module \S+.*")
SKIPPED = ("use ", "pub use ", "pub mod ", "unfolding ", "--")

# the files that prove one function
OF_FUNCTION = ("Proof.antt", "Invariants.antt", "Answers.antt")

Name = collections.namedtuple("Name", "name line public owner heads")


def antt_text(path):
    """The text of an antt file. Its comments are those of a line's rest, so that a name at a line's start is never one."""
    text = text_of(path)
    if "{-" in text:
        raise Unreadable(f"{shown(path)}:{line_of(text, text.index('{-'))}: a comment in braces; write -- before each line of it")
    return text


def antt_names(path):
    """The names of a file. The owner is the record or data type of a part, else nothing; the heads are the lines of those of the modules it stands in.

    A module's body counts as the file's own, whatever its depth; what stands deeper than the body that holds it is a continuation.
    """
    bodies = [(-1, "module", None, 0)]  # for each open body: the indent of its head, its form, its head's line or its name, the indent of what is in it
    for number, line in enumerate(antt_text(path).split("\n"), 1):
        body = line.lstrip(" ")
        if not body or body.startswith("--"):
            continue
        indent = len(line) - len(body)
        while indent <= bodies[-1][0]:
            bodies.pop()
        outside, form, owner, inside = bodies[-1]
        if inside is None:
            inside = indent
            bodies[-1] = (outside, form, owner, inside)
        if indent != inside or body.startswith(SKIPPED):
            continue
        if form == "module" and MODULE.match(body):
            bodies.append((indent, "module", number, None))
            continue
        heads = [head for _, kind, head, _ in bodies[1:] if kind == "module"]
        found = NAMED.match(body) if form == "module" else None
        if found:
            yield Name(found["name"], number, "pub" in found["modifiers"], None, heads)
            if found["form"] != "ruleset":
                bodies.append((indent, found["form"], found["name"], None))
            continue
        found = TYPED.match(body)
        if found:
            for name in found["names"].split(" "):
                yield Name(name, number, form == "data" or "pub" in found["modifiers"], None if form == "module" else owner, heads)


def antt_files(folder):
    """A crate's antt files in a folder, as (crate, the file's name without its ending, path); not those that prove one function, which have a folder of its name."""
    for path in files(f"crates/*/{folder}/**/*.antt"):
        inside = path.relative_to(ROOT / "crates")
        if path.name != "Lib.antt" and not (path.name in OF_FUNCTION and path.parent.name != folder):
            yield inside.parts[0], "/".join(inside.with_suffix("").parts[2:]), path


def antt_table(folder, wanted):
    names = {}
    for crate, stem, path in antt_files(folder):
        front = f"{crate}/{stem}" if folder == "specs" else f"{crate}/{folder}/{stem}"
        for found in antt_names(path):
            if wanted(found.owner):
                full = f"{front}.{found.owner}.{found.name}" if found.owner else f"{front}.{found.name}"
                put(names, full, Place(shown(path), found.line, found.public))
    return names


@functools.cache
def definitions():
    return antt_table("specs", lambda owner: owner is None)


@functools.cache
def theorems():
    return antt_table("proofs", lambda owner: owner is None)


@functools.cache
def parts():
    names = antt_table("specs", lambda owner: owner is not None)
    names.update(antt_table("proofs", lambda owner: owner is not None))
    return names


# ---- rt: public functions and what they cite

# a function at a line's start, or a method one step in
FUNCTION = re.compile(r'^(?:    )?(?P<public>pub )?(?:extern "C" )?fn (?P<name>\w+)', re.M)
ITEM = re.compile(r'^(?:    (?=(?:pub )?fn ))?(?P<public>pub )?(?:(?:extern "C" )?fn|const|struct|enum) (?P<name>\w+)', re.M)
# what a type can do, and what it does as a trait has it
IMPL = re.compile(r"^impl(?:<[^{\n]*?>)? (?:(?P<trait>[^{\n]+) for )?(?P<type>\w+)[^{\n]*\{", re.M)
IMPORT = re.compile(r"^(?:    )?ghost use (?P<path>[^\s;{]+?)(?:\.\{(?P<names>[^}]*)\}| as (?P<alias>\S+));", re.M)
SPECS = re.compile(r"^Rattle\.(?P<crate>\w+)\.specs\.(?P<file>[^.]+)$")
CLAUSE = re.compile(r"\b(?P<word>requires|ensures)\b[^{\n]*\{")
BOUND = re.compile(r"λ ([^.]*)\.\s")
# a name with its type behind it
MADE = re.compile(r"(?<![^\s(){},;])[^\s(){},;]+ :(?=\s)")
# a text, a character, a comment of a line's rest, the begin of one of the other kind
LITERAL_OR_COMMENT = re.compile(r'"(?:\\.|[^"\\\n])*"|\'(?:\\(?:x\w\w|.)|[^\'\\\n])\'|//[^\n]*|/\*')
# `pub` and, with whatever words between, `fn`; a field has a colon between, any other item a brace, `=` or `;`
PUBLIC = re.compile(r"\bpub\b(?:[^;{}=:]|::)*?\bfn\b(?:\s+(?P<name>\w+))?")

Signature = collections.namedtuple("Signature", "parameters result")


# what programs share, and nothing but programs may rest on
SHARED = "programs"


def own_part(crate, other):
    """Whether a crate may rest on another, if that is a program's: its own part, or what programs share."""
    return not program_of(other) or program_of(crate) == program_of(other) or bool(program_of(crate)) and other == SHARED


@functools.cache
def program_of(crate):
    """The program that a crate is, or is a part of; nothing where it is a library of its own.

    A crate with a main.rt is a program, and one with a program's name and an underscore in front is a part of it: their functions are the program's own. So are those of the
    crate `programs`, which all of them share.
    """
    if crate == SHARED:
        return SHARED
    programs = [path.parent.parent.name for path in ROOT.glob("crates/*/src/main.rt")]
    return next((program for program in programs if crate == program or crate.startswith(program + "_")), None)


def rt_files(pattern="src/*.rt"):
    """The sources of the libraries, as (crate, path); a static library has only exports of one of them."""
    for path in files(f"crates/*/{pattern}"):
        crate = path.relative_to(ROOT / "crates").parts[0]
        if not program_of(crate) and crate not in exports():
            yield crate, path


def line_of(text, at):
    return text.count("\n", 0, at) + 1


@functools.cache
def code(path):
    """The text of a source with blanks for its comments, and for the braces in its literals: what stands in it stands at its place."""
    text = text_of(path)

    def blanked(found):
        if found[0] == "/*":
            raise Unreadable(f"{shown(path)}:{line_of(text, found.start())}: a comment of more than a line; write // before each line of it")
        return " " * len(found[0]) if found[0].startswith("//") else re.sub("[{}]", " ", found[0])

    return LITERAL_OR_COMMENT.sub(blanked, text)


def in_braces(text, at):
    """Whether a place stands in braces: those of an impl, a module or a function."""
    return text.count("{", 0, at) > text.count("}", 0, at)


@functools.cache
def impls(text):
    """The begin and the end of each `impl` of a source, with its type and its trait, or nothing."""
    return [(found.end(), closing(text, found.end(), "an impl"), found["type"], found["trait"]) for found in IMPL.finditer(text)]


def owned(text, at):
    """The `impl` that a place stands in, as its type and its trait; nothing where it stands in none."""
    return next(((of, trait) for start, end, of, trait in impls(text) if start <= at < end), None)


def full_name(text, at, name):
    """A function's name, behind that of its type where it is a method."""
    owner = owned(text, at)
    return f"{owner[0]}::{name}" if owner else name


def public_found():
    """The public functions that a page can name, those of lib.rt itself and the methods of its types: each name with its file, the code there and where it stands in it."""
    for crate, path in rt_files("src/lib.rt"):
        text = code(path)
        for found in FUNCTION.finditer(text):
            owner = owned(text, found.start())
            if found["public"] and (owner and not owner[1] or not in_braces(text, found.start())):
                yield f"{crate}::{full_name(text, found.start(), found['name'])}", path, text, found


@functools.cache
def public_functions():
    names = {}
    for name, path, text, found in public_found():
        put(names, name, Place(shown(path), line_of(text, found.start()), True))
    return names


@functools.cache
def strays():
    faults = [f"crates.txt: {crate} rests on {other}, a part of the program {program_of(other)}"
              for _, own in groups() for crate, on in own.items() for other in on if not own_part(crate, other)]
    faults += export_faults()
    for crate, path in rt_files("**/*.rt"):
        text = code(path)
        for found in PUBLIC.finditer(text):
            place = Place(shown(path), line_of(text, found.start()), True)
            if public_functions().get(f"{crate}::{full_name(text, found.start(), found['name'])}") != place:
                faults.append(f"{place.file}:{place.line}: `{' '.join(found[0].split())}` is public, and does not stand in lib.rt, at a line's start and in no braces, "
                              "as `pub fn` or `pub extern \"C\" fn`, or in an `impl` as `pub fn`: no page has a place for it")
    return faults


def signature(text, at, path):
    """The parameters and the result of the function whose name ends at `at`."""
    pieces, depth, at = [""], 1, text.index("(", at) + 1
    while depth:
        letter, at = text[at], at + 1
        depth += (letter in "([{<") - (letter in ")]}>")
        if letter == "," and depth == 1:
            pieces.append("")
        elif depth:
            pieces[-1] += letter
    pieces = [re.sub(r"(.*)\bself", r"self: \1Self", piece.strip()) if re.fullmatch(r"(?:&\s*)?(?:mut )?self", piece.strip()) else piece for piece in pieces]
    parameters = [re.fullmatch(r"(?:mut )?(\w+)\s*:\s*(\S.*)", piece.strip(), re.S) for piece in pieces if piece.strip()]
    if None in parameters:
        raise Unreadable(f"{shown(path)}:{line_of(text, at)}: a parameter that is no name with its type")
    result = re.compile(r"\s*->\s*([^{\n]*)").match(text, at)
    return Signature([found.groups() for found in parameters], result[1].strip() if result else "")


@functools.cache
def signatures():
    return {name: signature(text, found.end(), path) for name, path, text, found in public_found()}


@functools.cache
def items():
    names = {}
    for path in sorted(ROOT.glob("crates/*/src/*.rt")):
        front = path.parts[-3] if path.stem in ("lib", "main") else f"{path.parts[-3]}::{path.stem}"
        text = code(path)
        for found in ITEM.finditer(text):
            put(names, f"{front}::{full_name(text, found.start(), found['name'])}", Place(shown(path), line_of(text, found.start()), bool(found["public"])))
    return names


def brought(found, front):
    """What one such line brings in: its names, or `alias.`, each to the file in front."""
    names = [name.strip() for name in (found["names"] or "").split(",") if name.strip()]
    if found["alias"]:
        names.append(found["alias"] + ".")
    return dict.fromkeys(names, front)


def imports(text):
    """What a file's `ghost use` lines bring in of specs: a name, or `alias.`, to `crate/File`."""
    names = {}
    for found in IMPORT.finditer(text):
        specs = SPECS.match(found["path"])
        if not specs or not is_ours(specs["crate"]):
            continue
        front = f"{specs['crate']}/{specs['file']}"
        names.update(brought(found, front))
    return names


def closing(text, at, path):
    """The place behind the brace that closes the one before `at`."""
    depth = 1
    while depth:
        if at == len(text):
            raise Unreadable(f"{shown(path)}: a contract that does not close")
        depth += {"{": 1, "}": -1}.get(text[at], 0)
        at += 1
    return at


def contract(text, at, path):
    """The clauses of the function whose head stands at `at`, each with its word, and the names of its arguments."""
    clauses, bound, _ = parted(text, at, path)
    return clauses, bound


def parted(text, at, path):
    """The same, and the brace that opens its body: the first one that opens no clause."""
    clauses, place, head = [], at, None
    while True:
        brace = text.find("{", place)
        if brace < 0:
            raise Unreadable(f"{shown(path)}:{line_of(text, at)}: a function with no body")
        clause = CLAUSE.search(text, place, brace + 1)
        head = head or text[at : clause.start() if clause else brace]
        if not clause:
            return clauses, set(re.findall(r"(\w+)\s*:(?!:)", head)), brace
        place = closing(text, brace + 1, path)
        clauses.append((clause["word"], text[brace + 1 : place - 1]))


def words_cited(text, known, bound):
    """The names of `known` that a text cites, resolved. An operator `◌+◌` is cited by what stands between the circles; a field, `x.field` or `field =`, is not, but
    x is; nor is what has its type behind it, `x :`, for it is made there."""
    operators = {name.strip("◌"): name for name in known if name.startswith("◌") and name.endswith("◌") and len(name) > 2}
    words = re.sub(r"[(){},;]", " ", MADE.sub("", text)).split()
    for word, following in zip(words, words[1:] + [""]):
        front, dot, behind = word.partition(".")
        name = behind.partition(".")[0]
        if name and front + "." in known and front not in bound:
            yield f"{known[front + '.']}.{name}"
        elif word in operators:
            yield f"{known[operators[word]]}.{operators[word]}"
        elif front in known and (following != "=" or dot) and front not in bound:
            yield f"{known[front]}.{front}"


def bound_in(clause):
    return {name for found in BOUND.finditer(clause) for name in re.split(r"[\s():]+", found[1])}


@functools.cache
def contracts():
    names = {}
    for crate, path in rt_files():
        text = text_of(path)
        known = imports(text)
        for found in FUNCTION.finditer(text):
            clauses, bound = contract(text, found.start(), path)
            all_cited = {name for _, clause in clauses for name in words_cited(clause, known, bound | bound_in(clause))}
            names[f"{crate}::{full_name(code(path), found.start(), found['name'])}"] = sorted(all_cited)
    return names


@functools.cache
def asking():
    names = set()
    for crate, path in rt_files():
        text = text_of(path)
        for found in FUNCTION.finditer(text):
            clauses, bound = contract(text, found.start(), path)
            if any(word == "requires" for word, _ in clauses):
                names.add(f"{crate}::{full_name(code(path), found.start(), found['name'])}")
    return names


@functools.cache
def cited():
    return {name: contracts()[name] for name in public_functions()}


# ---- exports

EXPORTED = "#[unsafe(no_mangle)]\n"

# how a function looks from outside: its parameters and answer, the types that these name, its clauses, and where the words of the clauses have their meaning
Promise = collections.namedtuple("Promise", "signature types clauses meanings")


def promise(crate, path, found):
    text = code(path)
    clauses, _, brace = parted(text, found.start(), path)
    words = {word.partition(".")[0] for _, clause in clauses for word in re.sub(r"[(){},;]", " ", clause).split()}
    meanings = {}
    for line in IMPORT.finditer(text):
        for name, module in brought(line, line["path"]).items():
            if name.strip("◌").removesuffix(".") in words:
                meanings[name] = module
    said = signature(text, found.end(), path)
    typed = set(types_in(text[found.end() : brace].partition("requires")[0].partition("ensures")[0], crate, text))
    return Promise((text[found.end() : text.index("(", found.end())], said), typed, [(word, " ".join(clause.split())) for word, clause in clauses], meanings)


def export_faults():
    """What is wrong with the static libraries, where they are not what `exports` says."""
    for crate, library in exports().items():
        path, source = (ROOT / "crates" / part / "src" / "lib.rt" for part in (crate, library))
        for other in (file for ending in ("rt", "antt") for file in files(f"crates/{crate}/**/*.{ending}") if file != path):
            yield f"{shown(other)}: {crate} has exports of {library} in src/lib.rt, and nothing else"
        text = code(path)
        wanted = {found["name"]: found for found in FUNCTION.finditer(code(source)) if found["public"]}
        here = {found["name"]: found for found in FUNCTION.finditer(text)}
        for name in sorted(set(wanted) - set(here)):
            yield f"{shown(path)}: {library}::{name} is not exported"
        for name, found in here.items():
            place = f"{shown(path)}:{line_of(text, found.start())}: {name}"
            if name not in wanted:
                yield f"{place} is no public function of {library}"
                continue
            if not found["public"] or 'extern "C"' not in found[0] or not text.endswith(EXPORTED, 0, found.start()):
                yield f"{place} is not exported"
            of, own = promise(library, source, wanted[name]), promise(crate, path, found)
            for what, one, other in zip(Promise._fields, of, own):
                if one != other:
                    yield f"{place} has other {what} than that of {library}"
            brace = parted(text, found.start(), path)[2]
            body = re.sub(r"\s", "", text[brace + 1 : closing(text, brace + 1, path) - 1]).replace(",)", ")")
            if body != f"{library}::{name}({','.join(parameter for parameter, _ in own.signature[1].parameters)})":
                yield f"{place} is no call of that of {library}"


# ---- what a definition or a theorem is made of

USE = re.compile(
    r"^(?:pub )?use Rattle\.(?P<crate>\w+)\.(?P<folder>specs|proofs)\.(?P<file>[^.\s{]+)"
    r"(?:\.\{(?P<names>[^}]*)\}| as (?P<alias>\S+))$",
    re.M,
)


def used(text):
    """What the `use` lines of an antt file bring in: a name, or `alias.`, to `crate/File` or `crate/proofs/File`."""
    names = {}
    for found in USE.finditer(text):
        if not is_ours(found["crate"]):
            continue
        front = f"{found['crate']}/{found['file']}" if found["folder"] == "specs" else f"{found['crate']}/proofs/{found['file']}"
        names.update(brought(found, front))
    return names


# what a definition is not made of
NOT_OWN = ("--", "unfolding ", "use ", "module ")


def own_lines(path):
    """Each top-level name of a file with the numbers of its lines, the heads of its modules first; blank lines, comments, `unfolding` and other modules'
    heads are left out."""
    lines = text_of(path).split("\n")
    starts = [found for found in antt_names(path) if found.owner is None]
    ends = [found.line for found in starts[1:]] + [len(lines) + 1]
    for found, end in zip(starts, ends):
        own = [number for number in range(found.line, end) if lines[number - 1].strip() and not lines[number - 1].lstrip().startswith(NOT_OWN)]
        yield found.name, found.heads + own


def own_texts(path):
    """The same with their text."""
    lines = text_of(path).split("\n")
    for name, own in own_lines(path):
        yield name, "\n".join(lines[number - 1] for number in own)


def known_in(front, path):
    """All that a file's text can name: what it brings in, and its own, each to the file it is of."""
    known = used(text_of(path))
    known.update({found.name: front for found in antt_names(path) if found.owner is None})
    return known


@functools.cache
def uses():
    names = {}
    for folder in ("specs", "proofs"):
        for crate, stem, path in antt_files(folder):
            front = f"{crate}/{stem}" if folder == "specs" else f"{crate}/proofs/{stem}"
            known = known_in(front, path)
            for name, own in own_texts(path):
                names.setdefault(f"{front}.{name}", set()).update(words_cited(own, known, {name}))
    return names


# a public theorem's name and what it says, up to the next line that begins with a name
STATED = re.compile(r"^pub (\S+) :(.*(?:\n(?:[ \t].*|--.*)?)*)", re.M)


def said_by(theorem):
    """The definitions that the statement of a public theorem names; its proof may name others."""
    path = ROOT / theorems()[theorem].file
    front, _, name = theorem.partition(".")
    for found in STATED.finditer(antt_text(path)):
        if found[1] == name:
            return sorted(set(words_cited(found[2], known_in(front, path), {name})))
    raise Unreadable(f"{shown(path)}: {name} is no public theorem")


# ---- the code's own types, as definitions name them

DECLARED = re.compile(
    r"^(?:pub )?use Rattle\.(?P<crate>\w+)\.specs\.declared\.(?P<type>\w+)(?:\.TheVariants)?(?:\.\{(?P<names>[^}]*)\}| as (?P<alias>\S+))$",
    re.M,
)
TYPE = re.compile(r"^(?:pub )?(?:struct|enum) (?P<name>\w+)[^{\n]*\{", re.M)
USED_TYPE = re.compile(r"^(?:pub )?use (?P<crate>\w+)::(?:(?P<name>[A-Z]\w*)|\{(?P<names>[^{}]*)\});", re.M)

Type = collections.namedtuple("Type", "place names")


def types_in(text, crate, source):
    """The types, `crate::Name`, that a piece of a source names."""
    here = {found["name"]: crate for found in TYPE.finditer(source)}
    here.update((name.strip(), found["crate"]) for found in USED_TYPE.finditer(source) for name in (found["name"] or found["names"]).split(","))
    for front, name in re.findall(r"(?:\b(\w+)::)?\b([A-Z]\w*)", text):
        if front or name in here:
            yield f"{front or here[name]}::{name}"


@functools.cache
def types():
    """Each has its place and the types that its own fields name. A line of a field or of an enum's case begins with its name, which is no type."""
    found_types = {}
    for crate, path in rt_files("src/lib.rt"):
        source = code(path)
        for found in TYPE.finditer(source):
            body = re.sub(r"(?m)^\s*(?:pub )?\w+", "", source[found.end() : closing(source, found.end(), path) - 1])
            place = Place(shown(path), line_of(source, found.start()), found[0].startswith("pub "))
            found_types[f"{crate}::{found['name']}"] = Type(place, set(types_in(body, crate, source)))
    return found_types


@functools.cache
def types_named():
    """Of every definition. A `use` line that is not understood stops the reading: what it brings in would be left out."""
    named = {}
    for crate, stem, path in antt_files("specs"):
        text = text_of(path)
        for line in re.finditer(r"^(?:pub )?use Rattle\.(\w+).*$", text, re.M):
            if is_ours(line[1]) and not USE.fullmatch(line[0]) and not DECLARED.fullmatch(line[0]):
                raise Unreadable(f"{shown(path)}:{line_of(text, line.start())}: a use that is not understood")
        known = {}
        for found in DECLARED.finditer(text):
            known.update(brought(found, f"{found['crate']}::{found['type']}"))
        for name, own in own_texts(path):
            named[f"{crate}/{stem}.{name}"] = {cited_type.partition(".")[0] for cited_type in words_cited(own, known, {name})}
    return named


# ---- what is reached from names on

def reached(roots):
    """All that is used from these names on, they among it."""
    found, left = set(), list(roots)
    while left:
        name = left.pop()
        if name not in found:
            found.add(name)
            left.extend(uses().get(name, ()))
    return found


# ---- edits

@functools.cache
def edits():
    return {f"{path.parts[-3]}/{path.stem}": Place(shown(path), 1, True) for path in sorted(ROOT.glob("crates/*/must-fail/*.edit"))}


# ---- cases

SECOND = ROOT / "second" / "coverage.rs"


@functools.cache
def cases():
    text = text_of(SECOND)
    start = text.find("pub const NAMES")
    end = text.find("];", start)
    if start < 0 or end < 0:
        raise Unreadable(f"{shown(SECOND)}: the list NAMES of its cases is not there")
    names = {}
    for found in re.finditer(r'"([^"\n]+)"', text[start:end]):
        put(names, found[1], Place(shown(SECOND), line_of(text, start + found.start()), True))
    return names


TABLES = {
    "functions": public_functions,
    "items": items,
    "definitions": definitions,
    "theorems": theorems,
    "parts": parts,
    "edits": edits,
    "cases": cases,
}


def main():
    if len(sys.argv) != 2 or sys.argv[1] not in [*TABLES, "cited"]:
        print(__doc__.split("\n\n")[1], file=sys.stderr)
        return 2
    try:
        if sys.argv[1] == "cited":
            for name, all_cited in cited().items():
                print(f"{name}: {' '.join(all_cited)}")
        else:
            for name, place in TABLES[sys.argv[1]]().items():
                print(f"{name}  {place.file}:{place.line}")
    except Unreadable as fault:
        print(f"names.py: {fault}", file=sys.stderr)
        return 2
    return 0


if __name__ == "__main__":
    sys.exit(main())
