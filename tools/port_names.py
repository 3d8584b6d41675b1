#!/usr/bin/env python3
"""Spells the repository's own definitions and lemmas as today's Rattle does: words in snake case (`violatedOf`, `fits-own` become `violated_of`, `fits_own`).

usage: port_names.py [--check] [FOLDER]

Run once, at the top, behind the kit's port.py. It goes over the names that specs/ and the lemma files of proofs/ declare: what a file itself takes from the kit keeps its
spelling there, and so do types, modules, functions of src/ and all strings. It rewrites .antt files, clauses and `ghost use` lines of .rt files, must-fail edits, and names
in backquotes in comments and pages. What would fall together with another name of the same file it names, and then writes nothing. --check writes nothing at all.
"""
import re
import sys
from pathlib import Path

IDENT = r"[^\s(){}\[\],;.:`\"«»/]+"
DECLARED = re.compile(r"\s*(?:(?:abbrev|unfoldable|pub|record|data|ruleset) )*([A-Za-zα-ω][^\s(){}\[\],;.:]*)\s*(?:[({].*)?(?::|=|where)(?:\s|$)")
USED = re.compile(r"(?m)^\s*(?:pub |ghost )?use ([^\s{};]+?)(?:\.\{([^{}]*)\})?(?: as \S+)?;?$")


# Lemmas that the kit's script had spelled already, and that a definition of their crate would now be called.
TAKEN = [("catalogue", "pairs_of"), ("cut", "ended_by"), ("pointer", "rows_in"), ("pointer", "run_in"), ("view", "in_order")]


def snake(name):
    words = name.replace("getD", "get_or")
    words = re.sub(r"([A-Z]+)([A-Z][a-z])", r"\1_\2", words)
    words = re.sub(r"([a-z0-9])([A-Z])", r"\1_\2", words)
    return words.replace("-", "_").lower()


def old_spelling(name):
    return name[0].islower() and ("-" in name or re.search(r"[A-Z]", name)) and not name.endswith("-spec")


def lemma_files(root):
    for path in sorted(root.glob("crates/*/specs/**/*.antt")):
        yield path
    for path in sorted(root.glob("crates/*/proofs/*.antt")):
        yield path


def declared(root):
    """The names that want another spelling, with it. A lemma that would have its function's name gets `_lem`."""
    names = set()
    for path in lemma_files(root):
        for line in path.read_text().split("\n"):
            found = DECLARED.match(line)
            if found and not line.lstrip().startswith(("use ", "--", "pub mod", "mod ")):
                names.add(found[1])
    plain = {snake(name) for name in names if "-" not in name and name[0].islower()} | {"bit_xor"}
    return {name: snake(name) + ("_lem" if "-" in name and snake(name) in plain else "") for name in names if old_spelling(name)}


def own_module(path, crates):
    parts = path.split(".")
    return parts[0] == "Rattle" and len(parts) > 1 and parts[1] in crates


def foreign(text, crates):
    """The names that a text takes from the kit."""
    names = set()
    for module, group in USED.findall(text):
        if own_module(module, crates):
            continue
        for item in (group or module.split(".")[-1]).split(","):
            names.update(word for word in item.split() if word != "as")
    return names


def turn(text, mapping, kept=frozenset()):
    return re.sub(IDENT, lambda m: mapping[m[0]] if m[0] in mapping and m[0] not in kept else m[0], text)


def turn_quoted(text, mapping):
    return re.sub(r"`[^`\n]*`", lambda m: turn(m[0], mapping), text)


def split_comment(line, mark):
    """A line parted before its comment; a mark inside a string is none."""
    quoted = False
    for i, c in enumerate(line):
        if c == '"' and (i == 0 or line[i - 1] != "\\"):
            quoted = not quoted
        if not quoted and line.startswith(mark, i) and (mark == "//" or i == 0 or line[i - 1].isspace()):
            return line[:i], line[i:]
    return line, ""


def turn_lines(text, mapping, kept, mark):
    out = []
    for line in text.split("\n"):
        code, comment = split_comment(line, mark)
        out.append(turn(code, mapping, kept) + turn_quoted(comment, mapping))
    return "\n".join(out)


def clashes(path, text, mapping, kept):
    """Names of one text that would fall together. A module in a path is none."""
    code = "\n".join(split_comment(line, "--")[0] for line in text.split("\n"))
    code = re.sub(r"\b(Rattle|c)(\.[\w+-]+)+", "", code)
    spelled = {}
    for word in set(re.findall(IDENT, code)):
        spelled.setdefault(mapping[word] if word in mapping and word not in kept else word, set()).add(word)
    return [f"{path}: {', '.join(sorted(words))} would all be {name}" for name, words in sorted(spelled.items()) if len(words) > 1]


def main(argv):
    check = "--check" in argv
    rest = [it for it in argv if it != "--check"]
    root = Path(rest[0] if rest else ".")
    crates = {path.parent.parent.name for path in root.glob("crates/*/src/*.rt")}
    mapping = declared(root)
    new, said = {}, []
    for path in sorted(root.glob("crates/*/specs/**/*.antt")) + sorted(root.glob("crates/*/proofs/**/*.antt")):
        if "out" in path.relative_to(root).parts:
            continue
        text = path.read_text()
        crate, folder = path.relative_to(root).parts[1], path.parent.name
        for name in [name for where, name in TAKEN if where == crate and folder == "proofs"]:
            text = re.sub(rf"(?<![\w.-]){name}(?![\w'-])", name + "_lem", text)
        kept = foreign(text, crates)
        said += clashes(path, text, mapping, kept)
        new[path] = turn_lines(text, mapping, kept, "--")
    for path in sorted(root.glob("crates/*/src/**/*.rt")):
        text = path.read_text()
        kept = foreign(text, crates)
        new[path] = turn_lines(text, mapping, kept, "//")
    for path in sorted(root.glob("crates/*/must-fail/*.edit")):
        lines = path.read_text().split("\n")
        new[path] = "\n".join(turn(line, mapping) if line.startswith(("old:", "new:")) else turn_quoted(line, mapping) for line in lines)
    for path in sorted([root / "README.md", *root.glob("docs/**/*.md"), *root.glob("lessons/*.md")]):
        new[path] = turn_quoted(path.read_text(), mapping)
    for line in said:
        print(line)
    print(f"{len(mapping)} names, {sum(path.read_text() != text for path, text in new.items())} files, {len(said)} that fall together")
    if said or check:
        return 1 if said else 0
    for path, text in new.items():
        path.write_text(text)
    return 0


if __name__ == "__main__":
    raise SystemExit(main(sys.argv[1:]))
