#!/usr/bin/env python3
"""Forms of an older Rattle in crates/*/src: what docs/DESIGN-PASS.md counts, by its eight points.

usage: tools/forms.py [--list] [ROOT]

A line for each kind of place: the point, the kind, how many are found. With --list each place is named too. It finds candidates by their text alone: which of them
are places, and why one stays, the page says.
"""
import re
import sys
from collections import defaultdict
from pathlib import Path

NUMBER = r'(?:u8|u16|u32|u64|usize)'


def sources(root):
    for path in sorted(root.glob('crates/*/src/**/*.rt')):
        yield path.relative_to(root / 'crates'), path.read_text()


def without_comments(text):
    return re.sub(r'//[^\n]*', '', text)


def line_of(text, at):
    return text.count('\n', 0, at) + 1


def blocks(text, word):
    """Each `word NAME {..}` or `word NAME<..> {..}` at the top of a file: its place, its name, its inside."""
    for found in re.finditer(rf'^(?:pub )?{word} (\w+)(?:<[^>{{]*>)? \{{\n(.*?)^\}}', text, re.M | re.S):
        yield found.start(), found.group(1), without_comments(found.group(2))


def functions(text):
    """Each function: its place, its name, its parameters, its clauses and its body."""
    for found in re.finditer(r'^( *)(?:pub )?(?:extern "C" )?fn (\w+)(?:<[^>]*>)?\((.*?)\)(.*?)^\1\{\n(.*?)^\1\}', text, re.M | re.S):
        yield found.start(), found.group(2), ' '.join(found.group(3).split()), found.group(4), without_comments(found.group(5))


def conjuncts(clauses):
    for found in re.finditer(r'requires(?: \w+)? \{ (.*?) \}$', clauses, re.M):
        for part in found.group(1).split('×'):
            yield part.strip().strip('()').strip()


def bare(body):
    """A body with its numbers, its types of numbers and its names of constants and of variants left out."""
    body = re.sub(rf'\b{NUMBER}\b', 'T', body)
    body = re.sub(r'\b(?:0x[0-9a-f]+|\d+)(?:u8|u16|u32|u64|usize)?\b', 'N', body)
    body = re.sub(r'b?"(?:[^"\\]|\\.)*"', 'S', body)
    names = {}
    body = re.sub(r'\b[a-z_]\w*\b', lambda m: names.setdefault(m.group(0), f'x{len(names)}') if m.group(0) not in KEPT else m.group(0), body)
    return ' '.join(body.split())


KEPT = set('let mut if else while for in match return as fn true false'.split())


def places(root):
    """(point, kind) to the places found."""
    found = defaultdict(list)

    def add(point, kind, file, text, at, said):
        found[(point, kind)].append(f'{file}:{line_of(text, at)}: {said}')

    facts = defaultdict(list)
    groups = defaultdict(list)
    bodies = defaultdict(list)
    for file, text in sources(root):
        exported = file.parts[0].endswith('_c')
        for at, name, inside in blocks(text, 'enum'):
            variants = [v for v in re.split(r',\s*\n', inside) if v.strip()]
            if len(variants) == 2:
                add(1, 'enums of two variants', file, text, at, name)
        for at, name, inside in blocks(text, 'struct'):
            fields = re.findall(r'(?:pub )?(\w+): ([^\n]+),', inside)
            flags = [n for n, t in fields if t == 'bool']
            if flags and len(flags) < len(fields):
                add(1, 'structs with a flag and other values', file, text, at, f'{name}: {", ".join(flags)}')
            if any(re.fullmatch(r'answer|found|checked|repeat', n) for n, t in fields):
                add(1, 'structs with an answer and other values', file, text, at, name)
            if any(re.fullmatch(r'count|length|to|end|held|place|rest', n) for n, t in fields) and len(fields) > 1:
                add(6, 'structs with a length or a place beside values', file, text, at, name)
        for m in re.finditer(r'^(?:pub )?const (\w+): u8 = \d+;', text, re.M):
            add(1, 'constants that number kinds', file, text, m.start(), m.group(1))
        for m in re.finditer(r'^ *//.*\b(?:0|16|256)(?: is none| where (?:it names none|there is none|they are not|the quote|there is no)|,? for (?:none|any other|what is not)| of a (?:single|normal)| of any other).*$', text, re.M):
            add(1, 'numbers that say that there is none', file, text, m.start(), m.group(0).strip()[:90])
        for m in re.finditer(r'^ *while .*$', text, re.M):
            add(3, 'loops with while', file, text, m.start(), m.group(0).strip())
        for at, name, parameters, clauses, body in functions(text):
            if re.fullmatch(r'wide|least|same|pick\w*|one_if|joined|copy|fill', name):
                add(4, 'conversions, comparisons, choices, copies with a name of their own', file, text, at, name)
            if re.search(r'\b(?:number|code|kind|k|what): (?:u8|usize)\b', parameters) and re.search(r'\bmatch (?:number|code)\b|\b(?:code|kind|k) == ', body):
                add(7, 'functions that switch on a number', file, text, at, name)
            if 'out: &mut [u8]' in parameters and 'at: usize' in parameters:
                add(6, 'functions that are lent a buffer and a place in it', file, text, at, name)
            if not exported:
                for fact in set(conjuncts(clauses)):
                    facts[re.sub(r'\b(?:shape|kind|form)\.', '', fact)].append((file, text, at, name))
                names = tuple(re.findall(r'(\w+): &mut', parameters))
                if len(names) > 1:
                    groups[names].append((file, text, at, name))
                if body.count('\n') > 1 or re.search(r'\bas\b', body) or body.strip().startswith('if'):
                    bodies[bare(parameters + ' ' + body)].append((file, text, at, name))
        for m in re.finditer(rf'\bas {NUMBER}\b', without_comments(text)):
            add(4, 'conversions with as', file, without_comments(text), m.start(), m.group(0))
    for fact, where in facts.items():
        if len(where) >= 3 and 'length out.old' not in fact:
            for file, text, at, name in where:
                add(5, f'in three contracts or more: {fact}', file, text, at, name)
    for names, where in groups.items():
        if len(where) >= 3:
            for file, text, at, name in where:
                add(5, f'lent together in three functions or more: {", ".join(names)}', file, text, at, name)
    for body, where in bodies.items():
        if len(where) > 1:
            for file, text, at, name in where:
                add(2, 'functions alike but for names, types and numbers', file, text, at, name)
    answers = sorted(root.glob('crates/*/proofs/**/*.antt'))
    for path in answers:
        kind = {'Answers.antt': 'files of answers', 'Invariants.antt': 'files of invariants'}.get(path.name, 'other files of proofs')
        found[(8, kind)].append(str(path.relative_to(root / 'crates')))
    return found


def main():
    arguments = sys.argv[1:]
    named = '--list' in arguments
    roots = [a for a in arguments if a != '--list']
    if any(a.startswith('-') for a in roots) or len(roots) > 1:
        sys.exit(__doc__)
    root = Path(roots[0]) if roots else Path(__file__).resolve().parent.parent
    found = places(root)
    for (point, kind), where in sorted(found.items()):
        print(f'{point}. {kind}: {len(where)}')
        if named:
            for place in where:
                print(f'     {place}')


main()
