#!/usr/bin/env python3
"""Brings the repository's own names in specs/, proofs/ and clauses to snake case, once, after the toolchain's port.py.

    python3 tools/respell.py        at the top of the repository

A definition, lemma or field of the repository's own that is written in camel case or with dashes is written with
underscores; types, facts and modules keep their capitals. A lemma that would then have the name of a definition ends in
`_lem`. Names of libraries, of functions of src/, of files and of what the prover makes stay. It prints what it renamed.
"""
import collections
import glob
import re

OWN_PROOF = re.compile(r'/proofs/.+/(Proof|Answers|Invariants)\.antt$')
WORD = re.compile(r"[^\s(){};,\[\]\"·.λ→:]+")
LIBRARY = re.compile(r'^use ((?:mathlib|native|borrow|lib|Prim|denote|Rattle\.std)[^{\n]*)\{([^}]*)\}', re.M)
CAMEL = re.compile(r"^[a-z][A-Za-z0-9']*[A-Z][A-Za-z0-9']*$")
DASHED = re.compile(r"^[A-Za-z0-9_']+(-[A-Za-z0-9_']+)+$")

# Names that would fall together with a definition's, where the file alone tells which is meant.
BY_FILE = {
    'crates/history/proofs/Outcomes.antt': {'all_pass': 'all_pass_lem'},
    'crates/history/proofs/Limits.antt': {
        'block_within': 'block_within_lem',
        'row_within': 'row_within_lem',
        'eras-within': 'eras_within_lem',
    },
    'crates/history/proofs/Rescues.antt': {'from_row': 'from_row_lem', 'write_cell': 'write_cell_lem'},
}
# Fields of records, which may have a definition's name but not inside their own record, and what port.py had respelled.
CHOSEN = {
    'ends-operation': 'ends_the_operation',
    'eras-within': 'eras_within',
    'comes-about': 'comes_about',
    'no-entries': 'no_entries',
    'read-log': 'read_log_lem',
}


def read(path):
    with open(path, encoding='utf-8') as file:
        return file.read()


def antt():
    return sorted(glob.glob('crates/*/specs/**/*.antt', recursive=True) + glob.glob('crates/*/proofs/**/*.antt', recursive=True))


def code(text):
    """The words of a file's lines that are no comment and no import."""
    for line in text.split('\n'):
        if not line.lstrip().startswith('--') and not line.startswith('use '):
            yield from WORD.findall(line)


def library_names():
    names = set()
    for path in antt():
        for found in LIBRARY.finditer(read(path)):
            names |= {word.split(' as ')[0].strip() for word in found.group(2).split(',')}
    return names


def snake(name):
    name = name.replace('-', '_')
    return re.sub(r'([a-z0-9])([A-Z])', lambda found: f'{found.group(1)}_{found.group(2).lower()}', name) if name[0].islower() else name


def renamed():
    """What each own name becomes."""
    own = {word for path in antt() if not OWN_PROOF.search(path) for word in code(read(path))} - library_names()
    names = {name for name in own if CAMEL.match(name) or DASHED.match(name)}
    taken = {snake(name) for name in names if CAMEL.match(name)}
    together = collections.defaultdict(set)
    table = {}
    for name in sorted(names):
        table[name] = CHOSEN.get(name) or (snake(name) + '_lem' if DASHED.match(name) and snake(name) in taken else snake(name))
        together[table[name]].add(name)
    for name, olds in together.items():
        if len(olds) > 1:
            print(f'respell: {sorted(olds)} fall together as {name}')
    return table


def turn(text, table):
    """A text with each whole word of a table replaced."""
    return WORD.sub(lambda found: table.get(found.group(), found.group()), text)


def turn_antt(path, table):
    by_file = {**table, **BY_FILE.get(path, {})}
    camel = {old: new for old, new in table.items() if CAMEL.match(old)}
    return '\n'.join(turn(line, camel if line.lstrip().startswith('--') else by_file) for line in read(path).split('\n'))


def turn_source(path, table):
    """The clauses and ghost imports of a source file: only they have camel case in small letters."""
    camel = {old: new for old, new in table.items() if CAMEL.match(old)}
    ghost = re.compile(r'^\s*(ghost use|ensures|requires)\b')
    lines, inside = [], False
    for line in read(path).split('\n'):
        inside = inside or bool(ghost.match(line))
        lines.append(turn(line, camel) if inside or line.lstrip().startswith('//') else line)
        if inside and (line.rstrip().endswith(';') or line.strip() == '{' or line.rstrip().endswith('}')):
            inside = False
    return '\n'.join(lines)


def turn_edit(path, table):
    antt_file = 'file: src/' not in read(path)
    return '\n'.join(turn(line, table) if antt_file and line.startswith(('old:', 'new:')) else line for line in read(path).split('\n'))


def main():
    table = renamed()
    turned = 0
    edits = glob.glob('crates/*/must-fail/*.edit') + glob.glob('tests/edits/*/*.edit')
    for paths, turner in ((antt(), turn_antt), (glob.glob('crates/*/src/*.rt'), turn_source), (edits, turn_edit)):
        for path in paths:
            text = turner(path, table)
            if text != read(path):
                turned += 1
                with open(path, 'w', encoding='utf-8') as file:
                    file.write(text)
    for old, new in sorted(table.items()):
        print(f'{old} -> {new}')
    print(f'respell: {len(table)} names, {turned} files')


if __name__ == '__main__':
    main()
