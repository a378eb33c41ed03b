#!/usr/bin/env python3
"""Respells this repository's own definitions and lemmas as today's Rattle does.

Run once, at the top of the repository, right after port.py. Words of definitions, lemmas, constructors and fields
become snake case; a lemma that would then have its definition's name ends in `_lem`; `meaning/specs/Contracts` becomes
`Entries`, since Rattle makes a module `specs.contracts`; each cycle of calls gets a short name. Functions of src/,
exported names, strings, inputs and outputs keep theirs.
"""
import collections
import glob
import os
import re
import subprocess

CYCLES = {
    'act_acts_apply_assign_body_branch_call_enter_eval_finish_gather_lookup_quick_right_turns': 'running',
    'arguments_call_expr_operation': 'expressions',
    'branch_commands_ordinary_repeat_several': 'commands',
    'branch_nested_repeat_run': 'commands',
    'call_expr': 'expressions',
    'closing_pick': 'closings',
    'last_pick_sequence': 'closings',
}
# A lemma beside another whose name differs only in its dashes and capitals.
BY_HAND = {'loops-placedIn': 'placed_in_loops', 'loops-placedOf': 'placed_of_loops', 'level-of': 'level_asked',
           'size-is': 'size_is', 'in-X': 'in_x', 'contentsOf': 'contents_of'}

NAME = r"[^\s(){}\[\].,;@:λ\"`=]+"
DEFINES = re.compile(r"^\s*(?:(?:pub|abbrev|unfoldable|inline) )*(?:(?:record|data) )?(" + NAME + r")\s*(?:[({].*)?:(?!:)")
TYPE = re.compile(r"^\s*(?:pub )?(?:record|data) (\S+)")


def sources(kind):
    return sorted(f for f in glob.glob('crates/**/*' + kind, recursive=True) if '/out/' not in f)


def own(path):
    """Whether a file holds definitions or lemmas of ours, and not the proof of one function."""
    parts = path.split('/')
    if parts[2] == 'specs':
        return True
    return parts[2] == 'proofs' and all(p[0].isupper() for p in parts[3:])


def snake(name):
    name = name.replace('getD', 'get_or').replace('-', '_')
    return re.sub(r'([a-z0-9])([A-Z])', lambda m: m.group(1) + '_' + m.group(2).lower(), name)


def spellings():
    where = collections.defaultdict(set)
    imported = set()
    for path in sources('.antt'):
        text = re.sub(r'--.*', '', open(path).read())
        for words in re.findall(r'use (?:Rattle\.std|mathlib|Prim|lib|borrow|native|denote)[^;{}]*\{([^}]*)\}', text):
            imported.update(w.strip() for w in words.split(','))
        if not own(path):
            continue
        # Uses too: constructors that share a line, and what port.py left of a name that it turned where it is defined.
        for name in re.findall(r"[^\s(){}\[\].,;@:λ\"`=⟨⟩|]+", text):
            if re.fullmatch(r"[a-z][\w'?₀-₉]*(?:-[A-Za-z][\w'?₀-₉]*)+|[a-z]+[A-Z][A-Za-z]+", name):
                where[name].add(path)
        for line in text.split('\n'):
            for found in (DEFINES.match(line), TYPE.match(line)):
                if found:
                    where[found.group(1)].add(path)
    new = collections.defaultdict(set)
    for name in where:
        new[snake(name)].add(name)
    for path in sources('.rt'):
        for name in re.findall(r'ghost use .* as ([a-z]+[A-Z]\w*)', open(path).read()):
            where[name].add(path)
            new[snake(name)].add(name)
    spelt = {}
    for target, names in new.items():
        for name in names:
            if name == target or name in imported or name[0].isupper() or not re.search(r'[a-zA-Z]', name):
                continue
            others = names - {name}
            beside = any({p.split('/')[1] for p in where[o]} & {p.split('/')[1] for p in where[name]}
                         or 'meaning' in {p.split('/')[1] for p in where[o] | where[name]}
                         or 'book' in {p.split('/')[1] for p in where[o] | where[name]} for o in others)
            lemma = beside and ('-' in name) and any('-' not in o for o in others)
            spelt[name] = BY_HAND.get(name, target + '_lem' if lemma else target)
    return spelt


def respell(text, spelt, kind):
    word = re.compile(r"(?<![\w'?₀-₉′-])(" + '|'.join(sorted(map(re.escape, spelt), key=len, reverse=True)) + r")(?![\w'?₀-₉′-])")

    def turn(piece):
        return word.sub(lambda m: spelt[m.group(1)], piece)

    mark = '--' if kind == '.antt' else '//'
    lines = []
    for line in text.split('\n'):
        if kind == '.rt':
            pieces = re.split(r'("(?:[^"\\]|\\.)*"|//.*)', line)
        else:
            pieces = re.split(r'(' + mark + r'.*)', line) if re.search(r'(^|\s)--', line) else [line]
        for i, piece in enumerate(pieces):
            if piece.startswith('"'):
                continue
            if piece.startswith(mark):
                pieces[i] = re.sub(r'`[^`]*`', lambda m: turn(m.group(0)), piece)
            else:
                pieces[i] = turn(piece)
        lines.append(''.join(pieces))
    text = '\n'.join(lines)
    text = re.sub(r'\bspecs\.Contracts\b', 'specs.Entries', text)
    text = re.sub(r'\bpub mod Contracts\b', 'pub mod Entries', text)
    for old, name in CYCLES.items():
        text = text.replace('cycle(' + old + ')', 'cycle(' + name + ')').replace('+' + old, '+' + name)
    return text


def main():
    spelt = spellings()
    for kind in ('.antt', '.rt', '.edit'):
        for path in sources(kind):
            text = open(path).read()
            turned = respell(text, spelt, kind)
            if turned != text:
                open(path, 'w').write(turned)
    subprocess.run(['git', 'mv', 'crates/meaning/specs/Contracts.antt', 'crates/meaning/specs/Entries.antt'], check=True)
    for path in sorted(glob.glob('crates/**/+*', recursive=True)):
        folder, name = os.path.split(path)
        if name[1:] in CYCLES:
            os.rename(path, os.path.join(folder, '+' + CYCLES[name[1:]]))
    for name in sorted(spelt):
        print(name, spelt[name])


if __name__ == '__main__':
    main()
