#!/usr/bin/env python3
"""Brings the repository's own names in specs/ and proofs/ to the library's spelling.

    python3 tools/respell.py        at the top of a checkout that port.py has just turned

A word or lemma of ours is spelled in snake case (`judge-causes` becomes `judge_causes`), a fact, type or record in upper camel case
(`Judged-exactly` becomes `JudgedExactly`). A name stays where the new spelling would be a word of the library that we use beside it.
Names of Rust code, strings, comments, inputs and outputs stay as they are. The names that were changed are printed.
"""
import collections, glob, os, re, sys

NAME = r"[A-Za-z_][A-Za-z0-9_'′≡≢≤<+*∷-]*"
TOKEN = re.compile(r"(?<![A-Za-z0-9_'′≡≢≤<+*∷«-])" + NAME)
DECLARED = re.compile(r"^(\s*)(?:(?:abbrev|unfoldable|pub|record|data|ruleset|mutual)\s+)*(" + NAME + r")\s*(?:[({].*)?\s:(?:\s|$)")
GENERATED = re.compile(r'(Answers|Choices|Invariants|Proof)\.antt$')
IMPORT = re.compile(r"^\s*(?:ghost |pub )?use\s+([^\s{;]+)\.\{(.*)\}")
BY_HAND = {'nth-getD': 'nth_get_or'}


def respelled(name):
    if name in BY_HAND:
        return BY_HAND[name]
    if name[0].isupper():
        return ''.join(part[:1].upper() + (part[1:].lower() if part.isupper() else part[1:]) for part in name.split('-'))
    return '_'.join(part.lower() if part.isupper() and len(part) > 1 else part for part in name.split('-'))


def main():
    antt = sorted(glob.glob('crates/*/specs/**/*.antt', recursive=True) + glob.glob('crates/*/proofs/**/*.antt', recursive=True))
    code = sorted(glob.glob('crates/*/src/**/*.rt', recursive=True))
    edits = sorted(glob.glob('crates/*/must-fail/*.edit'))
    own, of_library = set(), set()
    for file in antt + code:
        for line in open(file, encoding='utf-8'):
            found = IMPORT.match(line)
            if found:
                crate = re.match(r'Rattle\.(\w+)\.', found[1])
                if not (crate and os.path.isdir('crates/' + crate[1])):
                    of_library |= {part.split(' as ')[0].strip() for part in found[2].split(',')}
                continue
            if file.endswith('.rt') or line.lstrip().startswith('--'):
                continue
            found = DECLARED.match(line)
            if found and '-' in found[2] and not (GENERATED.search(file)):
                own.add(found[2])
    kept = sorted(name for name in own if name in of_library or respelled(name) in of_library)
    names = {name: respelled(name) for name in own if name not in kept}
    back = collections.Counter(names.values())
    clash = [name for name in names if back[names[name]] > 1]
    if clash:
        sys.exit(f'these fall together: {clash}')

    def turned(text):
        return TOKEN.sub(lambda it: names.get(it[0], it[0]), text)

    def turned_line(line):
        at = line.find('--')
        return turned(line) if at < 0 else turned(line[:at]) + line[at:]

    changed = 0
    for file in antt + code + edits:
        text = open(file, encoding='utf-8').read()
        lines = text.split('\n')
        if file.endswith('.antt'):
            lines = [turned_line(line) for line in lines]
        elif file.endswith('.rt'):
            clause = False          # within a clause or a ghost item, until its braces close
            depth = 0
            for i, line in enumerate(lines):
                bare = line.lstrip()
                if not clause and re.match(r'(ghost|requires|ensures)\b', bare):
                    clause, depth = True, 0
                if clause:
                    lines[i] = turned(line)
                    depth += line.count('{') - line.count('}')
                    if depth <= 0 and (line.count('{') or bare.endswith((';', ','))):
                        clause = False
        elif re.match(r'file: specs/', text):
            lines = [turned(line) if line.startswith(('old: ', 'new: ')) else line for line in lines]
        new = '\n'.join(lines)
        if new != text:
            open(file, 'w', encoding='utf-8').write(new)
            changed += 1
    for name in sorted(names):
        print(f'{name} -> {names[name]}')
    print(f'{len(names)} names, {changed} files; kept: {" ".join(kept)}')


main()
