#!/usr/bin/env python3
"""Plants small bugs in the proved sources, one at a time, and asks the prover.

    tests/mutants/run.py [--each N] [--seed S] [--crates a,b,..] [--scratch DIR] > table.md

Each mutant changes one place of the body of a function and keeps its names: a relation turned, a constant off by one, `|` for `&`, a
statement dropped, two arguments swapped, a condition negated, another field read. It is made in a copy of the repository, where
`rt check` checks the crate. What comes of it is one of

    proved   the mutant meets the contracts still: it must be shown to do the same, or a contract is too weak
    fact     refused since a fact fails: a need of the function is open, or a written proof shows something else
    text     refused only since a written proof names a step that the mutant has not: tells nothing of the contract
    (a mutant that is no program, of the wrong types or with a variable that is not read, is passed over)
"""
import argparse, os, random, re, shutil, subprocess, sys, time

CRATES = ['fixed', 'masks', 'line', 'page', 'order', 'links', 'domain', 'methods', 'told_domain', 'plan', 'decomposing', 'checker', 'terminal', 'yardcheck']
TURNED = {'<': '<=', '<=': '<', '>': '>=', '>=': '>', '==': '!=', '!=': '=='}
JOINED = {'&&': '||', '||': '&&', '|': '&', '&': '|'}
FIELDS = {'producer': 'consumer', 'consumer': 'producer', 'add': 'need', 'need': 'add', 'needs': 'adds', 'adds': 'needs', 'deletes': 'adds', 'step': 'label', 'label': 'step', 'taken': 'facts', 'facts': 'taken', 'next': 'written', 'written': 'next', 'first': 'end', 'end': 'first'}


NAMES = re.compile(r'that can be named from here|is not in scope|has no field|has no `|^`[^`]*`: record `[^`]*`$')
NEGATED = {'<': '>=', '<=': '>', '>': '<=', '>=': '<'}


def bodies(lines):
    """The numbers of the lines that stand in a function's body, and those of constants."""
    depth = 0          # of braces, once a body is open
    waits = False      # a signature was read, and its body is yet to open
    for i, line in enumerate(lines):
        text = line.strip()
        if depth == 0:
            if re.match(r'(pub(\(super\))? )?(extern "C" )?fn |(pub )?extern "C" fn ', text):
                waits = True
            if text.startswith(('const ', 'pub const ')):
                yield i
            if waits and text == '{':
                depth, waits = 1, False
            continue
        depth += line.count('{') - line.count('}')
        if depth > 0 and text and not text.startswith('//'):
            yield i


def mutants(line):
    """Each change of a line: what kind it is, and the line after it."""
    code = line.split('//')[0]
    for m in re.finditer(r' (<=|>=|==|!=|<|>) ', code):
        yield 'relation turned', line[:m.start(1)] + TURNED[m.group(1)] + line[m.end(1):]
    for m in re.finditer(r' (&&|\|\||\||&) ', code):
        yield 'and for or', line[:m.start(1)] + JOINED[m.group(1)] + line[m.end(1):]
    for m in re.finditer(r'(?<![\w.\'])(\d+)(?=[^\w\']|u8|usize|$)', code):
        yield 'constant off by one', line[:m.start(1)] + str(int(m.group(1)) + 1) + line[m.end(1):]
    if re.match(r'\s+(self\.|\*?\w+(\.\w+)* [|&+]?= |\w+\(&mut |let _ = |\w+\.\w+\().*;\s*$', code) and not re.match(r'\s+return', code):
        yield 'statement dropped', re.match(r'\s*', line).group(0) + '// dropped'
    for m in re.finditer(r'\b(\w+)\(([\w.]+), ([\w.]+)\)', code):
        if m.group(2) != m.group(3):
            yield 'arguments swapped', line[:m.start(2)] + m.group(3) + ', ' + m.group(2) + line[m.end(3):]
    m = re.match(r'(\s*(?:\} else )?if )((?!let ).+)( \{\s*)$', code)
    if m:
        one = re.fullmatch(r'([^&|]+) (<=|>=|<|>) ([^&|]+)', m.group(2))
        if one:
            yield 'condition negated', f'{m.group(1)}{one.group(1)} {NEGATED[one.group(2)]} {one.group(3)}{m.group(3)}'
        elif not re.search(r' (==|!=) ', m.group(2)):
            yield 'condition negated', f'{m.group(1)}!({m.group(2)}){m.group(3)}'
    for m in re.finditer(r'\.(\w+)\b(?!\()', code):
        if m.group(1) in FIELDS:
            yield 'another field read', line[:m.start(1)] + FIELDS[m.group(1)] + line[m.end(1):]


def candidates(root, crate):
    found = []
    src = os.path.join(root, 'crates', crate, 'src')
    for name in sorted(os.listdir(src)):
        path = os.path.join(src, name)
        lines = open(path, encoding='utf-8').read().split('\n')
        for i in bodies(lines):
            for kind, new in mutants(lines[i]):
                if new != lines[i]:
                    found.append((name, i, kind, lines[i], new))
    return found


def verdict(scratch, crate):
    """What the prover says of the crate as it stands in the copy."""
    run = subprocess.run(['rt', 'check'], cwd=os.path.join(scratch, 'crates', crate), capture_output=True, text=True)
    out = run.stdout + run.stderr
    if run.returncode == 0 and 'logic=proved' in out:
        return 'proved', ''
    if re.search(r'src/\w+\.rt:\d+:\d+: error(\[|:)', out):
        return 'no program', ''
    errors = re.findall(r'(\S*/proofs/\S+?\.antt):\d+:\d+: error: (.*)', out)
    names = {path for path, what in errors if NAMES.search(what)}
    first = next((l for l in out.split('\n') if 'it is not proved that' in l or ': error' in l or 'does not close' in l), '')
    spot = re.sub(r'.*/crates/', '', first)[:110].replace('|', '\\|')
    failed = [what for path, what in errors if not NAMES.search(what)]
    open_needs = [path for path in re.findall(r'no proof: expected \w+ ?\w* in (\S+?\.antt); `search`', out) if path not in names]
    return ('fact' if failed or open_needs else 'text'), spot


def chosen(found, count, rng):
    """Some of the candidates, of all kinds and files in turn."""
    groups = {}
    for c in found:
        groups.setdefault((c[2], c[0]), []).append(c)
    keys = sorted(groups)
    rng.shuffle(keys)
    for key in keys:
        rng.shuffle(groups[key])
    out = []
    while keys and len(out) < count * 3:
        for key in list(keys):
            out.append(groups[key].pop())
            if not groups[key]:
                keys.remove(key)
    return out


def main():
    args = argparse.ArgumentParser(description=__doc__, formatter_class=argparse.RawDescriptionHelpFormatter)
    args.add_argument('--each', type=int, default=10)
    args.add_argument('--seed', type=int, default=1)
    args.add_argument('--crates', default=','.join(CRATES))
    args.add_argument('--scratch', default='/tmp/mutants')
    args = args.parse_args()
    root = os.path.dirname(os.path.dirname(os.path.dirname(os.path.abspath(__file__))))
    if not os.path.isdir(args.scratch):
        os.makedirs(args.scratch)
        shutil.copy(os.path.join(root, 'crates.txt'), args.scratch)
        shutil.copytree(os.path.join(root, 'crates'), os.path.join(args.scratch, 'crates'), ignore=shutil.ignore_patterns('out'))
    counts = {}
    print('| Crate | Place | Change | Before | After | Outcome | First sign |\n|---|---|---|---|---|---|---|')
    for crate in args.crates.split(','):
        rng = random.Random(f'{args.seed} {crate}')
        tried = 0
        for name, i, kind, old, new in chosen(candidates(args.scratch, crate), args.each, rng):
            if tried == args.each:
                break
            path = os.path.join(args.scratch, 'crates', crate, 'src', name)
            text = open(path, encoding='utf-8').read()
            lines = text.split('\n')
            lines[i] = new
            open(path, 'w', encoding='utf-8').write('\n'.join(lines))
            try:
                outcome, spot = verdict(args.scratch, crate)
            finally:
                open(path, 'w', encoding='utf-8').write(text)
            if outcome == 'no program':
                continue
            tried += 1
            counts[outcome] = counts.get(outcome, 0) + 1
            cell = lambda s: '`' + s.strip().replace('|', '\\|') + '`'
            print(f'| {crate} | {name}:{i + 1} | {kind} | {cell(old)} | {cell(new)} | {outcome} | {spot} |', flush=True)
    print('\n' + ', '.join(f'{n} {o}' for o, n in sorted(counts.items())))


main()
