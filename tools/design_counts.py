#!/usr/bin/env python3
"""Counts, in the sources of the crates, the places that docs/DESIGN-PASS.md speaks of, and names each.

    python3 tools/design_counts.py [FOLDER]      FOLDER: a checkout, this one if none is named
    python3 tools/design_counts.py --terse ..    the counts alone

What a line of text can't tell (whether an enum has the shape of a Result, whether two functions are twins) is judged by eye from
what is listed here, and docs/DESIGN-PASS.md says how.
"""
import pathlib, re, sys

args = [a for a in sys.argv[1:] if a != '--terse']
terse = '--terse' in sys.argv
top = pathlib.Path(args[0] if args else pathlib.Path(__file__).resolve().parent.parent)
files = sorted(p for p in top.glob('crates/*/src/*.rt'))
text = {p: p.read_text() for p in files}


def code(s):
    """The text without comments, each replaced by as many line breaks as it had."""
    return re.sub(r'//[^\n]*', '', s)


def each(pattern, flags=re.M, only=None):
    for p in files:
        if only and not only(str(p.relative_to(top))):
            continue
        s = code(text[p])
        for m in re.finditer(pattern, s, flags):
            yield p.relative_to(top), s[:m.start()].count('\n') + 1, re.sub(r'\s+', ' ', m.group(0)).strip()


def show(name, rows):
    rows = list(rows)
    print(f'{len(rows):4}  {name}')
    if not terse:
        for p, n, t in rows:
            print(f'        {p}:{n}  {t[:110]}')


def repeated():
    """Clauses that say the same of a value in three or more functions."""
    seen = {}
    for p, n, t in each(r'requires(?: \w+)? \{ .*? \}$'):
        fact = re.sub(r'^requires(?: \w+)? ', '', t)
        seen.setdefault(fact, []).append((p, n, fact))
    for rows in seen.values():
        if len(rows) >= 3:
            yield from rows


not_test = lambda p: '_tests/' not in p and 'order_bench' not in p

print('1. Option, Result, `?`, enums')
show('enums declared', each(r'^(?:pub )?enum \w+'))
show('functions that answer a bool and may change an argument', each(r'fn \w+(?:<[^>{]*>)?\([^)]*&mut [^)]*\)\s*-> bool', only=not_test))
show('fields that are a bool', each(r'^    (?:pub(?:\(super\))? )?\w+: bool,$(?![^{]*\) ->)'))
show('options that stand for a refusal', each(r'-> Option<(?:Answer|Revised|K|Fixed<Link, 256>)>'))
show('tests of whether an answer is accepted, or the phase another', each(r'fn (?:is_accepted|is_outside)\b'))
show('functions that answer the number 0 and mean nothing by it', each(r'-> u8\s+ensures \{ \w+ \}\s+\{\s+0\s+\}'))

print('3. Loops by index')
show('loops over a range whose number is an index into something, or that search by it, and `while`',
     each(r'(?:for \w+ in [^{\n]*\.\.[^{\n]*\{|while [^{\n]*\{|for \((?:i|index), \w+\) in [^{\n]*\.enumerate\(\) \{)', only=not_test))

print('4. Equality, order, copying, conversion, printing')
show('impls of Clone and Copy by hand', each(r'^impl[^\n]* (?:Clone|Copy) for'))
show('functions that compare, copy, convert or print by hand',
     each(r'fn (?:is_same|lower|copied|row|number|put_decimal|write_row|show_byte|is_primitive)\b', only=not_test))
show('comparisons of enums by their numbers', each(r'as u8 (?:!=|==) \w+ as u8'))
show('matches that only ask which of two variants it is', each(r'match self\.kind \{'))

print('5. Facts said again')
show('the same `requires` in three or more functions', repeated())
show('`requires` of two facts at once', each(r'requires(?: \w+)? \{ \([^{}]*\) × \([^{}]*\) \}'))

print('6. Buffers')
show('arrays with a length beside, or that many slots', each(r'^\s*(?:pub(?:\(super\))? )?\w+: \[[^\]]*; \w+\],'))
show('functions that take an array and its length', each(r'fn \w+\([^)]*: &\[[^\]]*; \d+\], count: usize'))

print('7. Switches')
show('matches on a value that says which step to run', each(r'match (?:side|shape|role|operation|self\.domain\.phase\(\)|\(self\.domain\.phase\(\), command\)|command) \{', only=None))
