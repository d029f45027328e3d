#!/usr/bin/env python3
"""Spells the goals and steps that Rattle names, in the proof files of functions, as today's Rattle spells them.

    python3 tools/rename_goals.py [CRATE..]

Names of the source keep their underscores (`returns-then-not-is-plain` becomes `returns-then-not-is_plain`), and so do Rattle's own words
(`invariant-of-self` becomes `invariant_of-self`, `in-default` becomes `in_default`). Only files in the folders of functions are changed.
"""
import glob, os, re, sys

WORDS = ['invariant_of', 'overflow_add', 'overflow_sub', 'overflow_mul', 'overflow_cast', 'in_default', 'in_err', 'in_ok', 'into_iter', 'from_residual', 'extend_from_slice', 'as_slice', 'as_mut_slice',
         'split_at', 'unwrap_or', 'is_none', 'is_some', 'is_err', 'is_ok', 'type_inv']
TOKEN = re.compile(r"[A-Za-z_][A-Za-z0-9_']*(?:[-+·][A-Za-z0-9_'+·]+)+")


def main():
    names = set(WORDS)
    for file in glob.glob('crates/*/src/**/*.rt', recursive=True):
        text = re.sub(r'//.*', '', open(file, encoding='utf-8').read())
        names |= set(re.findall(r'\b[A-Za-z][A-Za-z0-9]*(?:_[A-Za-z0-9]+)+\b', text))
    dashed = sorted(((name.replace('_', '-'), name) for name in names), key=lambda it: -len(it[0]))
    crates = sys.argv[1:] or os.listdir('crates')
    for crate in crates:
        for file in glob.glob(f'crates/{crate}/proofs/*/**/*.antt', recursive=True):
            text = open(file, encoding='utf-8').read()

            def turned(it):
                token = it[0]
                for old, new in dashed:
                    token = re.sub(r'(?<![A-Za-z0-9_])' + re.escape(old) + r'(?![A-Za-z0-9_])', new, token)
                return re.sub(r'·(\d)', r'-\1', token)

            lines = [line if line.lstrip().startswith(('--', 'use ')) and not line.lstrip().startswith('use Rattle.' + crate + '.proofs.') else TOKEN.sub(turned, line)
                     for line in text.split('\n')]
            new = '\n'.join(lines)
            if new != text:
                open(file, 'w', encoding='utf-8').write(new)


main()
