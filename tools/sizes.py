#!/usr/bin/env python3
"""The size of each crate and the time of its check, before and after: what an entry of docs/CHANGES.md is written from.

    tools/sizes.py BEFORE AFTER [OLD=NEW..]

BEFORE and AFTER are checkouts, each with its log as DIR:LOG where there is one: what `.ci/run` or `rt ci` printed, or a folder of
such logs (target/log). A crate that was renamed is given as OLD=NEW, one that went into another too. For instance:

    tools/sizes.py ../before:../before.log .:../after.log telegram=reading trips=roundtrips
"""
import glob
import os
import re
import sys

COLUMNS = ('specs', 'code', 'proofs', 'theorems', 'edits', 'seconds')


def lines(pattern):
    return sum(len(open(p, encoding='utf-8').read().splitlines()) for p in glob.glob(pattern, recursive=True))


def theorems(folder):
    """The public theorems: a `pub` name with a signature and a clause, that no function's proof file has."""
    n = 0
    for path in glob.glob(f'{folder}/specs/**/*.antt', recursive=True) + glob.glob(f'{folder}/proofs/**/*.antt', recursive=True):
        if path.endswith('/Proof.antt'):
            continue
        text = open(path, encoding='utf-8').read()
        for name in re.findall(r'^[ ]*pub ([^\s:{]+)(?: \{[^}]*\})* :', text, re.M):
            n += bool(re.search(r'^[ ]*' + re.escape(name) + r'(?: [^\n]*)? =(?: |$)', text, re.M))
    return n


def seconds(log):
    """The time of each crate's check that a log says."""
    text = ''
    for path in [log] if log and os.path.isfile(log) else glob.glob(f'{log}/*') if log else []:
        if os.path.isfile(path):
            text += open(path, encoding='utf-8', errors='replace').read() + '\n'
    return {m.group(1): int(m.group(2)) for m in re.finditer(r'^rt: (\w+) proved(?: and \w+)? \((\d+) s\)', text, re.M)}


def measured(arg, renamed):
    """For each crate of a checkout, under its new name, its row."""
    folder, _, log = arg.partition(':')
    took = seconds(log)
    rows = {}
    for path in sorted(glob.glob(f'{folder}/crates/*/')):
        name = os.path.basename(path.rstrip('/'))
        row = (lines(path + 'specs/**/*.antt'), lines(path + 'src/**/*.rt'), lines(path + 'proofs/**/*.antt'), theorems(path.rstrip('/')),
               len(glob.glob(path + 'must-fail/*.edit')), took.get(name))
        new = renamed.get(name, name)
        rows[new] = tuple(map(added, zip(rows[new], row))) if new in rows else row
    return rows


def added(values):
    known = [v for v in values if v is not None]
    return sum(known) if known else None


def cell(old, new):
    text = ['-' if v is None else f'{v:,}' for v in (old, new)]
    return text[0] if text[0] == text[1] else ' → '.join(text)


def main():
    if len(sys.argv) < 3:
        sys.exit(__doc__)
    renamed = dict(a.split('=') for a in sys.argv[3:])
    before, after = measured(sys.argv[1], renamed), measured(sys.argv[2], {})
    order = [line.split(':')[0].strip() for line in open(os.path.join(sys.argv[2].partition(':')[0], 'crates.txt'), encoding='utf-8')
             if ':' in line.split('#')[0]]
    names = [n for n in order if n in after] + sorted((set(before) | set(after)) - set(order))
    none = (None,) * len(COLUMNS)
    olds = {new: old for old, new in renamed.items()}
    print('| crate | ' + ' | '.join(COLUMNS) + ' |')
    print('|---|' + '---:|' * len(COLUMNS))
    for name in names:
        label = f'`{name}`' + (f' (was `{olds[name]}`)' if name in olds else '')
        print(f'| {label} | ' + ' | '.join(map(cell, before.get(name, none), after.get(name, none))) + ' |')
    totals = [[added(r[i] for r in rows.values()) for i in range(len(COLUMNS))] for rows in (before, after)]
    print('| **in all** | ' + ' | '.join(map(cell, *totals)) + ' |')


main()
