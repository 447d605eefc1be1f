#!/usr/bin/env python3
"""Holds crates.txt to what the crates use.

    tools/edges.py            for each crate: what is listed and not used, what is used and not listed, or listed below it; exit 1 where there is any
    tools/edges.py --write    rewrites crates.txt to what is used; comments and order stay

A crate uses another where its src/ has a path `X::`, where its src/, specs/ or proofs/ name `Rattle.X`, or where a struct or an enum
of X is part of a type that its code sees through another crate (the prover cannot name it otherwise). No more is needed: what is
only used by a crate that is used is found without being listed.
"""
import glob
import re
import sys


def listed():
    """The crates, and what crates.txt lists for each."""
    deps = {}
    for line in open('crates.txt', encoding='utf-8'):
        name, colon, rest = line.split('#')[0].partition(':')
        if colon:
            deps[name.split()[0]] = rest.split()
    return deps


def texts(crate, pattern):
    """The crate's files of a pattern, without comments."""
    for path in sorted(glob.glob(f'crates/{crate}/{pattern}', recursive=True)):
        yield re.sub(r'//[^\n]*' if path.endswith('.rt') else r'--[^\n]*', '', open(path, encoding='utf-8').read())


def named(crate, names):
    """The crates that this one names."""
    code = '\n'.join(texts(crate, 'src/**/*.rt'))
    rest = '\n'.join(t for part in ('specs', 'proofs') for t in texts(crate, part + '/**/*.antt'))
    found = set(re.findall(r'(?<![\w:])([a-z]\w*)::', code)) | set(re.findall(r'\bRattle\.([a-z]\w*)(?=\.)', code + rest))
    return {n for n in found if n in names and n != crate}


def body(text, at):
    """The text of the bracket that opens at a place."""
    depth = 0
    for i in range(at, len(text)):
        depth += (text[i] in '({') - (text[i] in ')}')
        if depth == 0:
            return text[at:i]
    return text[at:]


def types(crates):
    """The types in each struct and enum and in each function's signature, and those that each crate's code sees, as (crate, name)."""
    holds, signs, sees = {}, {}, {c: set() for c in crates}
    imports = []
    for crate in crates:
        for text in texts(crate, 'src/**/*.rt'):
            known = {n: c for c, names in re.findall(r'\buse (\w+)::(?:\w+::)*(\w+|\{[^}]*\});', text) if c in crates for n in re.findall(r'\w+', names)}

            def of(words):
                return {(known.get(t, crate), t) for t in re.findall(r'\b[A-Z]\w*', words)}
            for m in re.finditer(r'\b(?:struct|enum) (\w+)[^({;]*(?=[({])', text):
                holds[crate, m.group(1)] = of(body(text, m.end()))
                sees[crate] |= holds[crate, m.group(1)]
            for m in re.finditer(r'\bfn (\w+)(?:<[^>]*>)?(\([^)]*\)[^{\n]*)', text):
                signs[crate, m.group(1)] = of(m.group(2))
            imports += [(crate, (c, n)) for n, c in known.items()]
    for crate, item in imports:
        sees[crate] |= {item} | signs.get(item, set())
    return holds, sees


def reached(first, holds):
    """The crates of these types and of all that lie within them."""
    seen, todo = set(), list(first)
    while todo:
        t = todo.pop()
        if t in holds and t not in seen:
            seen.add(t)
            todo += holds[t]
    return {c for c, _ in seen}


def main():
    deps = listed()
    order = list(deps)
    holds, sees = types(deps)
    used = {c: (named(c, set(order)) | reached(sees[c], holds)) - {c} for c in deps}
    differ = 0
    for crate, has in deps.items():
        more, less = sorted(used[crate] - set(has), key=order.index), [d for d in has if d not in used[crate]]
        if more or less:
            differ += 1
            print(f'{crate}:' + (f' lists and does not use {" ".join(less)}' if less else '') + (';' if more and less else '')
                  + (f' uses and does not list {" ".join(more)}' if more else ''))
        below = [d for d in used[crate] if d in deps and order.index(d) > order.index(crate)]
        if below:
            differ += 1
            print(f'{crate}: stands above {" ".join(below)}, which it uses')
    print(f'{sum(map(len, deps.values()))} edges listed, {sum(map(len, used.values()))} used')
    if '--write' in sys.argv[1:]:
        lines = []
        for line in open('crates.txt', encoding='utf-8'):
            name, colon, rest = line.split('#')[0].partition(':')
            if colon:
                note = line[line.index('#'):].rstrip() if '#' in line else ''
                line = ' '.join([name.strip() + ':'] + sorted(used[name.split()[0]], key=order.index) + [note] * bool(note)) + '\n'
            lines.append(line)
        open('crates.txt', 'w', encoding='utf-8').writelines(lines)
    elif differ:
        sys.exit(1)


main()
