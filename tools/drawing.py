#!/usr/bin/env python3
"""Draws the parts from crates.txt into docs/ARCHITECTURE.md, each picture between its two marks.

    tools/drawing.py            draws
    tools/drawing.py --check    exit 1 where the page shows other drawings

The first picture has the groups that head crates.txt, each with its crates. Then each group has its own: a box for each crate with its
modules. An arrow leads from a part to one that uses it, where no other way leads there.
"""
import glob
import os
import re
import sys
import textwrap

PAGE = 'docs/ARCHITECTURE.md'
BEGIN = '<!-- tools/drawing.py: {} -->'
END = '<!-- end of the drawing -->'


def listed():
    """The groups with their crates, and each crate with those of the repository that it uses."""
    groups, uses = {}, {}
    for line in open('crates.txt', encoding='utf-8'):
        heading = re.match(r'# (.*[^.])$', line.strip())
        if heading:
            groups[heading.group(1)] = crates = []
        name, colon, rest = line.split('#')[0].partition(':')
        if colon:
            crates.append(name.split()[0])
            uses[name.split()[0]] = rest.split()
    return groups, {name: [u for u in used if u in uses] for name, used in uses.items()}


def near(uses):
    """Those that each part uses and that no other way leads to."""
    reach = {}

    def reached(name):
        if name not in reach:
            reach[name] = set()
            reach[name] = set(uses[name]).union(*(reached(u) for u in uses[name]))
        return reach[name]

    return [(u, name) for name, used in uses.items() for u in used if not any(u in reached(v) for v in used if v != u)]


def modules(crate):
    """A crate's modules of code, or of statements where it has no code, each with those of the crate that it uses."""
    root, ending, using = f'crates/{crate}/src', 'rt', r'\buse crate::((?:[a-z]\w*::)+)'
    found = [f for f in glob.glob(f'{root}/**/*.rt', recursive=True) if os.path.basename(f) not in ('lib.rt', 'main.rt')]
    if not found and not os.path.exists(f'{root}/main.rt'):
        root, ending, using = f'crates/{crate}/specs', 'antt', rf'Rattle\.{crate}\.specs\.((?:[A-Z]\w*\.)+)'
        found = [f for f in glob.glob(f'{root}/**/*.antt', recursive=True) if os.path.basename(f) != 'Lib.antt']
    apart = '::' if ending == 'rt' else '.'
    names = {os.path.relpath(f, root)[: -len(ending) - 1].replace('/', apart): f for f in sorted(found)}
    folders = {n.rsplit(apart, 1)[0] for n in names if apart in n}
    names = {n: f for n, f in names.items() if n not in folders}

    def used(name, path):
        said = {u.strip('.:') for u in re.findall(using, open(path, encoding='utf-8').read())}
        return sorted(n for n in names if n != name and any(s == n or s.startswith(n + apart) for s in said))

    return {n: used(n, f) for n, f in names.items()}


def said(crate):
    """What a crate says of itself in its first comment, without references to the papers, and whether it has code."""
    path = next(p for p in (f'crates/{crate}/src/lib.rt', f'crates/{crate}/src/main.rt') if os.path.exists(p))
    text = open(path, encoding='utf-8').read()
    words = re.sub(r'\s*\([^()]*\)', '', re.match(r'//\s*(.*)', text).group(1))
    kind = 'program' if path.endswith('main.rt') else 'code' if re.search(r'^\s*(pub )?(mod|fn|const|enum|struct)\b', text, re.M) else 'theorems'
    words = re.split(r'[.](?:\s|$)', words)[0]
    return kind, words if len(words) <= 70 else re.split(r'[:;]\s', words)[0]


def picture(lines):
    return '\n'.join(['```mermaid', 'flowchart TD'] + lines + ['```'])


def overview(groups, uses):
    home = {crate: group for group, crates in groups.items() for crate in crates}
    above = {g: sorted({home[u] for c in crates for u in uses[c]} - {g}, key=list(groups).index) for g, crates in groups.items()}
    number = {g: f'g{i}' for i, g in enumerate(groups)}
    lines = []
    for g, crates in groups.items():
        names = '<br>'.join(textwrap.wrap(', '.join(crates), 34))
        lines.append(f'    {number[g]}["<b>{g}</b><br>{names}"]')
    return picture(lines + [f'    {number[a]} --> {number[b]}' for a, b in near(above)])


SHAPES = {'code': '["{}"]', 'theorems': '("{}")', 'program': '(["{}"])'}


def group(crates, uses):
    lines = []
    for crate in crates:
        kind, words = said(crate)
        label = '<br>'.join([f'<b>{crate}</b>'] + textwrap.wrap(words, 40))
        inside = modules(crate) if kind == 'code' else {}
        if not inside:
            lines.append(f'    {crate}' + SHAPES[kind].format(label))
            continue
        lines.append(f'    subgraph {crate} ["{label}"]')
        name = {m: f'{crate}_{re.sub("::", "_", m)}' for m in inside}
        lines += [f'        {name[m]}["{m}"]' for m in inside]
        lines += [f'        {name[a]} --> {name[b]}' for a, b in near(inside)]
        lines.append('    end')
    mine = {c: [u for u in uses[c] if u in crates] for c in crates}
    return picture(lines + [f'    {a} --> {b}' for a, b in near(mine)])


def main():
    groups, uses = listed()
    page = new = open(PAGE, encoding='utf-8').read()
    drawings = {'the groups': overview(groups, uses)} | {g: group(crates, uses) for g, crates in groups.items()}
    for name, drawing in drawings.items():
        before, begin, rest = new.partition(BEGIN.format(name))
        _, end, after = rest.partition(END)
        if not begin or not end:
            sys.exit(f'{PAGE} lacks the marks {BEGIN.format(name)} and {END}')
        new = f'{before}{begin}\n{drawing}\n{end}{after}'
    if '--check' not in sys.argv[1:]:
        open(PAGE, 'w', encoding='utf-8').write(new)
    elif new != page:
        sys.exit(f'{PAGE} shows other drawings than crates.txt and the modules give: run tools/drawing.py')


main()
