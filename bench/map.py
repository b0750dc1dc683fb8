#!/usr/bin/env python3
"""Makes the groups of docs/MAP.md from crates.txt and the crates' heads: the drawing docs/map.svg, and the table between the page's two marks, which is
the one table of the crates; and in docs/PROVED.md the groups, the order of the crates, the line below
each crate's heading that says what carries it, by its head, and a line for each function that is named there, with its clauses (bench/clauses.py).

usage: bench/map.py            writes all three
       bench/map.py --check    says whether they are as crates.txt has it, and writes nothing

A group is what stands in crates.txt behind a line '# NAME: WHAT IT IS'. In the drawing a crate's layer is one above the highest of those that it
uses, and its colour is its group's. A line goes to each crate that it uses, but for those that one of its others uses already.
"""
import os, re, sys
import clauses
from xml.sax.saxutils import escape

TOP = os.path.dirname(os.path.dirname(os.path.abspath(__file__)))
PAGE, DRAWING, PROVED, CRATES = (os.path.join(TOP, *path) for path in (('docs', 'MAP.md'), ('docs', 'map.svg'), ('docs', 'PROVED.md'), ('crates.txt',)))
BEGIN_CRATES, END_CRATES = '<!-- crates, by bench/map.py -->\n', '<!-- end of the crates -->'
BEGINS, ENDS = '<!-- groups, by bench/map.py -->\n', '<!-- end of the groups -->'
COLOURS = 'e6e9ee dceefb d9f2e3 fdeccb f6dcdc e9dff5 d3f0ef fbe3f1 eef0c8 dfe3fb f3f5f8'.split()   # a group's, in their order; the last is the tests'
WIDE, HIGH, ACROSS, DOWN, LEFT = 118, 26, 128, 78, 40   # a box, and the distance from one to the next

def used():
    """For each crate those of this tree that it uses."""
    rows = {name: uses.split() for name, _, uses in (line.partition(':') for line in open(CRATES) if line.strip() and line[0] != '#')}
    return {name: [it for it in uses if it in rows] for name, uses in rows.items()}

def groups():
    """The groups in their order: the name, what it is, and its crates."""
    found = []
    for line in open(CRATES):
        name, _, rest = line.partition(':')
        if line.startswith('# '): found.append((name[2:].strip(), rest.strip(), []))
        elif line.strip(): found[-1][2].append(name)
    return found

def layers(uses):
    found = {}
    def layer(name):
        if name not in found: found[name] = 1 + max(map(layer, uses[name]), default=0)
        return found[name]
    for name in uses: layer(name)
    return found

def below(uses):
    """For each crate all that it uses, straight or through others."""
    found = {}
    def all_of(name):
        if name not in found: found[name] = set(uses[name]).union(*map(all_of, uses[name]))
        return found[name]
    for name in uses: all_of(name)
    return found

def straight(uses):
    """For each crate what it uses that none of its others uses already."""
    under = below(uses)
    return {name: [it for it in its if not any(it in under[other] for other in its)] for name, its in uses.items()}

def head(name):
    """A crate's head."""
    for file in ('lib.rt', 'main.rt'):
        path = os.path.join(TOP, 'crates', name, 'src', file)
        if os.path.exists(path):
            said = re.match(r'((?://!.*\n)+)', open(path).read())
            return ' '.join(line[3:].strip() for line in said[1].split('\n')).strip() if said else ''
    return ''

def what_it_is(name):
    """The first sentence of its head."""
    return shortened(re.split(r'(?<=\.) ', head(name))[0]).replace('|', '\\|')

def carried(name):
    """What its head says that carries it."""
    said = re.search(r'What carries the crate: (.*)', head(name))
    return f'What carries it: {said[1].strip()}' if said else None

def shortened(said):
    """A cell has at most 40 words: of a longer sentence what stands before its first colon."""
    return said if len(said.split()) <= 40 else said.partition(':')[0] + '.'

def proved():
    """docs/PROVED.md with the groups and the crates between its two marks in the order of crates.txt, each with what carries it; what else stands below a crate is kept."""
    front, found, rest = open(PROVED).read().partition(BEGIN_CRATES)
    inner, ends, back = rest.partition(END_CRATES)
    if not (found and ends): sys.exit(f'{PROVED} lacks its two marks')
    said = {name: clauses.IS_ROW.sub('', re.sub(r'^What carries it: .*\n\n', '', body.strip('\n') + '\n')) for name, body in re.findall(r'^### (\w+)\n\n(.*?)(?=^##|\Z)', inner, re.M | re.S)}
    wanted = [name for _, _, names in groups() for name in names]
    if set(said) != set(wanted): sys.exit(f'docs/PROVED.md: its crates are not those of crates.txt: {sorted(set(wanted) ^ set(said))}')
    def crate(name):
        rows = clauses.rows(name, carried(name))
        between = '' if said[name].startswith('- ') or not rows else '\n'
        return f'### {name}\n\n' + (f'{carried(name)}\n\n' if carried(name) else '') + ''.join(f'{row}\n' for row in rows) + between + said[name].lstrip('\n')
    return front + BEGIN_CRATES + '\n'.join(f'## {group[0].upper() + group[1:]}: {what}\n\n' + '\n'.join(crate(name) for name in names) for group, what, names in groups()) + END_CRATES + back

def places(uses, layer, lines):
    """Where each crate stands in its layer: near those that use it, and then near those that it uses."""
    rows = [[name for name in uses if layer[name] == n] for n in range(1, max(layer.values()) + 1)]
    users = {name: [it for it in lines if name in lines[it]] for name in uses}
    widest = max(map(len, rows))
    at = {name: place + (widest - len(row)) / 2 for row in rows for place, name in enumerate(row)}
    for sweep in range(24):
        near = users if sweep % 2 else lines
        for row in rows if near is lines else reversed(rows):
            row.sort(key=lambda name: (sum(at[it] for it in near[name]) / len(near[name]) if near[name] else at[name], name))
            at.update({name: place + (widest - len(row)) / 2 for place, name in enumerate(row)})
    return at, widest

def drawing(uses):
    layer, lines, under = layers(uses), straight(uses), set().union(*uses.values())
    at, widest = places(uses, layer, lines)
    highest = max(layer.values())
    x, y = (lambda name: LEFT + 10 + at[name] * ACROSS), (lambda name: 10 + (highest - layer[name]) * DOWN)
    shapes = [f'<path d="M{x(name) + WIDE / 2:.0f} {y(name) + HIGH} C{x(name) + WIDE / 2:.0f} {y(name) + DOWN - 8:.0f} {x(it) + WIDE / 2:.0f} {y(it) - DOWN + HIGH + 8:.0f} {x(it) + WIDE / 2:.0f} {y(it)}"/>'
              for name in uses for it in lines[name]]
    for n in range(1, highest + 1): shapes.append(f'<text x="8" y="{10 + (highest - n) * DOWN + 17}">{n}</text>')
    group = {name: place for place, (_, _, names) in enumerate(groups()) for name in names}
    for name in uses:
        shapes.append(f'<rect x="{x(name):.0f}" y="{y(name)}" width="{WIDE}" height="{HIGH}" rx="4" class="g{group[name]}"/>')
        shapes.append(f'<text x="{x(name) + WIDE / 2:.0f}" y="{y(name) + 17}" text-anchor="middle">{escape(name)}</text>')
    for place, (name, _, _) in enumerate(groups()):   # the key to the colours, at the lower right where the layers are narrow
        shapes.append(f'<rect x="{LEFT + 20 + (widest - 2) * ACROSS}" y="{10 + place * 22}" width="14" height="14" rx="3" class="g{place}"/>')
        shapes.append(f'<text x="{LEFT + 42 + (widest - 2) * ACROSS}" y="{22 + place * 22}">{escape(name)}</text>')
    style = 'text{font:13px sans-serif;fill:#1c2430}path{fill:none;stroke:#8b94a3;stroke-width:1}rect{stroke:#5a6b80}' + ''.join(f'.g{place}{{fill:#{colour}}}' for place, colour in enumerate(COLOURS))
    size = f'width="{LEFT + 20 + widest * ACROSS}" height="{highest * DOWN}"'
    return '\n'.join([f'<svg xmlns="http://www.w3.org/2000/svg" {size}>', f'<style>{style}</style>', '<rect width="100%" height="100%" fill="#fff"/>', *shapes, '</svg>', ''])

def table(uses):
    lines, rows = straight(uses), ['| Crate | What it is | Stands on |', '|---|---|---|']
    for group, what, names in groups():
        rows.append(f'| **{group}** | *{what}* |  |')
        for name in names: rows.append(f'| {name} | {what_it_is(name)} | {", ".join(lines[name])} |')
    return '\n'.join(rows) + '\n'

def main():
    if sys.argv[1:] not in ([], ['--check']): sys.exit(__doc__)
    uses, page = used(), open(PAGE).read()
    front, found, rest = page.partition(BEGINS)
    _, ends, back = rest.partition(ENDS)
    if not (found and ends): sys.exit(f'{PAGE} lacks its two marks')
    wanted = {PAGE: front + BEGINS + table(uses) + ENDS + back, DRAWING: drawing(uses), PROVED: proved()}
    for path, text in wanted.items():
        if os.path.exists(path) and open(path).read() == text: continue
        if sys.argv[1:]: sys.exit(f'{os.path.relpath(path, TOP)} is not as crates.txt and the heads have it: run bench/map.py')
        with open(path, 'w') as out: out.write(text)
        print(os.path.relpath(path, TOP))

main()
