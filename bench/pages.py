#!/usr/bin/env python3
"""Looks at the pages: no paragraph has over 90 words, no cell of a table over 40; and, where no page is named, what else they are to be.

usage: bench/pages.py [PAGE ..]    names each fault, and ends with status 1 where there is one; all pages where none is named

What else: README.md has 80 lines at most and docs/DECISIONS.md fewer than 150, whose index has the numbers of its themes; bench/README.md names each script;
a link to a heading leads to one; and each name in backquotes with an underline or with capitals within stands somewhere in the tree. By text alone: that it
stands there as a word, not that it is what the page takes it for.

A paragraph is a run of lines that follow one another, an entry of a list each its own. What is between fences or set in by four blanks is an example, or
a quote of a file, and no paragraph; nor is a heading. A word is what stands between blanks; words in backquotes count as all others do.
"""
import glob, os, re, sys

TOP = os.path.dirname(os.path.dirname(os.path.abspath(__file__)))
PARAGRAPH, CELL = 90, 40
OF_OTHERS = {'docs/CLIENTS.md', 'docs/OPERATING.md'}   # names of other programs' settings stand in these
NO_NAMES = {'put_', '_x', 'box_rows', 'kept_items', 'rewound_from', 'WHAT_IS_WRONG', 'xHH', '_of', '_at', '_by', '_from', '_with', '_in', '_over', '_behind', '_open',
            '_there', '_alone', '_again', '_anew', '_in_order', '_by_levels'}   # parts of names, and such as the page says are none

def pages():
    """The documents of the tree: those at its top, those under docs/, and bench/README.md."""
    return sorted(os.path.relpath(path, TOP) for form in ('*.md', 'docs/**/*.md', '*/README.md') for path in glob.glob(os.path.join(TOP, form), recursive=True)
                  if not os.path.relpath(path, TOP).startswith('drafts'))

def parts(text):
    """Each paragraph and each cell of a page: the number of its first line, what it is, and its words."""
    paragraph, fenced, behind = [], False, 'an empty line'
    lines = text.split('\n') + ['']
    for number, line in enumerate(lines, 1):
        ends = fenced or not line.strip() or line.startswith(('```', '#', '|', '<!--', '![')) or re.match(r'\s*([-*]|\d+\.) ', line)
        if ends and paragraph:
            yield paragraph[0][0], 'paragraph', ' '.join(said for _, said in paragraph).split()
            paragraph = []
        if line.startswith('```'): fenced = not fenced
        elif fenced or not line.strip() or line.startswith(('#', '<!--', '![')): pass
        elif line.startswith('|'):
            for cell in re.split(r'(?<!\\)\|', line)[1:-1]: yield number, 'cell', cell.split()
        elif line.startswith('    ') and not paragraph and behind in ('an empty line', 'an example'):
            behind = 'an example'
            continue
        else: paragraph.append((number, re.sub(r'^\s*([-*]|\d+\.) ', '', line)))
        behind = 'text' if line.strip() else 'an example' if behind == 'an example' else 'an empty line'

# ---- what else the pages are to be

def read(path):
    with open(os.path.join(TOP, path), encoding='utf-8', errors='replace') as file: return file.read()

def words_of_the_tree():
    """Each word of the sources, tests and tools, and each name of a file or a folder."""
    found = set()
    for form in ('crates/*/src/**', 'crates/*/specs/**', 'crates/*/proofs/**', 'crates/*/*-*/**', 'operate/**', 'tests/**', 'bench/**', 'examples/**', '.ci/*', 'crates.txt'):
        for path in glob.glob(os.path.join(TOP, form), recursive=True):
            found.update((os.path.basename(path), os.path.splitext(os.path.basename(path))[0]))
            if os.path.isfile(path) and not path.endswith(('.md', '.png', 'pages.py')): found.update(re.findall(r"[A-Za-z_][\w']*", read(path)))
    return found

def said_of(page):
    """The lines of a page that are no examples, with their numbers."""
    fenced = False
    for number, line in enumerate(read(page).split('\n'), 1):
        if line.startswith('```'): fenced = not fenced
        elif not fenced and not line.startswith('    '): yield number, line

def unknown_names(page, known):
    for number, line in said_of(page):
        for quoted in re.findall(r'`([^`]+)`', line):
            for name in re.findall(r"[A-Za-z_][\w']*", quoted):
                if re.search(r'_|[a-z][A-Z]', name) and name not in known and name not in NO_NAMES: yield f'{page}:{number}: no `{name}` in the tree'

def lost_links(page):
    heads = {re.sub(r'[^\w\- ]', '', line.lstrip('# ').lower()).replace(' ', '-') for _, line in said_of(page) if line.startswith('#')}
    return [f'{page}:{number}: no heading for #{link}' for number, line in said_of(page) for link in re.findall(r'\]\(#([^)]+)\)', line) if link not in heads]

def index_faults(page='docs/DECISIONS.md'):
    """What the index says of the themes' numbers, where the page has others."""
    theme, numbers = None, {}
    for _, line in said_of(page):
        if line.startswith('## '): theme = line[3:]
        elif re.match(r'\d+\. ', line): numbers.setdefault(theme, []).append(int(line.split('.')[0]))
    told = {row[0]: row[1] for row in re.findall(r'^\| \[([^\]]+)\]\([^)]*\) \| ([^|]+) \|', read(page), re.M)}
    in_order = [number for theme in numbers for number in numbers[theme]]
    return [f'{page}: its index has {told.get(theme)} for {theme}, which has {all_[0]} to {all_[-1]}' for theme, all_ in numbers.items() if told.get(theme) != f'{all_[0]} to {all_[-1]}'] \
        + ([] if in_order == list(range(1, len(in_order) + 1)) else [f'{page}: its numbers do not rise by one'])

def other_faults():
    lengths = {'README.md': 80, 'docs/DECISIONS.md': 149}
    yield from (f'{page}: {read(page).count(chr(10))} lines, over {most}' for page, most in lengths.items() if read(page).count('\n') > most)
    named, known = read('bench/README.md'), words_of_the_tree()
    yield from (f'bench/README.md: no row for {name}' for name in sorted(os.listdir(os.path.join(TOP, 'bench'))) if name.endswith(('.py', '.sh')) and name not in named)
    yield from index_faults()
    for page in pages():
        yield from lost_links(page)
        if page not in OF_OTHERS: yield from unknown_names(page, known)

def main():
    named = [os.path.relpath(os.path.abspath(name), TOP) for name in sys.argv[1:]]
    if any(name.startswith('-') for name in sys.argv[1:]): sys.exit(__doc__)
    faults, counted = [], {'paragraph': 0, 'cell': 0}
    for page in named or pages():
        with open(os.path.join(TOP, page), encoding='utf-8') as file: text = file.read()
        for number, kind, words in parts(text):
            counted[kind] += 1
            if len(words) > (PARAGRAPH if kind == 'paragraph' else CELL): faults.append(f'{page}:{number}: a {kind} of {len(words)} words: {" ".join(words[:8])} ..')
    print(f'{len(named or pages())} pages, {counted["paragraph"]:,} paragraphs, {counted["cell"]:,} cells; {len(faults)} too long')
    if not named: faults += other_faults()
    if faults: sys.exit('\n'.join(faults))

main()
