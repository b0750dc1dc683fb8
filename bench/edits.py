#!/usr/bin/env python3
"""Tells what is known of the edits that the gate leaves out, and writes it down beside each.

usage: bench/edits.py --table               a row for each crate: its edits in must-fail/ and in more-edits/, and of the latter how many were refused on
                                            the text that stands, on an earlier text, and have no verdict written down
       bench/edits.py --untried [NAME ..]   names those that were not refused on the text that stands
       bench/edits.py --note DAY < LINES    each line is CRATE/EDIT, a space and what refused it: writes it down

An edit that was refused has a line `refused: DAY TEXT by WHAT`. TEXT is the first ten digits of the SHA-256 of each function that the edit changes, with
its contract, or of the whole file where it changes no function: where they differ now, the verdict is of an earlier text. What stands above or below a
function is not looked at. `rt must-fail` reads no such line.
"""
import glob, hashlib, os, re, sys

TOP = os.path.dirname(os.path.dirname(os.path.abspath(__file__)))
HEAD = re.compile(r'^( *)(?:pub(?:\([a-z]+\))? )?(?:const )?(?:unsafe )?fn \w+', re.M)

def function_around(text, at):
    """The text of the function in which a place lies, or the whole text."""
    heads = [it for it in HEAD.finditer(text) if it.start() <= text.find('\n', at)]
    if not heads: return text
    end = re.compile(rf'^{heads[-1][1]}}}$', re.M).search(text, heads[-1].end())
    return text[heads[-1].start():end.end()] if end and end.end() > at else text

def texts_of(edit, read=lambda path: open(path).read()):
    """The texts of what an edit changes, as they stand; none where it does not fit."""
    folder, path, old, found = os.path.dirname(os.path.dirname(edit)), None, '', []
    for word, rest in re.findall(r'(?m)^(file|old|new): ?(.*)$', open(edit).read()):
        if word == 'file': path = rest.strip()
        elif word == 'old': old = rest
        else:
            text = read(f'{folder}/{path}')
            if text.count(old) != 1: return None
            it = function_around(text, text.index(old))
            if it not in found: found.append(it)
    return found

def sum_of(texts): return hashlib.sha256('\0'.join(texts).encode()).hexdigest()[:10]

def verdict(edit):
    """`stands`, `earlier` or `none`."""
    line = re.search(r'(?m)^refused: \S+ (\w+) ', open(edit).read())
    if not line: return 'none'
    texts = texts_of(edit)
    return 'stands' if texts and sum_of(texts) == line[1] else 'earlier'

def note(edit, day, what):
    rest = [line for line in open(edit).read().split('\n') if line and not line.startswith('refused:')]
    text = '\n'.join([*rest, f'refused: {day} {sum_of(texts_of(edit))} by {what}']) + '\n'
    with open(edit, 'w') as out: out.write(text)

def of_crate(name, kind='more-edits'): return sorted(glob.glob(f'{TOP}/crates/{name}/{kind}/*.edit'))

def main():
    words = sys.argv[1:]
    crates = [line.split(':')[0] for line in open(f'{TOP}/crates.txt') if re.match(r'\w+:', line)]
    if words == ['--table']:
        sums = [0] * 5
        print('| Crate | In the gate | More | Refused on this text | On an earlier text | No verdict written down |\n|---|---|---|---|---|---|')
        for name in crates:
            kinds = [verdict(it) for it in of_crate(name)]
            row = [len(of_crate(name, 'must-fail')), len(kinds), *(kinds.count(it) for it in ('stands', 'earlier', 'none'))]
            if any(row): print(f'| {name} | ' + ' | '.join(map(str, row)) + ' |')
            sums = [a + b for a, b in zip(sums, row)]
        print('| all | ' + ' | '.join(map(str, sums)) + ' |')
    elif words[:1] == ['--untried']:
        for name in words[1:] or crates:
            for it in of_crate(name):
                if verdict(it) != 'stands': print(f'{name}/{os.path.basename(it)[:-5]}')
    elif words[:1] == ['--note'] and len(words) == 2:
        for line in sys.stdin:
            (name, _, edit), what = line.split(' ', 1)[0].partition('/'), line.split(' ', 1)[1].strip()
            note(f'{TOP}/crates/{name}/more-edits/{edit}.edit', words[1], what)
    else: sys.exit(__doc__)

if __name__ == '__main__': main()
