#!/usr/bin/env python3
"""Names each import of a definition or a lemma that its file does not have, and each name behind an alias that its module does not have.

usage: bench/uses.py [CRATE ..]     all crates where none is given

By text alone: a name that stands as a word in the module's file counts as there, and one of what the code declares as a word of the crate's src/.
It takes seconds, where the checker finds the same in a proof only once it comes to that proof. The status is 1 where it names something.
"""
import functools, os, re, sys

CRATES = os.path.join(os.path.dirname(os.path.dirname(os.path.abspath(__file__))), 'crates')
USE = re.compile(r'use Rattle\.(\w+)\.(specs|proofs)\.([\w.]+?)(?:\.\{([^}]*)\}| as (\w+))?;?\s*$', re.M)
MADE = {'Goals', 'Given', 'Code', 'Statement', 'contracts', 'models', 'Cases', 'TheImpl', 'TheConstants'}   # modules that the kit makes

@functools.lru_cache(None)
def words(path):
    text = open(path).read()
    return set(re.findall(r"[\w'-]+", text)) | set(re.findall(r'[^\s(){}\[\],.;]+', text))

@functools.lru_cache(None)
def declared(crate):
    return set().union(*(words(path) for path in files(f'{CRATES}/{crate}/src')))

def files(folder):
    for at, inner, names in os.walk(folder):
        inner[:] = sorted(name for name in inner if name != 'out')
        yield from (os.path.join(at, name) for name in sorted(names) if name.endswith(('.rt', '.antt')))

def module(crate, parts):
    """The file of the longest front of a path that is one, and what follows it."""
    for count in range(len(parts), 0, -1):
        path = os.path.join(CRATES, crate, *parts[:count]) + '.antt'
        if os.path.exists(path): return path, parts[count:]
    return None, parts

def lacks(text, use, is_code):
    crate, part, path, names, alias = use.groups()
    parts, listed = path.split('.'), [one.split(' as ')[0].strip() for one in (names or '').split(',') if one.strip()]
    if crate not in os.listdir(CRATES) or MADE & set(parts): return '', set()
    if parts[0] == 'declared': return f'{crate}/src', {one for one in parts[1:] + listed if one.isidentifier() and not one.startswith('The')} - declared(crate) - {'Ghosts'}   # a trait's record, which the kit names
    file, rest = module(crate, [part, *parts])
    if not file: return f'{crate}/{part}', {path}
    if alias and not rest and not is_code: listed += re.findall(rf"(?<![\w.]){alias}\.([^\W\d][\w'-]*)", text)
    return os.path.relpath(file, CRATES), {one for one in rest + listed if '◌' not in one} - words(file)

def main():
    found = 0
    for crate in sys.argv[1:] or sorted(os.listdir(CRATES)):
        for path in files(f'{CRATES}/{crate}'):
            text = re.sub(r'(?m)(^|\s)(--|//).*$', '', open(path).read())
            for use in USE.finditer(text):
                where, missing = lacks(text, use, path.endswith('.rt'))
                if missing: found += 1; print(f'{os.path.relpath(path, CRATES)}: {where} has no {", ".join(sorted(missing))}')
    print(f'{found} uses of what is not there')
    sys.exit(found > 0)

main()
