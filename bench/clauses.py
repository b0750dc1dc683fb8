#!/usr/bin/env python3
"""Compares docs/PROVED.md with the contracts of the tree: each function and each clause that it names for a crate is there.

usage: bench/clauses.py              names what PROVED says that the crate does not have, and ends with status 1 where there is something
       bench/clauses.py --unnamed    lists the clauses of public functions whose function PROVED does not name for their crate; no fault

A clause is what stands behind `ensures` in a function's contract, by its name. PROVED names one as `function` (`clause`), and in the table of promises as
`function` of CRATE: `clause`. In the place of a clause the name of a definition may stand that the contract uses, or a field of such a definition's record.
bench/map.py takes from here, for the functions that a crate's head names as carrying it, the line of each with its clauses. By text alone, in a second.
"""
import functools, glob, os, re, sys

TOP = os.path.dirname(os.path.dirname(os.path.abspath(__file__)))
PROVED = os.path.join(TOP, 'docs', 'PROVED.md')
BEGINS, ENDS = '<!-- crates, by bench/map.py -->\n', '<!-- end of the crates -->'

class Function:
    """A function: its type or trait, its name, whether other crates can call it, what its comment says, its file, its contract, and its clauses' names."""
    def __init__(self, owner, name, public, said, file, text):
        self.owner, self.name, self.public, self.said, self.file, self.text = owner, name, public, said, file, text
        self.clauses = re.findall(r'^\s*ensures (\w+) \{', text, re.M)
        self.unnamed = len(re.findall(r'^\s*ensures \{', text, re.M))
    def path(self): return f'{self.owner}::{self.name}' if self.owner else self.name

def contract(lines, number, indent):
    """The lines of a function from its first one to where its body begins."""
    end = number
    while end < len(lines):
        line = lines[end]
        if line in (' ' * indent + '{', ' ' * indent + '{}') or re.search(r'(?<!λ)\{( .*)?\}?$', line) and 'ensures' not in line and 'requires' not in line and (end == number or line.startswith(' ' * indent + ')')): break
        if line.rstrip().endswith(';') and line.startswith(' ' * indent) and 'λ' not in line: break
        end += 1
    return '\n'.join(lines[number:end + 1])

def functions_of(file):
    """The functions of a file of code, by its layout: `rt fmt` has one."""
    lines, owner, said, found = open(file, encoding='utf-8').read().split('\n'), [], [], []
    for number, line in enumerate(lines):
        indent, rest = len(line) - len(line.lstrip()), line.strip()
        while owner and indent <= owner[-1][0] and rest.startswith('}'): owner.pop()
        block = re.match(r'(?:pub(?:\(\w+\))? )?(impl|trait)\b(.*)\{$', rest)
        if block:
            named = block[2].split(' for ')[-1] if ' for ' in block[2] else re.sub(r'^<(?:[^<>]|<[^<>]*>)*>', '', block[2])
            owner.append((indent, re.match(r'\W*(\w+)', named)[1], block[1] == 'trait' or ' for ' in block[2]))
        if rest.startswith('///'): said.append(rest[3:].strip()); continue
        at = re.match(r'(pub(?:\(\w+\))? )?(?:ghost |unsafe |const )*fn (\w+)', rest)
        if at:
            within = owner[-1] if owner and owner[-1][0] < indent else None
            found.append(Function(within and within[1], at[2], at[1] == 'pub ' or bool(within and within[2] and not at[1]), ' '.join(said), os.path.relpath(file, TOP), contract(lines, number, indent)))
        if not rest.startswith(('//', '#[')): said = []
    return found

@functools.cache
def functions(crate):
    return [it for file in sorted(glob.glob(os.path.join(TOP, 'crates', crate, 'src', '**', '*.rt'), recursive=True)) for it in functions_of(file)]

@functools.cache
def words_of(crate, part):
    """The words of a crate's definitions (specs) or of its code (src)."""
    return {word for file in glob.glob(os.path.join(TOP, 'crates', crate, part, '**', '*.*'), recursive=True) if os.path.isfile(file) for word in re.findall(r"[A-Za-z_][\w']*", open(file, encoding='utf-8').read())}

@functools.cache
def files_of(crate): return {os.path.splitext(os.path.basename(file))[0] for file in glob.glob(os.path.join(TOP, 'crates', crate, 'src', '**', '*.rt'), recursive=True)}

@functools.cache
def crates(): return {name: uses.split() for name, _, uses in (line.partition(':') for line in open(os.path.join(TOP, 'crates.txt')) if line.strip() and line[0] != '#')}

def called(crate, token):
    """The functions of a crate that a name can mean: `Type::name`, a name, or `module::name`."""
    owner, _, name = token.rpartition('::')
    return [it for it in functions(crate) if it.name == name and (not owner or owner in (it.owner, os.path.splitext(os.path.basename(it.file))[0]))]

# ---- what carries a crate, for bench/map.py

def first_sentence(said): return re.split(r'(?<=\.) ', said)[0].rstrip('.') if said else ''

def row(it):
    """The line of a function: its clauses by name, and what it does."""
    names = ', '.join(f'`{name}`' for name in it.clauses) or ('one clause' if it.unnamed else 'none')
    does = first_sentence(it.said)
    return f'- `{it.path()}` has {names}' + (f': {does[0].lower() + does[1:]}' if does and len(does.split()) <= 40 else '')

def rows(crate, said):
    """A line for each function that a crate's head names as carrying it; of a file that it names the public functions, in one line."""
    found, seen = [], set()
    for token in re.findall(r'`([\w:]+)`', said or ''):
        if token in seen: continue
        seen.add(token)
        them = [it for it in called(crate, token) if it.public and (it.clauses or it.unnamed)] if '::' in token or token[0].islower() else []
        if them: found += [row(it) for it in them[:1]]
        elif token in files_of(crate) and token != 'lib':
            laws = [it for it in functions(crate) if it.public and (it.clauses or it.unnamed) and os.path.basename(it.file) == f'{token}.rt']
            if laws: found.append(f'- `{token}` has ' + ', '.join(f'`{it.path()}`' for it in laws))
    return found

IS_ROW = re.compile(r'^- `[\w:]+` has .*\n', re.M)

# ---- the check

def is_known(crate, token):
    """Whether a crate, or one that it uses, has a name: a function, a clause, a definition, a type, a module, or the crate itself."""
    for name in [crate] + [it for it in crates()[crate] if it in crates()]:
        if all(part in words_of(name, 'src') or part in words_of(name, 'specs') or part in files_of(name) or part == name for part in token.split('::')): return True
    return token in crates() or token == 'main'

def is_clause(crate, token, them, said=''):
    """Whether a name is that of a clause of one of these functions, of a definition that a contract of them uses or that stands in its crate, or another function's that is named."""
    if any(token in it.clauses or re.search(rf'\b{re.escape(token)}\b', it.text) for it in them) or token in words_of(crate, 'specs') or called(crate, token): return True
    others = [name for name in re.findall(r'\bof (\w+)', said) if name in crates()] + [name for name in crates()[crate] if name in crates() and token[0].isupper()]
    return any(token in words_of(name, 'specs') or called(name, token) for name in others)

def faults_of_line(crate, line, before):
    """What a line says of a crate that is not there, and the functions that it names last."""
    them, faults = list(before), []
    if not line.startswith('- ('): them = []
    for group in re.finditer(r'\(((?:[^()]|\([^()]*\))*)\)|`([^`]+)`', line):
        if group[2] is not None:
            token = group[2]
            if not re.fullmatch(r"[A-Za-z_]\w*(::\w+)*", token): continue
            found = called(crate, token)
            if found: them += found
            elif not is_known(crate, token): faults.append(f'{crate} has no `{token}`')
        elif re.match(r'`[a-z_]+`(?:, `\w+`)*(?:,? |$|:)', group[1]) and them:
            listed = re.match(r'((?:`\w+`(?:, )?)+)', group[1])[1]
            faults += [f'{", ".join(sorted({it.path() for it in them})[:3])} of {crate} has no clause `{token}`' for token in re.findall(r'`(\w+)`', listed) if not is_clause(crate, token, them, line)]
        else:
            faults += [f'{crate} has no `{token}`' for token in re.findall(r'`([A-Za-z_]\w*(?:::\w+)*)`', group[1]) if not is_known(crate, token)]
    return faults, them

def sections():
    """For each crate what PROVED says of it, line by line, with the number of each."""
    text = open(PROVED, encoding='utf-8').read()
    begins, ends, crate = text.index(BEGINS), text.index(ENDS), None
    for number, line in enumerate(text.split('\n'), 1):
        at = re.match(r'### (\w+)$', line)
        if at: crate = at[1]
        elif line.startswith('## '): crate = None
        elif crate and line.strip(): yield number, crate, line

def promises():
    """Each cell of the table of promises that names what carries one, with its line's number."""
    for number, line in enumerate(open(PROVED, encoding='utf-8').read().split('## The promises')[1].split('\n\n<!--')[0].split('\n'), open(PROVED, encoding='utf-8').read().split('## The promises')[0].count('\n') + 1):
        if line.startswith('| ') and not line.startswith('| Promise'): yield number, line.rstrip(' |').split(' | ')[-1]

def faults_of_promise(cell):
    """Each piece of a cell names functions, whose crate it says or the piece before it, and then clauses or definitions; a piece without a function goes on with those before."""
    faults, places, them, named = [], [], [], re.compile(r'`([A-Za-z_]\w*(?:::\w+)*)`')
    for piece in re.split(r'; |(?<=`\)), (?=`[A-Z]\w+::)', cell):
        own = [name for name in re.findall(r'\b(\w+)\b', re.sub(r'`[^`]*`', '', piece)) if name in crates()]
        tokens = named.findall(piece)
        if not tokens: continue
        places = own or [name for name in crates() if called(name, tokens[0])] or places
        found = [it for place in places for token in tokens for it in called(place, token)]
        them = found or them
        for token in tokens:
            if any(token in it.clauses for it in them) or any(called(place, token) or is_known(place, token) for place in places): continue
            faults.append(f'{" or ".join(places[:3])} has no `{token}`')
        for token in named.findall(re.sub(r'\([^)]*\)', '', piece.partition(': ')[2])):
            if token[0].islower() and not any(token in it.clauses for it in them) and not any(called(place, token) for place in places): faults.append(f'`{them[0].path() if them else "?"}` has no clause `{token}`')
    return faults

def main():
    if sys.argv[1:] not in ([], ['--unnamed']): sys.exit(__doc__)
    faults, before, lines, named = [], {}, 0, {}
    for number, crate, line in sections():
        lines += 1
        named.setdefault(crate, set()).update(token.rpartition('::')[2] for token in re.findall(r'`([\w:]+)`', line))
        found, before[crate] = faults_of_line(crate, line, before.get(crate, []))
        faults += [f'docs/PROVED.md:{number}: {it}' for it in found]
    for number, cell in promises(): faults += [f'docs/PROVED.md:{number}: {it}' for it in faults_of_promise(cell)]
    if sys.argv[1:]:
        for crate in crates():
            for it in functions(crate):
                if it.public and it.clauses and it.name not in named.get(crate, set()): print(f'{crate}: {it.path()} ({", ".join(it.clauses)})')
    print(f'{lines} lines of PROVED on {len(named)} crates; {len(faults)} names that are not there')
    if faults: sys.exit('\n'.join(faults))

if __name__ == '__main__': main()
