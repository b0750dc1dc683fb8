#!/usr/bin/env python3
"""Checks docs/THEOREM.md: each quote in it is its file's own text; and counts the definitions behind the top call.

usage: bench/theorem.py            says which quotes differ (and ends with status 1 where one does), and prints the count
       bench/theorem.py --write    puts the definitions as they stand now in place of their quotes, and the count and its day; then the same

A quote is a fenced block; the last line above it that begins with a path in backquotes says where it stands. It is one definition, whole, with its
comment, and of a function the contract. It is looked for by its name, which is read from the block, so that a quote can be renewed while a definition
of that name stands in the file.

The count is of names: from the words of the contract of `run`, through `use` lines, to the definitions in the crates' specs/ that these words name, and
so on; then those that the contracts of the outside's traits name besides (source, link, disk and sink). Constructors and fields count with their type,
types and constants of the code apart, operators and the standard library's not at all. It is about right and not exact: a variable that bears a
definition's name is told from it by how the whole definition binds its names.
"""
import datetime, glob, os, re, sys

TOP = os.path.dirname(os.path.dirname(os.path.abspath(__file__)))
PAGE, CALL, NAME = 'docs/THEOREM.md', 'crates/mail_proxy/src/top.rt', 'run'
OUTSIDE = {'source': 'Source', 'link': 'Link', 'disk': 'Disk', 'sink': 'Sink'}
COUNTED = re.compile(r'On (\d+ \w+ \d{4}) ([\d,]+) definitions stand behind `run`, ([\d,]+) of them named by one other alone')
WORD = r"[A-Za-z_][A-Za-z0-9_']*"
FORMS = {'.antt': re.compile(rf'(?:\s*(?:abbrev|unfoldable) pub |\s*pub (?:record|data) |pub )({WORD})(?=[ :])'),
         '.rt': re.compile(rf'\s*pub (?:fn|enum|struct|trait|type|const) ({WORD})')}

def text_of(path):
    with open(os.path.join(TOP, path), encoding='utf-8') as file: return file.read()

# ---- a file's definitions

def is_remark(line):
    said = line.strip()
    return said.startswith(('///', '#[')) or said.startswith('--') and not said.startswith('-- ----')

def ends_at(lines, at, kind):
    """The line behind a definition: of a function's the line of its body's brace, of another of the code the one behind its own, else an empty one."""
    if kind == '.rt':
        is_call = re.match(r'\s*pub fn ', lines[at])
        while at < len(lines) and lines[at].rstrip() not in (('{',) if is_call else ('}',)): at += 1
        return at if is_call else at + 1
    indent = len(lines[at]) - len(lines[at].lstrip())
    at += 1
    while at < len(lines) and lines[at].strip() and not (FORMS[kind].match(lines[at]) and len(lines[at]) - len(lines[at].lstrip()) == indent): at += 1
    while is_remark(lines[at - 1]): at -= 1
    return at

def definitions(path):
    """Each definition of a file by its name: its lines, with the remark above it."""
    kind, lines, found = os.path.splitext(path)[1], text_of(path).split('\n'), {}
    for at, line in enumerate(lines):
        said = FORMS[kind].match(line)
        if not said or line.lstrip().startswith('pub use'): continue
        first = at
        while first and is_remark(lines[first - 1]): first -= 1
        found.setdefault(said[1], []).append('\n'.join(lines[first:ends_at(lines, at, kind)]))
    return {name: texts[0] if len(texts) == 1 else max(texts, key=len) for name, texts in found.items()}

# ---- the quotes

def quotes(page):
    """Each quote: the lines of its block (the first, and the one behind the last), its path, and its text."""
    lines, path, begin, found = page.split('\n'), None, None, []
    for at, line in enumerate(lines):
        if line.startswith('```'):
            if begin is None: begin = at + 1
            else:
                found.append((begin, at, path, '\n'.join(lines[begin:at])))
                begin = None
        elif begin is None and (said := re.match(r'`(crates/[^`]+)`', line)): path = said[1]
    return found

def name_in(path, text):
    form = FORMS[os.path.splitext(path)[1]]
    return next((said[1] for line in text.split('\n') if (said := form.match(line)) and not line.lstrip().startswith('--')), None)

def stale(page):
    """The quotes that are not their files' text: place, what is wrong, and the text that stands there now, where one does."""
    found = []
    for begin, end, path, text in quotes(page):
        if path is None or not os.path.exists(os.path.join(TOP, path)):
            found.append((begin, end, f'no file {path}', None))
            continue
        name = name_in(path, text)
        now = definitions(path).get(name)
        if now is None: found.append((begin, end, f'no definition {name} in {path}', None))
        elif now != text: found.append((begin, end, f'{name} is not as {path} has it', now))
    return found

# ---- the count

def remarks_off(text):
    return re.sub(r'(--|//)[^\n]*', '', re.sub(r'"(?:[^"\\\n]|\\.)*"', '""', text))

class Module:
    """A file of specs/: what its `use` lines name, its definitions, and to which of them constructors and fields belong."""
    def __init__(self, path):
        self.path = path
        self.uses, self.modules = uses_in(text_of(path))
        self.own = {name: remarks_off(body) for name, body in definitions(path).items()}
        self.inner = {}
        for name, body in self.own.items():
            if re.search(rf'pub data {re.escape(name)}\b', body):
                for made in re.findall(rf'^\s+({WORD}) :', body, re.M): self.inner.setdefault(made, name)

def uses_in(text):
    """What `use` lines bring: names with the module and the name there, and names of whole modules."""
    names, modules = {}, {}
    for said in re.finditer(r'^\s*(?:ghost |pub )*use ([\w.]+?)(?:\.\{([^}]*)\})?(?: as (\w+))?;?\s*$', text, re.M):
        module, listed, name = said.groups()
        if listed is None: modules[name or module.split('.')[-1]] = module
        else:
            for part in listed.split(','):
                if not part.strip(): continue
                at, _, by = part.strip().partition(' as ')
                names[by or at] = (module, at)
    return names, modules

def spec_path(module):
    """The file of a module of this tree's specs, if it is one."""
    parts = module.split('.')
    if len(parts) < 4 or parts[0] != 'Rattle' or parts[2] != 'specs' or parts[3] == 'declared': return None
    path = f'crates/{parts[1]}/specs/{"/".join(parts[3:])}.antt'
    return path if os.path.exists(os.path.join(TOP, path)) else None

def declared(module, name):
    """The crate and name of a type or a constant of the code, if it is one."""
    parts = module.split('.')
    if len(parts) < 5 or parts[2:4] != ['specs', 'declared'] or not os.path.isdir(os.path.join(TOP, 'crates', parts[1])): return None
    return (parts[1], parts[5] if len(parts) > 5 and parts[5] != 'TheConstants' else name)

def bound_in(body, name):
    """The variables of a definition: what its head and its clauses' patterns bind, and its λs, lets and named arguments."""
    found = set(re.findall(rf'λ \(?((?:{WORD} ?)+)', body)) | set(re.findall(rf'\blet ({WORD})', body))
    found |= set(re.findall(rf'[({{]((?:{WORD} )+):', body)) | set(re.findall(rf'^\s*pub ({WORD}) :', body, re.M))
    for clause in re.findall(rf'^\s*{re.escape(name)} ([^=\n]*) =(?:\s|$)', body, re.M): found.add(' '.join(re.findall(WORD, clause)))
    return {word for group in found for word in group.split() if not word[0].isupper()}

class Closure:
    def __init__(self): self.modules, self.found, self.types, self.code, self.users, self.at = {}, set(), set(), {}, {}, None

    def module(self, path):
        if path not in self.modules: self.modules[path] = Module(path)
        return self.modules[path]

    def reach(self, module, name):
        """A name of a module: a definition of this tree, by way of the modules that pass it on."""
        if made := declared(module, name): return self.reach_type(*made)
        path = spec_path(module)
        if path is None: return
        its = self.module(path)
        owner = name if name in its.own else its.inner.get(name)
        if owner is None:
            if name in its.uses: self.reach(*its.uses[name])
            return
        if self.at != (path, owner): self.users.setdefault((path, owner), set()).add(self.at)
        if (path, owner) in self.found: return
        self.found.add((path, owner))
        before, self.at = self.at, (path, owner)
        self.words(its, its.own[owner], bound_in(its.own[owner], owner))
        self.at = before

    def words(self, its, text, bound=()):
        """All names in a text that stands in a module or beside its `use` lines."""
        here = re.sub(rf'\b{WORD} =(?=\s)', ' ', text) if 'record' in text else text   # a field that is given is none of them
        for front, word in re.findall(rf'((?:{WORD}\.)?)(?<![\w\'])({WORD})', re.sub(rf'(?<=[\w)\]])\.\d+', '', here)):
            if front:
                if front[:-1] in its.modules: self.reach(its.modules[front[:-1]], word)
                elif front[:-1] not in bound: self.name(its, front[:-1], bound)
                continue
            self.name(its, word, bound)

    def name(self, its, word, bound):
        if word in bound: return
        if word in its.own or word in its.inner: self.reach('Rattle.' + its.path[7:-5].replace('/', '.'), word)
        elif word in its.uses: self.reach(*its.uses[word])

    def reach_type(self, crate, name):
        """A type or a constant of the code, and the types of its fields."""
        if (crate, name) in self.types: return
        if crate not in self.code: self.code[crate] = code_of(crate)
        names, used = self.code[crate]
        if name not in names:
            if name in used: self.reach_type(used[name], name)
            return
        self.types.add((crate, name))
        for word in set(re.findall(r'\b[A-Z]\w*', names[name])):
            if word in names or word in used: self.reach_type(crate, word)

def code_of(crate):
    """The types and constants of a crate's code, and the crates of those that it uses."""
    names, used = {}, {}
    for path in sorted(glob.glob(os.path.join(TOP, 'crates', crate, 'src', '**', '*.rt'), recursive=True)):
        text = remarks_off(text_of(os.path.relpath(path, TOP)))
        for said in re.finditer(rf'^pub (?:enum|struct) ({WORD})[^;{{]*(?:\{{.*?^\}}|\{{[^}}]*\}}|;)|^pub (?:type|const) ({WORD})[^;]*;', text, re.M | re.S):
            names.setdefault(said[1] or said[2], said[0])
        for at, listed, one in re.findall(rf'^(?:pub )?use (\w+)(?:::\w+)*::(?:\{{([^}}]*)\}}|({WORD}));', text, re.M):
            for name in re.findall(WORD, listed or one):
                if os.path.isdir(os.path.join(TOP, 'crates', at)): used.setdefault(name, at)
    return names, used

class Contracts:
    """A file of the code as its `ghost use` lines make it: it has no definitions of its own."""
    def __init__(self, path):
        self.path, self.own, self.inner = path, {}, {}
        self.uses, self.modules = uses_in(text_of(path))

def clauses_of(text):
    """What stands in a contract's braces."""
    return ' '.join(re.findall(r'(?:requires|ensures \w*|ensures|ghost \w+:) \{(.*?)\}(?=\s*(?:$|;|\n))', text, re.M | re.S))

def behind():
    """The definitions behind the call, those that the outside's traits add, and the types of the code."""
    closure = Closure()
    closure.words(Contracts(CALL), clauses_of(remarks_off(definitions(CALL)[NAME])))
    of_call, types = set(closure.found), len(closure.types)
    steps = sum(len(closure.users[one]) == 1 for one in of_call)
    for file, trait in OUTSIDE.items():
        path = f'crates/undo_outside/src/{file}.rt'
        closure.words(Contracts(path), clauses_of(remarks_off(definitions(path)[trait])))
    return of_call, closure.found - of_call, types, steps, closure

def main():
    if sys.argv[1:] not in ([], ['--write']): sys.exit(__doc__)
    page = text_of(PAGE)
    of_call, of_outside, types, steps, closure = behind()
    if sys.argv[1:]:
        lines = page.split('\n')
        for begin, end, _, now in reversed(stale(page)):
            if now is not None: lines[begin:end] = now.split('\n')
        today = f'{datetime.date.today():%d %B %Y}'.lstrip('0')
        said = COUNTED.search(page)
        renewed = '\n'.join(lines)
        now = f'{len(of_call):,} definitions stand behind `run`, {steps:,} of them named by one other alone'
        if said and now not in said[0]: renewed = COUNTED.sub(f'On {today} {now}', renewed)
        if renewed != page:
            with open(os.path.join(TOP, PAGE), 'w', encoding='utf-8') as out: out.write(renewed)
            page = renewed
    faults = {begin: what for begin, _, what, _ in stale(page)}
    for begin, _, path, text in quotes(page):
        if path and path.endswith('.antt') and (path, name_in(path, text)) not in of_call | of_outside:
            faults.setdefault(begin, f'{name_in(path, text)} is not among those behind `{NAME}`')
    faults = [f'{PAGE}:{begin}: {what}' for begin, what in sorted(faults.items())]
    said = COUNTED.search(page)
    if not said: faults.append(f'{PAGE} gives no count')
    elif (said[2], said[3]) != (f'{len(of_call):,}', f'{steps:,}'): print(f'{PAGE} gives {said[2]} and {said[3]}, of {said[1]}: --write renews it')
    lines = sum(closure.modules[path].own[name].count('\n') + 1 for path, name in of_call)
    print(f'{len(of_call):,} definitions behind `{NAME}`, {steps:,} of them named by one other alone, {lines:,} lines, in {len({path for path, _ in of_call})} files of {len({path.split("/")[1] for path, _ in of_call})} crates; '
          f'{types} types and constants of the code; {len(of_outside)} definitions more in the contracts of the outside; {len(quotes(page))} quotes')
    if faults: sys.exit('\n'.join(faults))

main()
