#!/usr/bin/env python3
"""shape.py [TOP]: the shape of the product's code, counted in its sources. Tests and laws are left out.

It counts the functions on the way of a delivery and of a cycle, those of over eight parameters, those that only hand their
arguments on, the arms that only rename an error, and `unreachable!()`. `--names` names them all.

The way of a delivery is what lies on a path of calls from `serve_events` through `Desk::submit` to the log's `seal`, and what
those functions call directly. Other roles' turns are left out. That of a cycle goes through `Desk::cycle`. Calls are read by names:
a free function by its `use`, a method by the written type of what it is called on. Where that is not written it is each method of
that name below, but for names that std has too. So a few are too many and a few are missing: it compares two trees of this house.
"""
import glob, os, re, sys

EIGHT = 8
# names of methods that std's types have too: on what no type is written of, they are taken for std's
STD = set('len as_slice bytes next push get iter first last extend is_empty insert remove clear take read find min max copy'.split())
WORDS = set('if match while for return Some Ok Err'.split())
# the turns of other roles, by how their paths begin
OTHERS = {
    'a delivery': ['mail_loop::imap_turn', 'mail_loop::pop_turn', 'mail_loop::console', 'mail_loop::fetching', 'console_session', 'imap_', 'pop_'],
    'a cycle': ['mail_loop::imap_turn', 'mail_loop::pop_turn', 'mail_loop::smtp', 'mail_loop::fetching', 'mail_loop::turn', 'imap_', 'pop_', 'smtp_'],
}
THROUGH = {'a delivery': ('time_desk', 'Desk', 'submit'), 'a cycle': ('time_desk', 'Desk', 'cycle')}


class Function:
    """One function of a crate: its module, its type if it has one, its name, what stands before its body, and that."""

    def __init__(self, crate, module, kind, name, head, body):
        self.crate, self.module, self.kind, self.name, self.head, self.body = crate, module, kind, name, head, body
        self.path = '::'.join(x for x in (crate, module, kind, name) if x)


def crates(top):
    """The product's crates with those that each names in crates.txt."""
    found = {}
    for line in open(top + '/crates.txt'):
        name, _, rest = line.split('#')[0].partition(':')
        if name.strip():
            found[name.strip()] = rest.split()
    return {n: r for n, r in found.items() if not n.endswith(('_tests', '_laws')) and n != 'faulty'}


def plain(text):
    """The text without comments and without what stands in strings."""
    return re.sub(r'b?"(?:\\.|[^"\\])*"', '""', re.sub(r'//[^\n]*', '', text))


def imports(text):
    """What the `use` lines bring: the name here, where it is from, and its name there."""
    found = {}
    for line in re.findall(r'(?m)^use ([^;]+);', text):
        path = ' '.join(line.split())
        many = re.match(r'([\w:]+?)::\{(.*)\}$', path)
        base, names = (many.group(1), many.group(2).split(',')) if many else path.rpartition('::')[::2]
        for name in names if many else [names]:
            name = name.strip()
            if name:
                found[name.split(' as ')[-1].strip()] = (base, name.split(' as ')[0].strip())
    return found


def type_of(line):
    """The type of an `impl` or of a `trait`."""
    rest = re.sub(r'^(pub )?(impl|trait)', '', line)
    depth = 0
    if rest.startswith('<'):
        for place, sign in enumerate(rest):
            depth += (sign == '<') - (sign == '>' and rest[place - 1] != '-')
            if depth == 0:
                rest = rest[place + 1:]
                break
    word = re.match(r'\W*(?:mut |dyn )?(\w+)', rest.split(' for ', 1)[-1].strip())
    return word.group(1) if word else 'other'


def functions(crate, module, text):
    """The functions of a module that have a body."""
    lines, kind, i = text.split('\n'), None, 0
    while i < len(lines):
        line = lines[i]
        if re.match(r'(pub )?(impl|trait)\b', line):
            kind = type_of(line)
        elif line == '}':
            kind = None
        begin = re.match(r'^( *)(?:pub(?:\([a-z]+\))? )?(?:const )?(?:unsafe )?fn (\w+)', line)
        if not begin:
            i += 1
            continue
        indent, j = begin.group(1), i
        while not (lines[j] == indent + '{' or lines[j].endswith(('{}', ';'))
                   or lines[j].endswith(' {') and (j == i or lines[j].startswith(indent + ')'))):
            j += 1
        head = '\n'.join(lines[i:j + 1])
        if lines[j].endswith((';', '{}')):
            yield Function(crate, module, kind, begin.group(2), head, '')
            i = j + 1
            continue
        end = j + 1
        while lines[end] != indent + '}':
            end += 1
        yield Function(crate, module, kind, begin.group(2), head, '\n'.join(lines[j + 1:end]))
        i = end + 1


def split(text):
    """What commas part, outside of brackets."""
    parts, depth, now = [], 0, ''
    for sign in text.replace('->', '  '):
        depth += (sign in '([{<') - (sign in ')]}>')
        if sign == ',' and depth == 0:
            parts.append(now.strip())
            now = ''
        else:
            now += sign
    return [p for p in parts + [now.strip()] if p]


def parameters(head):
    """The parameters of a function, `self` among them."""
    start = re.search(r'\bfn \w+', head).end()
    depth = 0
    if head[start] == '<':
        for place in range(start, len(head)):
            depth += (head[place] == '<') - (head[place] == '>' and head[place - 1] not in '-=')
            if depth == 0:
                start = place + 1
                break
    depth = 0
    for place in range(start, len(head)):
        depth += (head[place] == '(') - (head[place] == ')')
        if depth == 0:
            return split(head[start + 1:place])
    return []


def hands_on(function):
    """Whether a body is one call with all parameters, and nothing else."""
    call = re.fullmatch(r'(?:self\.)?[\w:.]+(?:::<[^()]*>)?\((.*)\)', ' '.join(function.body.split()))
    if not call:
        return False
    given = {re.sub(r'^&?(mut )?', '', a).strip() for a in split(call.group(1))}
    own = {re.sub(r'^(&|mut )*', '', p.split(':')[0]).strip() for p in parameters(function.head)} - {'self'}
    return bool(given) and given <= own | {'alloc'} and own <= given


ERR = r'Err\(([\w:]+(?:\([\w:, ]*\)| \{[^}]*\})?)\)'


def renamed(text):
    """The arms that take an error and give another one, which is all that they do."""
    arms = re.findall(ERR + r'\s*=>\s*(?:\{\s*)?(?:return )?' + ERR, text)
    return [f'{one} => {other}' for one, other in arms if one != other]


class House:
    """The product's functions, and which of them call which."""

    def __init__(self, top):
        self.deps, self.texts, self.uses, self.all, self.named = crates(top), {}, {}, [], {}
        for crate in self.deps:
            for file in sorted(glob.glob(f'{top}/crates/{crate}/src/**/*.rt', recursive=True)):
                module = os.path.relpath(file, f'{top}/crates/{crate}/src')[:-3].replace('/', '::')
                text = plain(open(file).read())
                self.texts[crate, module], self.uses[crate, module] = text, imports(text)
                self.all += functions(crate, module, text)
        for function in self.all:
            if function.body:
                self.named.setdefault(function.name, []).append(function)
        self.calls = {f.path: self.called(f) for f in self.all if f.body}

    def below(self, crate, seen):
        for other in self.deps[crate]:
            if other in self.deps and other not in seen:
                seen.add(other)
                self.below(other, seen)
        return seen

    def home(self, function, name):
        """The crate from which a module has a name, and the name there; its own crate where it has none."""
        base, there = self.uses[function.crate, function.module].get(name, ('crate', name))
        first = base.split('::')[0]
        return (function.crate if first in ('crate', 'self', 'super') else first), there

    def methods(self, function, receiver, name, there):
        there = [f for f in there if f.kind]
        if receiver == 'self':
            return [f for f in there if f.kind == function.kind and f.crate == function.crate] or ([] if name in STD else there)
        base = receiver.split('.')[-1]
        written = base and re.search(r'\b' + re.escape(base) + r": &?(?:mut )?(?:'\w+ )?(?:mut )?([\w:]+)", function.head)
        if not written:
            return [] if name in STD else there
        kind = written.group(1).split('::')[-1]
        own = [f for f in there if f.kind == kind]
        crate = written.group(1).split('::')[0] if '::' in written.group(1) else self.home(function, kind)[0]
        own = [f for f in own if f.crate == crate] or own
        return own or ([f for f in there if name not in STD] if len(kind) == 1 else [])

    def called(self, function):
        """The functions that one calls, or hands on by name."""
        found, seen = set(), self.below(function.crate, {function.crate})
        own = lambda name: [f for f in self.named.get(name, []) if f.crate == function.crate and f.module == function.module and not f.kind]
        for call in re.finditer(r'(\.|::)?\b([a-z_]\w*)(?:::<[^()]*?>)?\(', function.body):
            mark, name = call.groups()
            there = [f for f in self.named.get(name, []) if f.crate in seen]
            if name in WORDS or not (there or mark is None):
                continue
            before = function.body[:call.start()]
            if mark == '.':
                receiver = re.search(r'([\w.]+)$', before)
                found |= {f.path for f in self.methods(function, receiver.group(1) if receiver else '', name, there)}
            elif mark == '::':
                path = re.search(r'([\w:]+)$', before)
                last = path.group(1).split('::')[-1] if path else ''
                if last[:1].isupper():
                    kind = function.kind if last == 'Self' else last
                    crate = path.group(1).split('::')[0] if '::' in path.group(1) else self.home(function, last)[0]
                    typed = [f for f in there if f.kind == kind]
                    found |= {f.path for f in [f for f in typed if f.crate == crate] or typed}
                elif last:
                    first = path.group(1).split('::')[0]
                    crate = function.crate if first in ('crate', 'self', 'super') else first
                    found |= {f.path for f in there if f.crate == crate and not f.kind}
            elif own(name):
                found |= {f.path for f in own(name)}
            elif name in self.uses[function.crate, function.module]:
                crate, there_name = self.home(function, name)
                found |= {f.path for f in self.named.get(there_name, []) if f.crate == crate and not f.kind}
        for name in re.findall(r'[(,]\s*([a-z_]\w*)\s*[),]', function.body):
            found |= {f.path for f in own(name)}
        return found - {function.path}

    def find(self, crate, kind, name):
        return {f.path for f in self.named[name] if f.crate == crate and f.kind == kind}

    def way(self, what):
        """The nested calls from hearing to the seal, and with them what each calls directly."""
        kept = lambda path: not path.startswith(tuple(OTHERS[what]))
        calls = {p: {c for c in cs if kept(c)} for p, cs in self.calls.items() if kept(p)}
        callers = {}
        for path, called in calls.items():
            for one in called:
                callers.setdefault(one, set()).add(path)
        middle = self.find(*THROUGH[what])
        nested = reached(self.find('mail_loop', None, 'serve_events'), calls) & reached(middle, callers)
        nested |= reached(middle, calls) & reached(self.find('seal_log', 'Log', 'seal'), callers)
        return nested, nested.union(*(calls[p] for p in nested))


def reached(start, edges):
    seen, waiting = set(start), list(start)
    while waiting:
        for one in edges.get(waiting.pop(), ()):
            if one not in seen:
                seen.add(one)
                waiting.append(one)
    return seen


def main():
    words = [w for w in sys.argv[1:] if w != '--names']
    house = House(words[0] if words else '.')
    rows = []
    for what in THROUGH:
        nested, way = house.way(what)
        rows.append((f'functions on the way of {what} ({len(nested)} of them nested calls)', sorted(way)))
    rows.append((f'functions of over {EIGHT} parameters', [f.path for f in house.all if len(parameters(f.head)) > EIGHT]))
    rows.append(('functions that only hand their arguments on', [f.path for f in house.all if f.body and hands_on(f)]))
    rows.append(('arms that only rename an error', [f'{c}::{m} {arm}' for (c, m), t in house.texts.items() for arm in renamed(t)]))
    rows.append(('unreachable!()', [f'{c}::{m}' for (c, m), t in house.texts.items() for _ in range(t.count('unreachable!()'))]))
    for what, names in rows:
        print(f'{len(names):5} {what}')
        if '--names' in sys.argv:
            print(*('        ' + name for name in names), sep='\n')


if __name__ == '__main__':
    main()
