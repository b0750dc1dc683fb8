#!/usr/bin/env python3
"""Refuses one allocation of a cycle after the other, and looks at what is left.

usage: bench/no_memory.py PROGRAM      (the built program; needs cc, to make a malloc that refuses its Nth call)

For each of three stories of tests/cases/cycles (a filter by mistake, an infected delivery, a wrong alias): what comes before
the cycle is done over a store; then, for each N until none is refused, a copy of that store gets the cycle while the Nth
allocation of the run is refused, and is looked at in the same run and in the next, where none is. What is seen must be the
store without the cycle or with all of it: with it where the operator was told the report, without it where want of memory
was told, and either where the connection closed without a word or the run ended for want of memory. At least one of them must be
told of want of memory, in each story, and in a fourth: an SMTP client's greeting and envelope, an IMAP client's login and look at a mailbox, and a
POP3 client's session. Of that one's QUIT what is left is looked at too: the store before it, with its STORE alone, or with its EXPUNGE too, this only where it
was answered `+OK Bye.` or its connection closed, and the first not where it was answered so. STORE alone must come about, as must want of memory that is told.
"""
import collections, os, re, shutil, subprocess, sys, tempfile

TOP = os.path.dirname(os.path.dirname(os.path.abspath(__file__)))
LOOKS = ['/status', '/timeline/0', '/conf'] + [f'/box/{user}/{box}' for user in ('ann', 'bob', 'carl') for box in ('INBOX', 'Lost+Found', 'Keep')]

def looks(first): return ''.join(f'open {first + n} http\nline {first + n} GET {path} HTTP/1.1\nline {first + n}\n' for n, path in enumerate(LOOKS))

def said(transcript):
    """What each connection was told."""
    found = collections.defaultdict(str)
    for number, kind, text in re.findall(r'(?m)^(\d+)([<+])(.*)$', transcript): found[int(number)] += kind + text + '\n'
    return found

def answers(transcript, first):
    told = said(transcript)
    return [told.get(first + n, '') for n in range(len(LOOKS))]

def main():
    if len(sys.argv) != 2: sys.exit(__doc__)
    program = os.path.abspath(sys.argv[1])
    work = tempfile.mkdtemp()
    shim, mark = os.path.join(work, 'refuse.so'), os.path.join(work, 'mark')
    subprocess.run(['cc', '-shared', '-fPIC', '-w', '-o', shim, os.path.join(TOP, 'tests', 'refuse.c'), '-ldl'], check=True)
    base, store = os.path.join(work, 'base'), os.path.join(work, 'store')

    def run(words, text, at=0):
        env = dict(os.environ, LD_PRELOAD=shim, REFUSE_AT=str(at), REFUSE_TOLD=mark) if at else dict(os.environ)
        done = subprocess.run([program, *words], input=text.encode(), stdout=subprocess.PIPE, stderr=subprocess.STDOUT, env=env, timeout=60)
        return done.returncode, done.stdout.decode('latin-1')

    bad = 0
    for name in ('filter-by-mistake', 'infected-delivery', 'wrong-alias'):
        case = open(os.path.join(TOP, 'tests', 'cases', 'cycles', name + '.case'), encoding='latin-1').read()
        text = re.search(r'(?ms)^=== stdin\n(.*?)^=== ', case)[1]
        before, asker, rest = re.match(r'(?s)(.*?)^(open (?:\d+) http\n(?:data|line) \d+ POST /cycle.*?)(?=^(?:open|at)\b|\Z)(.*)', text, re.M).groups()
        number = int(re.match(r'open (\d+)', asker)[1])
        for path in (base, store):
            if os.path.exists(path): os.remove(path)
        run(['init', base], open(os.path.join(TOP, 'examples', 'house.toml')).read())
        run(['script', base], before)
        moment = 'at 1105092000\n'
        without = answers(run(['play'], before + looks(500))[1], 500)
        shutil.copy(base, store)
        whole = answers(run(['script', store], moment + asker + looks(500))[1], 500)
        if without == whole: sys.exit(f'{name}: the cycle changes nothing that is looked at')
        count, at = collections.Counter(), 0
        while True:
            at += 1
            shutil.copy(base, store)
            if os.path.exists(mark): os.remove(mark)
            status, out = run(['script', store], moment + asker + looks(500), at)
            if not os.path.exists(mark): break
            told = said(out).get(number, '')
            kind = 'done' if ' 200 ' in told else 'refused' if ' 503 ' in told else 'silent'
            after = answers(run(['script', store], moment + looks(700))[1], 700)
            left = 'whole' if after == whole else 'without' if after == without else 'NEITHER'
            here = [it for it in zip(answers(out, 500), without, whole) if ' 200 ' in it[0]]
            same = all(it[0] == it[2] for it in here) if left == 'whole' else all(it[0] == it[1] for it in here)
            fits = left != 'NEITHER' and same and (kind, left) not in (('done', 'without'), ('refused', 'whole'))
            count[(kind, left)] += 1
            if not fits:
                bad += 1
                print(f'{name}: allocation {at}: {kind}, {left}, in the run {"the same" if same else "another"}, status {status}')
        if not any(kind == 'refused' for kind, _ in count):
            bad += 1
            print(f'{name}: want of memory is never told')
        print(f'{name}: {at - 1} allocations; ' + ', '.join(f'{kind} and {left}: {n}' for (kind, left), n in sorted(count.items())))
    client = 'open 1 smtp\nline 1 HELO c\nline 1 MAIL FROM:<joe@far.test>\nline 1 RCPT TO:<ann@mail.test>\nline 1 NOOP\n'
    reader = 'open 2 imap\nline 2 a LOGIN ann a1\nline 2 b SELECT INBOX\nline 2 c NOOP\n'
    for name, text, memory in (('an SMTP client', client, '452 No memory'), ('an IMAP client', reader, 'NO No memory')):
        count, at = collections.Counter(), 0
        while True:
            at += 1
            if os.path.exists(mark): os.remove(mark)
            status, out = run(['play'], text, at)
            if not os.path.exists(mark): break
            count['told' if memory in out else 'status 8' if status == 8 else 'closed' if ' closed' in out else 'not seen'] += 1
        if not count['told']:
            bad += 1
            print(f'{name}: want of memory is never told')
        print(f'{name}: {at - 1} allocations; ' + ', '.join(f'{what}: {n}' for what, n in sorted(count.items())))
    # A POP3 client's QUIT of one of two messages: what lies in INBOX then, and which flags it has.
    mail = 'at 1105092000\nopen 2 smtp\nline 2 HELO c\n' + 'line 2 MAIL FROM:<joe@far.test>\nline 2 RCPT TO:<ann@mail.test>\nline 2 DATA\nline 2 Subject: hi\nline 2\nline 2 .\n' * 2
    session = 'at 1105092000\nopen 1 pop\nline 1 USER ann\nline 1 PASS a1\nline 1 RETR 1\nline 1 DELE 2\nline 1 QUIT\n'
    look = 'open 3 http\nline 3 GET /box/ann/INBOX HTTP/1.1\nline 3\n'
    for path in (base, store):
        if os.path.exists(path): os.remove(path)
    run(['init', base], open(os.path.join(TOP, 'examples', 'house.toml')).read())
    run(['script', base], mail)
    count, at = collections.Counter(), 0
    while True:
        at += 1
        shutil.copy(base, store)
        if os.path.exists(mark): os.remove(mark)
        status, out = run(['script', store], session, at)
        if not os.path.exists(mark): break
        kind = 'done' if '+OK Marked.' in out and '+OK Bye.' in out else 'told' if '-ERR No memory.' in out else 'closed' if '1 closed' in out else 'status 8' if status == 8 else 'not seen'
        flags = re.findall(r'"flags":"([^"]*)"', run(['script', store], look)[1])
        left = {('', ''): 'before', ('', 'D'): 'marked', ('',): 'after'}.get(tuple(flags), 'NEITHER')
        count[(kind, left)] += 1
        if left == 'NEITHER' or (kind == 'done') != (left == 'after') and kind not in ('closed', 'status 8'):
            bad += 1
            print(f'a POP3 client: allocation {at}: {kind}, {left}, status {status}')
    if not any(kind == 'told' for kind, _ in count) or not any(left == 'marked' for _, left in count):
        bad += 1
        print('a POP3 client: want of memory is never told, or never comes between the STORE and the EXPUNGE')
    print(f'a POP3 client: {at - 1} allocations; ' + ', '.join(f'{kind} and {left}: {n}' for (kind, left), n in sorted(count.items())))
    shutil.rmtree(work)
    print('each left the store as it was, or with the whole cycle' if not bad else f'{bad} did not')
    sys.exit(1 if bad else 0)

main()
