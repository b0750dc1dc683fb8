#!/usr/bin/env python3
"""Times commands on mailboxes beside those of other users, RENAMEs of whole trees, and deliveries under filters.

usage: bench/folders.py [-d FOLDER] [-s SHARE] PROGRAM..

Processor seconds of `script` over a store that is there, less those of the same store with a log-in alone: the least of three rounds, in
which the programs go by turns. The stores are made in FOLDER (/dev/shm); SHARE (1) takes that part of all counts, for a quick try. The
programs that know no upgrade have a `-` in the rows that need one. Prints a table for docs/SPEED.md.
"""
import argparse, os, shutil, subprocess, tempfile

BOXES, USERS, FILTERS, MAILS = 990, 50, 1000, 200
ROUNDS = 3

def house(users):
    return 'host = "mail.test"\ndomains = ["mail.test"]\npostmaster = "u0"\n' + ''.join(f'[[user]]\nname = "u{n}"\npassword = "p"\n' for n in range(users))

def logged_in(user):
    return [f'open {2 + user} imap', f'line {2 + user} a LOGIN u{user} p']

def created(users, boxes, front):
    """Each user has so many mailboxes below a name."""
    return [line for user in range(users) for line in logged_in(user) + [f'line {2 + user} b CREATE {front}{n:03}' for n in range(boxes)]]

def posted(path, body):
    return ['open 900 http', f'data 900 POST {path} HTTP/1.1~r~nContent-Length: {len(body)}~r~n~r~n{body}']

def by_turns(*commands):
    return lambda count: [f'line 2 c {command}' for _ in range(count) for command in commands]

def mails(fields, count):
    head = ['line 1 MAIL FROM:<joe@far.test>', 'line 1 RCPT TO:<u0@mail.test>', 'line 1 DATA']
    return ['open 1 smtp', 'line 1 HELO x'] + (head + [f'line 1 X-Head-{n}: some value of a field' for n in range(fields)] + ['line 1 Subject: hello', 'line 1', 'line 1 text', 'line 1 .']) * count

def filters(count, field):
    """So many filters, each of the whole text or of a header field."""
    def act(n):
        own = f'"name":"f{n}","needle":"needle{n}"'
        return f'{{"act":"filter","file":null,{own}}}' if field is None else f'{{"act":"filter","field":"{field.format(n)}","file":null,{own},"scope":"header"}}'
    return [line for n in range(count) for line in posted('/act', act(n))]

FLAT = (
    ('LIST of no name', 1000, by_turns('LIST "" zz%')),
    ('LIST of all his names', 100, by_turns('LIST "" *')),
    ('CREATE and DELETE', 1000, by_turns('CREATE x', 'DELETE x')),
    ('RENAME there and back', 1000, by_turns('RENAME m000 zz', 'RENAME zz m000')),
)
DEEP = (
    ('CREATE and DELETE of an inferior', 1000, by_turns('CREATE Work/x', 'DELETE Work/x')),
    ('RENAME of the whole tree, there and back', 20, by_turns('RENAME Work Zork', 'RENAME Zork Work')),
    ('RENAME of one inferior, there and back', 1000, by_turns('RENAME Work/000 Zork', 'RENAME Zork Work/000')),
)

def spent(program, store, folder, lines):
    """Processor seconds of a script over a copy of the store, or none where the program refuses it."""
    copy, given = os.path.join(folder, 'copy'), os.path.join(folder, 'given')
    shutil.copyfile(store, copy)
    with open(given, 'w') as out: out.write('\n'.join(lines) + '\n')
    with open(given, 'rb') as said, open(os.devnull, 'wb') as out:
        run = subprocess.Popen([program, 'script', copy], stdin=said, stdout=out)
        _, status, used = os.wait4(run.pid, 0)
    return None if status else used.ru_utime + used.ru_stime

def made(program, folder, name, users, lines):
    store = os.path.join(folder, name)
    subprocess.run([program, 'init', store], input=house(users).encode(), check=True, stdout=subprocess.DEVNULL)
    subprocess.run([program, 'script', store], input=('\n'.join(['at 1105092000'] + lines) + '\n').encode(), check=True, stdout=subprocess.DEVNULL)
    return store

def told(what, count, programs, store, folder, lines):
    """A row: for each program milliseconds of one of so many, less the log-in."""
    least = {it: [None, None] for it in programs}
    for _ in range(ROUNDS):
        for program in programs:
            for at, given in enumerate((logged_in(0), logged_in(0) + lines)):
                seconds = spent(program, store, folder, ['at 1105092001'] + given)
                if seconds is not None: least[program][at] = min(seconds, least[program][at] or seconds)
    cells = ['-' if None in it else f'{1000 * (it[1] - it[0]) / count:.3f}' for it in least.values()]
    print(f'| {what} | {count:,} | ' + ' | '.join(cells) + ' |', flush=True)

def main():
    words = argparse.ArgumentParser(usage=__doc__)
    words.add_argument('-d', default='/dev/shm'); words.add_argument('-s', type=float, default=1); words.add_argument('programs', nargs='+')
    words = words.parse_args()
    part = lambda count: max(1, int(count * words.s))
    programs = [os.path.abspath(it) for it in words.programs]
    print('| What | times | ' + ' | '.join(f'{os.path.basename(it)}, ms' for it in programs) + ' |\n|---|---' + '|---' * len(programs) + '|')
    with tempfile.TemporaryDirectory(dir=words.d) as folder:
        for users in (1, part(USERS)):
            store = made(programs[0], folder, f'flat{users}', users, created(users, part(BOXES), 'm'))
            for what, count, lines in FLAT: told(f'{what}, {users} users of {part(BOXES) + 2} mailboxes', part(count), programs, store, folder, lines(part(count)))
        for users in (1, part(USERS)):
            store = made(programs[-1], folder, f'deep{users}', users, posted('/upgrade', '{}') + created(users, part(BOXES) - 1, 'Work/'))
            for what, count, lines in DEEP: told(f'{what}, {users} users of {part(BOXES) + 2} mailboxes', part(count), programs, store, folder, lines(part(count)))
        for what, field in (('of the whole text', None), ('of as many field names', 'X-Kind-{}'), ('of Subject', 'Subject')):
            store = made(programs[-1], folder, 'filters', 1, filters(part(FILTERS), field))
            for fields in (10, 1000): told(f'a mail of {fields + 1} fields under {part(FILTERS)} filters {what}', part(MAILS), programs, store, folder, mails(fields, part(MAILS)))
            os.remove(store)

if __name__ == '__main__':
    main()
