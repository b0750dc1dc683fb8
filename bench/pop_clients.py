#!/usr/bin/env python3
"""Programs that fetch mail over POP3: each fetches all and leaves it, fetches again, once more over two cycles, and deletes.

usage: bench/pop_clients.py PROGRAM [NAME ..]      NAME: of python, curl, fetchmail, getmail, mpop and mutt, those that are there (Debian: packages of these names, and tmux)

Each program has a user of its own, and is asked seven times for what is new: at first (three letters), again (none), after one more letter (that one), after a cycle
that touches another user alone (none), after a cycle that takes the first letter out (under the mailbox's new stamp all that is left, and the notice), and again (none);
then it deletes what is there, and the store has none left. mutt keeps no list of what it has seen, so it is asked what it shows. fetchmail is told to use RETR: its
TOP asks for 99,999,999 lines, which is refused. Status 0 only where each did all of it.
"""
import os, poplib, re, shutil, signal, smtplib, subprocess, sys, tempfile

TOP = os.path.dirname(os.path.dirname(os.path.abspath(__file__)))
sys.dont_write_bytecode = True
sys.path.insert(0, os.path.join(TOP, 'tests'))
import stores  # noqa: E402
from stores import Store, Wrong, same, true  # noqa: E402

SUBJECT = re.compile(rb'(?m)^Subject: ([^\r\n]*)')

def ran(words, home, statuses=(0,)):
    done = subprocess.run([str(it) for it in words], stdin=subprocess.DEVNULL, stdout=subprocess.PIPE, stderr=subprocess.STDOUT, timeout=120, env={**os.environ, 'HOME': home, 'LC_ALL': 'C.UTF-8', 'TERM': 'xterm', 'FETCHMAIL_POP3_FORCE_RETR': '1'}, cwd=home)
    if done.returncode not in statuses: raise Wrong(f'{words[0]} ended with {done.returncode}: {done.stdout[-600:]}')
    return done.stdout

def subjects(octets): return [it.decode() for it in SUBJECT.findall(octets)]

def written(path, text):
    with open(path, 'w', opener=lambda name, how: os.open(name, how, 0o600)) as it: it.write(text)
    return path

class Account:
    """What a program is given: a folder, a port, and a user, whose password is 'pw'."""
    def __init__(self, folder, name, port):
        self.home, self.user, self.port, self.seen = os.path.join(folder, name), name, port, set()
        os.mkdir(self.home)
    def at(self, name): return os.path.join(self.home, name)
    def grown(self, name, asks):
        """The subjects that came into a file while something was asked."""
        before = os.path.getsize(self.at(name)) if os.path.exists(self.at(name)) else 0
        asks()
        return subjects(open(self.at(name), 'rb').read()[before:]) if os.path.exists(self.at(name)) else []
    def come(self, folder, asks):
        """The subjects of the letters that came into a Maildir while something was asked."""
        new = os.path.join(self.at(folder), 'new')
        for part in ('cur', 'new', 'tmp'): os.makedirs(os.path.join(self.at(folder), part), exist_ok=True)
        before = set(os.listdir(new))
        asks()
        return [subject for name in sorted(set(os.listdir(new)) - before) for subject in subjects(open(os.path.join(new, name), 'rb').read())[:1]]

def python(it, deletes):
    one = poplib.POP3('127.0.0.1', it.port, timeout=60)
    try: one.capa(); raise Wrong('CAPA is answered')
    except poplib.error_proto: pass
    one.user(it.user); one.pass_('pw')
    count, size = one.stat()
    uids = dict(line.decode().split() for line in one.uidl()[1])
    same('sizes', size, sum(int(line.split()[1]) for line in one.list()[1]))
    got = []
    for number, uid in uids.items():
        if uid not in it.seen or deletes:
            text = b'\r\n'.join(one.retr(number)[1]) + b'\r\n'
            same('the header', text.partition(b'\r\n\r\n')[0].split(b'\r\n'), one.top(number, 0)[1][:-1])
            got += subjects(text)[:1]
            it.seen.add(uid)
        if deletes: one.dele(number)
    one.noop(); one.quit()
    return got

def curl(it, deletes):
    asks = lambda *words, path='': ran(['curl', '-sS', '-u', f'{it.user}:pw', f'pop3://127.0.0.1:{it.port}/{path}', *words], it.home)
    uids = [line.split() for line in asks('-X', 'UIDL').decode().splitlines()]
    got = []
    for number, uid in uids:
        if uid not in it.seen or deletes: got += subjects(asks(path=number))[:1]; it.seen.add(uid)
    if deletes:
        for _ in uids: asks('-l', '-I', '-X', 'DELE 1')
    return got

def fetchmail(it, deletes):
    rc = written(it.at('rc'), f'poll 127.0.0.1 protocol POP3 port {it.port} auth password uidl\n user "{it.user}" password "pw" is "root" here keep sslproto "" mda "cat >>{it.at("got")}"\n')
    words = ['fetchmail', '-f', rc, '--pidfile', it.at('pid'), '-i', it.at('ids'), '-N', '--nosyslog', *(['--nokeep', '--all'] if deletes else [])]
    return it.grown('got', lambda: ran(words, it.home, (0, 1)))   # 1: there was no mail

def getmail(it, deletes):
    os.makedirs(it.at('gm'), exist_ok=True)
    written(it.at('gm/rc'), f'[retriever]\ntype = SimplePOP3Retriever\nserver = 127.0.0.1\nport = {it.port}\nusername = {it.user}\npassword = pw\n[destination]\ntype = MDA_external\npath = /usr/bin/tee\narguments = ("-a", "{it.at("got")}")\nallow_root_commands = true\nignore_stdout = true\n[options]\nread_all = false\ndelete = false\ndelivered_to = false\nreceived = false\n')
    return it.grown('got', lambda: ran(['getmail', f'--getmaildir={it.at("gm")}', '-r', 'rc', *(['--all', '--delete'] if deletes else [])], it.home))

def mpop(it, deletes):
    words = ['mpop', '--host=127.0.0.1', f'--port={it.port}', f'--user={it.user}', '--passwordeval=echo pw', '--auth=user', '--tls=off', f'--keep={"off" if deletes else "on"}', f'--only-new={"off" if deletes else "on"}',
             f'--uidls-file={it.at("uids")}', '--received-header=off', '--pipelining=on', f'--delivery=maildir,{it.at("mail")}']
    return it.come('mail', lambda: ran(words, it.home))

def mutt(it, deletes):
    """All that its list shows, and deletes all where that is asked."""
    keys = '<tag-pattern>~A<enter><tag-prefix><pipe-message>cat >>got<enter>' + ('<tag-prefix><delete-message><quit>' if deletes else '<exit>')
    rc = written(it.at('rc'), f'set pop_user="{it.user}" pop_pass=pw pop_authenticators=user pop_delete=no ssl_starttls=no ssl_force_tls=no folder={it.home} spoolfile=pop://127.0.0.1:{it.port}/\n'
                 f'set delete=yes quit=yes move=no wait_key=no pipe_split=yes pipe_decode=no sleep_time=0 beep=no header_cache={it.at("cache")} message_cachedir={it.at("texts")}\npush "{keys}"\n')
    if os.path.exists(it.at('got')): os.unlink(it.at('got'))
    return it.grown('got', lambda: ran(['script', '-qec', f'timeout 60 mutt -F {rc} -f pop://127.0.0.1:{it.port}/', '/dev/null'], it.home))

PROGRAMS = {'python': (python, 'python3'), 'curl': (curl, 'curl'), 'fetchmail': (fetchmail, 'fetchmail'), 'getmail': (getmail, 'getmail'), 'mpop': (mpop, 'mpop'), 'mutt': (mutt, 'mutt')}

def delivered(store, users, number):
    with smtplib.SMTP('127.0.0.1', store.smtp, local_hostname='c', timeout=60) as it:
        text = f'From: joe@far.test\r\nTo: all@mail.test\r\nSubject: letter {number}\r\nMessage-ID: <{number}@far.test>\r\n\r\nThis is letter {number}.\r\n.dots\r\n..\r\n' + ('x' * 70 + '\r\n') * 12 * number
        it.sendmail('joe@far.test', [f'{user}@mail.test' for user in users], text)

def there(store, user): return [subjects(text)[0] for text, _, _ in stores.lies(store, user).get('INBOX', ())]

def run(store, accounts):
    letters = lambda *them: [f'letter {number}' for number in them]
    def asked(what, new, shown):
        for name, it in accounts.items():
            got = PROGRAMS[name][0](it, False)
            print(f'{name}, {what}: {", ".join(got) or "nothing"}', flush=True)
            same(f'{name}, {what}', sorted(shown if name == 'mutt' else new), sorted(got))
    for number in (1, 2, 3): delivered(store, accounts, number)
    asked('at first', letters(1, 2, 3), letters(1, 2, 3))
    asked('again', [], letters(1, 2, 3))
    delivered(store, [*accounts, 'other'], 4)
    asked('with one more', letters(4), letters(1, 2, 3, 4))
    delivered(store, ['other'], 5)
    entries = lambda user: store.asks(f'/box/{user}/INBOX')['entries']
    store.asks('/cycle', {'key': 'other', 'point': 0, 'drop': [entries('other')[-1]['item']]})
    asked('after a cycle for another', [], letters(1, 2, 3, 4))
    store.asks('/cycle', {'key': 'all', 'point': 0, 'drop': [entries(next(iter(accounts)))[0]['item']]})
    left = {name: there(store, name) for name in accounts}
    for name in accounts: true(f'{name} has {left[name]}', left[name][:3] == letters(2, 3, 4) and len(left[name]) == 4)
    asked('after a cycle that drops letter 1', left[next(iter(accounts))], left[next(iter(accounts))])
    asked('again', [], left[next(iter(accounts))])
    for name, it in accounts.items():
        PROGRAMS[name][0](it, True)
        same(f'{name}: what is left', [], there(store, name))
        print(f'{name} has deleted all', flush=True)
    same('what the other has', letters(4), there(store, 'other')[:1])

def main():
    if len(sys.argv) < 2: sys.exit(__doc__)
    stores.PROGRAM = os.path.abspath(sys.argv[1])
    missing = [name for name, (_, command) in PROGRAMS.items() if not shutil.which(command)]
    names = [name for name in sys.argv[2:] or PROGRAMS if name not in missing]
    if missing: print(f'not there, so not tried: {", ".join(missing)}')
    with tempfile.TemporaryDirectory(prefix='pop-') as folder:
        store = Store(folder, text=stores.house([(name, 'pw') for name in (*names, 'other')]).replace('postmaster = "ann"', 'postmaster = "other"').replace('team = ["ann", "bob"]', 'all = ["other"]'), pop=True).start()
        try: run(store, {name: Account(folder, name, store.pop) for name in names})
        finally: store.kill()

if __name__ == '__main__':
    signal.signal(signal.SIGTERM, lambda *_: sys.exit(143))   # so that what was started is stopped
    try: main()
    except Wrong as fault: sys.exit(f'WRONG: {fault}')
