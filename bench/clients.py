#!/usr/bin/env python3
"""alpine, mailutils and aerc behind a front's Dovecot: each logs in by IMAPS, lists, reads, marks, deletes what was open before a cycle, and looks again.

usage: bench/clients.py PROGRAM      wants dovecot, openssl, tmux, alpine, mailutils and aerc (Debian: dovecot-imapd, and packages of these names)

Prints what each showed, and after the cycle which messages the store has and how they are marked: that no program hit another message than the one that was meant.
Status 0 only where each listed, read and marked, found the notice afterwards, and hit no other message.
"""
import importlib.machinery, importlib.util, os, re, shutil, signal, smtplib, subprocess, sys, tempfile, time
from email.message import EmailMessage

TOP = os.path.dirname(os.path.dirname(os.path.abspath(__file__)))

def loaded(path):
    """A script of this repository as a module."""
    loader = importlib.machinery.SourceFileLoader('front_tests', path)
    module = importlib.util.module_from_spec(importlib.util.spec_from_loader('front_tests', loader))
    sys.dont_write_bytecode = True
    loader.exec_module(module)
    return module

tests = loaded(os.path.join(TOP, 'tests', 'front'))
same, true, within = tests.same, tests.true, tests.within

class Screen:
    """A program at a terminal of its own, by tmux: its keys and what it shows."""
    def __init__(self, home, words):
        self.socket = ['tmux', '-S', os.path.join(home, 'tmux' + os.path.basename(words[0]))]
        subprocess.run([*self.socket, '-f', '/dev/null', 'new-session', '-d', '-x', '110', '-y', '30', 'env', f'HOME={home}', f'SSL_CERT_FILE={home}/certificate.pem', 'TERM=screen', *words], check=True, env={**os.environ, 'HOME': home})
    def now(self): return subprocess.run([*self.socket, 'capture-pane', '-p'], stdout=subprocess.PIPE, text=True).stdout
    def keys(self, *them):
        for it in them: subprocess.run([*self.socket, 'send-keys', it], check=True); time.sleep(.5)
    def shows(self, *words, seconds=90):
        """Waits until all words are on the screen."""
        try: return within(words, seconds, lambda: (lambda now: now if all(it in now for it in words) else '')(self.now()))
        except tests.Wrong: raise tests.Wrong(f'{words} did not come within {seconds} s; shown was: {self.now()}') from None
    def end(self): subprocess.run([*self.socket, 'kill-server'], stderr=subprocess.DEVNULL)

def lines(shown, word): return [re.sub(r'\s+', ' ', it).strip() for it in shown.splitlines() if word in it]

def alpine(home, port):
    """Asks for the password, lists, shows letter 2, and marks it as important."""
    where = f'{{127.0.0.1:{port}/ssl/novalidate-cert/user=ann}}'
    with open(os.path.join(home, '.pinerc'), 'w') as it: it.write(f'last-version-used=6.26\npersonal-name=Ann\nuser-domain=mail.test\ninbox-path={where}INBOX\nfolder-collections=ann {where}[]\nfeature-list=quit-without-confirm,enable-flag-cmd\n')
    it = Screen(home, ['alpine'])
    it.shows('ENTER PASSWORD'); it.keys('a1', 'Enter')
    it.shows('Preserve password'); it.keys('n')
    it.shows('opened with 5 messages'); it.keys('i')
    listed = lines(it.shows('letter 1', 'letter 5'), 'letter')
    it.keys('j', '2', 'Enter', 'v')
    read = lines(it.shows('This is letter 2.', 'Grüße'), 'letter 2')
    it.keys('<'); it.shows('letter 5'); it.keys('*', 'Enter')
    marked = lines(it.shows('*     2'), 'letter 2')
    return it, listed, read, marked

def aerc(home, port):
    """Connects with a certificate that it checks, lists, shows a part of letter 3, and flags it."""
    folder = os.path.join(home, '.config', 'aerc')
    os.makedirs(folder)
    with open(os.path.join(folder, 'accounts.conf'), 'w', opener=lambda name, how: os.open(name, how, 0o600)) as it: it.write(f'[ann]\nsource = imaps://ann:a1@127.0.0.1:{port}\nfrom = Ann <ann@mail.test>\ndefault = INBOX\n')
    it = Screen(home, ['aerc'])
    listed = lines(it.shows('letter 1', 'letter 5', 'Connected'), 'letter')
    it.keys(':select 2', 'Enter', 'Enter')
    read = lines(it.shows('This is letter 3.', 'Grüße', 'three.bin'), 'letter 3')
    it.keys('q'); it.shows('letter 5'); it.keys(':flag', 'Enter')
    marked = lines(it.shows("'flagged' successful"), 'letter 3')
    return it, listed, read, marked

def mailutils(home, port, *commands):
    """What `mail` says to commands, in a session of its own."""
    done = subprocess.run(['mail.mailutils', '-f', f'imaps://ann:a1@127.0.0.1:{port}/INBOX'], input='\n'.join(commands) + '\n', stdout=subprocess.PIPE, stderr=subprocess.STDOUT, text=True, timeout=120, env={**os.environ, 'HOME': home})
    return done.stdout

def delivered(store):
    """Five letters to ann; the third has parts."""
    with smtplib.SMTP('127.0.0.1', store.smtp, local_hostname='c', timeout=60) as it:
        for number in range(1, 6):
            text = EmailMessage()
            text['From'], text['To'], text['Subject'], text['Message-ID'] = 'joe@far.test', 'ann@mail.test', f'letter {number}', f'<{number}@far.test>'
            text.set_content(f'This is letter {number}.\nGrüße, gewiß.\n', cte='quoted-printable')
            if number == 3: text.add_alternative(f'<p>This is <b>letter {number}</b>.</p>', subtype='html'); text.add_attachment(bytes(1500), maintype='application', subtype='octet-stream', filename='three.bin')
            it.sendmail('joe@far.test', ['ann@mail.test'], text.as_bytes())

def there(store):
    """What ann has by the journal: in each mailbox the subjects, with their flags."""
    return {box: [(re.search(rb'Subject: ([^\r]*)', text)[1].decode(), sorted(flags)) for _, (flags, _, text) in sorted(mail.items())] for box, (_, mail) in tests.stored(store.past(), 'ann').items() if mail}

def run(home, front, store):
    port = front.ports['imaps']
    shutil.copy(os.path.join(front.folder, 'tls', 'certificate.pem'), home)
    said = mailutils(home, port, 'print 4', 'quit')
    print('mailutils lists and reads:', lines(said, 'letter'), flush=True)
    true('mailutils lists five and reads one', len(lines(said, 'joe@far.test  ')) == 5 and 'This is letter 4.' in said)
    screens = []
    try:
        for name, starts in (('alpine', alpine), ('aerc', aerc)):
            screen, listed, read, marked = starts(home, port)
            screens.append((name, screen))
            print(f'{name} lists {listed}; reads {read}; marks {marked}', flush=True)
            same(f'{name} lists', 5, len(listed))
        print('the store has', there(store), flush=True)
        entry = store.asks('/box/ann/INBOX')['entries'][0]
        store.asks('/cycle', {'key': 'clients', 'point': 0, 'drop': [entry['item']]})
        before = there(store)
        print('after the cycle, which drops letter 1, the store has', before, flush=True)
        for (name, screen), words in zip(screens, (('d',), (':delete', 'Enter'))):
            time.sleep(5)
            print(f'{name}, in the session from before, shows:\n{screen.now().rstrip()}', flush=True)
            screen.keys(*words); time.sleep(5)
            print(f'{name}, told to delete what it had selected before the cycle, shows:\n{screen.now().rstrip()}', flush=True)
            now = there(store)
            print('the store has', now if now != before else 'what it had', flush=True)
            hit = [row for box in before for row in before[box] if row not in now.get(box, ())]
            true(f'{name} hit another message: {hit}', all(row[0] == {'alpine': 'letter 2', 'aerc': 'letter 3'}[name] for row in hit))
            before = now
        for name, screen in screens: screen.end()
        screens = []
        said = mailutils(home, port, 'quit')
        print('mailutils, anew:', lines(said, '.test'), flush=True)
        true('mailutils finds the notice', 'Mail rewound' in said)
    finally:
        for _, screen in screens: screen.end()

def main():
    if len(sys.argv) != 2: sys.exit(__doc__)
    tests.stores.PROGRAM = os.path.abspath(sys.argv[1])
    missing = [name for name in ('dovecot', 'openssl', 'tmux', 'alpine', 'mail.mailutils', 'aerc') if not shutil.which(name)]
    if missing: sys.exit(f'bench/clients.py wants {", ".join(missing)}. On Debian: apt-get install dovecot-imapd openssl tmux alpine mailutils aerc')
    with tempfile.TemporaryDirectory(prefix='clients-') as folder:
        home = os.path.join(folder, 'home')
        os.mkdir(home)
        store = tests.Store(folder).start()
        try:
            delivered(store)
            with tests.Front(folder, [store], only='dovecot') as front: run(home, front, store)
        finally: store.kill()

if __name__ == '__main__':
    signal.signal(signal.SIGTERM, lambda *_: sys.exit(143))   # so that what was started is stopped
    try: main()
    except tests.Wrong as fault: sys.exit(f'WRONG: {fault}')
