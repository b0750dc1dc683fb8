#!/usr/bin/env python3
"""Mail programs on a store that is upgraded: each makes mailboxes three deep, renames and deletes them, and synchronizes them both ways, where it does such things.

usage: bench/tree_clients.py PROGRAM [NAME ..]      NAME: of python, curl, mbsync, offlineimap, mutt, getmail, imapfilter, thunderbird, claws and sylpheed, those that
are there (Debian: packages of these names, mbsync in isync, claws in claws-mail; for the three with windows xvfb, dbus, at-spi2-core, libatk-adaptor, python3-pyatspi and
xdotool too)

Each program has a user of its own with three letters in INBOX. Programs that keep a list of mailboxes are run before the upgrade and over it. Names with a quote, a
backslash, a space, an umlaut and of 200 octets are among the mailboxes, through LIST and STATUS and back. What goes over the wire is kept and read: a further run may ask
nothing that changes a store. Prints a line for each program and check, and which commands were refused; status 0 only where each did all of it. With KEEP=FOLDER what
each program left, its wire and, where a check failed, a picture of its screen are copied there.
"""
import collections, imaplib, os, re, shutil, signal, smtplib, socket, subprocess, sys, tempfile, threading, time, urllib.parse

TOP = os.path.dirname(os.path.dirname(os.path.abspath(__file__)))
sys.dont_write_bytecode = True
sys.path[:0] = [os.path.join(TOP, 'tests'), os.path.join(TOP, 'bench')]
import stores, windows  # noqa: E402
from stores import Store, Wrong, letter, same, stored, true, within  # noqa: E402

ODD = ['Old/say "hi"', 'Old/back\\slash', 'Old/two words/x', 'Old/Gr&APwA3w-e', 'Old/' + 'n' * 196, 'Old/' + '"\\' * 98]   # the last two have 200 octets
PLAIN = [name for name in ODD if not set(name) & set('"\\')]
TREE = ['Work', 'Work/2005', 'Work/2005/May']
FIXED = ['INBOX', 'Lost+Found']
CHANGES = re.compile(r'(?i)\S+ (?:UID )?(CREATE|RENAME|DELETE|APPEND|STORE|COPY|EXPUNGE)\b')

def ran(words, home, statuses=(0,), said=None):
    done = subprocess.run([str(it) for it in words], input=said, stdin=subprocess.DEVNULL if said is None else None, stdout=subprocess.PIPE, stderr=subprocess.STDOUT, timeout=300, env={**os.environ, 'HOME': home, 'LC_ALL': 'C.UTF-8', 'TERM': 'xterm', 'PATH': '/usr/bin:/bin'}, cwd=home)
    if done.returncode not in statuses: raise Wrong(f'{words[0]} ended with {done.returncode}: {done.stdout[-900:]}')
    return done.stdout.decode('utf-8', 'replace')

def written(path, text):
    with open(path, 'w', opener=lambda name, how: os.open(name, how, 0o600)) as it: it.write(text)
    return path

def quoted(name): return '"' + name.replace('\\', '\\\\').replace('"', '\\"') + '"'

class Wire:
    """Stands between a program and a store, hands on what they say, and keeps it: lines, each behind its connection's number and `>` or `<`."""
    def __init__(self, port, path):
        self.far, self.path, self.count = port, path, 0
        self.log = open(path, 'w', buffering=1, encoding='latin-1')
        self.listens = socket.create_server(('127.0.0.1', 0), backlog=50)
        self.port = self.listens.getsockname()[1]
        threading.Thread(target=self.takes, daemon=True).start()
    def takes(self):
        while True:
            try: near, far = self.listens.accept()[0], socket.create_connection(('127.0.0.1', self.far))
            except OSError: return
            self.count += 1
            for source, target, mark in ((near, far, '>'), (far, near, '<')): threading.Thread(target=self.hands, args=(source, target, f'{self.count}{mark} '), daemon=True).start()
    def hands(self, source, target, mark):
        kept = b''
        with source, target:
            try:
                while data := source.recv(65536):
                    *lines, kept = (kept + data).split(b'\r\n')
                    self.log.write(''.join(f'{mark}{line.decode("latin-1")}\n' for line in lines))
                    target.sendall(data)
            except OSError: pass
            for it in (source, target):
                try: it.shutdown(socket.SHUT_RDWR)
                except OSError: pass
    def lines(self): return open(self.path, encoding='latin-1').read().splitlines()
    def rests(self, seconds=5, at_most=120):
        """Waits until nothing was said for a while, and the last word was the store's."""
        before, begun, first = None, time.monotonic(), time.monotonic()
        while time.monotonic() < min(begun + seconds, first + at_most):
            now = os.path.getsize(self.path)
            if now != before or not (last := self.lines()[-1:]) or '> ' in last[0][:6]: before, begun = now, time.monotonic()
            time.sleep(.3)
    def asked(self, since=0): return [line.partition('> ')[2] for line in self.lines()[since:] if re.match(r'\d+> ', line)]
    def refused(self):
        """The commands that were answered NO or BAD, each with its answer, and how often."""
        open_, found = {}, collections.Counter()
        for line in self.lines():
            number, mark, said = re.match(r'(\d+)([<>]) (.*)', line).groups()
            tag, _, rest = said.partition(' ')
            if mark == '>': open_[number, tag] = rest
            elif rest[:3] in ('NO ', 'BAD'): found[open_.get((number, tag), ''), rest] += 1
        return found

class Account:
    """A user of a store, with a folder of its own for the program, which connects through a wire that is read."""
    def __init__(self, folder, store, name):
        self.home, self.store, self.user, self.kept = os.path.join(folder, name), store, name, {}
        os.mkdir(self.home)
        self.wire = Wire(store.imap, self.at('wire'))
        self.port = self.wire.port
    def at(self, *names): return os.path.join(self.home, *names)
    def all(self): return {box: {uid: (sorted(flags), text) for uid, (flags, _, text) in mail.items()} for box, (_, mail) in stored(self.store.past(), self.user).items()}
    def boxes(self): return sorted(self.all())
    def mail(self, box): return list(self.all()[box].values())
    def subjects(self, box): return [re.search(rb'(?m)^Subject: ([^\r\n]*)', text)[1].decode() for _, text in self.mail(box)]
    def does(self, *commands):
        """Commands of another session, each a name of imaplib with its arguments."""
        it = self.store.reader(self.user, 'pw')
        for name, *arguments in commands:
            status, said = getattr(it, name)(*arguments)
            if status != 'OK': raise Wrong(f'{name} {arguments}: {said}')
        it.logout()
    def makes(self, names): self.does(*(('create', quoted(name)) for name in names))
    def puts(self, name, number): self.does(('append', quoted(name), None, None, letter(number).encode()))
    def changes_nothing(self, does):
        """What is asked meanwhile changes no store, and the store is as before."""
        before, since = self.all(), len(self.wire.lines())
        does()
        same('what was asked', [], [line for line in self.wire.asked(since) if CHANGES.match(line)])
        same('the store', before, self.all())

def python(it):
    one = imaplib.IMAP4('127.0.0.1', it.port, timeout=120)
    one.login(it.user, 'pw')
    def asks(name, *arguments, wanted='OK'):
        status, said = getattr(one, name)(*arguments)
        same(f'{name} {arguments}', wanted, status)
        return said
    asks('create', 'Work/2005/May/')
    same('made', sorted(FIXED + TREE), it.boxes())
    asks('append', 'Work/2005/May', '(\\Seen)', None, letter(9).encode())
    same('the delimiter', [b'(\\Noselect) "/" ""'], asks('list', '""', '""'))
    same('%', [b'() "/" "INBOX"', b'() "/" "Lost+Found"', b'() "/" "Work"'], asks('list', '""', '%'))
    yield 'CREATE of `Work/2005/May/` makes all three; LIST with `%` and with an empty pattern'
    asks('select', 'Work/2005/May')
    asks('rename', 'Work', 'Jobs/old')
    same('renamed', sorted(FIXED + ['Jobs', 'Jobs/old', 'Jobs/old/2005', 'Jobs/old/2005/May']), it.boxes())
    same('in it', 1, len(it.mail('Jobs/old/2005/May')))
    same('refused', [b'Mailbox has inferiors.'], asks('delete', 'Jobs', wanted='NO'))
    yield 'RENAME takes the tree along below a name that is made; DELETE of what has inferiors is refused'
    for name in ODD:
        asks('create', quoted(name)); asks('append', quoted(name), None, None, letter(7).encode())
        same(f'in {name}', [b'1'], asks('select', quoted(name)))
        same(f'LIST of {name}', [f'() "/" {quoted(name)}'.encode()], asks('list', '""', quoted(name)))
        same(f'STATUS of {name}', [f'{quoted(name)} (MESSAGES 1 UIDNEXT 2)'.encode()], asks('status', quoted(name), '(MESSAGES UIDNEXT)'))
    yield f'{len(ODD)} odd names by CREATE, APPEND, SELECT, LIST and STATUS'
    for name in ('Jobs/old/2005/May', 'Jobs/old/2005', 'Jobs/old', 'Jobs'): asks('delete', name)
    same('deleted', sorted(FIXED + ODD + ['Old', 'Old/two words']), it.boxes())
    one.logout()
    yield 'DELETEs from below'

def curl(it):
    def asks(path, *words, statuses=(0,)): return ran(['curl', '-sS', '-u', f'{it.user}:pw', f'imap://127.0.0.1:{it.port}/{path}', *words], it.home, statuses)
    asks('', '-X', 'CREATE Work/2005/May/')
    written(it.at('letter'), letter(9))
    asks('Work%2F2005%2FMay', '-T', it.at('letter'))
    true('read', 'letter 9' in asks('Work%2F2005%2FMay;MAILINDEX=1'))
    true('listed', '"/" "Work/2005"' in asks('', '-X', 'LIST "" Work/%'))
    yield 'makes three, uploads to and reads from `Work%2F2005%2FMay`, lists'
    asks('', '-X', 'RENAME Work Jobs')
    asks('', '-X', 'DELETE Jobs', statuses=(21, 78))
    for name in ('Jobs/2005/May', 'Jobs/2005', 'Jobs'): asks('', '-X', f'DELETE {name}')
    same('deleted', FIXED, it.boxes())
    yield 'renames with inferiors, deletes from below; DELETE of what has inferiors is refused'
    for name in ODD:
        asks('', '-X', f'CREATE {quoted(name)}')
        asks(urllib.parse.quote(name, safe=''), '-T', it.at('letter'))
        true(f'{name} is read', 'letter 9' in asks(urllib.parse.quote(name, safe='') + ';MAILINDEX=1'))
        true(f'STATUS of {name}', f'STATUS {quoted(name)} (MESSAGES 1)' in asks('', '-X', f'STATUS {quoted(name)} (MESSAGES)'))
    listed = asks('')
    same('listed', [], [name for name in ODD if f'"/" {quoted(name)}' not in listed])
    yield f'{len(ODD)} odd names: uploads, reads, LIST and STATUS'

def maildirs(folder): return {os.path.relpath(os.path.dirname(where), folder): len(names) + len(os.listdir(os.path.join(os.path.dirname(where), 'new'))) for where, _, names in os.walk(folder) if os.path.basename(where) == 'cur'}

def left(folder, box, number):
    """A letter that was put into a Maildir."""
    for part in ('cur', 'new', 'tmp'): os.makedirs(os.path.join(folder, box, part), exist_ok=True)
    return written(os.path.join(folder, box, 'new', f'{number}.host'), letter(number).replace('\r\n', '\n'))

def pulls(it, folder, runs, odd):
    """A tree and odd names come, another tree goes, and a further run changes nothing on either side."""
    it.makes(['Work/2005/May', *odd])
    for name in ('Work/2005/May', *odd): it.puts(name, 7)
    runs()
    here = maildirs(folder)
    same('Work/2005/May came', 1, here.get('Work/2005/May'))
    yield 'pulls a tree three deep'
    for name in odd: same(f'{name} came', 1, here.get(name))
    yield f'pulls {len(odd)} odd names'
    left(folder, 'Home/2006/June', 11)
    for name in odd: left(folder, name, 12)
    runs(); runs()
    same('went', ['letter 11'], it.subjects('Home/2006/June'))
    for name in odd: same(f'into {name}', ['letter 7', 'letter 12'], it.subjects(name))
    same('names', sorted({*FIXED, *TREE, 'Home', 'Home/2006', 'Home/2006/June', *odd, *('/'.join(name.split('/')[:n]) for name in odd for n in (1, 2) if name.count('/') >= n)}), sorted(name for name in it.boxes() if name != 'Flat.box'))
    yield 'pushes a tree three deep, and a letter into each odd name'
    marks(it, folder, runs)
    yield 'flags and deletions go both ways in the innermost mailbox'
    here = maildirs(folder)
    it.changes_nothing(runs)
    same('once more: the folders', here, maildirs(folder))
    yield 'a further run asks nothing that changes the store, and changes no folder'

def marks(it, folder, runs):
    """A flag that is set here, one that is set there, a letter that is deleted here and one there."""
    box = 'Home/2006/June'
    for number in (13, 14, 15): left(folder, box, number)
    runs(); runs()
    def file(number): return next(os.path.join(folder, box, part, name) for part in ('cur', 'new') for name in os.listdir(os.path.join(folder, box, part)) if f'Subject: letter {number}\n' in open(os.path.join(folder, box, part, name)).read())
    def marked(number, flags): old = file(number); os.rename(old, os.path.join(folder, box, 'cur', os.path.basename(old).partition(':')[0] + ':2,' + flags))
    uids = dict(zip(it.subjects(box), it.all()[box]))
    it.does(('select', box), ('uid', 'STORE', str(uids['letter 11']), '+FLAGS', '(\\Flagged)'), ('uid', 'STORE', str(uids['letter 14']), '+FLAGS', '(\\Deleted)'), ('expunge',))
    marked(13, 'S'); os.remove(file(15))
    runs(); runs()
    same('what is left there', ['letter 11', 'letter 13'], it.subjects(box))
    same('and its flags', [['\\Flagged'], ['\\Seen']], [flags for flags, _ in it.mail(box)])
    same('what is left here', 2, maildirs(folder)[box])
    true('and its flags', file(11).partition(':2,')[2] == 'F' and file(13).partition(':2,')[2] == 'S')

def renamed(it, folder, runs):
    """A tree that another session renames comes under its new names, and a further run changes nothing."""
    it.does(('rename', 'Work', 'Jobs'))
    said = runs()
    if not maildirs(folder).get('Jobs/2005/May'): raise Wrong(f'renamed, and did not come: {said}')
    same('in the store', 1, len(it.mail('Jobs/2005/May')))
    yield 'a tree that another session renames comes under its new names'
    it.kept['boxes'] = it.boxes()
    it.changes_nothing(runs)
    yield f'and a further run changes nothing (the store has {", ".join(name for name in it.boxes() if name.startswith(("Work", "Jobs")))}; here are {", ".join(sorted(name for name in maildirs(folder) if name.startswith(("Work", "Jobs"))))})'

def mbsync(it):
    def runs():
        for _ in range(20):   # mbsync 1.4.4 ends after each mailbox into which it put something (a fault of its own), and goes on when it is run again
            if 'extraneous' not in ran(['mbsync', '-c', it.at('rc'), '-a'], it.home, (0, 1)): return
        raise Wrong('mbsync comes to no end')
    yield from pulls(it, it.at('m'), runs, ODD)
    yield from renamed(it, it.at('m'), runs)

def mbsync_before(it):
    os.mkdir(it.at('m'))   # a short path, and not a whole one: mbsync ends where one of a letter has 256 octets
    rc = written(it.at('rc'), f'IMAPAccount a\nHost 127.0.0.1\nPort {it.port}\nUser {it.user}\nPass pw\nSSLType None\nAuthMechs LOGIN\n\nIMAPStore far\nAccount a\n\nMaildirStore near\nPath m/\nInbox m/INBOX\nSubFolders Verbatim\n\nChannel c\nFar :far:\nNear :near:\nPatterns *\nCreate Both\nRemove None\nExpunge Both\nSyncState *\n')
    ran(['mbsync', '-c', rc, '-a'], it.home)

def offlineimap_runs(it, creates='yes'):
    rc = written(it.at('rc'), f'[general]\naccounts = a\nmetadata = {it.at("meta")}\n[Account a]\nlocalrepository = l\nremoterepository = r\n[Repository l]\ntype = Maildir\nlocalfolders = {it.at("mail")}\nsep = /\n[Repository r]\ntype = IMAP\nremotehost = 127.0.0.1\nremoteport = {it.port}\nremoteuser = {it.user}\nremotepass = pw\nssl = no\nstarttls = no\nauth_mechanisms = LOGIN\ncreatefolders = {creates}\n')
    return ran(['offlineimap', '-c', rc, '-o', '-u', 'basic'], it.home, (0, 1))

def offlineimap(it):
    runs, folder = lambda: offlineimap_runs(it), it.at('mail')
    yield from pulls(it, folder, runs, PLAIN)
    others = [name for name in ODD if name not in PLAIN]
    it.makes(others)
    since = len(it.wire.lines())
    it.changes_nothing(runs)
    yield f'names with a quote or a backslash: asks {next(line for line in it.wire.asked(since) if "hi" in line).partition(" ")[2]}, is refused, and goes on'
    for name in others: it.does(('delete', quoted(name))); shutil.rmtree(os.path.join(folder, name))
    left(folder, 'Home/2007', 16)
    true('refused', 'Mailbox exists' in runs() and 'Home/2007' not in it.boxes())
    it.makes(['Home/2007'])
    runs()
    same('once it is there', ['letter 16'], it.subjects('Home/2007'))
    yield 'a new folder below one that is there: asks CREATE of that one first, is refused (`NO Mailbox exists.`) and ends; once another program has made it the letter goes'
    yield from renamed(it, folder, lambda: offlineimap_runs(it, 'no'))
    yield 'both with `createfolders = no`'

def offlineimap_before(it): offlineimap_runs(it)

def mutt(it):
    rc = written(it.at('rc'), f'set imap_authenticators="login" ssl_starttls=no ssl_force_tls=no\nset imap_user={it.user} imap_pass=pw\nset folder=imap://127.0.0.1:{it.port}/ spoolfile=imap://127.0.0.1:{it.port}/INBOX\nset confirmappend=no confirmcreate=no delete=yes quit=yes move=no wait_key=no mark_old=no\nset record= postponed= timeout=5 imap_keepalive=0 sleep_time=0 beep=no\n')
    def keys(them, *words):
        ran(['script', '-qec', ' '.join(['mutt', '-F', written(it.at('keys'), f'source {rc}\npush "{them}"\n'), *words]), '/dev/null'], it.home, range(256))
    keys('<first-entry><save-message>^U=Work/2005/May<enter><sync-mailbox><quit>')
    same('saved', sorted(FIXED + TREE), it.boxes())
    yield 'saves a letter into a mailbox three deep, which it makes'
    keys(f'<first-entry><pipe-message>cat >{it.at("got")}<enter><exit>', '-f', '=Work/2005/May')
    true('read', 'letter 1' in open(it.at('got')).read())
    yield 'reads it there'
    keys('<change-folder>?<create-mailbox>Home/2006/June<enter><exit><exit>')
    keys('<change-folder>?<search>Home<enter><rename-mailbox>^UHouse<enter><exit><exit>')
    same('renamed', ['House', 'House/2006', 'House/2006/June'], [name for name in it.boxes() if name.startswith('Ho')])
    for above, name in (('House/2006/', 'June'), ('House/', '2006'), ('', 'House')): keys(f'<change-folder>?<change-dir>^U={above}<enter><search>{name}<enter><delete-mailbox>y<exit><exit>')
    same('deleted', sorted(FIXED + TREE), it.boxes())
    yield 'makes three in its browser, renames the outermost, deletes from below'
    it.makes(ODD)
    for name in ODD: it.puts(name, 7)
    for name, finds in zip(ODD, ('<search>say<enter>', '<search>back<enter>', '', '<search>Gr<enter>', '<search>nnn<enter>', '<next-entry>')):
        if finds: keys(f'<change-folder>?<change-dir>^U=Old/<enter>{finds}<view-file><first-entry><pipe-message>cat >>{it.at("odd")}<enter><exit>')
    same('read', len(ODD) - 1, open(it.at('odd')).read().count('Subject: letter 7'))
    lists = ''.join(f'mailboxes {quoted("=" + decoded(name))}\n' for name in ODD)
    with open(rc, 'a') as more: more.write(f'set mail_check=1 mail_check_stats=yes mail_check_stats_interval=1\n{lists}')
    keys('<check-stats><exit>')
    told = '\n'.join(it.wire.lines())
    same('STATUS', [], [name for name in ODD if f'< * STATUS {quoted(name)} (' not in told])
    yield f'{len(ODD)} odd names by LIST in its browser, SELECT and STATUS'

def decoded(name): return name.replace('&APwA3w-', 'üß')   # as a user writes it

def getmail(it):
    it.makes(['Work/2005/May', *ODD])
    for name in ('Work/2005/May', *ODD): it.puts(name, 9)
    def asks(boxes, got, statuses=(0,)):
        written(it.at('getmailrc'), f'[retriever]\ntype = SimpleIMAPRetriever\nserver = 127.0.0.1\nport = {it.port}\nusername = {it.user}\npassword = pw\nmailboxes = ({boxes},)\n[destination]\ntype = MDA_external\npath = /usr/bin/tee\narguments = ("-a", "{it.at(got)}")\nallow_root_commands = true\nignore_stdout = true\n[options]\nread_all = false\ndelete = false\n')
        ran(['getmail', f'--getmaildir={it.home}', '-r', 'getmailrc'], it.home, statuses)
        return re.findall(r'(?m)^Subject: (.*?)\r?$', open(it.at(got)).read())
    for _ in range(2): same('got', ['letter 9'], asks('"Work/2005/May"', 'got'))
    yield 'fetches a mailbox three deep, and nothing again'
    for _ in range(2): same('got, all', ['letter 1', 'letter 2', 'letter 3', *['letter 9'] * len(PLAIN)], sorted(asks('"ALL"', 'all', (0, 127))))
    yield f'told to fetch `ALL`, fetches {len(PLAIN)} odd names; of those with a quote or a backslash it asks as LIST spells them, once more escaped, and they are not there'
    for _ in range(2): same('got, odd', ['letter 9'] * (len(ODD) - len(PLAIN)), asks(', '.join(repr(decoded(name)) for name in ODD), 'odd'))
    yield 'fetches these where it is told each name, and nothing again'

def imapfilter(it):
    head = f"options.timeout = 60; options.create = true; a = IMAP{{server='127.0.0.1', port={it.port}, username='{it.user}', password='pw'}}\n"
    def asks(text): return ran(['imapfilter', '-c', written(it.at('a.lua'), head + text + '\n')], it.home)
    asks("a:create_mailbox('Work/2005/May')")
    asks("a.INBOX:contain_subject('letter 1'):move_messages(a['Work/2005/May'])")
    same('moved', 1, len(it.mail('Work/2005/May')))
    names = lambda folder: asks(f"b, f = a:list_all('{folder}'); for _, n in ipairs(b) do print('box', n) end")
    said = names('') + names('Work') + names('Work/2005')
    same('listed', [], [name for name in TREE if f'box\t{name}\n' not in said])
    yield 'makes three, moves into the innermost, lists level by level'
    asks("a:rename_mailbox('Work', 'Jobs')")
    same('renamed', sorted(FIXED + ['Jobs', 'Jobs/2005', 'Jobs/2005/May']), it.boxes())
    for name in ('Jobs/2005/May', 'Jobs/2005', 'Jobs'): asks(f"a:delete_mailbox('{name}')")
    same('deleted', FIXED, it.boxes())
    yield 'renames with inferiors, deletes from below'
    asks(f"a:create_mailbox({lua(ODD[0], False)})")
    true('it quotes nothing', ODD[0] not in it.boxes())
    for name in ODD: asks(f"a:create_mailbox({lua(name)})")
    for name in ODD: it.puts(name, 9)
    for name in ODD: true(f'STATUS of {name}', 'there 1 ' in asks(f"n = a[{lua(name)}]:check_status(); print('there', n, '')").replace('\t', ' '))
    said = names('Old') + names('Old/two words')
    same('listed', [], [name for name in ODD if f'box\t{decoded(quoted(name)[1:-1])}\n' not in said])
    yield f'{len(ODD)} odd names by CREATE, STATUS and LIST, where each quote and backslash has a backslash before it, in what it is told and in what it tells (it neither puts nor takes any)'

def lua(text, escaped=True): return "'" + decoded(quoted(text)[1:-1] if escaped else text).replace('\\', '\\\\').replace("'", "\\'") + "'"

def thunderbird_before(it):
    it.kept['screen'] = screen = windows.Screen(it.home)
    it.kept['it'] = one = windows.Thunderbird(screen, it.at('profile'), it.port, it.store.smtp, it.user, 'pw').start()
    it.makes(['Flat.box'])
    true('the list before', one.mail('server.performExpand(messages); await until(() => at("Flat.box")); return all()').count('Flat.box') == 1)
    yield 'before the upgrade: lists what is there'

def shown(one, names):
    """What Thunderbird shows once its account is unfolded: it is waited for these mailboxes."""
    return one.mail('server.performExpand(messages); await until(() => given[0].every(it => at(it)), 120); return all()', sorted(names))

def thunderbird(it):
    for part in (thunderbird_upgraded, thunderbird_tree, thunderbird_odd, thunderbird_ends): yield from part(it, it.kept['it'])

def thunderbird_upgraded(it, one):
    it.makes(['Work/2005/May']); it.puts('Work/2005/May', 9)
    got = shown(one, TREE)
    yield f'over the upgrade, not started again: {"shows the tree that another session made" if set(TREE) <= set(got) else "shows only " + ", ".join(got)}'
    if not set(TREE) <= set(got):
        one.stop(); one.start()
        same('after a start', [], sorted(set(TREE) - set(shown(one, TREE))))
        yield 'started again: shows the tree'

def thunderbird_tree(it, one):
    one.mail('root.createSubfolder("Home", messages); await until(() => at("Home")); at("Home").createSubfolder("2006", messages); await until(() => at("Home/2006")); at("Home/2006").createSubfolder("June", messages); await until(() => at("Home/2006/June"))')
    within('made', 60, lambda: 'Home/2006/June' in it.boxes())
    yield 'makes three, one in the other'
    one.mail('at("INBOX").getNewMessages(messages, null); await until(() => at("INBOX").getTotalMessages(false) == 3); await sleep(3000); const them = [...at("INBOX").messages].slice(0, 1); await new Promise(it => MailServices.copy.copyMessages(at("INBOX"), them, at("Home/2006/June"), false, {onStopCopy: it, onStartCopy() {}, onProgress() {}, setMessageKey() {}, getMessageId() {}}, messages, false))')
    within('copied', 60, lambda: it.subjects('Home/2006/June') == ['letter 1'])
    one.mail('at("Home").rename("House", messages); await until(() => at("House/2006/June"))')
    within('renamed', 60, lambda: it.subjects('House/2006/June') == ['letter 1'] and 'Home' not in it.boxes())
    same('its list', [], [name for name in one.mail('return all()') if name.startswith('Home')])
    yield 'copies a letter into the innermost; renames the outermost, and shows all under their new names'
    it.puts('House/2006/June', 21)
    same('new mail three deep', 2, one.mail('at("INBOX").getNewMessages(messages, null); await until(() => at("House/2006/June").getTotalMessages(false) == 2); return at("House/2006/June").getTotalMessages(false)'))
    one.mail('const box = at("House/2006/June"); box.updateFolder(messages); await until(() => [...box.messages].length == 2); box.markMessagesFlagged([...box.messages].slice(0, 1), true)')
    within('flagged', 60, lambda: [flags for flags, _ in it.mail('House/2006/June')][0].count('\\Flagged') == 1)
    yield 'is told of new mail in the innermost; a flag goes there'

def thunderbird_odd(it, one):
    it.makes(ODD)
    for name in ODD: it.puts(name, 7)
    missing = sorted(set(ODD) - set(shown(one, ODD)))
    counts = one.mail('at("INBOX").getNewMessages(messages, null); await until(() => given[0].every(it => at(it).getTotalMessages(false) == 1)); return given[0].map(it => at(it).getTotalMessages(false))', [name for name in ODD if name not in missing])
    same('odd names', ([], [1] * len(ODD)), (missing, counts))
    yield f'{len(ODD)} odd names by LIST and STATUS'
    own = [name[4:] if len(name) < 199 else name[5:] for name in ODD if name.count('/') == 1]   # `Work` has an octet more than `Old`
    one.mail('for (const name of given[0]) { at("Work").createSubfolder(name, messages); await until(() => root.descendants.some(it => it.name == name)); }', list(map(decoded, own)))
    within('its own odd names', 60, lambda: {f'Work/{name}' for name in own} <= set(it.boxes()))
    yield 'makes odd names itself'

def thunderbird_ends(it, one):
    one.mail('at("House").deleteSelf(messages); await until(() => at("Trash/House/2006/June"))')
    within('in the trash', 60, lambda: 'Trash/House/2006/June' in it.boxes() and 'House' not in it.boxes())
    one.mail('at("Trash").emptyTrash(null); await until(() => !at("Trash/House"))')
    within('deleted', 60, lambda: not [name for name in it.boxes() if 'House' in name])
    yield 'deletes a tree into `Trash`, which is a RENAME, and empties that, from below'
    one.stop()
    it.changes_nothing(lambda: (one.start(), one.mail('server.performExpand(messages); at("INBOX").getNewMessages(messages, null); await sleep(15000)')))
    same('its list', it.boxes(), one.mail('return all()'))
    yield 'started again: the same list, and nothing is asked that changes the store'
    one.stop()

def windowed_before(it):
    it.kept['screen'] = screen = windows.Screen(it.home)
    it.kept['it'] = one = {'sylpheed': windows.Sylpheed, 'claws': windows.Claws}[it.user](screen, it.port, it.user, 'pw', it.wire.rests).start()
    it.makes(['Flat.box'])
    one.rescans()
    true(f'the list before: {one.lists()}', 'Flat.box' in one.lists())
    yield 'before the upgrade: lists what is there'

def windowed(it):
    """Sylpheed and Claws Mail, worked by their menus."""
    for part in (windowed_upgraded, windowed_tree, windowed_odd, windowed_ends): yield from part(it, it.kept['it'])

def windowed_upgraded(it, one):
    it.makes(['Work/2005/May']); it.puts('Work/2005/May', 9)
    for times in ('once', 'twice'):
        one.told(); one.rescans()
        there = set(TREE) <= set(one.lists())
        yield f'over the upgrade, not started again, its list read anew {times}: {"shows the tree that another session made" if there else "shows only " + ", ".join(one.lists())}{"; it said " + str(said) if (said := one.told()) else ""}'
        if there: break
    if not there:
        one.stop(); one.start(); one.rescans()
        same('after a start', [], sorted(set(TREE) - set(one.lists())))
        yield 'started again: shows the tree'

def windowed_tree(it, one):
    for above, name in (('', 'Home'), ('Home', '2006'), ('Home/2006', 'June')): same(f'{name} is made', [], one.makes(above, name))
    within('made', 60, lambda: 'Home/2006/June' in it.boxes())
    yield 'makes three, one in the other'
    one.copies('INBOX', 'letter 1', 1, 'Home/2006/June')
    within('copied', 60, lambda: it.subjects('Home/2006/June') == ['letter 1'])
    yield 'copies a letter into the innermost'
    same('a RENAME', [], one.renames('Home', 'House'))
    within('renamed', 60, lambda: it.subjects('House/2006/June') == ['letter 1'] and 'Home' not in it.boxes())
    same('its list', ([], True), ([name for name in one.lists() if name.startswith('Home')], 'House/2006/June' in one.lists()))
    yield 'renames the outermost, and shows all under their new names'

def windowed_odd(it, one):
    it.makes(ODD)
    for name in ODD: it.puts(name, 7)
    it.puts('House/2006/June', 21)
    one.rescans(); one.checks()
    if it.user == 'claws': one.stop(); one.start()   # it keeps counts when it ends
    wanted = {'House/2006/June': 2, **{decoded(name): 1 for name in ODD}}
    try: within('counts', 120, lambda: wanted.items() <= one.lists().items())
    except Wrong: raise Wrong(f'counts: {one.lists()}') from None
    yield f'new mail in the innermost, and {len(ODD)} odd names with a letter each, by LIST and STATUS'
    for name in ODD:
        if name.count('/') > 1: continue
        name = name[4:] if len(name) < 199 else name[5:]   # `Work` has an octet more than `Old`
        same(f'{name} is made', [], one.makes('Work', decoded(name)))
        within(f'Work/{name} is there', 60, lambda: 'Work/' + name in it.boxes())
    yield 'makes odd names itself'

def windowed_ends(it, one):
    if said := one.deletes('House'):
        same('what is there', True, 'House/2006/June' in it.boxes())
        yield f'asked to delete a tree it says {said[0][:200]}'
        for name in ('House/2006/June', 'House/2006', 'House'): same(f'{name} is deleted', [], one.deletes(name))
        yield 'deletes it from below'
    else: yield 'deletes a tree, from below'
    within('deleted', 60, lambda: not [name for name in it.boxes() if 'House' in name])
    one.stop()
    it.changes_nothing(lambda: (one.start(), one.rescans(), one.checks()))
    same('its list', sorted(map(decoded, it.boxes())), sorted(one.lists()))
    yield 'started again: the same list, and nothing is asked that changes the store'
    one.stop()

PROGRAMS = {'python': (python, 'python3', None), 'curl': (curl, 'curl', None), 'mbsync': (mbsync, 'mbsync', mbsync_before), 'offlineimap': (offlineimap, 'offlineimap', offlineimap_before), 'mutt': (mutt, 'mutt', None), 'getmail': (getmail, 'getmail', None), 'imapfilter': (imapfilter, 'imapfilter', None),
            'thunderbird': (thunderbird, 'thunderbird', thunderbird_before), 'sylpheed': (windowed, 'sylpheed', windowed_before), 'claws': (windowed, 'claws-mail', windowed_before)}
FAULTS = (Wrong, windows.Gone, OSError, KeyError, IndexError, subprocess.SubprocessError, imaplib.IMAP4.error)

def run(folder, store, names):
    with smtplib.SMTP('127.0.0.1', store.smtp, local_hostname='c', timeout=120) as it:
        for number in (1, 2, 3): it.sendmail('joe@far.test', [f'{name}@mail.test' for name in names], letter(number).encode())
    them, wrong = {name: Account(folder, store, name) for name in names}, 0
    def checks(account, them):
        """Runs its checks, and prints each; whether one failed."""
        try:
            for said in them or (): print(f'{account.user}: {said}', flush=True)
        except FAULTS as fault:
            print(f'{account.user}: WRONG: {type(fault).__name__}: {fault}', flush=True)
            if screen := account.kept.get('screen'): screen.picture(account.at('picture.png'))
            return 1
        return 0
    for name, it in them.items():
        if PROGRAMS[name][2]: wrong += checks(it, PROGRAMS[name][2](it))
    store.asks('/upgrade', {})
    for name, it in them.items():
        wrong += checks(it, PROGRAMS[name][0](it))
        for (asked, answer), count in it.wire.refused().items(): print(f'{name}: refused: {asked[:150]} -> {answer}{f" ({count} times)" if count > 1 else ""}', flush=True)
        if 'screen' in it.kept: it.kept['screen'].close()
    if wrong: raise Wrong(f'{wrong} programs')

def main():
    if len(sys.argv) < 2: sys.exit(__doc__)
    stores.PROGRAM = os.path.abspath(sys.argv[1])
    missing = [name for name, (_, command, _) in PROGRAMS.items() if not shutil.which(command)]
    names = [name for name in sys.argv[2:] or PROGRAMS if name not in missing]
    if missing: print(f'not there, so not tried: {", ".join(missing)}')
    with tempfile.TemporaryDirectory(prefix='tree-') as folder:
        store = Store(folder, text=stores.house([(name, 'pw') for name in (*names, 'other')]).replace('postmaster = "ann"', 'postmaster = "other"').replace('team = ["ann", "bob"]', 'all = ["other"]')).start()
        try: run(folder, store, names)
        finally:
            store.kill()
            if os.environ.get('KEEP'): subprocess.run(['cp', '-r', folder, os.environ['KEEP']], stderr=subprocess.DEVNULL)

if __name__ == '__main__':
    signal.signal(signal.SIGTERM, lambda *_: sys.exit(143))   # so that what was started is stopped
    try: main()
    except Wrong as fault: sys.exit(f'WRONG: {fault}')
