"""What tests/system and tests/front both use: stores that are served and killed, what lies in them by their journal, mail to bring in, and a user who is not root."""
import contextlib, imaplib, itertools, json, os, pwd, shutil, socket, subprocess, sys, time

TOP = os.path.dirname(os.path.dirname(os.path.abspath(__file__)))
sys.path.insert(0, os.path.join(TOP, 'operate'))
from undo_tool.history import opened, read  # noqa: E402

FRONT, UNDO, INSTALL, CARRY = (os.path.join(TOP, 'operate', *it) for it in (('front', 'front'), ('undo',), ('install',), ('carry',)))
PROGRAM = None   # the built program: whoever runs checks says which
PORTS = itertools.count(29200 + os.getpid() * 37 % 3000)
HOUSE = 'host = "mail.test"\ndomains = ["mail.test"]\npostmaster = "ann"\n%s[aliases]\nteam = ["ann", "bob"]\n'
USERS = [('ann', 'a1'), ('bob', 'b2'), ('carl', 'c3 x%y')]
FLAGS = ('\\Answered', '\\Flagged', '\\Deleted', '\\Seen', '\\Draft')
for name in [it for it in os.environ if it.startswith('UNDO_')]: del os.environ[name]   # the tool would heed it

class Wrong(Exception): pass
class Skipped(Exception): pass

def same(what, want, got):
    if want != got: raise Wrong(f'{what}: wanted {str(want)[:300]!r}, got {str(got)[:300]!r}')

def true(what, it):
    if not it: raise Wrong(what)

def within(what, seconds, holds):
    """Waits until something holds, and gives it back."""
    until = time.monotonic() + seconds
    while True:
        found = holds()
        if found: return found
        if time.monotonic() > until: raise Wrong(f'not within {seconds} s: {what}')
        time.sleep(.05)

def does(words, status=0, **more):
    """A command of this repository: its output, where the status is as wanted."""
    done = subprocess.run([str(it) for it in words], stdin=subprocess.DEVNULL if 'input' not in more else None, stdout=subprocess.PIPE, stderr=subprocess.STDOUT, text=True, timeout=300, **more)
    if done.returncode != status: raise Wrong(f'{" ".join(map(str, words[:4]))} ended with {done.returncode}, not {status}: {done.stdout[-1500:]}')
    return done.stdout

def ordinary(folder):
    """A home of a user who is not root, the tools beside it, a Python, and how a command is run as that user; of this user, where that is not root."""
    home, tools = os.path.join(folder, 'home'), os.path.join(folder, 'operate')
    os.chmod(folder, 0o755)
    os.mkdir(home)
    shutil.copytree(os.path.join(TOP, 'operate'), tools, ignore=shutil.ignore_patterns('__pycache__'))
    subprocess.run(['chmod', '-R', 'a+rX', tools], check=True)
    how = {'cwd': home, 'env': {**os.environ, 'HOME': home}}
    if os.geteuid() == 0:
        nobody = pwd.getpwnam('nobody')
        os.chown(home, nobody.pw_uid, nobody.pw_gid)
        how.update(user=nobody.pw_uid, group=nobody.pw_gid, extra_groups=[], env={**how['env'], 'PATH': '/usr/local/bin:/usr/bin:/bin:/usr/local/sbin:/usr/sbin:/sbin'})
    for python in (sys.executable, '/usr/local/bin/python3', '/usr/bin/python3'):
        with contextlib.suppress(OSError):   # root's own Python may lie where nobody else comes
            if not subprocess.run([python, '-c', f'open({os.path.join(tools, "undo")!r})'], stdout=subprocess.DEVNULL, stderr=subprocess.DEVNULL, **how).returncode: return home, tools, python, how
    raise Skipped(f'no Python that the user nobody may run on what lies below {os.path.dirname(folder)}: nothing of this was looked at')

def free_ports(count):
    """Ports that nobody has, each given once by this process."""
    found = []
    for port in PORTS:
        with socket.socket() as it, contextlib.suppress(OSError):
            it.setsockopt(socket.SOL_SOCKET, socket.SO_REUSEADDR, 1)
            it.bind(('127.0.0.1', port)); found.append(port)
        if len(found) == count: return found

def free_port(): return free_ports(1)[0]

def house(users=USERS, text=HOUSE): return text % ''.join(f'[[user]]\nname = "{name}"\npassword = "{password}"\n' for name, password in users)

FIVE = lambda n, users=200: f'host = "mail.test"\ndomains = ["mail.test"]\npostmaster = "u{n}-0"\n' + ''.join(f'[[user]]\nname = "u{n}-{m}"\npassword = "p{n}-{m}"\n' for m in range(users)) + f'[aliases]\nteam{n} = ["u{n}-0", "u{n}-1"]\n'

class Store:
    """A store that is served, can be killed, and is served again at the same ports."""
    def __init__(self, folder, name='office', text=None, pop=False):
        self.name, self.path, self.log, self.process, self.served, self.count = name, os.path.join(folder, name), os.path.join(folder, name + '.log'), None, False, 4 if pop else 3
        self.takes_ports()
        subprocess.run([PROGRAM, 'init', self.path], input=(text or house()).encode(), check=True)
    def takes_ports(self):
        self.ports = free_ports(self.count)
        self.smtp, self.imap, self.http, self.pop = [*self.ports, None][:4]
    def line(self, smtp=None): return f'{self.name} {self.path} {smtp or self.smtp} {self.imap} {self.http}{f" {self.pop}" if self.pop else ""}\n'
    def start(self, tries=5):
        with open(self.log, 'ab') as log:
            began = log.tell()
            self.process = subprocess.Popen([PROGRAM, 'serve', self.path, *map(str, self.ports)], stdin=subprocess.DEVNULL, stdout=log, stderr=log)
        within('the store is served', 60, lambda: b'serves SMTP' in open(self.log, 'rb').read()[began:] or self.process.poll() is not None)
        if self.process.poll() == 4 and not self.served and tries:   # another took a port meanwhile
            self.takes_ports()
            return self.start(tries - 1)
        if self.process.poll() is not None: raise Wrong(f'the store ended with {self.process.poll()}: {open(self.log).read()[-300:]}')
        self.served = True
        return self
    def listens(self):
        try: socket.create_connection(('127.0.0.1', self.http), timeout=5).close(); return True
        except OSError: return False
    def kill(self):
        if self.process and self.process.poll() is None: self.process.kill()
        if self.process: self.process.wait()
    def past(self):
        """What the journal tells, read to its end."""
        return read(opened(self.path))
    def asks(self, route, body=None):
        with socket.create_connection(('127.0.0.1', self.http), timeout=300) as it:
            said = json.dumps(body).encode() if body is not None else b''
            it.sendall(f'{"GET" if body is None else "POST"} {route} HTTP/1.1\r\nHost: x\r\nContent-Length: {len(said)}\r\n\r\n'.encode() + said)
            whole = b''.join(iter(lambda: it.recv(1 << 16), b''))
        if b'HTTP/1.1 200' not in whole[:20]: raise Wrong(f'{route}: {whole[:200]}')
        return json.loads(whole.partition(b'\r\n\r\n')[2])
    def reader(self, user, password):
        it = imaplib.IMAP4('127.0.0.1', self.imap, timeout=120)
        it.login(user, password)
        return it

def letter(number, more='', sender='joe@far.test', to='ann@mail.test'): return f'From: {sender}\r\nTo: {to}\r\nSubject: letter {number}\r\nMessage-ID: <{number}@far.test>\r\nX-Number: {number}\r\n\r\nThis is {number}.\r\n{more}'

def stored(past, user):
    """Each mailbox of a user by the journal: its UIDVALIDITY, and of each UID its flags, moment and text."""
    number = past.house.numbers[user]
    return {box: (past.stamps[number, box], {entry.uid: (frozenset(name for bit, name in enumerate(FLAGS) if entry.flags >> bit & 1), entry.at, past.item(entry.origin).body.octets) for entry in mail.entries()})
            for box, mail in past.store.boxes[number].items()}

def lies(store, user): return {box: [(text, flags, at) for _, (flags, at, text) in sorted(mail.items())] for box, (_, mail) in stored(store.past(), user).items() if mail}

def maildir(folder, count, seed=7):
    """A Maildir with mailboxes, `count` messages, flags and dates; what is to be in the store: by mailbox, the texts with their flags and moments."""
    wanted = {}
    marks = [''.join(sorted(them)) for size in range(4) for them in itertools.combinations('DFRS', size)]
    names = dict(zip('DFRST', ('\\Draft', '\\Flagged', '\\Answered', '\\Seen', '\\Deleted')))
    for box, share in (('INBOX', .7), ('Work', .2), ('Old mail', .1)):
        base = folder if box == 'INBOX' else os.path.join(folder, '.' + box)
        for part in ('cur', 'new', 'tmp'): os.makedirs(os.path.join(base, part))
        wanted[box] = []
        for number in range(int(count * share)):
            seed = (seed * 1103515245 + 12345) % 2 ** 31
            at, flags = 1_000_000_000 + number * 9973, marks[seed % len(marks)]
            text = letter(f'{box.replace(" ", "")}{number}', f'{"word " * (seed % 50)}\r\nFrom here on\r\n>From there\r\nGr\xfc\xdfe\r\n').encode('latin-1')
            path = os.path.join(base, 'cur' if flags else 'new', f'{at}.{number}.host' + (f':2,{flags}' if flags else ''))
            with open(path, 'wb') as file: file.write(text if number % 2 else text.replace(b'\r\n', b'\n'))
            os.utime(path, (at, at))
            wanted[box].append((text, frozenset(names[mark] for mark in flags), at))
    return wanted
