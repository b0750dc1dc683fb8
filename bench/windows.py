"""Programs with windows, worked from without: a screen of their own (Xvfb), GTK's by what they tell screen readers, Thunderbird by its remote control."""
import atexit, contextlib, json, os, re, shutil, signal, socket, subprocess, time, xml.etree.ElementTree

HERE = os.path.dirname(os.path.abspath(__file__))

class Gone(Exception): pass

class Screen:
    """A display with a window manager and a bus of its own; what runs on it ends with it."""
    def __init__(self, home):
        self.home, self.them = home, []
        atexit.register(self.close)
        near, far = os.pipe()
        self.starts(['Xvfb', '-displayfd', str(far), '-screen', '0', '1280x1024x24', '-nolisten', 'tcp'], pass_fds=[far], env=os.environ)
        os.close(far)
        with open(near) as it: self.display = ':' + it.readline().strip()
        bus = self.starts(['dbus-daemon', '--session', '--nofork', '--print-address=1'], stdout=subprocess.PIPE, env=self.env())
        self.bus = bus.stdout.readline().decode().strip()
        if shutil.which('openbox'): self.starts(['openbox'])
    def env(self): return {**os.environ, 'HOME': self.home, 'DISPLAY': getattr(self, 'display', ''), 'DBUS_SESSION_BUS_ADDRESS': getattr(self, 'bus', ''), 'LC_ALL': 'C.UTF-8', 'LANG': 'C.UTF-8',
                           'GTK_MODULES': 'gail:atk-bridge', 'GTK_A11Y': 'atspi', 'XDG_RUNTIME_DIR': self.home, 'NO_AT_BRIDGE': '0', 'PATH': '/usr/bin:/bin', 'MOZ_HEADLESS_WIDTH': '1280'}
    def starts(self, words, **more):
        it = subprocess.Popen(words, start_new_session=True, **{'stdin': subprocess.DEVNULL, 'stdout': subprocess.DEVNULL, 'stderr': subprocess.DEVNULL, 'cwd': self.home, 'env': self.env(), **more})
        self.them.append(it)
        return it
    def ends(self, it, how=signal.SIGTERM, seconds=60):
        """Ends one of them, by its group."""
        with contextlib.suppress(ProcessLookupError): os.killpg(it.pid, how)
        try: it.wait(seconds)
        except subprocess.TimeoutExpired:
            with contextlib.suppress(ProcessLookupError): os.killpg(it.pid, signal.SIGKILL)
            it.wait()
        self.them.remove(it)
    def close(self):
        for it in reversed(list(self.them)): self.ends(it, signal.SIGTERM, 5)
    def does(self, *words): subprocess.run(['xdotool', *map(str, words)], check=True, env=self.env(), stdout=subprocess.DEVNULL, stderr=subprocess.DEVNULL)
    def picture(self, path): subprocess.run(['import', '-window', 'root', path], env=self.env(), stdout=subprocess.DEVNULL, stderr=subprocess.DEVNULL)

class Reader:
    """What stands in the windows of GTK programs on a screen, and what can be done there."""
    def __init__(self, screen):
        self.screen = screen
        self.it = screen.starts(['/usr/bin/python3', os.path.join(HERE, 'screen.py')], stdin=subprocess.PIPE, stdout=subprocess.PIPE)
    def asks(self, *command):
        self.it.stdin.write(json.dumps(command).encode() + b'\n'); self.it.stdin.flush()
        line = self.it.stdout.readline()
        if not line: raise Gone('the screen reader has ended')
        said = json.loads(line)
        if 'fault' in said: raise Gone(f'{command}: {said["fault"]}')
        return said['said']
    def waits(self, what, holds, seconds=120):
        until = time.monotonic() + seconds
        while True:
            with contextlib.suppress(Gone):
                if found := holds(): return found
            if time.monotonic() > until: raise Gone(f'not within {seconds} s: {what}; windows: {self.asks("windows")}')
            time.sleep(.3)
    def window(self, title, seconds=120): return self.waits(f'a window {title}', lambda: [it for it in self.asks('windows') if title in (it[1] or '')], seconds)
    def does(self, *command, seconds=60): return self.waits(str(command), lambda: self.asks(*command), seconds)

class Sylpheed:
    """A Sylpheed with one account, worked by its menus and its list of mailboxes."""
    name, folder = 'Sylpheed', '.sylpheed-2.0'
    def __init__(self, screen, port, user, password, rests):
        self.screen, self.user, self.rests, self.reader = screen, user, rests, Reader(screen)
        at = os.path.join(screen.home, self.folder)
        os.makedirs(at, exist_ok=True)
        with open(os.path.join(at, 'accountrc'), 'w', opener=lambda name, how: os.open(name, how, 0o600)) as out: out.write(
            f'[Account: 1]\naccount_name={user}\nis_default=1\nname={user}\naddress={user}@mail.test\nprotocol=3\nreceive_server=127.0.0.1\nsmtp_server=127.0.0.1\nuser_id={user}\npassword={password}\nimap_auth_method=1\nset_imapport=1\nimap_port={port}\nreceive_at_get_all=1\nimap_subsonly=1\n')
        with open(os.path.join(at, 'folderlist.xml'), 'w') as out: out.write(f'<?xml version="1.0" encoding="UTF-8"?>\n<folderlist>\n    <folder type="imap" name="{user}" path="{user}" account_id="1">\n    </folder>\n</folderlist>\n')
    def start(self):
        self.process = self.screen.starts([self.command()])
        self.reader.window(self.name, 240)
        time.sleep(2)
        self.reader.waits('its window has its place', self.places, 120)
        return self
    def places(self):
        try: self.screen.does('search', '--onlyvisible', '--name', self.name, 'windowmove', 0, 0, 'windowsize', 1250, 980); return True
        except subprocess.CalledProcessError: return False
    def command(self): return 'sylpheed'
    def stop(self):
        self.reader.does('menu', self.name, 'Exit')
        try: self.process.wait(60)
        except subprocess.TimeoutExpired: pass
        self.screen.ends(self.process)
    def rows(self, title=None):
        """Its list of mailboxes from above: of each the whole name, the numbers beside it, and where it stands."""
        cells = [it for it in self.reader.asks('cells', title or self.name)]
        rows, found, above = [], [], []
        for name, x, y, width, height in cells:
            if x >= 0 and not (title is None and x > 450): rows.append([re.sub(r' \(\d+\)$', '', name), x, y, []])   # beside it stands how many are unread
            elif rows and x < 0: rows[-1][3].append(name)
        for name, x, y, numbers in sorted(rows, key=lambda it: it[2]):
            while above and above[-1][1] >= x: above.pop()
            above.append((name, x))
            found.append(('/'.join(it for it, _ in above[1:]), numbers, x, y))
        return found
    def lists(self): return {name: int(numbers[2]) for name, numbers, _, _ in self.rows() if name and len(numbers) > 2 and numbers[2].isdigit()}
    def clicks(self, name, title=None, button=1):
        def there(): return [it for it in self.rows(title) if it[0] == name and it[3] > 0]
        _, _, x, y = self.reader.waits(f'a mailbox {name} in the list', there, 60)[-1]
        self.screen.does('mousemove', x + 20, y + 8, 'click', button)
        time.sleep(1)
    def answers(self, title, button, text=None):
        """A window that asks: writes into it, presses a button, and waits until it is gone."""
        self.reader.window(title, 60)
        if text is not None: self.reader.does('type', title, 0, text)
        self.reader.does('press', title, button)
        self.reader.waits(f'{title} is closed', lambda: not [it for it in self.reader.asks('windows') if it[1] == title], 120)
    def told(self):
        """What windows beside its own say, which are then closed."""
        said = []
        for _, title in self.reader.asks('windows'):
            if self.name in title or not title: continue
            said.append(' '.join(self.reader.asks('labels', title)).replace('\n', ' '))
            for button in ('Close', 'OK'):
                with contextlib.suppress(Gone): self.reader.asks('press', title, button)
        return said
    def asks(self, name, item):
        self.clicks(name)
        self.reader.does('menu', self.name, item)
    def rescans(self):
        self.asks('', 'Rebuild folder tree')
        self.answers('Rebuild folder tree', 'Yes')
        self.rests()
    def checks(self):
        self.asks('', 'Check for new messages in all mailboxes')
        self.rests()
    def makes(self, above, name):
        self.asks(above, 'Create new folder...')
        self.answers('New folder', 'OK', name)
        time.sleep(2)
        return self.told()
    def renames(self, name, new):
        self.asks(name, 'Rename folder...')
        self.answers('Rename folder', 'OK', new)
        time.sleep(2)
        return self.told()
    def deletes(self, name):
        self.asks(name, 'Delete folder')
        self.answers('Delete folder', 'Yes')
        time.sleep(3)
        return self.told()
    def shows(self, box):
        self.clicks(box)
        time.sleep(3)
    def copies(self, box, letter, uid, to):
        """A letter of a mailbox into another."""
        self.shows(box)
        def there(): return [it for it in self.reader.asks('cells', self.name) if it[0] == letter and it[1] > 0]
        _, x, y, _, _ = self.reader.waits(f'a letter {letter}', there, 60)[0]
        self.screen.does('mousemove', x + 20, y + 8, 'click', 1)
        time.sleep(2)
        self.reader.does('menu', self.name, 'Copy...')
        self.reader.window('Select', 60)
        self.clicks(to, 'Select')
        self.reader.does('press', 'Select', 'OK')
        time.sleep(3)

class Claws(Sylpheed):
    """A Claws Mail, whose list of mailboxes no screen reader sees: it is worked by keys, and read in the file in which it is kept."""
    name, folder = 'Claws Mail', '.claws-mail'
    def command(self): return 'claws-mail'
    def start(self):
        super().start()
        self.told()
        return self
    def kept(self):
        def below(at): return [found for it in at.findall('folderitem') for found in [(it.get('path'), int(it.get('total'))), *below(it)]]
        return dict(below(xml.etree.ElementTree.parse(os.path.join(self.screen.home, self.folder, 'folderlist.xml')).getroot().find('folder')))
    def lists(self): return self.kept()
    def clicks(self, name, title=None, button=1):
        if title: return super().clicks(name, title, button)
        if not name: self.screen.does('mousemove', 80, 153, 'click', 1)   # the account stands above all
        else: subprocess.run(['claws-mail', '--select', f'#imap/{self.user}/{name}'], env=self.screen.env(), cwd=self.screen.home, timeout=60, stdout=subprocess.DEVNULL, stderr=subprocess.DEVNULL)
        time.sleep(4)
    def asks(self, name, key):
        self.clicks(name)
        self.screen.does('key', 'shift+F10'); time.sleep(1.5)
        self.screen.does('key', key); time.sleep(1)
    def rescans(self): self.asks('', 'h'); self.rests()
    def checks(self): self.asks('', 'c'); self.rests()
    def makes(self, above, name):
        self.asks(above, 'n')
        self.answers('New folder', 'OK', name)
        time.sleep(2)
        return self.told()
    def renames(self, name, new):
        self.asks(name, 'r')
        self.answers('Rename folder', 'OK', new)
        time.sleep(2)
        return self.told()
    def deletes(self, name):
        self.asks(name, 'd')
        self.answers('Delete folder', 'Delete')
        time.sleep(3)
        return self.told()
    def stop(self):
        self.screen.does('key', 'ctrl+q'); time.sleep(2)
        with contextlib.suppress(Gone): self.reader.asks('press', 'Exit', 'OK')
        try: self.process.wait(90)
        except subprocess.TimeoutExpired: pass
        self.screen.ends(self.process)
    def copies(self, box, letter, uid, to):
        self.clicks(f'{box}/{uid}')
        self.screen.does('key', 'ctrl+shift+o')   # its menu's item waits for the window that it opens, and no screen reader is answered meanwhile
        self.reader.window('Select', 60)
        self.clicks(to, 'Select')
        self.reader.does('press', 'Select', 'OK')
        time.sleep(3)

MAIL = """const done = arguments[arguments.length - 1], given = arguments;
const {MailServices} = ChromeUtils.importESModule("resource:///modules/MailServices.sys.mjs");
const win = Services.wm.getMostRecentWindow("mail:3pane"), messages = win.msgWindow;
const server = MailServices.accounts.accounts.map(it => it.incomingServer).find(it => it.type == "imap"), root = server.rootFolder;
const named = it => it.QueryInterface(Ci.nsIMsgImapMailFolder).onlineName;
const all = () => root.descendants.map(named).sort(), at = name => root.descendants.find(it => named(it) == name);
const sleep = time => new Promise(it => win.setTimeout(it, time));
const until = async (holds, times = 240) => { for (let n = 0; n < times; n++) { if (holds()) return true; await sleep(500); } return false; };
"""

class Thunderbird:
    """A Thunderbird with one account, and its remote control (Marionette)."""
    def __init__(self, screen, folder, port, smtp, user, password):
        self.screen, self.folder, self.password, self.count, self.bytes = screen, folder, password, 0, b''
        os.makedirs(folder, exist_ok=True)
        with socket.create_server(('127.0.0.1', 0)) as it: self.port = it.getsockname()[1]
        with open(os.path.join(folder, 'user.js'), 'w') as out: out.write(''.join(f'user_pref("{name}", {json.dumps(value)});\n' for name, value in prefs(port, smtp, user, self.port).items()))
    def start(self):
        self.process = self.screen.starts(['thunderbird', '--profile', self.folder, '--no-remote', '--marionette', '--remote-allow-system-access'])
        until = time.monotonic() + 240
        while True:
            try: self.link = socket.create_connection(('127.0.0.1', self.port), 5); break
            except OSError:
                if time.monotonic() > until: raise Gone('Thunderbird does not answer') from None
                time.sleep(.5)
        self.link.settimeout(300)
        self.bytes, self.count = b'', 0
        self.reads()
        self.call('WebDriver:NewSession', {'capabilities': {'alwaysMatch': {'unhandledPromptBehavior': 'accept'}}})
        self.call('Marionette:SetContext', {'value': 'chrome'})
        self.call('WebDriver:SetTimeouts', {'script': 280000})
        self.runs('const {MailServices} = ChromeUtils.importESModule("resource:///modules/MailServices.sys.mjs"); MailServices.accounts.accounts.map(it => it.incomingServer).find(it => it.type == "imap").password = arguments[0]', self.password)
        return self
    def reads(self):
        def more():
            data = self.link.recv(65536)
            if not data: raise Gone('Thunderbird has closed its remote control')
            self.bytes += data
        while b':' not in self.bytes: more()
        length, self.bytes = self.bytes.split(b':', 1)
        while len(self.bytes) < int(length): more()
        said, self.bytes = self.bytes[:int(length)], self.bytes[int(length):]
        return json.loads(said)
    def call(self, command, parameters=None):
        self.count += 1
        asked = json.dumps([0, self.count, command, parameters or {}]).encode()
        self.link.sendall(b'%d:%s' % (len(asked), asked))
        while (said := self.reads())[:2] != [1, self.count]: pass
        if said[2]: raise Gone(f'{command}: {str(said[2])[:600]}')
        return said[3]
    def runs(self, script, *arguments): return self.call('WebDriver:ExecuteScript', {'script': script, 'args': list(arguments), 'newSandbox': False})['value']
    def awaits(self, script, *arguments): return self.call('WebDriver:ExecuteAsyncScript', {'script': script, 'args': list(arguments), 'newSandbox': False})['value']
    def mail(self, script, *arguments):
        """What a script gives back that is handed `given`, the account's `server` and its `root`, `all` mailboxes by their names on the server, and can wait."""
        said = self.awaits(MAIL + '(async () => {' + script + '})().then(it => done({said: it}), fault => done({fault: String(fault)}));', *arguments)
        if 'fault' in said: raise Gone(f'{script[:100]}: {said["fault"]}')
        return said.get('said')
    def stop(self):
        with contextlib.suppress(Gone, OSError): self.runs('Services.startup.quit(Services.startup.eForceQuit)')
        self.screen.ends(self.process)

def prefs(port, smtp, user, control):
    """A profile's settings: the account, and no question, no look for news of the program."""
    return {
        'mail.accountmanager.accounts': 'account1', 'mail.accountmanager.defaultaccount': 'account1', 'mail.account.account1.identities': 'id1', 'mail.account.account1.server': 'server1',
        'mail.identity.id1.fullName': user, 'mail.identity.id1.useremail': f'{user}@mail.test', 'mail.identity.id1.valid': True, 'mail.identity.id1.smtpServer': 'smtp1',
        'mail.server.server1.hostname': '127.0.0.1', 'mail.server.server1.port': port, 'mail.server.server1.name': 'undomail', 'mail.server.server1.type': 'imap', 'mail.server.server1.userName': user,
        'mail.server.server1.socketType': 0, 'mail.server.server1.authMethod': 3, 'mail.server.server1.login_at_startup': False, 'mail.server.server1.check_new_mail': False,
        'mail.server.server1.check_all_folders_for_new': True, 'mail.smtpservers': 'smtp1', 'mail.smtpserver.smtp1.hostname': '127.0.0.1', 'mail.smtpserver.smtp1.port': smtp,
        'mail.smtpserver.smtp1.authMethod': 1, 'mail.smtpserver.smtp1.try_ssl': 0, 'mail.smtp.defaultserver': 'smtp1', 'mail.shell.checkDefaultClient': False, 'mail.rights.version': 1,
        'mail.spotlight.firstRunDone': True, 'mail.winsearch.firstRunDone': True, 'mailnews.start_page.enabled': False, 'mailnews.start_page_override.mstone': 'ignore',
        'app.donation.eoy.version.viewed': 999, 'app.update.enabled': False, 'app.normandy.enabled': False, 'toolkit.telemetry.reportingpolicy.firstRun': False, 'toolkit.telemetry.enabled': False,
        'datareporting.policy.dataSubmissionEnabled': False, 'datareporting.policy.dataSubmissionPolicyBypassNotification': True, 'datareporting.healthreport.uploadEnabled': False,
        'extensions.update.enabled': False, 'extensions.blocklist.enabled': False, 'browser.safebrowsing.downloads.enabled': False, 'network.captive-portal-service.enabled': False,
        'network.connectivity-service.enabled': False, 'services.settings.server': 'data:,', 'browser.region.network.url': '', 'mail.inappnotifications.enabled': False,
        'mail.instrumentation.postUrl': '', 'mailnews.auto_config_url': '', 'mail.provider.suppress_dialog_on_startup': True, 'mail.biff.show_alert': False, 'mail.biff.play_sound': False,
        'mail.prompt_purge_threshhold': False, 'mailnews.confirm.moveFoldersToTrash': False, 'mailnews.message_warnings.seen': True, 'signon.rememberSignons': True, 'network.proxy.type': 1, 'network.proxy.http': '127.0.0.1',
        'network.proxy.http_port': 9, 'network.proxy.ssl': '127.0.0.1', 'network.proxy.ssl_port': 9, 'marionette.port': control, 'security.sandbox.content.level': 0,
    }
