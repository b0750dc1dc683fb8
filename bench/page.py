#!/usr/bin/env python3
"""Drives the page of `operate/undo page` in headless Chromium: the three cases of docs/OPERATING.md by clicks, one by the keyboard alone, texts that would be HTML or turn the direction of writing, long ones, 3,000 broken answers, 420 pixels, a site that posts a cycle, a store that changes behind the page, a server that stops, and many items.

usage: bench/page.py PROGRAM [FOLDER] [CASE ..]      FOLDER: where the screenshots go (docs/page has those of the documents), or -; it must be there
                                                   CASE: one of the functions below CASES

Wants Chromium (Debian's package `chromium`). It is no part of the gate. Servers and their stores are those of tests/undo.
"""
import base64, importlib.machinery, importlib.util, json, os, shutil, subprocess, sys, tempfile, time

def loaded(path):
    """A script of this repository as a module."""
    loader = importlib.machinery.SourceFileLoader('undo_tests', path)
    module = importlib.util.module_from_spec(importlib.util.spec_from_loader('undo_tests', loader))
    sys.dont_write_bytecode = True
    loader.exec_module(module)
    return module

tests = loaded(os.path.join(os.path.dirname(os.path.dirname(os.path.abspath(__file__))), 'tests', 'undo'))
same, has = tests.same, tests.has

class Browser:
    """Headless Chromium over its debugging pipe: each message ends with a NUL."""
    def __enter__(self):
        self.home = tempfile.mkdtemp()
        (its_read, own_write), (own_read, its_write) = os.pipe(), os.pipe()
        def pipes(): os.dup2(its_read, 103); os.dup2(its_write, 104); os.dup2(103, 3); os.dup2(104, 4)
        words = ['chromium', '--headless=new', '--no-sandbox', '--disable-gpu', '--remote-debugging-pipe', f'--user-data-dir={self.home}', '--window-size=1500,1000', '--lang=en', 'about:blank']
        self.process = subprocess.Popen(words, preexec_fn=pipes, close_fds=False, stdin=subprocess.DEVNULL, stdout=subprocess.DEVNULL, stderr=subprocess.DEVNULL, env={**os.environ, 'TZ': 'Europe/Berlin'})
        os.close(its_read); os.close(its_write)
        self.out, self.into, self.number, self.session, self.events = os.fdopen(own_write, 'wb', 0), os.fdopen(own_read, 'rb'), 0, None, []
        target = next(it for it in self.ask('Target.getTargets')['targetInfos'] if it['type'] == 'page')
        self.session = self.ask('Target.attachToTarget', targetId=target['targetId'], flatten=True)['sessionId']
        for domain in ('Page', 'Runtime', 'Log'): self.ask(f'{domain}.enable')
        self.ask('Performance.enable', timeDomain='threadTicks')
        return self
    def __exit__(self, *_): self.process.kill(); self.process.wait(); shutil.rmtree(self.home, ignore_errors=True)
    def ask(self, method, **given):
        self.number += 1
        self.out.write(json.dumps({'id': self.number, 'method': method, 'params': given, **({'sessionId': self.session} if self.session else {})}).encode() + b'\0')
        while True:
            said = json.loads(self.message())
            if said.get('id') == self.number:
                if 'error' in said: raise tests.Wrong(f'{method}: {said["error"]}')
                return said['result']
            self.events.append(said)
    def message(self):
        pieces = bytearray()
        while (it := self.into.read(1)) != b'\0':
            if not it: raise tests.Wrong('the browser ended')
            pieces += it
        return bytes(pieces)
    def open(self, port): self.ask('Page.navigate', url=f'http://127.0.0.1:{port}/')
    def leave(self):
        """Leaves the page of the case before, whose server has ended, and forgets what it told."""
        self.ask('Page.navigate', url='about:blank')
        self.wait('location.href === "about:blank"')
        self.events.clear()
    def value(self, code):
        done = self.ask('Runtime.evaluate', expression=code, awaitPromise=True, returnByValue=True)
        if 'exceptionDetails' in done: raise tests.Wrong(f'{code}: {done["exceptionDetails"]}')
        return done['result'].get('value')
    def wait(self, code, seconds=600):
        until = time.monotonic() + seconds
        while not self.value(f'Boolean({code})'):
            if time.monotonic() > until: raise tests.Wrong(f'it never comes: {code}; the page says {self.value("document.body.innerText")[:3000]}')
            time.sleep(.02)
    def click(self, css):
        """A real click in the middle of an element."""
        self.wait(f'document.querySelector({css!r})')
        x, y = self.value(f'(() => {{ const it = document.querySelector({css!r}); it.scrollIntoView({{block: "center"}}); const r = it.getBoundingClientRect(); return [r.x + r.width / 2, r.y + r.height / 2]; }})()')
        for kind in ('mousePressed', 'mouseReleased'): self.ask('Input.dispatchMouseEvent', type=kind, x=x, y=y, button='left', clickCount=1)
    def write(self, css, text): self.click(css); self.ask('Input.insertText', text=text)
    def choose(self, css, value): self.value(f'(() => {{ const it = document.querySelector({css!r}); it.value = {value!r}; it.dispatchEvent(new Event("change", {{bubbles: true}})); }})()')
    def key(self, name, text=''):
        codes = {'Enter': 13, 'Tab': 9, 'ArrowDown': 40, 'ArrowUp': 38, ' ': 32, 'Escape': 27}
        text = {'Enter': '\r', ' ': ' '}.get(name, text)
        self.ask('Input.dispatchKeyEvent', type='keyDown', key=name, text=text, windowsVirtualKeyCode=codes.get(name, ord(name.upper()[0])))
        self.ask('Input.dispatchKeyEvent', type='keyUp', key=name, windowsVirtualKeyCode=codes.get(name, ord(name.upper()[0])))
    def wide(self, width, height): self.ask('Emulation.setDeviceMetricsOverride', width=width, height=height, deviceScaleFactor=1, mobile=False)
    def picture(self, folder, name):
        if not folder: return
        time.sleep(.4)
        with open(os.path.join(folder, name + '.png'), 'wb') as out: out.write(base64.b64decode(self.ask('Page.captureScreenshot', format='png')['data']))
    def worked(self):
        """How long the page's thread has worked, in seconds of a processor."""
        return next(it['value'] for it in self.ask('Performance.getMetrics')['metrics'] if it['name'] == 'TaskDuration')
    def faults(self):
        """What the page's console tells: errors, and what its policy refused."""
        return [it for it in self.events if it.get('method') in ('Runtime.exceptionThrown', 'Page.javascriptDialogOpening') or (it.get('method') == 'Log.entryAdded' and it['params']['entry']['level'] == 'error')]

REPORT = 'document.getElementById("report").innerText'
READ = 'store.counts && store.items.length === store.counts.items && !document.getElementById("find").disabled && document.querySelectorAll("#rows tr").length'

def opened(browser, page):
    browser.leave()
    browser.open(page.port)
    browser.wait('typeof store !== "undefined" && ' + READ)

def a_filter_by_mistake(folder, browser, pictures):
    with tests.Server(folder, tests.FILTER) as it, tests.Page(it, '--store', it.store) as page:
        opened(browser, page)
        browser.write('#text', 'offer')
        browser.click('#find')
        browser.wait('document.querySelectorAll("#rows tr").length === 1')
        browser.wait('document.querySelector("#text-6").innerText.includes("boss@far.test to ann: the job")')
        browser.click('#text-6 button')
        browser.wait('document.getElementById("message").open')
        has('the text', 'This is our offer.', browser.value('document.getElementById("message-text").innerText'))
        browser.wait('document.getElementById("who-read").textContent.includes("Nobody ever had it.")')
        browser.picture(pictures, 'text')
        browser.click('#message button')
        browser.click('#clear')
        browser.wait('document.querySelectorAll("#rows tr").length === 6')
        browser.wait('document.querySelector("#text-5").innerText.includes("filter ads: what holds")')
        browser.choose('#to', 'bob')
        browser.click('#find')
        browser.wait('document.getElementById("said").innerText === "No texts that were for bob."')
        browser.choose('#to', 'ann')
        browser.click('#find')
        browser.wait('document.querySelectorAll("#rows tr").length === 3')
        browser.click('#clear')
        browser.wait('document.querySelectorAll("#rows tr").length === 6')
        browser.click('#text-5 button')
        browser.wait('document.getElementById("touched-by").textContent.includes("It decided for 1 delivery.")')
        has('what it threw away', ['6 2005-01-07 11:20:00 from boss@far.test to ann: "the job", was discarded (filter ads), and so now'], browser.value('document.getElementById("touched-by").textContent'))
        browser.picture(pictures, 'touched')
        browser.click('#message button')
        browser.wait('!document.getElementById("message").open')
        browser.click('tr[data-number="4"] input[type=radio]')
        browser.click('tr[data-number="5"] input[type=checkbox]')
        browser.click('#try')
        browser.wait(f'{REPORT}.includes("Nobody gets a notice")')
        has('the try', ['It would be cycle 8, back to point 4. 2 later items would stay.', 'ann: INBOX'], browser.value(REPORT))
        browser.picture(pictures, 'filter-try')
        same('nothing was done', 0, it.get('/status')['cycles'])
        browser.click('#run')
        browser.wait('document.getElementById("confirm").open')
        has('it asks', ['Nobody will get a notice.', '1 item is dropped', 'filter ads: what holds "offer" is discarded', 'ann gets 1 message, and keeps 2 messages'], browser.value('document.getElementById("confirm-text").innerText'))
        has('the totals', 'In all: 1 item dropped, no notice, 1 mailbox renewed, 1 user gets 1 message.', browser.value('document.getElementById("totals").innerText'))
        browser.click('#confirm button[value=no]')
        browser.wait('!document.getElementById("confirm").open')
        same('no is no', 0, it.get('/status')['cycles'])
        browser.click('#run')
        browser.wait('document.getElementById("confirm").open')
        browser.click('#yes')
        browser.wait(f'{REPORT}.includes("Done.")')
        same('the mail is back', [2, 6, 7], [row['item'] for row in it.get('/box/ann/INBOX')['entries']])
        browser.wait('document.querySelectorAll("#rows tr").length === 5')
        same('the page has no fault', [], browser.faults())

def an_infected_delivery(folder, browser, pictures):
    with tests.Server(folder, tests.WORM) as it, tests.Page(it, '--store', it.store) as page:
        opened(browser, page)
        browser.click('#beginning')
        browser.click('#add summary')
        browser.choose('#kind', 'replace')
        browser.write('#of-item', '2')
        browser.write('#of-body', 'Subject: removed\n\nIt was removed.\n')
        browser.click('#repair button[type=submit]')
        browser.wait('document.querySelectorAll("#repairs li").length === 1')
        browser.click('#try')
        browser.wait(f'{REPORT}.includes("a message was changed")')
        browser.click('#repairs button')
        browser.click('tr[data-number="2"] input[type=checkbox]')
        browser.click('#run')
        browser.wait('document.getElementById("confirm").open')
        has('it names who is told', 'These users will get a notice: ann, bob.', browser.value('document.getElementById("confirm-text").innerText'))
        browser.picture(pictures, 'worm-confirm')
        browser.click('#yes')
        browser.wait(f'{REPORT}.includes("Done.")')
        has('the report', ['2 users get a notice', 'a message is missing', 'ann: Keep'], browser.value(REPORT))
        same('the mail is gone', [], [row['item'] for row in it.get('/box/ann/Keep')['entries']])
        browser.wait('document.querySelector("#text-9") || document.querySelector("#text-10")')
        browser.picture(pictures, 'worm-done')
        same('the page has no fault', [], browser.faults())

def a_wrong_alias_by_the_keyboard(folder, browser, pictures):
    with tests.Server(folder, tests.ALIAS) as it, tests.Page(it) as page:
        opened(browser, page)
        tab_to(browser, '#rows tr')
        browser.key('ArrowDown')
        browser.key('ArrowDown')
        same('the row', '2', browser.value('document.activeElement.dataset.number'))
        browser.key('d', 'd')
        browser.wait('document.querySelectorAll("#drops li").length === 1')
        same('the row has the focus still', '2', browser.value('document.activeElement.dataset.number'))
        tab_to(browser, '#beginning'); browser.key('Enter')
        tab_to(browser, '#add summary'); browser.key('Enter')
        browser.choose('#kind', 'alias')
        tab_to(browser, '#of-local'); browser.ask('Input.insertText', text='desk')
        browser.key('Tab'); browser.ask('Input.insertText', text='bob')
        browser.key('Enter')
        browser.wait('document.querySelectorAll("#repairs li").length === 1')
        tab_to(browser, '#run'); browser.key('Enter')
        browser.wait('document.getElementById("confirm").open')
        has('it names who is told', 'These users will get a notice: carl.', browser.value('document.getElementById("confirm-text").innerText'))
        tab_to(browser, '#yes'); browser.key('Enter')
        browser.wait(f'{REPORT}.includes("Done.")')
        same('the alias', ['bob'], it.get('/conf')['aliases']['desk'])
        same('the page has no fault', [], browser.faults())

def tab_to(browser, css):
    """Presses Tab until an element has the focus."""
    for _ in range(80):
        if browser.value(f'Boolean(document.activeElement && document.activeElement.matches({css!r}))'): return
        browser.key('Tab')
    raise tests.Wrong(f'Tab does not come to {css}')

def texts_that_would_be_html(folder, browser, pictures):
    image = '<img src=x onerror=alert(1)>'
    lines = [*tests.START, *tests.letter('ann', f'Subject: {image}', '', '<script>alert(2)</script>'), *tests.letter('ann', 'Subject: caf~xe9 =?utf-8?Q?=3Cb=3Eh=C3=A9?='),
             *tests.reads(2, 'ann', 'a1', f'CREATE "{image}"', f'CREATE "{"long " * 39}"', 'SELECT INBOX', f'STATUS "{image}" (MESSAGES)')]
    with tests.Server(folder, lines) as it, tests.Page(it) as page:
        opened(browser, page)
        browser.wait(f'document.querySelector("#text-2").innerText.includes({image!r})')
        has('8-bit and encoded', 'café <b>hé', browser.value('document.querySelector("#text-3").innerText'))
        browser.click('#text-2 button')
        browser.wait('document.getElementById("message").open')
        has('its text', '<script>alert(2)</script>', browser.value('document.getElementById("message-text").innerText'))
        same('no element comes of it', 0, browser.value('document.querySelectorAll("img, #message-text script, #rows b").length'))
        browser.picture(pictures, 'html')
        browser.click('#message button')
        has('a mailbox', image, browser.value('document.getElementById("rows").innerText'))
        same('the page has no fault', [], browser.faults())

def long_and_turned_texts(folder, browser, pictures):
    word, turned = 'subject ' * 110, 'Subject: =?utf-8?Q?safe=E2=80=AEfdp.exe?='
    lines = [*tests.START, *tests.letter('ann', turned), *tests.letter('ann', f'Subject: {word}'), *tests.reads(2, 'ann', 'a1', f'CREATE "{"long " * 39}"'), f'at {253402300799}', *tests.letter('ann', 'Subject: a wrong clock')]
    with tests.Server(folder, lines) as it, tests.Page(it, '--store', it.store) as page:
        opened(browser, page)
        browser.wait('document.querySelector("#text-3").innerText.includes("subject subject")')
        browser.wait('document.querySelector("#text-2").innerText.includes("safe")')
        has('no direction is turned', 'safe\\u202efdp.exe', browser.value('document.querySelector("#text-2").innerText'))
        same('no row is high', True, browser.value('Math.max(...[...document.querySelectorAll("#rows tr")].map(it => it.getBoundingClientRect().height))') < 60)
        has('a wrong clock stands apart', '1 item with a wrong clock is not in it.', browser.value('document.getElementById("span").innerText'))
        browser.wide(420, 900)
        same('nothing runs out of 420 pixels', True, browser.value('document.documentElement.scrollWidth') <= 420)
        browser.picture(pictures, 'narrow')
        browser.wide(1500, 1000)
        same('the page has no fault', [], browser.faults())

def three_thousand_broken_answers(folder, browser, pictures):
    looks = [f'line {2 + n % 2} f{n} FETCH 1 FLAGS' for n in range(3000)]
    lines = [*tests.START, *tests.letter('team', 'Subject: invoice', '', 'Open me!', sender='evil@far.test'), *tests.reads(2, 'ann', 'a1', 'SELECT INBOX'), *tests.reads(3, 'bob', 'b2', 'SELECT INBOX'), *looks]
    with tests.Server(folder, lines) as it, tests.Page(it, '--store', it.store) as page:
        opened(browser, page)
        browser.click('#beginning')
        browser.write('#text', 'Open me')
        browser.click('#find')
        browser.wait('document.querySelectorAll("#rows tr").length === 1')
        browser.click('#drop-found')
        browser.wait('document.querySelectorAll("#drops li").length === 1')
        browser.click('#run')
        browser.wait('document.getElementById("confirm").open')
        text = browser.value('document.getElementById("confirm-text").innerText')
        has('folded by user', ['ann, for 1501 answers', 'bob, for 1501 answers', 'These users will get a notice: ann, bob.'], text)
        same('no long list is drawn open', True, browser.value('document.getElementById("confirm").getBoundingClientRect().height') <= 1000)
        same('nor is its text longer than a screen', True, browser.value('document.getElementById("confirm-text").scrollHeight') <= 1000)
        same('it begins at its beginning', 0, browser.value('document.getElementById("confirm-text").scrollTop'))
        has('the totals are in sight', '2 notices for 3002 answers', browser.value('document.getElementById("totals").innerText'))
        same('beside the answer', True, browser.value('document.getElementById("yes").getBoundingClientRect().bottom') <= browser.value('innerHeight'))
        browser.picture(pictures, 'many-broken')
        browser.click('#confirm-text details.broken summary')
        browser.wait('document.querySelector("#confirm-text details.broken").open')
        has('unfolded, 20 and then the others', '1481 more', browser.value('document.querySelector("#confirm-text details.broken").innerText'))
        same('the totals stay in sight', True, browser.value('document.getElementById("yes").getBoundingClientRect().bottom') <= browser.value('innerHeight'))
        browser.picture(pictures, 'many-broken-unfolded')
        browser.click('#confirm button[value=no]')
        same('the page has no fault', [], browser.faults())

def a_store_that_changes_behind_the_page(folder, browser, pictures):
    with tests.Server(folder, tests.FILTER) as it, tests.Page(it) as page:
        opened(browser, page)
        browser.write('#text', 'offer')
        browser.click('#find')
        browser.wait('document.querySelectorAll("#rows tr").length === 1')
        it.talk(b'POST /act HTTP/1.1\r\nContent-Length: 32\r\n\r\n{"act":"unalias","local":"team"}')
        browser.value('watch()')
        browser.wait('document.getElementById("behind").innerText.includes("1 item is newer than this page.")')
        browser.click('#reload')
        browser.wait('document.querySelectorAll("#rows tr").length === 7')
        same('the field loses its word with its list', '', browser.value('document.getElementById("text").value'))
        same('nothing is newer', '', browser.value('document.getElementById("behind").innerText'))
        browser.click('#add summary')
        same('a file gets mail\'s line ends', 'a\r\nb\r\nc\r\n', browser.value('new TextDecoder().decode(mailed(new TextEncoder().encode("a\\nb\\r\\nc\\n")))'))
        same('a click draws no row anew', True, browser.value('(() => { const row = document.querySelector("#rows tr"); row.querySelector("input[type=checkbox]").click(); return row === document.querySelector("#rows tr") && row.className === "dropped"; })()'))
        same('the page has no fault', [], browser.faults())

def a_site_that_posts_a_cycle(folder, browser, pictures):
    """A page of another origin: the console does what it posts, as OPERATING says; the page's own server does not."""
    import http.server, threading
    class Site(http.server.BaseHTTPRequestHandler):
        def do_GET(self):
            self.send_response(200); self.send_header('Content-Type', 'text/html'); self.end_headers(); self.wfile.write(b'<title>site</title>')
        def log_message(self, *said): pass
    site = http.server.ThreadingHTTPServer(('127.0.0.1', 0), Site)
    threading.Thread(target=site.serve_forever, daemon=True).start()
    with tests.Server(folder, tests.FILTER) as it, tests.Page(it) as page:
        browser.leave()
        browser.ask('Page.navigate', url=f'http://localhost:{site.server_address[1]}/')
        browser.wait('document.title === "site"')
        def posts(port, path, key): browser.value(f'fetch("http://127.0.0.1:{port}{path}", {{method: "POST", mode: "no-cors", body: JSON.stringify({{drop: [5], key: {key!r}, point: 4}})}}).then(() => 1, () => 0)')
        posts(page.port, '/api/run', 'page')
        same('the page\'s server refuses it', 0, it.get('/status')['cycles'])
        posts(it.port, '/cycle', 'console')
        same('the console does it: so its port is not for a browser\'s machine', 1, it.get('/status')['cycles'])
    site.shutdown()

def a_server_that_stops(folder, browser, pictures):
    with tests.Server(folder, tests.FILTER, status=-9) as it, tests.Page(it) as page:
        opened(browser, page)
        browser.click('#beginning')
        it.process.kill(); it.process.wait()
        browser.click('#try')
        browser.wait(f'{REPORT}.includes("No server answers")')
        browser.click('#reload')
        browser.wait('document.getElementById("said").innerText.includes("No server answers")')
        browser.picture(pictures, 'stopped')

def deliveries(path, count):
    """Puts so many deliveries into a store that `init` has made, spelled by docs/FORMATS.md: some 20 seconds lie between two."""
    u32, name = lambda n: n.to_bytes(4, 'big'), lambda text: bytes([len(text)]) + text
    with open(path, 'r+b', 1 << 20) as out:
        out.seek(-1, 2)
        for number in range(2, count + 2):
            user, sender = (b'ann', b'bob', b'carl', b'team')[number % 4], b'joe%d@far.test' % (number % 50)
            body = b'Return-Path: <%s>\r\nSubject: m%d %s\r\n\r\n%s\r\n' % (sender, number, b'name ' * 30, b'sought' if number % (count // 4) == 7 else b'')
            record = b'\1' + u32(number) + (tests.NINE + 20 * number).to_bytes(8, 'big') + b'\xff\1' + u32(len(sender)) + sender + u32(1) + name(user) + u32(len(body)) + body + b'\0'
            out.write(b'\x55' + u32(len(record)) + record)
        out.write(b'\0')

def a_hundred_thousand_items(folder, browser, pictures):
    """How long one waits for the first screen, for all items, for a page, a click, a choice and a find over all texts: told. Judged is that nothing that a hand does keeps the page's thread busy for a second (its processor time, so that what else the machine does is not judged), that a find by the journal ends, and that one by the console stops and says so."""
    server = tests.Server(folder)
    deliveries(server.store, 100000)
    with server as it, tests.Page(it, '--store', it.store) as page:
        browser.leave()
        took, worked = {}, {}
        def timed(what, act, until):
            began, before = time.monotonic(), browser.worked()
            act()
            browser.wait(until)
            took[what], worked[what] = time.monotonic() - began, browser.worked() - before
        timed('the first screen', lambda: browser.open(page.port), 'typeof store !== "undefined" && document.querySelectorAll("#rows tr").length')
        timed('a subject on it', lambda: None, 'document.querySelector("#rows tr td:last-child").innerText.includes("m100001")')
        timed('all items behind it', lambda: None, READ)
        hands = {
            'the next page': (lambda: browser.click('#older'), 'document.getElementById("place").innerText.startsWith("101 to 200 of")'),
            'a tick': (lambda: browser.click('#rows input[type=checkbox]'), 'document.querySelectorAll("#drops li").length === 1'),
            'a point': (lambda: browser.click('#rows input[type=radio]'), 'document.querySelector("#rows tr input[type=radio]").checked'),
            'a verb': (lambda: browser.choose('#verb', 'DELIVER'), 'document.getElementById("place").innerText.startsWith("1 to 100 of 100000")'),
            'a mailbox': (lambda: browser.value('(() => { const it = document.getElementById("mailbox"); it.value = "none"; it.onchange(); it.value = ""; it.onchange(); })()'), 'document.getElementById("place").innerText.startsWith("1 to 100 of 100000")'),
        }
        for what, (act, until) in hands.items(): timed(what, act, until)
        browser.picture(pictures, 'many')
        timed('40 pages', lambda: browser.value('(async () => { for (let n = 0; n < 40; n++) { at("older").click(); await new Promise(ends => setTimeout(ends)); } })()'), 'document.getElementById("place").innerText.startsWith("4001 to 4100 of")')
        browser.write('#text', 'sought')
        timed('a find over all texts', lambda: browser.click('#find'), 'document.querySelectorAll("#rows tr").length === 4')
        has('it says so', '4 texts that hold it.', browser.value('document.getElementById("said").innerText'))
        browser.picture(pictures, 'many-found')
        print(f'100,000 deliveries, load {os.getloadavg()[0]:.0f}: {", ".join(f"{what} {seconds:.2f} s ({worked[what]:.2f} s of the page)" for what, seconds in took.items())}', flush=True)
        for what in hands: same(f'{what} is not waited for', True, worked[what] < 1)
        same('nor a page', True, worked['40 pages'] < 40)
        same('the page has no fault', [], browser.faults())
        with tests.Page(it) as other:
            opened(browser, other)
            browser.write('#text', 'sought')
            timed('a find by the console', lambda: browser.click('#find'), '!document.getElementById("find").disabled && document.getElementById("said").innerText.includes("were looked through")')
            said = browser.value('document.getElementById("said").innerText')
            has('it says where it stopped', ['Of 100000 texts the latest ', 'and not those before them.', '--store'], said)
            browser.picture(pictures, 'many-by-the-console')
            looked = browser.value('store.looked')
            timed('and further', lambda: browser.click('#further'), f'!document.getElementById("find").disabled && store.looked > {looked}')
            print(f'by the console: {took["a find by the console"]:.1f} s, "{said}", and {browser.value("store.looked") - looked} more in {took["and further"]:.1f} s')
            browser.click('#drop-found')
            partly = browser.value('store.looked < 100000')     # a machine that is fast enough has looked through all by then
            has('what would be dropped', 'were looked through' if partly else '4 items to drop.', browser.value('document.getElementById("said").innerText'))
            browser.click('#clear')
            browser.wait('document.getElementById("further").hidden')
        for words in (['find', 'sought', '--store', it.store], ['timeline', '--verb', 'FILTER'], ['show', '15000'], ['timeline', '--last', '20']):
            began = time.monotonic()
            it.undo(*words, status=1 if 'FILTER' in words else 0)
            print(f'undo {" ".join(words)}: {time.monotonic() - began:.2f} s')
        same('the page has no fault', [], browser.faults())

CASES = (a_filter_by_mistake, an_infected_delivery, a_wrong_alias_by_the_keyboard, texts_that_would_be_html, long_and_turned_texts, three_thousand_broken_answers, a_store_that_changes_behind_the_page, a_site_that_posts_a_cycle,
         a_server_that_stops, a_hundred_thousand_items)

def main():
    if len(sys.argv) < 2 or not set(sys.argv[3:]) <= {case.__name__ for case in CASES}: sys.exit(__doc__)
    tests.PROGRAM, failed, pictures = os.path.abspath(sys.argv[1]), 0, sys.argv[2] if len(sys.argv) > 2 and sys.argv[2] != '-' else None
    with Browser() as browser:
        for case in CASES:
            if sys.argv[3:] and case.__name__ not in sys.argv[3:]: continue
            folder = tempfile.mkdtemp()
            try: case(folder, browser, pictures); print(f'{case.__name__}: as it should be', flush=True)
            except Exception as it: failed += 1; print(f'{case.__name__}: {type(it).__name__}: {it}', flush=True)
            finally: shutil.rmtree(folder, ignore_errors=True)
    sys.exit(1 if failed else 0)

main()
