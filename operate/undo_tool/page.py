"""The page, served on 127.0.0.1 to the browser of this machine."""
from __future__ import annotations

import contextlib
import http.server
import json
import os
import re
import secrets
import threading
from typing import Any, Callable, Optional

from .asked import idle_parts, is_number, refuse, shape_faults, store_faults
from .console import Console, Timeline, accepted
from .copies import same_file
from .cycles import naming_of, prepared, run_cycle, withdraw, withdrawal_told
from .formats import LARGEST_REQUEST, MEANINGS, PAGE_OF_ITEMS
from .history import Telling, addressed_to, opened, reading, touched_by, who_read
from .journal import SetFilter
from .journal_commands import delivery_text, set_by, touched_by_head, who_read_text
from .mail import Message, message_of
from .model import NOTHING, Past
from .told import effects_text, report_text
from .troubles import NO_SERVER, WRONG_WORDS, Trouble

with open(os.path.join(os.path.dirname(os.path.abspath(__file__)), 'page.html'), encoding='utf-8') as _page:
    PAGE = _page.read()


def holds(item: Any, text: str) -> bool:
    return item.body is not None and Message(item.body.octets).holds(text, False)


class PageServer(http.server.ThreadingHTTPServer):
    """Serves the page on 127.0.0.1, and hands what it asks to the console: these routes and no other."""

    daemon_threads = True

    def __init__(self, port: int, console: Console, keep: str, store: Optional[str]) -> None:
        super().__init__(('127.0.0.1', port), PageHandler)
        self.console, self.keep, self.store, self.token = console, keep, store, secrets.token_hex(16)
        self.one_run, self.one_read = threading.Lock(), threading.Lock()
        self.known: Optional[Past] = None  # the journal, as far as it was read
        self.first_read = threading.Thread(target=self.read_first, daemon=True)
        self.first_read.start()

    @property
    def port(self) -> int:
        return self.server_address[1]

    def pages(self) -> list[tuple[str, str, Callable[..., Any]]]:
        """Method, path and what answers it: given the parts of the path, and for POST the JSON that came."""
        console = self.console
        return [
            ('GET', r'/api/status', lambda: Timeline(console).counts()),
            ('GET', r'/api/timeline/(\d+)', lambda place: accepted(console.get(f'/timeline/{int(place)}'))),
            ('GET', r'/api/message/(\d+)', lambda number: self.message(int(number))),
            ('GET', r'/api/who-read/(\d+)', lambda number: self.who_read(int(number))),
            ('GET', r'/api/journal', self.journal),
            ('GET', r'/api/conf', lambda: accepted(console.get('/conf'))),
            ('POST', r'/api/touched-by', self.touched_by),
            ('POST', r'/api/find', self.find),
            ('POST', r'/api/heads', self.heads),
            ('POST', r'/api/check', self.check),
            ('POST', r'/api/try', self.tried),
            ('POST', r'/api/run', self.run),
            ('GET', r'/api/withdrawal/(\d+)', lambda cycle: self.withdrawal(int(cycle))),
            ('POST', r'/api/withdraw', self.withdraw),
        ]

    def message(self, number: int) -> dict[str, Any]:
        message = message_of(self.console.get(f'/body/{number}'), number)
        return {'fields': message.fields(), 'octets': len(message.octets), 'parts': list(message.texts())}

    def journal(self) -> dict[str, Any]:
        """Whether the journal was read, and then the users of the house."""
        past = None if self.first_read.is_alive() else self.known
        return {'read': not self.first_read.is_alive(), 'users': past.house.users if past else []}

    def find(self, asked: Any) -> Any:
        """Items whose texts hold a word, or that were for a user by the envelope, or both: by the journal; else, among those that are named, by the console."""
        text, user, numbers = (asked.get(name, usual) for name, usual in (('text', ''), ('to', ''), ('numbers', None))) if isinstance(asked, dict) else (None, None, None)
        if not isinstance(text, str) or not isinstance(user, str) or not (text or user):
            raise Trouble(WRONG_WORDS, 'Write what the texts are to hold, or choose for whom they were.')
        return self.find_all(text, user) if numbers is None else self.find_among(text, self.numbers_in(numbers))

    def find_all(self, text: str, user: str) -> list[dict[str, Any]]:
        """By the journal. Of many the heads of the latest alone: the page asks for those that it shows."""
        with self.one_read:
            past = self.read_on().beside()
        there = past.timeline
        if user:
            were_for = set(self.were_for(user))
            there = [number for number in there if number in were_for]
        found = [number for number in there if not text or holds(past.item(number, False), text)]
        early = max(0, len(found) - PAGE_OF_ITEMS)
        return [{'number': number} for number in found[:early]] + [self.head(past, past.item(number)) for number in found[early:]]

    def find_among(self, text: str, numbers: list[int]) -> list[dict[str, Any]]:
        """By the console, which is asked for each text: so the page asks for a few, and stops early."""
        answers = zip(numbers, self.console.get_each(f'/body/{number}' for number in numbers))
        messages = ((number, message_of(answer, number)) for number, answer in answers if answer.status != 404)
        return [{'number': number, **message.summary()} for number, message in messages if message.holds(text, False)]

    @staticmethod
    def numbers_in(asked: Any) -> list[int]:
        if not isinstance(asked, list) or len(asked) > PAGE_OF_ITEMS or not all(map(is_number, asked)):
            raise Trouble(WRONG_WORDS, f'Ask for a list of at most {PAGE_OF_ITEMS} numbers.')
        return asked

    def were_for(self, user: str) -> list[int]:
        """The deliveries in force that were for a user when they came, or are now."""
        with opened(self.path()) as journal:
            return [it.item.number for it in addressed_to(Past(journal), user, self.console.tell) if it.now is not None]

    def path(self) -> str:
        if self.store is None:
            raise Trouble(WRONG_WORDS, 'This page was started without the path of the store (--store).')
        return self.store

    def read_first(self) -> None:
        """Reads the journal while the page is served already. What is wrong with it is told to whoever asks for it."""
        if self.store is not None:
            with self.one_read, contextlib.suppress(Trouble):
                self.read_on()

    def read_on(self) -> Past:
        """The journal as it stands, of which only what is new is read; all of it where another file has its name. Held by `one_read`."""
        past, self.known = self.known, None
        if past is None or not same_file(past.journal):
            past = Past(opened(self.path()))
        self.known = reading(past, None, self.console.tell)
        return self.known

    def heads_told(self, numbers: list[int]) -> Optional[list[dict[str, Any]]]:
        """Heads by the journal; none where the page has no journal, or is still reading it."""
        if self.store is None or not self.one_read.acquire(blocking=not self.first_read.is_alive()):
            return None
        try:
            past = self.read_on()
            there = set(past.timeline)
            return [self.head(past, past.item(number)) for number in numbers if number in there]
        finally:
            self.one_read.release()

    def heads(self, asked: Any) -> Any:
        """Who sent these items' texts, to whom, and their subjects; of acts what they set, where the journal tells it. Without those that are gone."""
        asks = self.numbers_in(asked.get('numbers') if isinstance(asked, dict) else None)
        told = self.heads_told(asks)
        if told is not None:
            return told
        answers = zip(asks, self.console.get_each(f'/body/{number}' for number in asks))
        return [{'number': number, **message_of(answer, number).summary()} for number, answer in answers if answer.status != 404]

    def head(self, past: Past, item: Any) -> dict[str, Any]:
        if item.body is None:
            filtered = {'filter': item.deed.filter.name} if type(item.deed) is SetFilter else {}
            return {'number': item.number, 'said': Telling(past.house).words(item, NOTHING), **filtered}
        return {'number': item.number, **Message(item.body.octets).summary(), **({'recipients': list(item.deed.recipients)} if item.verb == 'DELIVER' else {})}

    def who_read(self, number: int) -> dict[str, str]:
        with opened(self.path()) as journal:
            past = Past(journal)
            found = who_read(past, number, self.console.tell)
            return {'text': who_read_text(Telling(past.house), found, False)}

    def touched_by(self, asked: Any) -> dict[str, Any]:
        """The deliveries for which a filter decided, and what became of them."""
        name = asked.get('name') if isinstance(asked, dict) else None
        if not isinstance(name, str):
            raise Trouble(WRONG_WORDS, 'Say which filter is meant.')
        with opened(self.path()) as journal:
            past = Past(journal)
            found = touched_by(past, name, self.console.tell)
            telling = Telling(past.house)
            return {'text': touched_by_head(name, set_by(past, name), found), 'deliveries': [{'number': it.item.number, 'at': it.item.at, 'said': delivery_text(telling, it)} for it in found]}

    def checked(self, request: Any, wants_key: bool) -> dict[str, Any]:
        refuse(shape_faults(request, wants_key), 'This is no request that the console would take')
        return request

    def check(self, request: Any) -> dict[str, Any]:
        """What the console would refuse, and what would do nothing; a reader of the page is told before the request is sent."""
        refuse(store_faults(self.console, self.checked(request, False)), 'The console would refuse this request')
        return {'notes': idle_parts(request, Timeline(self.console).whole())}

    def tried(self, request: Any) -> dict[str, Any]:
        """The report of a try, what the request names, and what it does to each user."""
        it = prepared(self.console, self.checked(request, False), self.store, self.console.tell)
        return {**it.report, 'named': it.naming.as_data(), 'effects': it.effects.as_data() if it.effects is not None else None, 'untold': it.untold}

    def run(self, request: Any) -> dict[str, Any]:
        with self.one_run:
            naming = naming_of(self.console, self.checked(request, True), self.store, self.console.tell)
            outcome = run_cycle(self.console, request, self.keep, naming.kept())
        return {'report': outcome.report, 'repeated': outcome.repeated, 'kept': outcome.kept, 'fault': outcome.fault}

    def withdrawal(self, cycle: int) -> dict[str, Any]:
        """What taking a cycle back would do to whom, as far as it can be told."""
        effects, said = withdrawal_told(cycle, self.store, self.keep, self.console.tell)
        return {'told': '\n\n'.join([said, *([effects_text(effects, False), report_text(effects.report, False, False, 'withdrawal')] if effects else [])])}

    def withdraw(self, asked: Any) -> dict[str, Any]:
        if not isinstance(asked, dict) or not is_number(asked.get('of')) or not isinstance(asked.get('key'), str):
            raise Trouble(WRONG_WORDS, 'This is no request for a withdrawal.')
        with self.one_run:
            outcome = withdraw(self.console, asked['key'], asked['of'], self.keep)
        return {'report': outcome.report, 'repeated': outcome.repeated, 'kept': outcome.kept, 'fault': outcome.fault}


class PageHandler(http.server.BaseHTTPRequestHandler):
    """One request to the page. Another site cannot ask (Host, Origin and the page's token are looked at), nor read or frame it."""

    server: PageServer
    server_version, sys_version, protocol_version, timeout = 'undo', '', 'HTTP/1.1', 120

    def do_GET(self) -> None:
        self.answer('GET')

    def do_POST(self) -> None:
        self.answer('POST')

    def answer(self, method: str) -> None:
        # What is refused has a body that is not read, so the connection ends with it.
        self.close_connection = True
        refused = self.stranger()
        if refused:
            self.reply_json(403, {'error': refused})
        elif method == 'GET' and self.path == '/':
            nonce = secrets.token_hex(16)
            page = PAGE.replace('%NONCE%', nonce).replace('%TOKEN%', self.server.token).replace('%PORT%', self.server.console.where).replace('%MEANINGS%', json.dumps(MEANINGS)).replace('%STORE%', json.dumps(self.server.store is not None))
            self.reply(200, 'text/html; charset=utf-8', page.encode(), f"script-src 'nonce-{nonce}'; style-src 'nonce-{nonce}'; connect-src 'self'; img-src data:")
        elif not secrets.compare_digest(self.headers.get('X-Undo-Token', '').encode(), self.server.token.encode()):
            self.reply_json(403, {'error': 'This page is of an earlier `undo page`. Load it again.'})
        else:
            self.answer_page(method)

    def answer_page(self, method: str) -> None:
        for its_method, path, answers in self.server.pages():
            parts = re.fullmatch(path, self.path)
            if parts and its_method == method:
                try:
                    self.reply_json(200, answers(*parts.groups(), *([self.body()] if method == 'POST' else [])))
                except Trouble as trouble:
                    self.reply_json(502 if trouble.code == NO_SERVER else 409, {'error': str(trouble)})
                return
        self.reply_json(404, {'error': 'The page has no such part.'})

    def stranger(self) -> Optional[str]:
        """Why this request does not come from the page, if it does not."""
        hosts = {f'127.0.0.1:{self.server.port}', f'localhost:{self.server.port}'}
        host, origin = self.headers.get_all('Host') or [], self.headers.get('Origin')
        if len(host) != 1 or host[0].lower() not in hosts:
            return 'This page is served under 127.0.0.1 and localhost alone.'
        if origin is not None and origin.lower() != f'http://{host[0].lower()}':
            return 'Another site may not ask.'
        if self.command == 'POST' and origin is None:
            return 'A request that asks for something names its origin.'
        return None if self.headers.get('Sec-Fetch-Site', 'same-origin') in ('same-origin', 'none') else 'Another site may not ask.'

    def body(self) -> Any:
        length = self.headers.get('Content-Length', '')
        if not re.fullmatch(r'\d{1,9}', length) or int(length) > LARGEST_REQUEST:
            raise Trouble(WRONG_WORDS, f'The request is too large: the console takes {LARGEST_REQUEST:,} octets.')
        try:
            return json.loads(self.rfile.read(int(length)))
        except (ValueError, RecursionError):
            raise Trouble(WRONG_WORDS, 'The request is no JSON.') from None

    def reply_json(self, status: int, data: Any) -> None:
        self.reply(status, 'application/json', json.dumps(data).encode('ascii'))

    def reply(self, status: int, kind: str, body: bytes, policy: str = '') -> None:
        self.send_response(status)
        headers = {
            'Content-Type': kind, 'Content-Length': str(len(body)), 'Cache-Control': 'no-store', 'Connection': 'close',
            'Content-Security-Policy': f"default-src 'none'; base-uri 'none'; form-action 'none'; frame-ancestors 'none'; {policy}".rstrip('; '),
            'Cross-Origin-Opener-Policy': 'same-origin', 'Cross-Origin-Resource-Policy': 'same-origin',
            'Referrer-Policy': 'no-referrer', 'X-Content-Type-Options': 'nosniff', 'X-Frame-Options': 'DENY',
        }
        for name, value in headers.items():
            self.send_header(name, value)
        try:
            self.end_headers()
            self.wfile.write(body)
        except OSError:
            pass  # the page was left meanwhile

    def log_message(self, *said: Any) -> None:
        """Nothing is logged: the console's requests stand in no log either."""
