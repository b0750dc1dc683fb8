"""What a request names: the items that it drops or replaces and the acts that it brings in, in words; and the texts that are kept of them."""
from __future__ import annotations

import base64
import re
from typing import Any, NamedTuple, Optional
from urllib.parse import quote

from . import model
from .console import Console, Item, accepted
from .formats import REPLACEABLE, WITH_TEXT
from .history import Telling, filter_of, filter_text, key_text
from .journal import Deliver
from .mail import Message, message_of
from .model import Past


class Named(NamedTuple):
    """An item of a request: what is done to it, and what it is."""

    what: str  # dropped, or replaced
    number: int
    at: int
    verb: str
    by: str
    box: str
    sender: str
    recipients: list[str]  # of the envelope where the journal was read, else as the header has them
    envelope: bool
    subject: str
    said: str  # of an act, in words
    octets: Optional[bytes]
    lies: list[dict[str, str]]  # where messages with its text lie
    new: Optional[bytes]  # the text that comes in its place

    def as_data(self) -> dict[str, Any]:
        """For scripts and for the page: all but the texts."""
        return {'what': self.what, 'number': self.number, 'at': self.at, 'verb': self.verb, 'by': self.by, 'box': self.box, 'sender': self.sender, 'recipients': self.recipients,
                'subject': self.subject, 'said': self.said, 'lies': self.lies, 'octets': None if self.octets is None else len(self.octets)}

    def as_kept(self) -> dict[str, Any]:
        """As a run keeps it."""
        return {**self.as_data(), 'envelope': self.envelope, 'body': base64.b64encode(self.octets or b'').decode('ascii')}


class Naming(NamedTuple):
    """All that a request names."""

    items: list[Named]
    acts: list[str]
    key_had: Optional[int]  # the cycle that had its key before

    def dropped(self) -> list[Named]:
        return [it for it in self.items if it.what == 'dropped']

    def replaced(self) -> list[Named]:
        return [it for it in self.items if it.what == 'replaced']

    def kept(self) -> list[dict[str, Any]]:
        return [it.as_kept() for it in self.items if it.octets is not None]

    def as_data(self) -> dict[str, Any]:
        return {'items': [it.as_data() for it in self.items], 'acts': self.acts, 'key_had': self.key_had}


def act_text(act: dict[str, Any]) -> str:
    """An act of a request in words."""
    word = act['act']
    if word == 'alias':
        return f'alias {act["local"]}: {", ".join(act["users"])}'
    if word == 'unalias':
        return f'alias {act["local"]} goes'
    if word == 'filter':
        return filter_text(filter_of(act))
    if word == 'unfilter':
        return f'filter {act["name"]} goes'
    if word == 'remove':
        return f'message {key_text(act["item"] << 16 | act["index"])} goes out of {act["user"]} {act["box"]}'
    octets = base64.b64decode(act['body'])
    return f'message for {act["user"]} {act["box"]}: "{Message(octets).field("subject")}", {len(octets):,} octets'


def named(console: Console, request: dict[str, Any], items: list[Item], past: Optional[Past]) -> Naming:
    """What a request names, by the console, and where the journal is read by that too."""
    places = {item.number: place for place, item in enumerate(items)}
    point = places.get(request['point'], -1)
    drops = dict.fromkeys(number for number in request.get('drop', []) if places.get(number, -1) > point)
    texts = {row['item']: base64.b64decode(row['body']) for row in request.get('replace', [])}
    texts = {number: text for number, text in texts.items() if places.get(number, -1) > point and number not in drops and items[places[number]].verb in REPLACEABLE}
    rows = [('dropped', items[places[number]]) for number in drops] + [('replaced', items[places[number]]) for number in texts]
    with_text = [item.number for _, item in rows if item.verb in WITH_TEXT]
    bodies = {number: message_of(answer, number) for number, answer in zip(with_text, console.get_each(f'/body/{number}' for number in with_text)) if answer.status != 404}
    lies = lying_by(past, bodies) if past else lying_seen(console, items, bodies)
    found = [one(what, item, bodies.get(item.number), past, lies.get(item.number, []), texts.get(item.number) if what == 'replaced' else None) for what, item in rows]
    had = past.reports.get(request.get('key', ''), {}).get('cycle') if past else None
    return Naming(found, [act_text(act) for act in request.get('insert', [])], had)


def one(what: str, item: Item, message: Optional[Message], past: Optional[Past], lies: list[dict[str, str]], new: Optional[bytes]) -> Named:
    head = message.summary() if message else {'from': '', 'to': '', 'subject': ''}
    recipients, envelope, said = [head['to']] if head['to'] else [], False, ''
    if past is not None and past.has(item.number):
        its = past.item(item.number)
        if type(its.deed) is Deliver:
            recipients, envelope = list(its.deed.recipients), True
        elif its.body is None:
            said = Telling(past.house).words(its, model.NOTHING)
    return Named(what, item.number, item.at, item.verb, item.by, item.box, head['from'], recipients, envelope, head['subject'], said, message.octets if message else None, lies, new)


def lying_by(past: Past, bodies: dict[int, Message]) -> dict[int, list[dict[str, str]]]:
    """Where messages with these texts lie, by the journal."""
    found: dict[int, list[dict[str, str]]] = {number: [] for number in bodies}
    for user, boxes in enumerate(past.store.boxes):
        for name in sorted(boxes):
            for entry in boxes[name].entries():
                if entry.origin in found:
                    found[entry.origin].append({'user': past.house.users[user], 'box': name})
    return found


def lying_seen(console: Console, items: list[Item], bodies: dict[int, Message]) -> dict[int, list[dict[str, str]]]:
    """The same without the journal: as far as the console shows users and mailboxes, which is those that some item names."""
    if not bodies:
        return {}
    places = {(item.by, item.box) for item in items if item.by and item.box} | {(item.by, 'INBOX') for item in items if item.by}
    for message in bodies.values():
        places |= {(local.lower(), 'INBOX') for local in re.findall(r'([A-Za-z0-9._-]{1,64})@', f'{message.field("to")} {message.field("cc")}')}
    for users in accepted(console.get('/conf'))['aliases'].values():
        places |= {(user, 'INBOX') for user in users}
    found: dict[int, list[dict[str, str]]] = {number: [] for number in bodies}
    asked = sorted(places)
    for (user, box), answer in zip(asked, console.get_each(f'/box/{quote(user, safe="")}/{quote(box, safe="")}' for user, box in asked)):
        if answer.status == 200:
            for entry in answer.json()['entries']:
                if entry['origin'] in found:
                    found[entry['origin']].append({'user': user, 'box': box})
    return found
