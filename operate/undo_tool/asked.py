"""Requests for a cycle: what the console would refuse, and what would do nothing."""
from __future__ import annotations

import base64
import itertools
import json
import re
import secrets
import time
from typing import Any, Callable, Iterator, Optional

from .console import Console, Item, Timeline
from .formats import (ACTS, HEADER, LARGEST_BODY, LARGEST_INDEX, LARGEST_NUMBER, LARGEST_REQUEST, LAST_NUMBER, LONGEST_FIELD, LONGEST_KEY, LONGEST_LOCAL, LONGEST_NAME, MAY_HAVE,
                      REPLACEABLE, SCOPES)
from .moments import utc
from .troubles import NOTHING_FOUND, WRONG_WORDS, Trouble


def is_number(it: Any, most: int = LARGEST_NUMBER) -> bool:
    return isinstance(it, int) and not isinstance(it, bool) and 0 <= it <= most


def is_name(it: Any, longest: int = LONGEST_NAME) -> bool:
    return isinstance(it, str) and 1 <= len(it) <= longest and all(' ' <= letter <= '~' for letter in it)


def is_local(it: Any) -> bool:
    return isinstance(it, str) and re.fullmatch(r'[a-z0-9._-]{1,%d}' % LONGEST_LOCAL, it) is not None


def is_field(it: Any) -> bool:
    return isinstance(it, str) and re.fullmatch(r'[A-Za-z0-9_-]{1,%d}' % LONGEST_FIELD, it) is not None


def body_fault(it: Any) -> Optional[str]:
    """Why this is no text in base64."""
    if not isinstance(it, str):
        return 'is no string in base64'
    try:
        octets = base64.b64decode(it.encode('ascii'), validate=True)
    except ValueError:
        return 'is no standard base64'
    if base64.b64encode(octets).decode() != it:
        return 'is no strict base64'
    return None if len(octets) <= LARGEST_BODY else f'has {len(octets):,} octets, and the most is {LARGEST_BODY:,}'


def act_faults(act: Any) -> Iterator[str]:
    """Why an act would be refused, but for who is a user."""
    if not isinstance(act, dict) or not isinstance(act.get('act'), str) or act['act'] not in ACTS:
        yield f'An act is one of {", ".join(ACTS)}, not {shortly(act)}.'
        return
    word = act['act']
    wants, may = {'act', *ACTS[word]}, set(MAY_HAVE.get(word, ()))
    if not wants <= set(act) <= wants | may:
        more = f' and may have {", ".join(sorted(may))}' if may else ''
        yield f'The act {word} has exactly the members {", ".join(sorted(wants))}{more}, not {", ".join(sorted(act))}.'
        return
    if ('field' in act) != (act.get('scope') == HEADER):
        yield f'In the act {word}, field names a header field where the scope is "{HEADER}", and stands nowhere else.'
    checks: dict[str, tuple[Callable[[Any], bool], str]] = {
        'local': (is_local, 'is no local part: 1 to 64 of a to z, 0 to 9, ".", "-" and "_"'),
        'users': (lambda it: isinstance(it, list) and bool(it) and all(map(is_local, it)), 'is no list of at least one user'),
        'user': (is_local, 'is no user'),
        'name': (is_name, 'is no name: 1 to 200 printable bytes'),
        'needle': (is_name, 'is nothing that a filter can look for: 1 to 200 printable bytes'),
        'box': (is_name, 'is no name of a mailbox'),
        'file': (lambda it: it is None or is_name(it), 'is neither a mailbox nor null'),
        'scope': (lambda it: isinstance(it, str) and it in SCOPES, f'is none of {", ".join(SCOPES)}'),
        'field': (is_field, f'is no name of a header field: 1 to {LONGEST_FIELD} letters, digits, "-" and "_"'),
        'item': (is_number, f'is no number from 0 to {LARGEST_NUMBER}'),
        'index': (lambda it: is_number(it, LARGEST_INDEX), f'is no index from 0 to {LARGEST_INDEX}'),
    }
    for member in (*ACTS[word], *(it for it in MAY_HAVE.get(word, ()) if it in act)):
        if member == 'body':
            fault = body_fault(act['body'])
            if fault:
                yield f'The text of the act {word} {fault}.'
        elif not checks[member][0](act[member]):
            yield f'In the act {word}, {member} {shortly(act[member])} {checks[member][1]}.'


def shape_faults(request: Any, wants_key: bool = True) -> list[str]:
    """Why the console would refuse this request whatever the store holds."""
    if not isinstance(request, dict):
        return ['A request for a cycle is a JSON object.']
    faults = []
    unknown = sorted(set(request) - {'key', 'point', 'drop', 'replace', 'insert'})
    if unknown:
        faults.append(f'A request has key, point, drop, replace and insert, and nothing else: {", ".join(unknown)} is not among them.')
    if wants_key and not is_name(request.get('key'), LONGEST_KEY):
        faults.append(f'The key is to be 1 to {LONGEST_KEY} printable bytes, not {shortly(request.get("key"))}.')
    if not is_number(request.get('point')):
        faults.append(f'The point is to be a number from 0 to {LARGEST_NUMBER}, not {shortly(request.get("point"))}.')
    lists = {name: request.get(name, []) for name in ('drop', 'replace', 'insert')}
    faults += [f'{name} is to be a list.' for name, it in lists.items() if not isinstance(it, list)]
    drop, replace, insert = (it if isinstance(it, list) else [] for it in lists.values())
    faults += [f'drop has numbers from 0 to {LARGEST_NUMBER}, not {shortly(it)}.' for it in drop if not is_number(it)]
    for it in replace:
        if not isinstance(it, dict) or set(it) != {'body', 'item'} or not is_number(it['item']):
            faults.append(f'replace has objects with body and item, an item being a number, not {shortly(it)}.')
        elif body_fault(it['body']):
            faults.append(f'The text for item {it["item"]} {body_fault(it["body"])}.')
    faults += itertools.chain.from_iterable(act_faults(act) for act in insert)
    if len(octets_of(request)) > LARGEST_REQUEST:
        faults.append(f'The request has {len(octets_of(request)):,} octets, and the console takes {LARGEST_REQUEST:,}.')
    return faults


def shortly(it: Any) -> str:
    said = json.dumps(it)
    return said if len(said) <= 60 else said[:57] + '...'


def octets_of(request: dict[str, Any]) -> bytes:
    return json.dumps(request, sort_keys=True, separators=(',', ':')).encode('ascii')


def users_named(request: dict[str, Any]) -> list[str]:
    """The users that the acts of a request name, each once."""
    named = itertools.chain.from_iterable(act.get('users', [act['user']] if 'user' in act else []) for act in request.get('insert', []))
    return list(dict.fromkeys(named))


def store_faults(console: Console, request: dict[str, Any]) -> list[str]:
    """Why the console would refuse a well-formed request over the store that it serves now."""
    counts, insert = Timeline(console).counts(), request.get('insert', [])
    # each user has a Lost+Found, which is most often small
    users = users_named(request)
    known = console.get_each(f'/box/{user}/Lost%2BFound' for user in users)
    faults = [f'{user} is no user of this house.' for user, answer in zip(users, known) if answer.status == 404]
    point = request['point']
    if point:
        try:
            Timeline(console).item(point)
        except Trouble as trouble:
            if trouble.code != NOTHING_FOUND:
                raise
            faults.append(f'The point {point} is neither 0 nor the number of an item in force.')
    if counts['next'] + 1 + len(insert) + counts['users'] > LAST_NUMBER:
        faults.append(f'Too few numbers are left: the next is {counts["next"]}, and the last is {LAST_NUMBER}.')
    return faults


def idle_parts(request: dict[str, Any], items: list[Item]) -> list[str]:
    """Which parts of a request would do nothing: not refused, but most often a mistyped number."""
    places = {item.number: place for place, item in enumerate(items)}
    point = places.get(request['point'], -1)
    later = {number for number, place in places.items() if place > point}
    drop, replace = request.get('drop', []), request.get('replace', [])
    said = [f'Item {number} cannot be dropped: {absence(number, places)}.' for number in drop if number not in later]
    for number in (it['item'] for it in replace):
        if number not in later:
            said.append(f'Item {number} cannot get another text: {absence(number, places)}.')
        elif items[places[number]].verb not in REPLACEABLE:
            said.append(f'Item {number} cannot get another text: it is a {items[places[number]].verb}.')
        elif number in drop:
            said.append(f'Item {number} cannot get another text: it is dropped.')
    if not (drop or replace or request.get('insert')):
        said.append('The request repairs nothing: it drops, replaces and inserts nothing.')
    return said


def absence(number: int, places: dict[int, int]) -> str:
    return 'it is not later than the point' if number in places else 'there is no such item'


def new_key() -> str:
    return f'undo {utc(int(time.time()))} {secrets.token_hex(3)}'


def refuse(faults: list[str], what: str) -> None:
    if faults:
        raise Trouble(WRONG_WORDS, f'{what}:\n' + '\n'.join(f'  {fault}' for fault in faults))
