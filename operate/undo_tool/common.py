"""What commands share: how an answer is shown, and how a request is written."""
from __future__ import annotations

import argparse
import json
import sys
from typing import Any, Optional

from .asked import new_key, octets_of, refuse, shape_faults
from .console import Wanted
from .files import write_new
from .troubles import NOT_CONFIRMED, WRONG_WORDS, Trouble

Words = argparse.Namespace


def show(words: Words, data: Any, text: str) -> None:
    """What a command found: as JSON for scripts, else as text."""
    words.progress.end()
    print(json.dumps(data, sort_keys=True) if words.json else text)


def wanted_of(words: Words) -> Wanted:
    boxes = ['INBOX' if it.upper() == 'INBOX' else it for it in words.mailbox] if words.mailbox else None
    return Wanted(words.user, [it.upper() for it in words.verb] if words.verb else None, boxes, words.since, words.until)


def store_of(words: Words, given: Optional[str] = None) -> str:
    """The journal's file."""
    path = given or words.store
    if path is None:
        raise Trouble(WRONG_WORDS, 'This is read out of the journal: say where its file is, by --store STORE or the variable UNDO_STORE.')
    return path


def drafted(words: Words, point: int, drops: list[int], what: str) -> None:
    """Writes a request that drops these items to the file of --draft."""
    request = {'key': new_key(), 'point': point, 'drop': drops}
    refuse(shape_faults(request), 'This is no request that the console would take')
    write_request(request, words.draft)
    print(f'A request that drops {what} stands in {words.draft}, under the key {json.dumps(request["key"])}, back to point {point}. Next: undo try {words.draft}', file=sys.stderr if words.json else sys.stdout)


def confirmed(question: str) -> None:
    """Asks for a yes; a terminal that says nothing is a no."""
    print(f'{question} Write yes: ', end='', file=sys.stderr, flush=True)
    if sys.stdin.readline().strip().lower() != 'yes':
        raise Trouble(NOT_CONFIRMED, 'Not confirmed: nothing was sent.')


def write_request(request: dict[str, Any], path: str) -> None:
    write_new(path, octets_of(request).decode('ascii') + '\n')
