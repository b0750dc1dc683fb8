"""Trying and running a cycle."""
from __future__ import annotations

import time
from typing import Any, Callable, NamedTuple, Optional

from .asked import octets_of
from .console import Console, Timeline, accepted
from .files import KeptRun, kept_report
from .history import Effects, effects, opened, read, same_report, withdrawal_effects
from .named import Naming, named
from .troubles import NO_SERVER, Trouble


def lost_answer(what: str) -> str:
    """What is to be done where the answer to a cycle is lost."""
    return (f'{what} Whether the cycle was done is not known: send the same request again under the same key '
            '(undo run), which does nothing twice.')


class Outcome(NamedTuple):
    report: dict[str, Any]
    repeated: bool
    kept: str
    fault: Optional[str]


def try_cycle(console: Console, request: dict[str, Any]) -> dict[str, Any]:
    return accepted(console.post('/try', octets_of(request)))


def run_cycle(console: Console, request: dict[str, Any], folder: str, texts: list[dict[str, Any]]) -> Outcome:
    """Sends a cycle; its request and the texts that it drops or replaces are kept before it is sent, and its report after it came."""
    return sent(console, '/cycle', request, folder, texts)


def sent(console: Console, path: str, request: dict[str, Any], folder: str, texts: list[dict[str, Any]]) -> Outcome:
    """Sends a request for a cycle or a withdrawal, and keeps it."""
    following = Timeline(console).counts()['next']
    run = KeptRun(folder, console.where, request, texts)
    try:
        report = accepted(console.post(path, octets_of(request)), f'This server knows no {path} (404): it came with a later version of undomail.')
    except Trouble as trouble:
        if trouble.code == NO_SERVER:
            raise Trouble(NO_SERVER, f'{lost_answer(str(trouble))} The request is kept in {run.path}.') from None
        raise
    # a new cycle draws the next number or a later one; an earlier number tells that the key had its cycle before
    repeated = report['cycle'] < following
    return Outcome(report, repeated, run.path, run.keep(report, repeated))


def withdraw(console: Console, key: str, of: int, folder: str) -> Outcome:
    """Takes the last cycle back."""
    return sent(console, '/withdraw', {'key': key, 'of': of}, folder, [])


def withdrawal_told(of: int, store: Optional[str], folder: str, tell: Callable[[str], None]) -> tuple[Optional[Effects], str]:
    """What a withdrawal would do, where the journal can be read, and what is known of its cycle from the runs that are kept here."""
    kept = kept_report(folder, of)
    said = f'Nothing is kept here of cycle {of} (--keep {folder}).' if kept is None else f'Cycle {of} went back to point {kept["point"]}, and {len(kept["broken"])} of its users\' answers held no more.'
    if store is None:
        return None, f'{said} What its withdrawal does to each user is told where the journal can be read (--store).'
    with opened(store) as journal:
        return withdrawal_effects(read(journal, tell=tell), of, int(time.time()), tell), said


class Prepared(NamedTuple):
    """A request that was tried: what it names, what the console reports, and what it does to each user where the journal tells that."""

    naming: Naming
    report: dict[str, Any]
    effects: Optional[Effects]
    untold: str  # why the effects are not told, if they are not


def prepared(console: Console, request: dict[str, Any], store: Optional[str], tell: Callable[[str], None], tries: int = 3) -> Prepared:
    """Tries a request, and finds what it names. Effects are told only where the journal gives the very report of the console."""
    items = Timeline(console).whole()
    if store is None:
        return Prepared(named(console, request, items, None), try_cycle(console, request), None, 'Who gets and who loses mail is told where the journal can be read (--store).')
    for _ in range(tries):
        with opened(store) as journal:
            past = read(journal, tell=tell)
            report = try_cycle(console, request)
            found = effects(past, request, int(time.time()), tell)
            if same_report(report, found.report):
                return Prepared(named(console, request, items, past), report, found, '')
            items = Timeline(console).whole()
            naming = named(console, request, items, past)
            if report['cycle'] == found.report['cycle']:
                break  # nothing came between: it is another journal
    return Prepared(naming, report, None, f'Who gets and who loses mail cannot be told: {store} is not the journal of this server, or it changes all the time.')


def naming_of(console: Console, request: dict[str, Any], store: Optional[str], tell: Callable[[str], None]) -> Naming:
    """What a request names, by the console and, where it can be read, the journal."""
    items = Timeline(console).whole() if request.get('drop') or request.get('replace') else []
    if store is None:
        return named(console, request, items, None)
    with opened(store) as journal:
        return named(console, request, items, read(journal, tell=tell))
