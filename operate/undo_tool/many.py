"""`undo --stores FILE`: looks, finds, tries and runs over several stores that stand behind one front, one key for all."""
from __future__ import annotations

import argparse
import contextlib
import io
import json
import os
import sys
from typing import Any, Callable, Iterator

from .asked import new_key, refuse, shape_faults
from .files import request_from, write_new
from .served import Served, served_from
from .told import counted
from .troubles import NO_SERVER, NOT_CONFIRMED, NOTHING_FOUND, REFUSED, WARNED, WRONG_WORDS, Trouble

Words = argparse.Namespace
LOOKS = ('status', 'find', 'conf', 'to', 'touched-by', 'timeline', 'history', 'who-read')


def of(words: Words, it: Served) -> Words:
    """The same words for one store."""
    console = it.asks(words.progress)
    return argparse.Namespace(**{**vars(words), 'store': it.store, 'console': console})


def each(words: Words, stores: list[Served]) -> int:
    """A look over each store, one after the other; the status is the gravest, and found in one is found."""
    found: dict[str, Any] = {}
    statuses = []
    for it in stores:
        said = io.StringIO()
        try:
            with contextlib.redirect_stdout(said):
                status = words.does(of(words, it))
        except Trouble as trouble:
            status = trouble.code
            print(f'undo: {it.name}: {trouble}', file=sys.stderr)
        statuses.append(status)
        words.progress.end()
        if words.json:
            found[it.name] = json.loads(said.getvalue()) if said.getvalue().strip() else None
        else:
            print(f'---- {it.name} ({it.store})\n{said.getvalue().rstrip()}\n')
    if words.json:
        print(json.dumps(found, sort_keys=True))
    faults = [status for status in statuses if status not in (0, NOTHING_FOUND, WARNED)]
    return faults[0] if faults else WARNED if WARNED in statuses else min(statuses)


def find_and_draft(words: Words, stores: list[Served]) -> int:
    """`find --draft FILE` over several stores: one file with a request for each store in which something was found, under one key."""
    path, key, parts, statuses = words.draft, new_key(), {}, []
    for it in stores:
        beside = f'{path}.{it.name}.part'
        mine = of(words, it)
        mine.draft, mine.json = beside, words.json
        said = io.StringIO()
        with contextlib.redirect_stdout(said), contextlib.redirect_stderr(io.StringIO()):
            statuses.append(words.does(mine))
        words.progress.end()
        print(f'---- {it.name} ({it.store})\n{said.getvalue().rpartition("A request that drops")[0].rstrip() or said.getvalue().rstrip()}\n', file=sys.stderr if words.json else sys.stdout)
        if os.path.exists(beside):
            parts[it.name] = {**request_from(beside, False), 'key': key}
            os.unlink(beside)
    if not parts:
        return NOTHING_FOUND
    write_new(path, json.dumps({'stores': parts}, indent=1, sort_keys=True) + '\n')
    print(f'Requests for {counted(len(parts), "store")} ({", ".join(parts)}) stand in {path}, under the one key {json.dumps(key)}. Next: undo --stores {words.stores} try {path}')
    return 0


def requests_from(path: str, stores: list[Served], wants_key: bool) -> dict[str, dict[str, Any]]:
    """The request of each store that a file names: by store, or one for all."""
    found = many_from(path, wants_key)
    if found is None:
        one = request_from(path, wants_key)
        if one.get('drop') or one.get('replace') or one.get('point'):
            raise Trouble(WRONG_WORDS, f'{path} is one request with items or a point, and each store has numbers of its own: write {{"stores": {{NAME: REQUEST, ..}}}}, or `find .. --draft`. '
                          'Only acts that come in at the point 0 can be one request for all.')
        return {it.name: one for it in stores}
    strange = sorted(set(found) - {it.name for it in stores})
    if strange:
        raise Trouble(WRONG_WORDS, f'{path} has a request for {", ".join(strange)}, which the file of stores does not name.')
    keys = {request.get('key') for request in found.values()}
    if wants_key and len(keys) > 1:
        raise Trouble(WRONG_WORDS, f'{path} has {len(keys)} keys: one key is for all stores, so that asking again completes what is missing.')
    return found


def many_from(path: str, wants_key: bool) -> Any:
    """A file {"stores": {NAME: REQUEST, ..}}; nothing where it is another."""
    try:
        with open(path, encoding='ascii') as file:
            whole = json.load(file)
    except (OSError, ValueError):
        return None
    if not isinstance(whole, dict) or set(whole) != {'stores'} or not isinstance(whole['stores'], dict) or not whole['stores']:
        return None
    for name, request in whole['stores'].items():
        refuse(shape_faults(request, wants_key), f'{path}: the request for {name} is none that the console would take')
    return whole['stores']


@contextlib.contextmanager
def alone(request: dict[str, Any], words: Words, name: str) -> Iterator[str]:
    """A request as a file of its own, for as long as a command reads it."""
    folder = getattr(words, 'keep', '.')
    os.makedirs(folder, mode=0o700, exist_ok=True)
    path = os.path.join(folder, f'.undo-{os.getpid()}-{name}.request')
    write_new(path, json.dumps(request) + '\n')
    try:
        yield path
    finally:
        os.unlink(path)


def over(words: Words, stores: list[Served], does: Callable[[Words], int], wants_key: bool, **changed: Any) -> dict[str, tuple[int, str]]:
    """A command over each store that has a request: its status, and what it said."""
    requests = requests_from(words.request, stores, wants_key)
    done: dict[str, tuple[int, str]] = {}
    for it in stores:
        if it.name not in requests:
            continue
        said = io.StringIO()
        mine = of(words, it)
        for name, value in changed.items():
            setattr(mine, name, value)
        try:
            with alone(requests[it.name], words, it.name) as path, contextlib.redirect_stdout(said):
                mine.request = path
                done[it.name] = does(mine), said.getvalue().rstrip()
        except Trouble as trouble:
            done[it.name] = trouble.code, f'{said.getvalue()}{trouble}'.strip()
        words.progress.end()
    return done


def told(done: dict[str, tuple[int, str]], stores: list[Served], stream: Any) -> None:
    for it in stores:
        if it.name in done:
            print(f'---- {it.name} ({it.store})\n{done[it.name][1]}\n', file=stream)


def try_all(words: Words, stores: list[Served]) -> int:
    from .cycle_commands import do_try
    done = over(words, stores, do_try, False)
    if words.json:
        print(json.dumps({name: json.loads(said) if not status else {'status': status, 'said': said} for name, (status, said) in done.items()}, sort_keys=True))
    else:
        told(done, stores, sys.stdout)
    return next((status for status, _ in done.values() if status), 0)


def run_all(words: Words, stores: list[Served]) -> int:
    """Tries all first, and runs none where one would be refused; then one after the other. A fault leaves the others done: asked again under the same key, what is missing is done."""
    from .cycle_commands import do_run, do_try
    tried = over(words, stores, do_try, True, json=False)
    told(tried, stores, sys.stderr)
    refused = {name: status for name, (status, _) in tried.items() if status}
    if refused:
        raise Trouble(next(iter(refused.values())), f'{", ".join(refused)} would not do it, so none was asked to. Mend that, or take its request out of {words.request}.')
    if not words.yes:
        print(f'In {counted(len(tried), "store")} every IMAP and POP3 client is sent away and connects again. Run it in all of them ({", ".join(tried)})? Write yes: ', end='', file=sys.stderr, flush=True)
        if sys.stdin.readline().strip().lower() != 'yes':
            raise Trouble(NOT_CONFIRMED, 'Not confirmed: nothing was sent.')
    done = over(words, stores, do_run, True, yes=True, json=False)
    before = [name for name, (status, said) in done.items() if not status and 'had its cycle before' in said]
    fresh = [name for name, (status, _) in done.items() if not status and name not in before]
    missing = [name for name, (status, _) in done.items() if status]
    if words.json:
        print(json.dumps({'done': fresh, 'done_before': before, 'missing': missing}, sort_keys=True))
    else:
        told(done, stores, sys.stdout)
        print(f'Done now: {", ".join(fresh) or "none"}. Done before: {", ".join(before) or "none"}. Not done, or not known: {", ".join(missing) or "none"}.')
    if missing:
        raise Trouble(next(status for status, _ in done.values() if status), f'{", ".join(missing)} failed. The same again (undo --stores {words.stores} run {words.request}) completes what is missing, and does nothing twice.')
    return 0


def spread(words: Words) -> int:
    """A command over the stores of --stores."""
    stores = served_from(words.stores)
    if words.command == 'try':
        return try_all(words, stores)
    if words.command == 'run':
        return run_all(words, stores)
    if words.command not in LOOKS:
        raise Trouble(WRONG_WORDS, f'--stores goes with {", ".join((*LOOKS, "try", "run"))}, not with {words.command}: give one store by --socket, and --store where its journal is read.')
    if getattr(words, 'draft', None):
        if words.command != 'find':
            raise Trouble(WRONG_WORDS, f'--draft with --stores is of find alone, not of {words.command}.')
        return find_and_draft(words, stores)
    return each(words, stores)
