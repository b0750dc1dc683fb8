"""The commands that prepare, try and run cycles and take them back: draft, try, run, withdraw, give-back."""
from __future__ import annotations

import base64
import itertools
import json
import sys
from typing import Any

from .asked import idle_parts, new_key, octets_of, refuse, shape_faults, store_faults
from .common import Words, confirmed, show, write_request
from .console import Timeline
from .cycles import Outcome, Prepared, naming_of, prepared, run_cycle, withdraw, withdrawal_told
from .files import kept_from, mail_from, request_from
from .formats import LARGEST_REQUEST
from .told import by_user, counted, effects_text, naming_text, report_text, totals_text
from .troubles import FILE_FAULT, NOTHING_FOUND, WRONG_WORDS, Trouble


def do_draft(words: Words) -> int:
    request: dict[str, Any] = {'key': words.key or new_key(), 'point': words.point}
    request.update({name: given for name, given in (('drop', list(itertools.chain.from_iterable(words.drop or []))), ('insert', words.insert or [])) if given})
    if words.replace:
        request['replace'] = [{'item': number, 'body': mail_from(path, words.as_it_is)} for number, path in words.replace]
    for act in request.get('insert', []):
        if act['act'] == 'give':
            act['body'] = mail_from(act['body'], words.as_it_is)
    refuse(shape_faults(request), 'This is no request that the console would take')
    if not words.offline:
        refuse(store_faults(words.console, request), 'The console would refuse this request')
        for said in idle_parts(request, Timeline(words.console).whole()):
            print(f'undo: note: {said}', file=sys.stderr)
    words.progress.end()
    if words.output is None:
        sys.stdout.write(octets_of(request).decode('ascii') + '\n')
        return 0
    write_request(request, words.output)
    print(f'The request stands in {words.output}, under the key {json.dumps(request["key"])}. Next: undo try {words.output}')
    return 0


def prepared_text(it: Prepared, everything: bool) -> str:
    """What a request names, what it does to each user, and the report of a try."""
    effects = effects_text(it.effects, everything) if it.effects is not None else it.untold
    return '\n\n'.join((naming_text(it.naming, everything), effects, report_text(it.report, False, everything)))


def do_try(words: Words) -> int:
    it = prepared(words.console, request_from(words.request, False), words.store, words.progress)
    data = {**it.report, 'named': it.naming.as_data(), 'effects': it.effects.as_data() if it.effects is not None else None}
    show(words, data, f'{prepared_text(it, words.all)}\n\n{totals_text(it.naming, it.effects, it.report)}\nNothing was done: this was a try.')
    return 0


def do_run(words: Words) -> int:
    request = request_from(words.request, True)
    if words.yes:
        texts = naming_of(words.console, request, words.store, words.progress).kept()
    else:
        it = prepared(words.console, request, words.store, words.progress)
        words.progress.end()
        print(f'{prepared_text(it, words.all)}\n\n{totals_text(it.naming, it.effects, it.report)}', file=sys.stderr)
        confirm(it.report)
        texts = it.naming.kept()
    outcome = run_cycle(words.console, request, words.keep, texts)
    show(words, {'report': outcome.report, 'repeated': outcome.repeated, 'kept': outcome.kept}, outcome_text(request, outcome, len(texts), words.all))
    if outcome.fault:
        raise Trouble(FILE_FAULT, f'The cycle was done. {outcome.fault}')
    return 0


def do_withdraw(words: Words) -> int:
    if not words.yes:
        effects, said = withdrawal_told(words.cycle, words.store, words.keep, words.progress)
        words.progress.end()
        print('\n\n'.join([said, *([effects_text(effects, words.all), report_text(effects.report, False, words.all, 'withdrawal')] if effects else [])]) + '\n', file=sys.stderr)
        confirmed(f'What cycle {words.cycle} dropped or replaced comes back, what it brought in goes, and all work since then stays. Every IMAP and POP3 client is sent away and connects again. Take it back?')
    outcome = withdraw(words.console, words.key or new_key(), words.cycle, words.keep)
    head = 'The key had its report before, and nothing was done now.' if outcome.repeated else f'Cycle {words.cycle} is taken back.'
    show(words, {'report': outcome.report, 'repeated': outcome.repeated, 'kept': outcome.kept}, f'{head}\n{report_text(outcome.report, True, words.all, "withdrawal")}\n\nRequest and report are kept in {outcome.kept}.')
    if outcome.fault:
        raise Trouble(FILE_FAULT, f'The cycle was taken back. {outcome.fault}')
    return 0


def outcome_text(request: dict[str, Any], outcome: Outcome, texts: int, everything: bool) -> str:
    head = f'The key {json.dumps(request["key"])} had its cycle before: this is the report of that one, and nothing was done now.' if outcome.repeated else 'Done.'
    kept = f'Request and report are kept in {outcome.kept}.'
    if texts and not outcome.repeated:
        kept = f'Request, report and {counted(texts, "text that was", "texts that were")} dropped or replaced are kept in {outcome.kept}: `undo give-back` drafts gifts of them.'
    return f'{head}\n{report_text(outcome.report, True, everything)}\n\n{kept}'


def confirm(report: dict[str, Any]) -> None:
    """Asks whether to run it."""
    users = list(by_user(report))
    shown = f'{", ".join(users[:10])} and {len(users) - 10:,} more' if len(users) > 10 else ', '.join(users)
    who = f'{shown} will get a notice' if users else 'nobody will get a notice'
    confirmed(f'Every IMAP and POP3 client is sent away and connects again; {who}. Run it?')


# ---- texts that are given back ----


def do_give_back(words: Words) -> int:
    kept = kept_from(words.kept)
    if kept['report'] is None:
        print('undo: note: No report was kept beside this request: whether its cycle was done is not known.', file=sys.stderr)
    chosen = [it for it in kept['texts'] if not words.items or it['number'] in words.items]
    missing = sorted(set(words.items) - {it['number'] for it in chosen})
    if missing:
        raise Trouble(NOTHING_FOUND, f'{words.kept} has no text of {"item" if len(missing) == 1 else "items"} {", ".join(map(str, missing))}.')
    gifts, notes = [], []
    for it in chosen:
        places = [{'user': user, 'box': box} for user, box in words.to] if words.to else it['lies']
        if not places:
            notes.append(f'Item {it["number"]} ("{it["subject"]}") lay with nobody{", as far as the console showed" if not it["envelope"] else ""}: say to whom it goes, by --to USER or USER/MAILBOX.')
        gifts += [{'act': 'give', 'user': place['user'], 'box': place['box'], 'body': it['body']} for place in places]
    for note in notes:
        print(f'undo: note: {note}', file=sys.stderr)
    if not gifts:
        raise Trouble(NOTHING_FOUND, f'{words.kept} has no text that could be given to anybody.')
    items = Timeline(words.console).last(1)
    point = items[-1].number if items else 0
    requests = in_requests(gifts, point)
    names = [words.output] if len(requests) == 1 else [f'{words.output}.{place}' for place in range(1, len(requests) + 1)]
    for request, name in zip(requests, names):
        refuse(shape_faults(request), 'This is no request that the console would take')
        write_request(request, name)
    told = ', '.join(names)
    show(words, {'requests': names, 'gifts': len(gifts), 'notes': notes},
         f'{counted(len(gifts), "gift")} of {counted(len(chosen), "text")} stand{"s" if len(gifts) == 1 else ""} in {told}, behind all that is there. A gift has the moment at which it is given, and no flags. Next: undo try {names[0]}')
    return 0


def in_requests(gifts: list[dict[str, Any]], point: int) -> list[dict[str, Any]]:
    """Gifts in as few requests as the console takes, in their order."""
    requests: list[dict[str, Any]] = []
    room = 0
    for gift in gifts:
        size = len(octets_of(gift)) + 1
        if not requests or size > room:
            requests.append({'key': new_key(), 'point': point, 'insert': []})
            room = LARGEST_REQUEST - len(octets_of(requests[-1])) - 1
        requests[-1]['insert'].append(gift)
        room -= size
    return requests
