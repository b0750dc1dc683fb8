"""The commands that look at a server through its console, and the page."""
from __future__ import annotations

import base64
import sys
import time
from urllib.parse import quote

from .common import Words, confirmed, drafted, show, store_of, wanted_of
from .console import Console, Item, Timeline, accepted, refusal
from .formats import ACT_VERBS, LAST_NUMBER, WITH_TEXT
from .history import Telling, filter_of, opened, read, where_text
from .mail import message_of, text_of
from .measures import measured
from .model import NOTHING
from .moments import local, utc
from .page import PageServer
from .search import Sought, find, find_in, point_before
from .told import counted, found_text, message_text, table, timeline_text
from .troubles import FILE_FAULT, NO_SERVER, NOTHING_FOUND, WARNED, WRONG_WORDS, Trouble


def do_status(words: Words) -> int:
    found = measured(words.console, words.store, words.ports, int(time.time()))
    warnings = found.warnings()
    counts = found.counts
    meaning = {'cycles': 'cycles that were run, and withdrawals', 'items': 'items in force', 'messages': 'messages in mailboxes', 'next': f'the next number, of {LAST_NUMBER}',
               'notices': 'notices', 'users': 'users of the house'}
    lines = [table(['count', 'of'], ([count, meaning.get(name, name)] for name, count in counts.items())), '', *found.lines(), *(f'Warning: {it}' for it in warnings)]
    show(words, {**counts, 'measures': found.as_data(), 'warnings': warnings}, '\n'.join(lines))
    return WARNED if warnings else 0


def do_metrics(words: Words) -> int:
    """Prometheus's text. A server that does not answer is a metric too."""
    try:
        sys.stdout.write(measured(words.console, words.store, words.ports, int(time.time())).metrics())
    except Trouble as trouble:
        if trouble.code != NO_SERVER:
            raise
        sys.stdout.write('# HELP undomail_up Whether the console answers.\n# TYPE undomail_up gauge\nundomail_up 0\n')
        return NO_SERVER
    return 0


def do_snapshot(words: Words) -> int:
    answer = accepted(words.console.post('/snapshot', b''))
    show(words, answer, f'The store that {answer["items"]:,} items led to is in the journal: a cycle behind them begins there.')
    return 0


UPGRADE_SAID = '''From then on a mailbox may stand in another: `Work/2005` lies in `Work`, a CREATE of it makes both, a RENAME of `Work` takes it along, and
mail programs show a tree. No message, UID or UIDVALIDITY changes, and a name that is there stays. It cannot be undone, and no cycle undoes it.
Every IMAP connection is sent away and connects again. A mail program may show the tree only once it has read its list of folders anew.'''


def do_upgrade(words: Words) -> int:
    if not words.yes:
        confirmed(f'{UPGRADE_SAID}\nUpgrade it?')
    answer = accepted(words.console.post('/upgrade', b''), 'This server knows no upgrade (404): it came with a later version of undomail.')
    show(words, answer, 'The store is upgraded: names of mailboxes may have superiors.')
    return 0


def do_timeline(words: Words) -> int:
    wanted = wanted_of(words)
    read_items = Timeline(words.console).last(words.last) if words.last else Timeline(words.console).whole()
    items = [item for item in read_items if wanted.has(item)]
    said = acts_said(words, items)
    show(words, [{**item._asdict(), **({'said': said[item.number]} if item.number in said else {})} for item in items], timeline_text(items, said) if items else 'No item is as asked.')
    return 0 if items else NOTHING_FOUND


def acts_said(words: Words, items: list[Item]) -> dict[int, str]:
    """What the acts among these items set, in words, where the journal can be read."""
    acts = [item.number for item in items if item.verb in ACT_VERBS]
    if words.store is None or not acts:
        return {}
    with opened(words.store) as journal:
        past = read(journal, tell=words.progress)
        telling = Telling(past.house)
        return {number: telling.words(past.item(number), NOTHING) for number in acts if past.has(number)}


def do_show(words: Words) -> int:
    item = Timeline(words.console).item(words.number)
    if item.verb not in WITH_TEXT:
        said = acts_said(words, [item])
        show(words, {**item._asdict(), **({'said': said[item.number]} if said else {})}, timeline_text([item], said))
        return 0
    message = message_of(words.console.get(f'/body/{item.number}'), item.number)
    if words.raw:
        sys.stdout.buffer.write(message.octets)
        return 0
    data = {**item._asdict(), 'body': base64.b64encode(message.octets).decode(), 'fields': message.fields()}
    show(words, data, message_text(item, message, words.all))
    return 0


def do_find(words: Words) -> int:
    sought = Sought(words.text, words.exact, words.sender, words.recipient, words.subject, words.message_id, words.digest, words.filtered)
    if not sought.anything():
        raise Trouble(WRONG_WORDS, 'Say what is sought: TEXT, --from, --to, --subject, --message-id, --digest, or --filter.')
    if words.filtered is not None:
        store_of(words)
    if words.store is not None:
        items, found = find_in(words.store, wanted_of(words), sought, words.progress)
    else:
        found = find(words.console, wanted_of(words), sought)
        items = Timeline(words.console).whole() if words.draft and found else []
    show(words, [{**item._asdict(), **head} for item, head in found], found_text(found) if found else 'No text is as asked.' if words.text is None else 'No text holds it.')
    drops = [item.number for item, _ in found]
    if words.draft and drops:
        drafted(words, point_before(items, set(drops)), drops, f'{"all " if len(drops) > 1 else ""}{counted(len(drops), "item")} that {"was" if len(drops) == 1 else "were"} found')
    return 0 if found else NOTHING_FOUND


def do_box(words: Words) -> int:
    path = f'/box/{quote(words.of, safe="")}/{quote(words.name, safe="")}'
    found = accepted(words.console.get(path), f'{words.of} has no mailbox {words.name}, or is no user of this house.')
    heads = ['uid', 'item', 'index', 'flags', 'local time', 'UTC', 'rev', 'origin']
    rows = [[it['uid'], it['item'], it['index'], it['flags'], local(it['at']), utc(it['at']), it['rev'], it['origin']] for it in found['entries']]
    show(words, found, f'{counted(len(rows), "message")}; UIDVALIDITY {found["stamp"]}, next UID {found["next"]}' + (f'\n{table(heads, rows)}' if rows else ''))
    return 0


def do_conf(words: Words) -> int:
    conf = accepted(words.console.get('/conf'))
    aliases = table(['alias', 'users'], ([name, ', '.join(users)] for name, users in conf['aliases'].items())) if conf['aliases'] else 'No alias.'
    filters = table(['filter', 'what it does', 'where it looks', 'needle'],
                    ([it.name, 'discards' if it.file is None else f'files into {it.file}', where_text(it), it.needle] for it in map(filter_of, conf['filters']))) if conf['filters'] else 'No filter.'
    show(words, conf, f'{aliases}\n\n{filters}')
    return 0


def plan_of(console: Console, point: int) -> str:
    answer = console.get(f'/plan/{point}')
    if answer.status == 200:
        return text_of(answer.body)
    raise refusal(answer, 'This server has no plans (404): /plan came with a later version of undomail.')


def do_plan(words: Words) -> int:
    text = plan_of(words.console, words.point)
    levels = [[int(number) for number in line.partition(':')[2].split()] for line in text.splitlines()]
    show(words, levels, text.rstrip('\n') or 'No item is later than this point.')
    return 0


def do_page(words: Words) -> int:
    try:
        server = PageServer(words.listen, words.console, words.keep, words.store)
    except OSError as fault:
        raise Trouble(FILE_FAULT, f'The page cannot be served at port {words.listen}: {fault.strerror}.') from None
    print(f'The page is at http://127.0.0.1:{server.port}/ until Ctrl+C. It asks the console at {words.console.where}, and keeps runs in {words.keep}.', flush=True)
    try:
        server.serve_forever()
    except KeyboardInterrupt:
        print()
    finally:
        server.server_close()
    return 0
