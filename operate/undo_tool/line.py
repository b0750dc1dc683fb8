"""The words of the command line."""
from __future__ import annotations

import argparse
import functools
import os
import re
import sys
from typing import Any, Callable, Optional

from .commands import do_box, do_conf, do_find, do_metrics, do_page, do_plan, do_show, do_snapshot, do_status, do_timeline, do_upgrade
from .common import Words
from .console import Console
from .cycle_commands import do_draft, do_give_back, do_run, do_try, do_withdraw
from .formats import BODY, HEADER, LARGEST_NUMBER, RECIPIENT, SENDER
from .journal_commands import do_cuts, do_history, do_to, do_touched_by, do_who_read
from .many import spread
from .moments import moment
from .told import Progress
from .troubles import FILE_FAULT, Trouble


def numbers(text: str) -> list[int]:
    if not re.fullmatch(r'\d+(,\d+)*', text):
        raise argparse.ArgumentTypeError(f'{text!r} is no list of numbers such as 5,6')
    return [int(number) for number in text.split(',')]


def number(text: str) -> int:
    if not re.fullmatch(r'0|[1-9]\d*', text) or int(text) > LARGEST_NUMBER:
        raise argparse.ArgumentTypeError(f'{text!r} is no number from 0 to {LARGEST_NUMBER}')
    return int(text)


def port(text: str) -> int:
    if not re.fullmatch(r'\d{1,5}', text) or int(text) > 65535:
        raise argparse.ArgumentTypeError(f'{text!r} is no port')
    return int(text)


def ports(text: str) -> list[int]:
    return [port(it) for it in text.split(',')]


def place(text: str) -> tuple[str, str]:
    user, _, box = text.partition('/')
    return user, 'INBOX' if not box or box.upper() == 'INBOX' else box


def pair(text: str, what: str) -> tuple[str, str]:
    left, sign, right = text.partition('=')
    if not (left and sign and right):
        raise argparse.ArgumentTypeError(f'{text!r} is to be {what}')
    return left, right


def replacement(text: str) -> tuple[int, str]:
    item, path = pair(text, 'NUMBER=FILE')
    return number(item), path


def alias_act(text: str) -> dict[str, Any]:
    name, users = pair(text, 'NAME=USER,USER')
    return {'act': 'alias', 'local': name, 'users': users.split(',')}


def unalias_act(text: str) -> dict[str, Any]:
    return {'act': 'unalias', 'local': text}


def unfilter_act(text: str) -> dict[str, Any]:
    return {'act': 'unfilter', 'name': text}


def remove_act(text: str) -> dict[str, Any]:
    found = re.fullmatch(r'([^/]+)/(.+)/(\d+)(?:\.(\d+))?', text)
    if not found:
        raise argparse.ArgumentTypeError(f'{text!r} is to be USER/MAILBOX/ITEM or USER/MAILBOX/ITEM.INDEX')
    user, box, item, index = found.groups()
    return {'act': 'remove', 'box': box, 'index': int(index or 0), 'item': int(item), 'user': user}


def give_act(text: str) -> dict[str, Any]:
    place, path = pair(text, 'USER/MAILBOX=FILE')
    user, _, box = place.partition('/')
    return {'act': 'give', 'body': path, 'box': box, 'user': user}


# the options for a filter that comes in, by where it looks
FILTERS = {
    '--filter': (BODY, ('NAME', 'NEEDLE'), 'what holds the needle is discarded, or filed into the mailbox'),
    '--filter-header': (HEADER, ('NAME', 'FIELD', 'NEEDLE'), 'the same of what has it in a header field of this name, as Subject'),
    '--filter-sender': (SENDER, ('NAME', 'NEEDLE'), 'the same of what comes from a sender who has it'),
    '--filter-recipient': (RECIPIENT, ('NAME', 'NEEDLE'), 'the same of what goes to a recipient who has it'),
}


class FilterAct(argparse.Action):
    """--filter NAME NEEDLE [MAILBOX], and its like: an act among the others, in the order of the words."""

    def __call__(self, parser: argparse.ArgumentParser, words: Words, given: Any, option: Optional[str] = None) -> None:
        scope, wants, _ = FILTERS[self.option_strings[0]]
        if len(given) not in (len(wants), len(wants) + 1):
            parser.error(f'{option} wants {" ".join(wants)}, to discard, or {" ".join(wants)} MAILBOX, to file')
        row = dict(zip(wants, given))
        act = {'act': 'filter', 'name': row['NAME'], 'needle': row['NEEDLE'], 'file': given[len(wants)] if len(given) > len(wants) else None}
        if scope != BODY:
            act['scope'] = scope
        if scope == HEADER:
            act['field'] = row['FIELD']
        words.insert = [*(words.insert or []), act]


def common_words(it: argparse.ArgumentParser, usual_port: Any, usual: Callable[[Any], Any]) -> argparse.ArgumentParser:
    """The options that stand before or behind a command; where they are absent behind it, what stands before it holds."""
    it.add_argument('--port', type=port, default=usual_port, help='the console\'s port on 127.0.0.1 (else the variable UNDO_PORT, else 8080)')
    it.add_argument('--socket', metavar='PATH', default=usual(os.environ.get('UNDO_SOCKET')), help='the console\'s Unix socket, in place of a port (else the variable UNDO_SOCKET)')
    it.add_argument('--store', metavar='STORE', default=usual(os.environ.get('UNDO_STORE')), help='the journal\'s file, which is read alone (else the variable UNDO_STORE)')
    it.add_argument('--stores', metavar='FILE', default=usual(os.environ.get('UNDO_STORES')), help='several stores, a line for each, NAME STORE SMTP IMAP CONSOLE [POP]: looks, find, try and run go over all (else the variable UNDO_STORES)')
    it.add_argument('--json', action='store_true', default=usual(False), help='answers as JSON, for scripts')
    it.add_argument('--all', action='store_true', default=usual(False), help='long lists and texts whole')
    return it


def item_words(it: argparse.ArgumentParser) -> None:
    """Which items of the timeline are meant."""
    it.add_argument('--user', action='append', metavar='U', help='what this user did (more than one: each of them)')
    it.add_argument('--verb', action='append', metavar='V', help='items with this verb, as DELIVER or FILTER')
    it.add_argument('--mailbox', action='append', metavar='M', help='items that name this mailbox')
    it.add_argument('--since', type=moment, metavar='T', help='from this moment on: 2026-11-28, "2026-11-28 09:20", 09:20; local time, or with a zone')
    it.add_argument('--until', type=functools.partial(moment, late=True), metavar='T', help='through this moment')


def draft_words(it: argparse.ArgumentParser) -> None:
    """The parts of a request. The acts that come in are one list, in the order of the words."""
    it.add_argument('--point', type=number, required=True, metavar='N', help='the last item that is to stay just as it was; 0 is the beginning')
    it.add_argument('--drop', type=numbers, action='append', metavar='N,N', help='items to take out')
    it.add_argument('--replace', type=replacement, action='append', metavar='N=FILE', help='another text for an item')
    it.add_argument('--key', metavar='KEY', help='the request\'s own name, new for each cycle (else one is made)')
    acts: list[tuple[str, Callable[[str], dict[str, Any]], str, str]] = [
        ('--alias', alias_act, 'NAME=USER,USER', 'an alias that comes in'),
        ('--unalias', unalias_act, 'NAME', 'an alias that goes'),
        ('--unfilter', unfilter_act, 'NAME', 'a filter that goes'),
        ('--remove', remove_act, 'USER/MAILBOX/ITEM[.INDEX]', 'a message that goes'),
        ('--give', give_act, 'USER/MAILBOX=FILE', 'a message that comes in'),
    ]
    for option, reads, shape, says in acts:
        it.add_argument(option, dest='insert', type=reads, action='append', metavar=shape, help=says)
    for option, (_, wants, says) in FILTERS.items():
        it.add_argument(option, dest='insert', action=FilterAct, nargs='+', metavar='WORD', help=f'{" ".join(wants)} [MAILBOX]: a filter that comes in: {says}')
    it.add_argument('--as-it-is', action='store_true', help='texts from files keep their line ends (else each is made CRLF, as mail has it)')
    it.add_argument('--offline', action='store_true', help='without a look at the server')
    it.add_argument('-o', '--output', metavar='FILE', help='a new file for the request (else standard output)')


def journal_words(it: argparse.ArgumentParser, drops: str) -> None:
    it.add_argument('--draft', metavar='FILE', help=f'a new file for a request that drops {drops}')


def parser(said: str) -> argparse.ArgumentParser:
    about, _, more = said.partition('\n\n')
    top = argparse.ArgumentParser(prog='undo', description=about, epilog=more, formatter_class=argparse.RawDescriptionHelpFormatter)
    common_words(top, os.environ.get('UNDO_PORT', '8080'), lambda it: it)
    commands = top.add_subparsers(metavar='COMMAND', required=True)

    def command(name: str, does: Callable[[Words], int], says: str) -> argparse.ArgumentParser:
        it = common_words(commands.add_parser(name, help=says, description=says), argparse.SUPPRESS, lambda _: argparse.SUPPRESS)
        it.set_defaults(does=does, command=name)
        return it

    look_words(command)
    past_words(command)
    it = command('plan', do_plan, 'the levels of what would be done again behind a point')
    it.add_argument('point', type=number, metavar='POINT')
    draft_words(command('draft', do_draft, 'writes a request for a cycle, and refuses what the console would refuse'))
    it = command('try', do_try, 'what a request would do, to whom; nothing is done')
    it.add_argument('request', metavar='REQUEST', help='a file as `draft` writes it, or - for standard input')
    run_words(command('run', do_run, 'runs a request, once it is confirmed; the texts that it drops or replaces are kept first'), command('page', do_page, 'serves a page for all this on 127.0.0.1'),
              command('withdraw', do_withdraw, 'takes the last cycle back, once it is confirmed: what it dropped is there again, and the work since then stays'))
    it = command('give-back', do_give_back, 'drafts gifts of the texts that a run kept')
    it.add_argument('kept', metavar='KEPT', help='the file that `run` kept')
    it.add_argument('items', type=number, nargs='*', metavar='ITEM', help='of these items alone')
    it.add_argument('--to', type=place, action='append', metavar='USER[/MAILBOX]', help='to whom they go (else to where they lay)')
    it.add_argument('-o', '--output', metavar='FILE', required=True, help='a new file for the request; where one does not hold all, FILE.1, FILE.2 and so on')
    return top


def look_words(command: Callable[..., argparse.ArgumentParser]) -> None:
    for name, does, says in (('status', do_status, 'what the store holds, and what runs out, in numbers; status 10 where it warns'), ('metrics', do_metrics, 'the same as Prometheus reads it')):
        it = command(name, does, says)
        it.add_argument('--ports', type=ports, metavar='P,P', help='the ports of SMTP, IMAP, console and POP3, whose connections are counted')
    it = command('timeline', do_timeline, 'the items in force, in order')
    item_words(it)
    it.add_argument('--last', type=number, metavar='N', help='of the last N items alone')
    it = command('show', do_show, 'one item, with its text where it has one')
    it.add_argument('number', type=number, metavar='NUMBER')
    it.add_argument('--raw', action='store_true', help='the text as it is stored, byte for byte')
    it = command('find', do_find, 'the deliveries, APPENDs, gifts and notices that are as sought: by the console, or with --store by the journal, which knows the recipients')
    item_words(it)
    it.add_argument('text', metavar='TEXT', nargs='?', help='what stands in a text, in any case, behind encodings and in any charset')
    it.add_argument('--exact', action='store_true', help='TEXT by its bytes, as a filter\'s needle')
    it.add_argument('--from', dest='sender', metavar='S', help='a part of the sender')
    it.add_argument('--to', dest='recipient', metavar='S', help='a part of a recipient, of the envelope or of the header')
    it.add_argument('--subject', metavar='S', help='a part of the subject')
    it.add_argument('--message-id', metavar='ID')
    it.add_argument('--digest', metavar='SHA256', help='the SHA-256 of an attachment\'s octets, in hexadecimal')
    it.add_argument('--filter', dest='filtered', metavar='NAME', help='what this filter threw away or filed (with --store)')
    it.add_argument('--draft', metavar='FILE', help='a new file for a request that drops all that was found')
    it = command('box', do_box, 'what lies in a mailbox')
    it.add_argument('of', metavar='USER')
    it.add_argument('name', metavar='MAILBOX')
    command('conf', do_conf, 'the aliases and filters in force')
    command('snapshot', do_snapshot, 'puts the store as it is into the journal, so that a cycle behind its last item begins there; no mail changes')
    it = command('upgrade', do_upgrade, 'lets names of mailboxes have superiors, once and for all, once it is confirmed; no mail changes')
    it.add_argument('--yes', action='store_true', help='without asking')


def past_words(command: Callable[..., argparse.ArgumentParser]) -> None:
    """The commands that read a journal, served or not, or a copy of one."""
    it = command('history', do_history, 'each record of a journal, as it happened')
    it.add_argument('journal', metavar='STORE', nargs='?', help='its file (else --store)')
    item_words(it)
    it.add_argument('--item', type=number, metavar='N', help='one record alone')
    it.add_argument('--counts', action='store_true', help='what the journal leaves, as `undomail check` tells it')
    it = command('cuts', do_cuts, 'what cuts of a journal would leave, and whether one is worth it; it cuts nothing (operate/cut does)')
    it.add_argument('journal', metavar='STORE', nargs='?', help='its file (else --store)')
    it.add_argument('--days', type=number, action='append', metavar='N', help='a cut that keeps the items of the last N days (30, 90 and 365)')
    it = command('who-read', do_who_read, 'who was shown the text of an item, who copied it, and where it lies')
    it.add_argument('number', type=number, metavar='ITEM')
    journal_words(it, 'it')
    it = command('touched-by', do_touched_by, 'the deliveries for which a filter decided, and what became of them')
    it.add_argument('name', metavar='FILTER')
    journal_words(it, 'what set the filter')
    it = command('to', do_to, 'the deliveries that were for a user, by the envelope, whatever became of them')
    it.add_argument('user_named', metavar='USER')
    it.add_argument('--from', dest='sender', metavar='S', help='a part of the sender')
    it.add_argument('--since', type=moment, metavar='T')
    it.add_argument('--until', type=functools.partial(moment, late=True), metavar='T')
    journal_words(it, 'them')


def run_words(run: argparse.ArgumentParser, page: argparse.ArgumentParser, withdraw: argparse.ArgumentParser) -> None:
    """The words of what may run a cycle or take it back."""
    for it in (run, page, withdraw):
        it.add_argument('--keep', default='.', metavar='FOLDER', help='where a run keeps its request, its report and the texts that it drops or replaces (here)')
    run.add_argument('request', metavar='REQUEST', help='a file as `draft` writes it, or - for standard input, with --yes')
    withdraw.add_argument('cycle', type=number, metavar='CYCLE', help='its number, as its report says it: the last one')
    withdraw.add_argument('--key', metavar='K', help='under this key (else a new one): a key that was used before is answered with its report, and nothing is done')
    for it in (run, withdraw):
        it.add_argument('--yes', action='store_true', help='without asking')
    page.add_argument('--listen', type=port, default=8090, metavar='PORT', help='the page\'s port (8090; 0 for a free one)')


def over_all(words: Words) -> bool:
    """Whether a command is for all stores: --stores, or its variable where no one store is named beside it by --socket or --store."""
    by_variable = words.stores == os.environ.get('UNDO_STORES')
    one = words.socket != os.environ.get('UNDO_SOCKET') or words.store != os.environ.get('UNDO_STORE')
    return bool(words.stores) and not (by_variable and one)


def main(about: str) -> int:
    words = parser(about).parse_args()
    for stream in (sys.stdout, sys.stderr):
        stream.reconfigure(errors='backslashreplace')  # a terminal that lacks a letter shows its number
    words.progress = Progress()
    words.console = Console(words.port, tell=words.progress, path=words.socket)
    try:
        status = spread(words) if over_all(words) else words.does(words)
        sys.stdout.flush()
        return status
    except Trouble as trouble:
        words.progress.end()
        print(f'undo: {trouble}', file=sys.stderr)
        return trouble.code
    except OSError as fault:
        # standard output is closed (as by `head`) or full: what is left in its buffer goes nowhere
        os.dup2(os.open(os.devnull, os.O_WRONLY), sys.stdout.fileno())
        if isinstance(fault, BrokenPipeError):
            return 0
        print(f'undo: the answer cannot be written: {fault.strerror}.', file=sys.stderr)
        return FILE_FAULT
    except KeyboardInterrupt:
        words.progress.end()
        print('undo: stopped. What was sent to the server may have been done.', file=sys.stderr)
        return 130
