"""What the console takes, and what the words of its reports mean (docs/FORMATS.md)."""
from __future__ import annotations


PAGE_OF_ITEMS = 1000
LARGEST_REQUEST = 4_194_304
LARGEST_BODY = 1_052_672
LARGEST_NUMBER = 4_294_967_295
LARGEST_INDEX = 65_535
LAST_NUMBER = 4_194_303
LONGEST_KEY, LONGEST_NAME, LONGEST_LOCAL, LONGEST_FIELD = 64, 200, 64, 64
ACTS = {
    'alias': ('local', 'users'),
    'unalias': ('local',),
    'filter': ('file', 'name', 'needle'),
    'unfilter': ('name',),
    'remove': ('box', 'index', 'item', 'user'),
    'give': ('body', 'box', 'user'),
}
MAY_HAVE = {'filter': ('scope', 'field')}  # a field exactly beside the scope of a header
BODY, HEADER, SENDER, RECIPIENT = SCOPES = 'body', 'header', 'sender', 'recipient'
WITH_TEXT = {'DELIVER', 'APPEND', 'GIVE', 'NOTICE'}
ACT_VERBS = {'ALIAS', 'UNALIAS', 'FILTER', 'UNFILTER', 'REMOVE', 'GIVE'}
REPLACEABLE = {'DELIVER', 'APPEND', 'GIVE'}

# what a reason of a report means for its user
MEANINGS = {
    'a message is missing': 'it was shown or used, and is not there any more',
    'a message was changed': 'its text or size was shown, and is another now',
    'a mailbox is missing': 'it was listed, and is not there any more',
    'fewer messages': 'a higher number of messages was told',
    'the mail went to Lost+Found': 'the mailbox that it was to go to is not there',
    'a message was kept': 'it was taken out, and lies there again',
    'the mailbox was not renamed': 'the RENAME ends otherwise than it was told',
    'mail that you had not seen was kept': 'a DELETE met mail that it had not seen',
    'withdrawn by the operator': 'the operator dropped what the user did',
}
