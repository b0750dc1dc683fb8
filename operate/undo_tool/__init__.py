"""The parts of the operator's tool (operate/undo): Python's standard library alone.

troubles    statuses, and sentences that end a command
formats     what the console takes, and the words of reports (docs/FORMATS.md)
console     one request a connection, and the timeline by pages
mail        a stored text: header, parts, charsets, what it holds
asked       requests for a cycle: what the console would refuse, and what would do nothing
files       files on this side: each 0600, and whole or absent
journal     the journal's file: gates, frames and records; never written
spelling    records as they are written; journal the other way round
model       what items and cycles do to a store (docs/MODEL.md), so that a journal can be read to its end
cutting     what a cut of a store writes and would save, and what an audit of one says
history     what a journal tells: who got, saw, copied and lost what, and what a cycle would do to each
told        what a person reads
page        the page and its server
served      the file that names several stores and where each is served (`--stores`, operate/front)
many        a command over several stores, one key for all
commands    the words of the command line
"""
