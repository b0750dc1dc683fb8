"""Journals that random work leaves, written record by record from what the tool's model reads of them: no server is wanted."""
import os, random, sys

TOP = os.path.dirname(os.path.dirname(os.path.abspath(__file__)))
sys.path.insert(0, os.path.join(TOP, 'operate'))
from undo_tool import journal as j, model, spelling  # noqa: E402

AT = 1105092000   # 7 January 2005, 10:00:00 UTC
USERS = ('ann', 'a1'), ('bob', 'b2'), ('carl', 'c3')
FORMAT = j.Format('mail.test', ('mail.test',), 2, tuple(j.Account(*it) for it in USERS), 0, (('team', (0, 1)),))
SCOPES = ('body', None), ('header', 'Subject'), ('sender', None), ('recipient', None)

def text(subject, rest=''): return j.Body(f'Subject: {subject}\r\n\r\n{rest}\r\n'.encode(), 0)

class Story:
    """A journal that grows, and what the model reads of it."""
    def __init__(self, path, payloads=None, seed=0):
        self.path, self.random = path, random.Random(seed)
        with open(path, 'wb') as out: out.write(b''.join(spelling.written(payloads or [spelling.spelled(FORMAT)])))
        self.past = model.Past(j.Journal(path)).read()

    def put(self, payload):
        with open(self.path, 'r+b') as out:
            out.seek(-1, os.SEEK_END)
            out.write(b'\x55' + len(payload).to_bytes(4, 'big') + payload + b'\0')
        self.past.read()

    def at(self): return AT + 60 * self.past.following
    def key(self): return f'k{self.past.following}'
    def last(self): return next(reversed(self.past.reports))

    # records

    def verb(self, by, deed):
        number, at = self.past.following, self.at()
        if by is not None: deed = deed._replace(shown=self.past.store.shows(model.Item(number, at, by, 0, deed)))
        self.put(spelling.spelled(j.Verb(number, at, by, deed)))

    def deliver(self, to, body, sender=b'joe@far.test'): self.verb(None, j.Deliver(sender, tuple(to), body))
    def act(self, deed): self.put(spelling.spelled(j.Operator(self.past.following, self.at(), deed)))
    def snapshot(self): self.put(b''.join(self.past.store.snapshot(len(self.past.timeline))))
    def upgrade(self): self.put(spelling.spelled(j.Upgrade(self.at())))

    def cycle(self, ask, key=None):
        replaces = tuple(j.Replacement(number, ask.replaces[number]) for number in ask.asked)
        self.put(spelling.spelled(j.Cycle(self.past.following, self.at(), key or self.key(), ask.point, ask.drops, replaces, ask.inserts)))

    def withdraw(self, key=None): self.put(spelling.spelled(j.Withdraw(self.past.following, self.at(), key or self.key(), self.past.undone.cycle)))

    # chance

    def one(self, them): return self.random.choice(list(them))
    def often(self, share): return self.random.random() < share
    def box(self, user): return self.one([*self.past.store.boxes[user]] * 3 + ['Work', 'Spam', 'a/b', 'a', 'INBOX/x', 'Gone', 'Lost+Found', 'INBOX'])
    def body(self): return text(self.one(['offer', 'shoes', 'job']), 'x' * self.random.randrange(9))

    def mail_in(self, user, box):
        its = self.past.store.boxes[user].get(box)
        return list(its.mail) if its else []

    def keys(self, user, box):
        found = [key for key in self.mail_in(user, box) if self.often(.6)]
        return j.keys_as(found + found[:1] * self.often(.1) + [self.random.randrange(2, 60) << 16] * self.often(.1))

    def an_act(self):
        user = self.random.randrange(3)
        box = self.box(user)
        return self.one([
            j.SetAlias(self.one(['desk', 'team', 'x']), tuple(self.random.sample(range(3), self.random.randrange(4)))), j.DropAlias(self.one(['desk', 'team'])),
            j.SetFilter(j.Filter(self.one(['f', 'g']), self.one(['offer', 'joe', 'x']), self.one([None, 'Spam', 'Work']), *self.one(SCOPES))), j.DropFilter(self.one(['f', 'g'])),
            j.Remove(user, box, self.one(self.mail_in(user, box) or [2 << 16])), j.Give(user, box, self.body())])

    def a_deed(self, user):
        box = self.box(user)
        keys, flags = self.keys(user, box), self.random.randrange(32)
        return self.one([
            j.Append(box, flags, AT + self.random.randrange(999), self.body(), None), j.Fetch(box, keys, self.often(.5), self.often(.6), None), j.Fetch(box, keys, False, True, None),
            j.Store(box, keys, self.random.randrange(3), self.one([4, 4, flags]), None), j.Store(box, keys, 1, 4, None), j.Copy(box, keys, self.box(user), None),
            j.List(self.one([b'*', b'%', b'inbox', b'a/%']), None), j.Status(box, None), j.Select(box, None), j.Expunge(box, keys, None), j.Close(box, keys, None),
            j.Create(self.box(user), None), j.Create(self.one(['Work', 'Spam', 'a/b']), None), j.Rename(box, self.one(['Old', 'Work', 'b/c']), None), j.Delete(box, keys, None)])

    def an_ask(self, point=None):
        there, count = list(self.past.timeline), self.random.randrange
        point = self.one([0, *there]) if point is None else point
        drops = tuple(self.random.sample(there, min(len(there), count(3)))) + ((self.one([77, 1, 4194304, 2]),) if self.often(.3) else ())
        asked = tuple(self.one(there) for _ in range(count(1, 4))) if there and self.often(.6) else ()
        return model.Ask(point, drops, {number: self.body() for number in asked}, asked, tuple(self.an_act() for _ in range(self.one([0, 0, 1, 2]))))

    def work(self):
        """A record of what users and the operator do from day to day."""
        chance = self.random.random()
        if chance < .35: self.deliver([self.one(['ann', 'bob', 'team', 'desk', 'nobody', 'postmaster', 'Carl']) for _ in range(self.random.randrange(1, 4))], self.body(), self.one([b'joe@far.test', b'']))
        elif chance < .88:
            user = self.random.randrange(3)
            self.verb(user, self.a_deed(user))
        else: self.act(self.an_act())

    def anything(self):
        """The same, or a snapshot, the upgrade, a cycle or a withdrawal."""
        chance = self.random.random()
        if chance < .86: self.work()
        elif chance < .89: self.snapshot()
        elif chance < .91 and self.past.upgraded is None: self.upgrade()
        elif chance < .96 or not self.past.undone: self.cycle(self.an_ask())
        else: self.withdraw()
