#!/bin/sh
# Times SEARCH over 10,000 messages of 10 kB in one mailbox, in one run: what an IMAP client's session takes that selects it and
# asks that, less what it takes to select it alone; processor seconds, the least of three. Prints a table for docs/SPEED.md.
# Usage: bench/search.sh PROGRAM (the built program, as `rt run` in crates/undomail leaves it under out/)
set -e
exec python3 - "$1" <<'END'
import os, subprocess, sys, tempfile
program = sys.argv[1]
MAIL = 'line 1 MAIL FROM:<a@b.test>\nline 1 RCPT TO:<ann@mail.test>\nline 1 DATA\nline 1 Subject: number %d\nline 1\nfill 1 10 1000\nline 1 .\n'
HOUSE = 'host = "mail.test"\ndomains = ["mail.test"]\npostmaster = "ann"\n[[user]]\nname = "ann"\npassword = "a1"\n'

def spent(words, text):
    reading, writing = os.pipe()
    pid = os.fork()
    if pid == 0:
        with tempfile.TemporaryFile() as given:
            given.write(text.encode()); given.seek(0)
            os.dup2(given.fileno(), 0)
            os.dup2(os.open(os.devnull, os.O_WRONLY), 1)
            os.execv(program, [program, *words])
    os.close(writing); os.close(reading)
    _, status, used = os.wait4(pid, 0)
    if status: sys.exit(f'{words}: status {status >> 8}')
    return used.ru_utime + used.ru_stime

with tempfile.TemporaryDirectory() as folder:
    store = os.path.join(folder, 'store')
    subprocess.run([program, 'init', store], input=HOUSE.encode(), check=True)
    spent(['script', store], 'open 1 smtp\nline 1 HELO x\n' + ''.join(MAIL % n for n in range(10000)))
    size = os.path.getsize(store)
    print(f'A store of {size / 1e6:.0f} MB.\n\n| Command | Seconds |\n|---|---|')
    # A SEARCH is recorded, so each run has a copy of the store.
    def session(command):
        copy = os.path.join(folder, 'copy')
        subprocess.run(['cp', store, copy], check=True)
        return spent(['script', copy], 'open 2 imap\nline 2 a LOGIN ann a1\nline 2 b SELECT INBOX\n' + (f'line 2 c {command}\n' if command else ''))
    none = min(session('') for _ in range(3))
    print(f'| start and SELECT alone | {none:.2f} |')
    for command in ('SEARCH SUBJECT "number 9999"', 'SEARCH TEXT needle', 'SEARCH BODY needle', 'SEARCH NOT TEXT needle', 'SEARCH LARGER 100000', 'SEARCH SINCE 1-Jan-2005', 'FETCH 1:* (BODY.PEEK[])'):
        print(f'| {command} | {min(session(command) for _ in range(3)) - none:.2f} |')
END
