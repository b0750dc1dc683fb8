#!/bin/sh
# Times GET /plan/0 over a day of so many deliveries to so many users, of which each user's IMAP client fetches and flags up to
# twenty; and over the same day with a RENAME, of one user after the other, behind each hundred items: processor seconds of a
# run of `script` with that request, less one without it. Prints a table for docs/SPEED.md.
# Usage: bench/plan.sh PROGRAM [DELIVERIES ..] (the built program, as `rt run` in crates/undomail leaves it under out/)
set -e
exec python3 - "$@" <<'END'
import os, re, subprocess, sys, tempfile
program, counts = sys.argv[1], [int(it) for it in sys.argv[2:]] or [1000, 8000, 34000]

def house(users):
    return 'host = "mail.test"\ndomains = ["mail.test"]\npostmaster = "u0"\n' + ''.join(f'[[user]]\nname = "u{n}"\npassword = "p"\n' for n in range(users))

def script(count, users, plan, every):
    lines, items, renamed = ['at 1105092000', 'open 1 smtp', 'line 1 HELO x'], 0, [0] * users
    def item(*given):
        nonlocal items
        lines.extend(given); items += 1
        if every and items % every == 0:
            user = items // every % users
            lines.append(f'line {2 + user} e RENAME m{renamed[user]} m{renamed[user] + 1}'); renamed[user] += 1
    for user in range(users):
        lines.extend([f'open {2 + user} imap', f'line {2 + user} a LOGIN u{user} p'])
        if every: lines.append(f'line {2 + user} b CREATE m0')
    for n in range(count):
        item('line 1 MAIL FROM:<a@b.test>', f'line 1 RCPT TO:<u{n % users}@mail.test>', 'line 1 DATA', f'line 1 Subject: {n}', 'line 1', 'line 1 .')
    for user in range(users):
        conn = 2 + user
        item(f'line {conn} b SELECT INBOX')
        for n in range(1, min(20, count // users) + 1):
            item(f'line {conn} c FETCH {n} (FLAGS)')
            item(f'line {conn} d STORE {n} +FLAGS (\\Flagged)')
    if plan: lines += ['open 900 http', 'line 900 GET /plan/0 HTTP/1.1', 'line 900 Host: x', 'line 900']
    return '\n'.join(lines) + '\n'

def spent(folder, count, users, plan, every):
    """Processor seconds, and how many items and levels the plan has."""
    store, told = os.path.join(folder, 'store'), os.path.join(folder, 'told')
    if os.path.exists(store): os.remove(store)
    subprocess.run([program, 'init', store], input=house(users).encode(), check=True)
    with tempfile.TemporaryFile() as given, open(told, 'wb') as out:
        given.write(script(count, users, plan, every).encode()); given.seek(0)
        pid = os.posix_spawn(program, [program, 'script', store], os.environ, file_actions=[(os.POSIX_SPAWN_DUP2, given.fileno(), 0), (os.POSIX_SPAWN_DUP2, out.fileno(), 1)])
        _, status, used = os.wait4(pid, 0)
    if status: sys.exit(f'status {status >> 8}')
    levels = re.findall(r'level \d+:([ 0-9]*)', open(told).read())
    return used.ru_utime, sum(len(it.split()) for it in levels), len(levels)

print('| Users | Items | of them RENAMEs | Levels | Seconds for the plan | for all else |\n|---|---|---|---|---|---|')
with tempfile.TemporaryDirectory() as folder:
    for users in (1, 10, 200):
        for count in counts:
            for every in (0, 100):
                without, (both, items, levels) = spent(folder, count, users, False, every)[0], spent(folder, count, users, True, every)
                renames = (items - users) // (every + 1) if every else 0
                print(f'| {users} | {items:,} | {renames:,} | {levels:,} | {both - without:.2f} | {without:.2f} |', flush=True)
END
