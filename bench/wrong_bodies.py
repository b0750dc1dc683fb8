#!/usr/bin/env python3
"""Shows that the tests see what no proof covers: builds the program with one wrong body at a time, and runs the tests on it.

usage, at the top of a checkout in which `rt ci` has passed:  bench/wrong_bodies.py [--jobs N] [NAME ..]

Each wrong body is a text of one file, replaced on a copy of the checkout. It is told as 'refused' where the prover does not take it, 'red' where a test fails
on the program that has it (with the first line that says so), and 'NOT SEEN' else. The status is 0 where none was NOT SEEN. A build takes minutes.

Those of the adapters and of `main` are texts that no clause covers, or few. Those of the sessions' turns and of the console's answers are proved: they give
up as for want of memory, and no clause can tell a want that a body makes itself from a real one. So only tests refuse them: tests/run, whose cases have ample
memory, the first three, and tests/faults, on the program `faulty`, those that leave out the answer to a seal that failed. tests/system, which comes first, sees
some of them too.
"""
import concurrent.futures, os, subprocess, sys, tempfile

PATH, NET, SEATS = 'crates/host_outside/src/path_file.rt', 'crates/host_outside/src/connection.rt', 'crates/host_outside/src/sockets.rt'
PORTS, MAIN = 'crates/host_outside/src/listeners.rt', 'crates/undomail/src/main.rt'
LINK, TELLING, LOGINS, TOLD = 'crates/host_outside/src/loop_link.rt', 'crates/host_outside/src/telling.rt', 'crates/host_outside/src/logins.rt', 'crates/host_outside/src/readiness.rt'
REPLY, SPEAKS, READER = 'crates/mail_loop/src/reply.rt', 'crates/mail_loop/src/speaks.rt', 'crates/mail_loop/src/imap_turn.rt'
CONSOLE, DIALOG = 'crates/console_session/src/reply.rt', 'crates/smtp_session/src/dialog.rt'
WRONG = {
    'file-is-not-synced': (PATH, 'let synced = file.sync_all();', 'let synced = file.metadata().map(|_| ());'),
    'bytes-are-not-synced': (PATH, '.sync_data()', '.metadata().map(|_| ())'),
    'room-that-is-not-found-is-a-failure': (PATH, 'if finds_no_room(why) {', 'if finds_no_room(why) && false {'),
    'what-no-room-was-found-for-stays': (PATH, 'let is_cut = file.set_len(size);', 'let is_cut = file.metadata().map(|_| ());'),
    'quota-that-is-used-up-is-a-failure': (PATH, 'ErrorKind::StorageFull | ErrorKind::QuotaExceeded | ErrorKind::FileTooLarge', 'ErrorKind::StorageFull | ErrorKind::FileTooLarge'),
    'store-may-be-removed': (PATH, 'let named = fs::metadata(files, path)?;', 'let named = file.metadata()?;'),
    'store-may-be-replaced': (PATH, 'named.dev() != opened.dev() || named.ino() != opened.ino()', 'named.dev() != opened.dev()'),
    'store-may-be-written-over': (PATH, 'if opened.len() != size {', 'if opened.len() != size && false {'),
    'failed-calls-are-not-said': (PATH, 'if let Some(path) = self.path {\n            tell_of', 'if let (Some(path), false) = (self.path, true) {\n            tell_of'),
    'store-that-is-made-is-not-locked': (PATH, 'locked_alone::<R>(made?)', 'made'),
    'folder-is-not-synced': (PATH, 'let synced = folder.sync_all();', 'let synced = folder.metadata().map(|_| ());'),
    'written-at-the-end': (PATH, 'match file.write_all_at(bytes, place) {', 'match file.metadata().and_then(|it| file.write_all_at(bytes, it.len())) {'),
    'read-at-the-start': (PATH, 'None => file.read_exact_at(buf, place),', 'None => file.read_exact_at(buf, 0),'),
    'short-read-is-whole': (PATH, 'None => file.read_exact_at(buf, place),', 'None => file.read_at(buf, place).map(|_| ()),'),
    'short-write-is-whole': (PATH, 'match file.write_all_at(bytes, place) {', 'match file.write_at(bytes, place).map(|_| ()) {'),
    'file-is-read-by-all': (PATH, '.mode(0o600)', '.mode(0o644)'),
    'file-that-is-there-is-made': (PATH, '.create_new(true)', '.create(true)'),
    'store-is-not-locked': (PATH, 'locked_alone::<R>(open_to_write(files, path)?)', 'open_to_write(files, path)'),
    'heard-on-all-addresses': (PORTS, 'Ipv4Addr::LOCALHOST', 'Ipv4Addr::UNSPECIFIED'),
    'short-write-to-a-socket-is-whole': (NET, 'self.waiting.sent(count);', 'let all = self.waiting.len(); self.waiting.sent(all);'),
    'front-of-a-string-is-sent': (NET, 'self.waiting.push(bytes)?;', 'self.waiting.push(&bytes[..bytes.len().min(8192)])?;'),
    'strings-go-to-the-second': (SEATS, '(number as usize).checked_sub(1)', '(number as usize).checked_sub(1).map(|place| place.min(1))'),
    'past-the-hundredth-unheard': (SEATS, 'let received = self.visit(place, now)?;', 'if place >= 100 {\n            return None;\n        }\n        let received = self.visit(place, now)?;'),
    'answers-are-lost-after-a-half-close': (NET, 'self.end(now);\n            self.go_on_ending(now, buf);', 'self.end(now);\n            self.is_over = true;'),
    'clock-is-an-hour-off': (SEATS, 'LAST_MOMENT.min(time.as_secs())', 'LAST_MOMENT.min(time.as_secs().saturating_add(3600))'),
    'no-wait': (SEATS, 'self.hear(self.pause(quiet))?;', 'self.hear(self.pause(quiet).min(0))?;'),
    'slow-to-wake': (TOLD, 'Interest::READABLE.add(Interest::WRITABLE)', 'Interest::WRITABLE'),
    'a-port-is-not-told-of': (PORTS, '    readiness.add(listener, PORTS)?;\n', ''),
    'seats-are-not-gone-through': (SEATS, 'if now.saturating_sub(self.swept) >= SWEEP {', 'if false {'),
    'few-wait-at-a-port': (PORTS, 'libc::net::listen(listener.as_raw_fd(), MOST_WAITING)', 'libc::net::listen(listener.as_raw_fd(), 128)'),
    'imap-port-is-heard-on-the-smtp-listener': (PORTS, 'self.ports.get(place)', 'self.ports.get(if place == 1 { 0 } else { place })'),
    'closed-connection-stays-open': (LINK, '        self.sockets.close(conn);\n', ''),
    'ports-listen-before-the-store-is-open': (LINK, 'let sockets = Sockets::open(rt, alloc, ports, pop);', 'let mut sockets = Sockets::open(rt, alloc, ports, pop);\n        let _listens = sockets.listen();'),
    'beginning-is-not-said': (LINK, '            self.sockets.tell_begin(self.made, self.items);\n', ''),
    'end-is-not-said': (LINK, '        self.sockets.tell_end(status);\n', ''),
    'a-stop-is-answered-at-once': (NET, 'matches!(self.role, Role::Http)', 'matches!(self.role, Role::Http) && false'),
    'closed-connection-is-over-at-once': (NET, 'self.is_over = !matches!(self.finish(now, buf), Ok(false));', 'let _finished = self.finish(now, buf);\n        self.is_over = true;'),
    'end-is-not-sent': (NET, '            self.stream.shutdown(Shutdown::Write)?;\n', ''),
    'given-up-after-a-second': (NET, 'const LINGER: u64 = 10;', 'const LINGER: u64 = 1;'),
    'never-given-up': (NET, 'if self.ends_at.is_some_and(|end| end <= now) {', 'if false {'),
    'much-waits': (NET, 'const MOST_WAITING: usize = 67_108_864;', 'const MOST_WAITING: usize = 1_067_108_864;'),
    'listeners-wait-for-the-end-of-a-round': (SEATS, '        if now != self.looked {\n', '        if false {\n'),
    'seats-are-never-free-again': (SEATS, 'let is_left = seat.free();', 'let is_left = false;'),
    'past-the-300th-wait-for-a-sweep': (SEATS, 'if place < SEATS {\n                self.queue.wake', 'if place < 300 {\n                self.queue.wake'),
    'no-seat-is-the-consoles': (SEATS, 'const SEATS_FOR_ALL: usize = 984;', 'const SEATS_FOR_ALL: usize = 1000;'),
    'wrong-passwords-are-not-said': (SEATS, 'if self.refused(place) > refused {', 'if self.refused(place) < refused {'),
    'every-wrong-password-is-said': (TELLING, 'Some(last) if last == second => {', 'Some(last) if last == second && false => {'),
    'closed-streams-are-not-filled': (MAIN, '    fill_streams(&rt);\n    let', '    let'),
    'smtp-and-imap-ports-are-swapped': (MAIN, 'alloc, ports(&words), ', 'alloc, ports(&words).map(|p| (p.1, p.0, p.2)), '),
    'pop3-is-not-served': (MAIN, 'pop_port(&words));', 'pop_port(&words).filter(|port| *port == 0));'),
    'wrong-passwords-of-pop3-are-not-said': (LOGINS, 'b"-ERR Login failed.\\r\\n"', 'b"-ERR Login refused.\\r\\n"'),
    'texts-of-pop3-are-taken-for-refusals': (LOGINS, 'b" messages\\r\\n"', 'b" letters\\r\\n"'),
    'what-is-wrong-with-a-configuration-is-not-said': (MAIN, '        tell_fault(&rt, alloc, text.kept());\n', ''),
    'status-10-is-3': (MAIN, 'ExitCode::from(status)', 'ExitCode::from(if status == 10 { 3 } else { status })'),
    'words-past-the-fifth-are-dropped': (MAIN, 'args.skip(1)', 'args.skip(1).take(5)'),

    # Proved: they give up as for want of memory.
    'answer-over-50000-octets-closes': (REPLY, '    reply.closes = match', '    if text.len() > 50000 {\n        reply.closes = true;\n        return;\n    }\n    reply.closes = match'),
    'line-over-1048576-octets-finds-no-memory': (DIALOG, '    match read_command(alloc, line) {', '    if line.long {\n        return Err(NoMemory);\n    }\n    match read_command(alloc, line) {'),
    'bad-line-closes': (READER, 'Ok(text) => say(reply, text.bytes(), false)', 'Ok(_) => reply.closes = true'),
    'client-is-not-told-of-a-failed-seal': (SPEAKS, '        let out = self.done(alloc, outcome)?;', '        if matches!(outcome, Err(SubmitFault::Disk)) {\n            return Err(NoMemory);\n        }\n        let out = self.done(alloc, outcome)?;'),
    'reader-is-not-told-of-a-failed-seal': (SPEAKS, '        let out = self.done(alloc, store, stamps, outcome)?;\n        Ok(of_imap(out))', '        if matches!(outcome, Err(SubmitFault::Disk)) {\n            return Err(NoMemory);\n        }\n        let out = self.done(alloc, store, stamps, outcome)?;\n        Ok(of_imap(out))'),
    'console-is-not-told-of-a-failed-seal': (CONSOLE, '    tell_only(alloc, 500, error_json(alloc, ErrorWord::Disk), After::Fails)', '    silent(alloc, After::Fails)'),
}

def built(copy, crate):
    """The program of a crate of a copy, built anew, or none where the prover does not take it, and what was said of that."""
    program = f'{copy}/crates/{crate}/out/{crate}'
    if os.path.exists(program): os.remove(program)
    ran = subprocess.run(['rt', 'run', '--', 'check', 'none'], cwd=f'{copy}/crates/{crate}', capture_output=True, text=True)
    if os.path.exists(program): return program, ''
    return None, next((it for it in ran.stdout.splitlines() + ran.stderr.splitlines() if 'proved' in it or 'error' in it), '')[:160]

def tried(name):
    path, old, new = WRONG[name]
    with tempfile.TemporaryDirectory() as scratch:
        subprocess.run(['cp', '-R', '.', scratch + '/copy'], check=True)
        copy = scratch + '/copy'
        text = open(f'{copy}/{path}').read()
        if text.count(old) != 1: return name, 'BAD', f'{text.count(old)} times in {path}'
        open(f'{copy}/{path}', 'w').write(text.replace(old, new))
        for tests, crate in (('tests/system', 'undomail'), ('tests/run', 'undomail'), ('tests/faults', 'faulty')):
            if tests != 'tests/run': program, said = built(copy, crate)
            if not program: return name, 'refused', said
            try: ran = subprocess.run([tests, program], cwd=copy, capture_output=True, text=True, timeout=600)
            except subprocess.TimeoutExpired: return name, 'red', f'{tests}: did not end'
            if ran.returncode: return name, 'red', f'{tests}: ' + next(iter((ran.stdout + ran.stderr).splitlines()), '')[:200]
    return name, 'NOT SEEN', ''

if __name__ == '__main__':
    words, jobs = sys.argv[1:], 2
    if words[:1] == ['--jobs']: jobs, words = int(words[1]), words[2:]
    if any(it not in WRONG for it in words): sys.exit(__doc__)
    missed = 0
    with concurrent.futures.ThreadPoolExecutor(jobs) as pool:
        for name, what, line in pool.map(tried, words or WRONG):
            print(f'{name}: {what}{": " + line if line else ""}', flush=True)
            missed += what in ('NOT SEEN', 'BAD')
    sys.exit(1 if missed else 0)
