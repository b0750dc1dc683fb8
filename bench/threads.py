#!/usr/bin/env python3
"""What threads cost a cycle by levels: processor seconds of a cycle at 0, as it is, and with each thread's work done by a plain call.

usage: bench/threads.py PROGRAM [--items 100000] [--rounds 3] [--memory FOLDER]

The stores are those of bench/pair.py: deliveries to one mailbox, to 1,000, and a mixed day of three users. A library that is loaded before the others stands
for pthread_create and pthread_join and calls the work at once; it counts the threads too. It needs a C compiler, `cc`. All figures are processor seconds of a
run, of the program and the system, less those of opening the store, the least of so many rounds by turns. Prints a table for docs/SPEED.md.
"""
import argparse, os, shutil, subprocess, sys, tempfile

sys.path.insert(0, os.path.dirname(os.path.abspath(__file__)))
import pair

PLAIN = r'''
#include <fcntl.h>
#include <pthread.h>
#include <stdlib.h>
#include <sys/mman.h>
#include <unistd.h>
static long none, *count = &none;
__attribute__((constructor)) static void begin(void) {
    int told = open(getenv("THREADS_TOLD"), O_RDWR | O_CREAT | O_TRUNC, 0600);
    if (ftruncate(told, sizeof none) == 0) count = mmap(0, sizeof none, PROT_READ | PROT_WRITE, MAP_SHARED, told, 0);
}
int pthread_create(pthread_t *thread, const pthread_attr_t *given, void *(*work)(void *), void *it) { ++*count; *thread = (pthread_t) work(it); return 0; }
int pthread_join(pthread_t thread, void **result) { if (result) *result = (void *) thread; return 0; }
'''

def spent(program, store, given, processors, plain=None, told=''):
    """Processor seconds of a run of `script`."""
    with tempfile.TemporaryFile() as it:
        it.write(given); it.seek(0)
        pid = os.fork()
        if pid == 0:
            os.sched_setaffinity(0, processors)
            os.dup2(it.fileno(), 0); os.dup2(os.open(os.devnull, os.O_WRONLY), 1)
            if plain: os.environ.update(LD_PRELOAD=plain, THREADS_TOLD=told)
            os.execv(program, [program, 'script', store])
        _, status, used = os.wait4(pid, 0)
    if status: sys.exit(f'{program}: status {status >> 8}')
    return used.ru_utime + used.ru_stime

def measured(store, folder, plain):
    """Of each round: opening, the fold, by levels on one processor and on all, each of the two without threads, and how many threads there were."""
    path, told, all_ = os.path.join(folder, 'cycled'), os.path.join(folder, 'told'), os.sched_getaffinity(0)
    for _ in range(WORDS.rounds):
        def run(given, processors, *more):
            if given != NONE or more: shutil.copyfile(store, path)
            return spent(WORDS.program, path, given, processors, *more)
        shutil.copyfile(store, path)
        opening, one, fold = run(NONE, {0}), run(pair.asked(), {0}), run(NONE, {0})
        alone, many, plainly = run(pair.asked(), {0}, plain, told), run(pair.asked(), all_), run(pair.asked(), all_, plain, told)
        yield opening, fold, one, alone, many, plainly, int.from_bytes(open(told, 'rb').read(), sys.byteorder)

def main():
    users = [f'u{n:03}' for n in range(200)]
    stores = (('1 mailbox, deliveries', pair.USERS, lambda: pair.letters_of(WORDS.items)), ('1,000 mailboxes, deliveries', users, lambda: pair.spread(WORDS.items, users)),
              ('a mixed day of three users', pair.USERS, lambda: pair.day(WORDS.items)))
    print(f'| A cycle at 0 over {WORDS.items:,} items | threads | fold | by levels, one processor | of the fold | without threads | of the fold | by levels, all | of the fold | without threads | of the fold |\n' + '|---' * 11 + '|')
    with tempfile.TemporaryDirectory(dir=WORDS.memory) as folder:
        code, plain = os.path.join(folder, 'plain.c'), os.path.join(folder, 'plain.so')
        with open(code, 'w') as out: out.write(PLAIN)
        subprocess.run(['cc', '-O2', '-shared', '-fPIC', '-o', plain, code], check=True)
        for what, names, records in stores:
            store = pair.made(folder, names, records())
            opening, *used, threads = map(min, zip(*measured(store, folder, plain)))
            fold, *by_levels = [it - opening for it in used]
            print(f'| {what} | {threads:,} | {fold:.2f} | ' + ' | '.join(f'{it:.2f} | {it / fold:.2f}' for it in by_levels) + ' |', flush=True)

if __name__ == '__main__':
    words = argparse.ArgumentParser()
    words.add_argument('program'); words.add_argument('--items', type=int, default=100_000); words.add_argument('--rounds', type=int, default=3); words.add_argument('--memory', default='/dev/shm')
    WORDS, NONE = words.parse_args(), b'at 1105092000\n'
    pair.PROGRAMS = [WORDS.program, WORDS.program]
    main()
