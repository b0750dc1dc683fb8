#!/bin/sh
# Times `grow ROUNDS` for 10,000, 20,000, 40,000 and 100,000 rounds, in one run: processor seconds (the least of so many
# rounds), how much more than half as many rounds took, and the most memory. Prints the lines of a table for docs/SPEED.md.
# Usage: bench/grow.sh PROGRAM [TIMES] (the built program, as `rt run` in crates/undomail leaves it under out/)
set -e
exec python3 - "$1" "${2:-3}" <<'END'
import os, sys
program, times = sys.argv[1], int(sys.argv[2])

def spent(rounds):
    """Processor seconds and most memory in MB of one run."""
    reading, writing = os.pipe()
    pid = os.fork()
    if pid == 0:
        os.dup2(os.open(os.devnull, os.O_RDONLY), 0)
        os.dup2(writing, 1)
        os.execv(program, [program, "grow", str(rounds)])
    os.close(writing)
    told = os.fdopen(reading).read()
    _, status, used = os.wait4(pid, 0)
    wanted = f"rounds {rounds}\ncycles 1\nitems {rounds + 2}\nmessages {rounds}\nnext {rounds + 6}\nnotices 1\nusers 3\n"
    if status or told != wanted:
        sys.exit(f"grow {rounds}: status {status >> 8}, {told!r}")
    return used.ru_utime + used.ru_stime, used.ru_maxrss / 1024

print("| Rounds | Seconds | each, in microseconds | of half as many | memory | each, in bytes |")
print("|---|---|---|---|---|---|")
seconds = {}
for rounds in (10000, 20000, 40000, 50000, 100000):
    runs = [spent(rounds) for _ in range(times)]
    seconds[rounds], memory = min(run[0] for run in runs), max(run[1] for run in runs)
    half = seconds.get(rounds // 2)
    ratio = f"{seconds[rounds] / half:.2f}" if half else ""
    print(f"| {rounds:,} | {seconds[rounds]:.2f} | {1e6 * seconds[rounds] / rounds:.1f} | {ratio} | {memory:.0f} MB | {1048576 * memory / rounds:.0f} |")
END
