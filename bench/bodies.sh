#!/bin/sh
# Measures what stored texts cost `undomail serve`: memory after 100,000 deliveries of 10,000 octets over its socket, and
# after the store was opened again; deliveries a second; FETCH of 1,000 whole messages; and `check` of that store. Each
# program is measured in turn, round by round, and behind the first one's value stands the others' part of it.
# Usage: bench/bodies.sh [-d FOLDER] [-n COUNT] PROGRAM .. (built programs, as `rt run` in crates/undomail leaves them
# under out/, the one to compare with first; the folder, where the stores are made, decides which disk is measured)
set -e
exec python3 "$(dirname "$0")/bodies.py" "$@"
