#!/bin/sh
# Times deliveries that are sealed in a file: `undomail script` over a store in a folder, beside the same deliveries by
# `undomail play` in memory, and beside what the disk allows: two writes of the same lengths, each with a sync.
# Usage: bench/seals.sh PROGRAM (the built program, as `rt run` in crates/undomail leaves it under out/) FOLDER
set -e
. "$(dirname "$0")/common.sh"
where=$(mktemp -d "$2/seals.XXXXXX")
trap 'rm -rf "$folder" "$where"' EXIT
house=$(dirname "$0")/../examples/house.toml

# real NAME COMMAND..: seconds from start to end
real() {
    name=$1
    shift
    ( time -p "$@" >"$folder/out" ) 2>"$folder/time"
    awk -v name="$name" '/real/ { real = $2 } /user/ { user = $2 } /sys/ { sys = $2 }
        END { printf "%s: %.2f s, %.2f s of processor time\n", name, real, user + sys }' "$folder/time"
}

for count in 1000 2000 4000; do
    deliveries "$count" >"$folder/deliveries"
    for round in 1 2 3; do
        rm -f "$where/store"
        "$program" init "$where/store" <"$house"
        real "script $count" "$program" script "$where/store" <"$folder/deliveries"
        size=$(stat -c %s "$where/store")
        real "play $count" "$program" play <"$folder/deliveries"
        real "bare writes and syncs $count" python3 -c '
import os, sys
count, size = int(sys.argv[2]), int(sys.argv[3])
file = os.open(sys.argv[1], os.O_RDWR | os.O_CREAT | os.O_TRUNC)
for at in range(count):
    os.pwrite(file, b"x" * (size // count), at * (size // count))
    os.fdatasync(file)
    os.pwrite(file, b"y", at * (size // count))
    os.fdatasync(file)
' "$where/bare" "$count" "$size"
    done
done
