#!/bin/sh
# Times the same deliveries over a store in memory (`undomail play`) and over one in a file (`undomail script`), beside
# as many records of two writes and two syncs each, which is what the disk allows; then the processor time of such a
# script over stores that have 1 to 100,000 records already, beside that of opening them.
# Usage: bench/sealed.sh PROGRAM [FOLDER [COUNT]] (the built program, as `rt run` in crates/undomail leaves it under
# out/; the folder, where the store is made, decides which disk is measured; 1,000 deliveries without a count)
set -e
program=$1
folder=$(mktemp -d -p "${2:-${TMPDIR:-/tmp}}")
trap 'rm -rf "$folder"' EXIT
house=$(dirname "$0")/../examples/house.toml

# script COUNT: that many messages of about a thousand octets to ann
script() {
    awk -v count="$1" 'BEGIN {
        print "at 1105092000"
        print "open 1 smtp"
        print "line 1 HELO client.test"
        for (i = 0; i < count; i++) {
            print "line 1 MAIL FROM:<joe@far.test>"
            print "line 1 RCPT TO:<ann@mail.test>"
            print "line 1 DATA"
            print "line 1 Subject: message " i
            print "line 1"
            print "fill 1 20 50"
            print "line 1 ."
        }
        print "line 1 QUIT"
    }'
}

# seals COUNT: that many records of two writes and two syncs each, as a seal makes them
seals() {
    python3 - "$folder/seals" "$1" <<'END'
import os, sys, time
file = os.open(sys.argv[1], os.O_RDWR | os.O_CREAT)
record, place, count, start = b"m" * 1200, 0, int(sys.argv[2]), time.monotonic()
for _ in range(count):
    os.pwrite(file, record, place + 1)
    os.fsync(file)
    os.pwrite(file, b"U", place)
    os.fsync(file)
    place += len(record)
seconds = time.monotonic() - start
print(f"records of two writes and two syncs: {count} in {seconds:.3f} s, {count / seconds:.0f} a second")
END
    rm "$folder/seals"
}

# timed NAME COUNT COMMAND..: how many a second
timed() {
    name=$1
    count=$2
    shift 2
    start=$(date +%s.%N)
    "$@" >"$folder/out"
    end=$(date +%s.%N)
    awk -v n="$name" -v c="$count" -v s="$start" -v e="$end" \
        'BEGIN { printf "%s: %d in %.3f s, %.0f a second\n", n, c, e - s, c / (e - s) }'
}

count=${3:-1000}
script "$count" >"$folder/script"
for round in 1 2 3; do
    rm -f "$folder/store"
    "$program" init "$folder/store" <"$house"
    timed "deliveries in memory, round $round" "$count" "$program" play <"$folder/script"
    timed "deliveries into a file, round $round" "$count" "$program" script "$folder/store" <"$folder/script"
    seals "$count"
done

# processor NAME INPUT COMMAND..: seconds of processor time, in three rounds, each over a copy of the store
processor() {
    name=$1
    input=$2
    shift 2
    rounds=
    for round in 1 2 3; do
        cp "$folder/many" "$folder/store"
        ( time -p "$@" <"$input" >"$folder/out" ) 2>"$folder/time"
        rounds="$rounds $(awk '/user/ { user = $2 } /sys/ { sys = $2 } END { printf "%.2f", user + sys }' "$folder/time")"
    done
    echo "$name:$rounds s of processor time"
}

for records in 1 10000 100000; do
    rm -f "$folder/many"
    "$program" init "$folder/many" <"$house"
    "$(dirname "$0")/journals.py" "$folder/many" 2 "$records"
    processor "check of $records records" /dev/null "$program" check "$folder/store"
    processor "the same and $count deliveries" "$folder/script" "$program" script "$folder/store"
done
