#!/bin/sh
# Times `undomail check` over stores of 10,000 to 100,000 deliveries: what opening a store costs.
# Usage: bench/openings.sh PROGRAM (the built program, as `rt run` in crates/undomail leaves it under out/)
set -e
program=$1
here=$(dirname "$0")
folder=$(mktemp -d)
trap 'rm -rf "$folder"' EXIT
house=$(dirname "$0")/../examples/house.toml
for count in 10000 20000 50000 100000; do
    store=$folder/$count
    "$program" init "$store" <"$house"
    "$here/journals.py" "$store" 2 "$count"
    before=$(sha256sum <"$store")
    for round in 1 2 3; do
        ( time -p "$program" check "$store" >"$folder/out" ) 2>"$folder/time"
        grep -qx "items $count" "$folder/out"
        awk -v count="$count" -v round="$round" -v size="$(stat -c %s "$store")" '
            /real/ { real = $2 } /user/ { user = $2 } /sys/ { sys = $2 }
            END { printf "check of %d records (%d bytes), round %d: %.2f s, %.2f s of processor time\n",
                count, size, round, real, user + sys }' "$folder/time"
    done
    test "$before" = "$(sha256sum <"$store")"
done
