#!/bin/sh
# Times `undomail play` over scripts of 10,000 to 100,000 deliveries into one mailbox, six lines each.
# Usage: bench/deliveries.sh PROGRAM (the built program, as `rt run` in crates/undomail leaves it under out/)
set -e
. "$(dirname "$0")/common.sh"

for count in 10000 20000 40000 100000; do
    deliveries "$count" >"$folder/deliveries-$count"
    measure "deliveries-$count"
done
