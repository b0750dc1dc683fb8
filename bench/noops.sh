#!/bin/sh
# Times `undomail play` over a mailbox of 100,000 messages that an IMAP client has selected, whose commands come in one
# piece: none, 6,000 NOOPs, 2,500 NOOPs and CAPABILITYs by turns, and 500 STATUSes that ask for no unseen messages.
# Usage: bench/noops.sh PROGRAM (the built program, as `rt run` in crates/undomail leaves it under out/)
set -e
. "$(dirname "$0")/common.sh"

# piece COUNT COMMANDS: the commands so many times, in one piece of connection 2
piece() {
    commands=$2 awk -v count="$1" 'BEGIN { printf "data 2 "; for (i = 0; i < count; i++) printf "%s", ENVIRON["commands"]; print "" }'
}

{ deliveries 100000; readers 2 2; } >"$folder/selected"
{ cat "$folder/selected"; piece 6000 'a NOOP~r~n'; } >"$folder/noops"
{ cat "$folder/selected"; piece 2500 'a NOOP~r~na CAPABILITY~r~n'; } >"$folder/noops-and-capabilities"
{ cat "$folder/selected"; piece 500 'a STATUS INBOX (MESSAGES UIDNEXT UIDVALIDITY)~r~n'; } >"$folder/statuses"
for name in selected noops noops-and-capabilities statuses; do
    measure "$name"
done
