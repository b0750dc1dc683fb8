#!/bin/sh
# Times `undomail play` over a mailbox of 5,000 to 20,000 messages that IMAP clients use: FETCH of all flags, a NOOP
# that tells of as many new messages, STORE and EXPUNGE of all, 1,000 commands that name one message, 1,000 renamings of
# the mailbox, and 200 and 999 connections open at once.
# Usage: bench/readers.sh PROGRAM (the built program, as `rt run` in crates/undomail leaves it under out/)
set -e
. "$(dirname "$0")/common.sh"

for count in 5000 10000 20000; do
    { deliveries "$count"; readers 2 2; } >"$folder/selected-$count"
    { cat "$folder/selected-$count"; echo 'line 2 c FETCH 1:* (FLAGS)'; } >"$folder/fetch-$count"
    { readers 2 2; deliveries "$count"; echo 'line 2 c NOOP'; } >"$folder/noop-$count"
    { cat "$folder/selected-$count"; echo 'line 2 c STORE 1:* +FLAGS.SILENT (\Deleted)'; } >"$folder/store-$count"
    { cat "$folder/store-$count"; echo 'line 2 d EXPUNGE'; } >"$folder/expunge-$count"
    { cat "$folder/selected-$count"; repeat 1000 'line 2 c UID STORE 1 +FLAGS.SILENT (\Flagged)'; } >"$folder/store-one-1000-$count"
    { cat "$folder/selected-$count"; echo 'line 2 c CREATE Work'; echo 'line 2 d COPY 1:* Work'; } >"$folder/work-$count"
    { cat "$folder/work-$count"; echo 'line 2 e CLOSE'
      awk 'BEGIN { for (i = 0; i < 500; i++) { print "line 2 e RENAME Work Done"; print "line 2 f RENAME Done Work" } }'
    } >"$folder/rename-1000-$count"
    for name in selected fetch noop store expunge store-one-1000 work rename-1000; do
        measure "$name-$count"
    done
done
# the same 1,000 commands with one reader, with 200 and with 999
for readers in 1 200 999; do
    { deliveries 20000; readers 2 $((readers + 1)); } >"$folder/open-$readers"
    { cat "$folder/open-$readers"; repeat 1000 'line 2 c NOOP'; } >"$folder/open-$readers-noops"
    measure "open-$readers"
    measure "open-$readers-noops"
done
