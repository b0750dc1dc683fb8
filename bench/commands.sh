#!/bin/sh
# Times `undomail play` over commands of IMAP clients that name many things: FETCH and UID FETCH by sets of 1,000 to
# 8,000 ranges over up to 20,000 messages, LIST over 1,000 mailboxes, COPY and UID FETCH of 20,000 messages.
# Usage: bench/commands.sh PROGRAM (the built program, as `rt run` in crates/undomail leaves it under out/)
set -e
. "$(dirname "$0")/common.sh"

# ranges COUNT: a set of so many ranges within 100 to 999, in no order
ranges() {
    awk -v count="$1" 'BEGIN {
        for (i = 0; i < count; i++) printf "%s%d:%d", (i ? "," : ""), 100 + i * 37 % 900, 100 + i * 101 % 900
        print ""
    }'
}

# numbers COUNT: a set of so many numbers within 10,000 to 19,999, in no order
numbers() {
    awk -v count="$1" 'BEGIN { for (i = 0; i < count; i++) printf "%s%d", (i ? "," : ""), 10000 + i * 7919 % 10000; print "" }'
}

for messages in 1000 20000; do
    { deliveries "$messages"; readers 2 2; } >"$folder/selected-$messages"
    measure "selected-$messages"
    for count in 1000 2000 4000 8000; do
        for verb in FETCH 'UID FETCH'; do
            name="$(echo "$verb" | tr ' ' '-')-$count-ranges-of-$messages"
            { cat "$folder/selected-$messages"; repeat 20 "line 2 c $verb $(ranges "$count") (UID)"; } >"$folder/$name"
            measure "$name"
        done
    done
done
for count in 1000 2000 4000 8000; do
    name="UID-FETCH-$count-numbers-of-20000"
    { cat "$folder/selected-20000"; repeat 20 "line 2 c UID FETCH $(numbers "$count") (UID)"; } >"$folder/$name"
    measure "$name"
done

# created COUNT: ann has so many mailboxes, INBOX and Lost+Found among them
created() {
    awk -v count="$1" 'BEGIN {
        print "open 1 imap"
        print "line 1 a LOGIN ann a1"
        for (i = 2; i < count; i++) print "line 1 b CREATE box" i * 7919 % 10000
    }'
}

for count in 250 500 1000; do
    created "$count" >"$folder/created-$count"
    measure "created-$count"
    for pattern in '*' '%' '*9*9*'; do
        name="list-$(echo "$pattern" | tr '*%' 'ae')-$count"
        { cat "$folder/created-$count"; repeat 100 "line 1 c LIST \"\" $pattern"; } >"$folder/$name"
        measure "$name"
    done
done

for count in 5000 10000 20000; do
    { deliveries "$count"; readers 2 2; echo 'line 2 c CREATE Work'; } >"$folder/work-$count"
    measure "work-$count"
    { cat "$folder/work-$count"; echo 'line 2 d COPY 1:* Work'; } >"$folder/copy-$count"
    measure "copy-$count"
    { cat "$folder/work-$count"; echo 'line 2 d UID COPY 1:* Work'; } >"$folder/uid-copy-$count"
    measure "uid-copy-$count"
    { cat "$folder/work-$count"; echo 'line 2 d UID FETCH 1:* (FLAGS)'; } >"$folder/uid-fetch-$count"
    measure "uid-fetch-$count"
    { cat "$folder/work-$count"; echo 'line 2 d UID FETCH 1:* (BODY.PEEK[])'; } >"$folder/uid-fetch-bodies-$count"
    measure "uid-fetch-bodies-$count"
done
