#!/bin/sh
# Times `undomail play` over long streams: literals that come byte by byte and in one piece, texts of 100,000 and
# 200,000 lines, scripts of as many lines, logs of as many strings, and 1,000 connections open at once.
# Usage: bench/streams.sh PROGRAM (the built program, as `rt run` in crates/undomail leaves it under out/)
set -e
. "$(dirname "$0")/common.sh"

# appended OCTETS: ann begins an APPEND with a literal of so many octets
appended() {
    echo 'at 1105092000'
    echo 'open 1 imap'
    echo 'line 1 a LOGIN ann a1'
    echo "line 1 b APPEND INBOX {$1}"
}

for count in 500000 1000000; do
    { appended "$count"; repeat "$count" 'data 1 a'; echo 'line 1'; } >"$folder/literal-by-bytes-$count"
    { appended "$count"; echo "fill 1 $((count / 1000)) 1000"; echo 'line 1'; } >"$folder/literal-at-once-$count"
    repeat "$count" 'idle' >"$folder/idle-$count"
    measure "literal-by-bytes-$count"
    measure "literal-at-once-$count"
    measure "idle-$count"
done

# literals COUNT: a command with so many literals of 1,000,000 octets, byte by byte or in one piece each
literals() {
    echo 'open 1 imap'
    echo 'line 1 a NOTHING {1000000}'
    for i in $(seq "$1"); do
        if [ "$2" = bytes ]; then repeat 1000000 'data 1 a'; else echo 'fill 1 1000 1000'; fi
        if [ "$i" -lt "$1" ]; then echo 'line 1 {1000000}'; else echo 'line 1'; fi
    done
}

for count in 3 6; do
    literals "$count" bytes >"$folder/$count-literals-by-bytes"
    measure "$count-literals-by-bytes"
done
literals 8 pieces >"$folder/8-literals-at-once"
measure 8-literals-at-once

# texted: joe begins a text for ann
texted() {
    echo 'at 1105092000'
    echo 'open 1 smtp'
    echo 'line 1 HELO client.test'
    echo 'line 1 MAIL FROM:<joe@far.test>'
    echo 'line 1 RCPT TO:<ann@mail.test>'
    echo 'line 1 DATA'
}

for count in 50000 100000 200000; do
    { texted; repeat "$count" 'line 1 aaa'; echo 'line 1 .'; } >"$folder/text-by-lines-$count"
    { texted; repeat "$((count / 2000))" 'fill 1 2000 5'; echo 'line 1 .'; } >"$folder/text-by-2000-$count"
    { echo 'open 1 smtp'; repeat "$count" 'line 1 NOOP'; } >"$folder/answers-$count"
    repeat "$count" '# nothing' >"$folder/comments-$count"
    measure "text-by-lines-$count"
    measure "text-by-2000-$count"
    measure "answers-$count"
    measure "comments-$count"
done

# connections COUNT COMMANDS: so many connections are open, and then each gives so many commands, by turns
connections() {
    awk -v count="$1" -v commands="$2" 'BEGIN {
        for (i = 1; i <= count; i++) print "open " i " smtp"
        for (j = 0; j < commands; j++)
            for (i = 1; i <= count; i++) print "line " i " NOOP"
    }'
}

for count in 1 10 100 1000; do
    connections "$count" "$((100000 / count))" >"$folder/100000-commands-on-$count"
    measure "100000-commands-on-$count"
done
connections 500 1 >"$folder/open-500"
connections 1000 1 >"$folder/open-1000"
measure open-500
measure open-1000
