# What the scripts of this folder share: scripts for `undomail play` are written into $folder and timed with $program.
program=$1
folder=$(mktemp -d)
trap 'rm -rf "$folder"' EXIT

# deliveries COUNT: that many messages to ann on connection 1
deliveries() {
    awk -v count="$1" 'BEGIN {
        print "at 1105092000"
        print "open 1 smtp"
        print "line 1 HELO client.test"
        for (i = 0; i < count; i++) {
            print "line 1 MAIL FROM:<joe@far.test>"
            print "line 1 RCPT TO:<ann@mail.test>"
            print "line 1 DATA"
            print "line 1 Subject: message " i
            print "line 1"
            print "line 1 ."
        }
        print "gone 1"
    }'
}

# readers FROM TO: these connections of ann select INBOX
readers() {
    awk -v from="$1" -v to="$2" 'BEGIN {
        for (i = from; i <= to; i++) {
            print "open " i " imap"
            print "line " i " a LOGIN ann a1"
            print "line " i " b SELECT INBOX"
        }
    }'
}

# repeat COUNT LINE: the line so many times
repeat() {
    line=$2 awk -v count="$1" 'BEGIN { for (i = 0; i < count; i++) print ENVIRON["line"] }'
}

# measure NAME: seconds of processor time of the script of that name, in three rounds, and the lines of its transcript
measure() {
    rounds=
    for round in 1 2 3; do
        ( time -p "$program" play <"$folder/$1" >"$folder/out" ) 2>"$folder/time"
        rounds="$rounds $(awk '/user/ { user = $2 } /sys/ { sys = $2 } END { printf "%.2f", user + sys }' "$folder/time")"
    done
    echo "$1:$rounds s, $(wc -l <"$folder/out") lines, last $(tail -n 1 "$folder/out" | cut -c 1-60)"
}
