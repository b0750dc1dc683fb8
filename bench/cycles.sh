#!/bin/sh
# Times cycles over mixed days of 10,000, 20,000 and 40,000 items: deliveries, reads, copies, marks and expunges of three
# users by turns. What a cycle at the beginning costs for each item it performs again, beside what the item cost when it
# came (`undomail play`: no file, no sync); the most memory of a program that opens the store, and that also runs a cycle;
# the same cycle with 1,000 drops; opening the store before and after a cycle; and a cycle over one FETCH and one COPY of
# as many messages. Prints lines for docs/SPEED.md.
# Usage: bench/cycles.sh PROGRAM [FOLDER] (the built program, as `rt run` in crates/undomail leaves it under out/)
set -e
program=$1
folder=$(mktemp -d -p "${2:-${TMPDIR:-/tmp}}")
trap 'rm -rf "$folder"' EXIT
house=$(dirname "$0")/../examples/house.toml

# day ITEMS: a script of so many items. Ten are a round: five deliveries to a user, a read of the last, a copy of it to
# Keep, a mark on the first four, an expunge of these, and a count of Keep.
day() {
    awk -v items="$1" 'BEGIN {
        split("ann bob carl", user, " ")
        split("a1 b2 c3", password, " ")
        print "at 1105092000"
        print "open 1 smtp"
        print "line 1 HELO client.test"
        for (u = 1; u <= 3; u++) {
            print "open " u + 1 " imap"
            print "line " u + 1 " a LOGIN " user[u] " " password[u]
            print "line " u + 1 " b CREATE Keep"
            print "line " u + 1 " c SELECT INBOX"
        }
        for (round = 0; round < items / 10; round++) {
            u = round % 3 + 1
            for (i = 1; i <= 5; i++) {
                print "line 1 MAIL FROM:<joe@far.test>"
                print "line 1 RCPT TO:<" user[u] "@mail.test>"
                print "line 1 DATA"
                print "line 1 Subject: round " round
                print "line 1"
                print "fill 1 10 60"
                print "line 1 ."
            }
            uid = int(round / 3) * 5
            print "line " u + 1 " d NOOP"
            print "line " u + 1 " e UID FETCH " uid + 5 " (FLAGS BODY.PEEK[])"
            print "line " u + 1 " f UID COPY " uid + 5 " Keep"
            print "line " u + 1 " g UID STORE " uid + 1 ":" uid + 4 " +FLAGS.SILENT (\\Deleted)"
            print "line " u + 1 " h EXPUNGE"
            print "line " u + 1 " i STATUS Keep (MESSAGES)"
        }
    }'
}

# asked CONNECTION BODY: a request for a cycle
asked() {
    printf 'open %s http\ndata %s POST /cycle HTTP/1.1~r~nContent-Length: %s~r~n~r~n%s\n' "$1" "$1" "${#2}" "$2"
}

# cycles COUNT: so many requests, each at the beginning and without repairs, under its own key
cycles() {
    for number in $(seq "$1"); do asked 9 "{\"key\":\"k$number\",\"point\":0}"; done
}

# dropping ITEMS: a request that drops 1,000 items, each so many apart, the first of them a delivery of the first round
dropping() {
    asked 9 "{\"drop\":[$(seq -s , 8 "$(($1 / 1000))" $((7 + $1)))],\"key\":\"drops\",\"point\":0}"
}

# spent ROUNDS INPUT COMMAND..: processor seconds and most memory in MB, the least of so many rounds
spent() {
    python3 - "$@" <<'END'
import os, sys
best = None
rounds, path, *command = sys.argv[1:]
for _ in range(int(rounds)):
    pid = os.fork()
    if pid == 0:
        os.dup2(os.open(path, os.O_RDONLY), 0)
        os.dup2(os.open(os.path.dirname(path) + "/out", os.O_WRONLY | os.O_CREAT | os.O_TRUNC), 1)
        os.execv(command[0], command)
    _, status, used = os.wait4(pid, 0)
    if status:
        sys.exit(f"{command}: status {status >> 8}")
    now = (used.ru_utime + used.ru_stime, used.ru_maxrss / 1024)
    best = now if best is None else min(best, now)
print("%.3f %.0f" % best)
END
}

# answered COUNT: the last transcript has so many answers with status 200
answered() {
    test "$(grep -c 'HTTP/1.1 200 OK' "$folder/out")" = "$1"
}

echo '| Items | Live, each | A cycle, each | of live | with 1,000 drops, each |'
echo '|---|---|---|---|---|'
for items in 10000 20000 40000; do
    day "$items" >"$folder/day"
    { cat "$folder/day"; cycles 5; } >"$folder/five"
    { cat "$folder/day"; dropping "$items"; } >"$folder/drops"
    live=$(spent 3 "$folder/day" "$program" play)
    five=$(spent 3 "$folder/five" "$program" play)
    answered 5
    drops=$(spent 3 "$folder/drops" "$program" play)
    answered 1
    echo "$items $live $five $drops" | awk '{ c = ($4 - $2) / 5; d = $6 - $2; n = $1
        printf "| %d | %.1f µs | %.1f µs | %.2f | %.1f µs |\n", n, $2 / n * 1e6, c / n * 1e6, c / $2, d / n * 1e6 }'
done

echo
echo '| Items | check | memory | check after a cycle | memory | script of one cycle | memory |'
echo '|---|---|---|---|---|---|---|'
for items in 10000 20000 40000; do
    day "$items" >"$folder/day"
    cycles 1 >"$folder/one"
    rm -f "$folder/store"
    "$program" init "$folder/store" <"$house"
    "$program" script "$folder/store" <"$folder/day" >"$folder/out"
    before=$(spent 3 "$folder/one" "$program" check "$folder/store")
    # only its first round is a cycle; the others are told its report, so the first is taken alone
    run=$(spent 1 "$folder/one" "$program" script "$folder/store")
    after=$(spent 3 "$folder/one" "$program" check "$folder/store")
    echo "$items $before $after $run" | awk '{ printf "| %d | %.2f s | %d MB | %.2f s | %d MB | %.2f s | %d MB |\n", $1, $2, $3, $4, $5, $6, $7 }'
done

echo
echo '| Messages | SELECT, FETCH and COPY of all | and a cycle |'
echo '|---|---|---|'
for items in 10000 20000 40000; do
    {
        day 0
        awk -v count="$items" 'BEGIN {
            for (i = 0; i < count; i++) print "line 1 MAIL FROM:<joe@far.test>\nline 1 RCPT TO:<ann@mail.test>\nline 1 DATA\nline 1 Subject: " i "\nline 1\nline 1 ."
        }'
    } >"$folder/day"
    printf 'line 2 x SELECT INBOX\nline 2 y FETCH 1:* FLAGS\nline 2 z COPY 1:* Keep\n' >"$folder/all"
    { cat "$folder/day" "$folder/all"; } >"$folder/read"
    { cat "$folder/read"; cycles 1; } >"$folder/again"
    bare=$(spent 3 "$folder/day" "$program" play)
    read=$(spent 3 "$folder/read" "$program" play)
    again=$(spent 3 "$folder/again" "$program" play)
    answered 1
    echo "$items $bare $read $again" | awk '{ printf "| %d | %.2f s | %.2f s more |\n", $1, $4 - $2, $6 - $4 }'
done
