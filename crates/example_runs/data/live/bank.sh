#!/bin/sh
# A bank and its auditor: two programs that share one run of mjobs --live through FIFOs. The teller, job 1, moves 20 from
# one account to the other, one at a time; the auditor, job 2, adds both up meanwhile. A transaction that has a conflict
# is answered `restart`, and whoever sent it sends its commands again. Prints each sum that the auditor finds, and at the
# end the listing. At the top of the repository, or of the package:
#
#   examples/live/bank.sh [MJOBS]
set -eu
mjobs="${1:-./mjobs}"
here="$(dirname -- "$0")"
room="$(mktemp -d)"
trap 'rm -rf -- "$room"' EXIT
mkfifo "$room/lines" "$room/teller" "$room/auditor"

# Sends a line, and waits for its reply.
ask() {
    printf '%s\n' "$1" >&3
    read -r reply <&4
}

# Sends the commands of a job's transaction until it is committed.
transact() {
    ask "$1 TSTART"
    reply=restart
    while [ "$reply" != committed ]; do
        "$2"
        ask "$1 TCOMMIT"
    done
}

move_one() {
    ask '1 $GET(^Account(1))'
    from="$reply"
    ask '1 $GET(^Account(2))'
    to="$reply"
    ask "1 SET ^Account(1)=$((from - 1))"
    ask "1 SET ^Account(2)=$((to + 1))"
}

add_up() {
    ask '2 $GET(^Account(1))'
    one="$reply"
    ask '2 $GET(^Account(2))'
    sum="$((one + reply))"
}

teller() {
    exec 4< "$room/teller"
    moved=0
    while [ "$moved" -lt 20 ]; do
        transact 1 move_one
        moved="$((moved + 1))"
    done
}

auditor() {
    exec 4< "$room/auditor"
    seen=0
    while [ "$seen" -lt 10 ]; do
        transact 2 add_up
        echo "the auditor finds $sum"
        seen="$((seen + 1))"
    done
}

# Hands each reply to the program that sent the line, and prints the rest.
hand_out() {
    while read -r job reply; do
        case "$job" in
            1) echo "$reply" >&5 ;;
            2) echo "$reply" >&6 ;;
            *) echo "$job${reply:+ $reply}" ;;
        esac
    done
}

"$mjobs" --live --load "$here/accounts.txt" < "$room/lines" | hand_out 5> "$room/teller" 6> "$room/auditor" &
run="$!"
exec 3> "$room/lines"
teller &
auditor
wait "$!"
exec 3>&-
wait "$run"
