#!/bin/bash
# cpu.sh - processor time for a query behind a socket: a bare echo server, indicator and llmnrd, one after another under the same load.
#
# Run as root:   live/cpu.sh [--seconds S] [--rate N]        5 seconds for each server, 5000 queries a second
#   PROGRAMS  the folder of indicator and make_table (target/programs); load and echo are built there from load.c and echo.c
#   R         the folder into which llmnrd was unpacked by dpkg -x; it is skipped if it is not there
#
# load.c in h1 asks for an A record by IPv4; the server in h2 answers. The rate is one that all of them keep up with, since a server that
# is too slow spends nothing on queries that it never sees; and at 5000 most queries come alone, and each wakes the server. Printed are
# queries and answers, milliseconds of the server's processor time, and microseconds of it for an answered query. The sum is counted. Its
# parts in user and in system mode are samples that the system takes at each tick of its clock: 60 seconds make them steady. In system
# mode is also the way of the answer to the asker's socket.
# The exit status is 0 only if every server answered 99 of 100 queries and ended as it should when told to.
set -eu
HERE=$(cd "$(dirname "$0")" && pwd)
. "$HERE/link.sh"
. "$HERE/ours.sh"
. "$HERE/peers.sh"
FAILED=0

usage() {
    echo 'usage: live/cpu.sh [--seconds S] [--rate N]' >&2
    exit 2
}

line() { printf '%-28s %9s %9s %8s %8s %8s %8s %8s\n' "$@"; }

failed() {
    echo "$1" >&2
    FAILED=1
}

# All on one processor: waking a program on another one costs more than the program itself, and not always the same.
one_processor() {
    local list
    list=$(taskset -cp $$)
    taskset -cp "${list##*[-, ]}" $$ >/dev/null
}

# The cells of a line, from the numbers of load --figures.
cells() {
    awk '{ per = $2 > 0 ? $2 : 1; printf "%d %d %.0f %.0f %.2f %.2f %.2f", $1, $2, $3 / 1e3, $4 / 1e3, $3 / per, $4 / per, ($3 + $4) / per }'
}

# measure TITLE PID STATUS [--echo]: one line of the table; then the server is ended, and must end with this status
measure() {
    local title=$1 pid=$2 expected=$3 figures status=0
    shift 3
    figures=$(in_host h1 "$PROGRAMS/load" --figures --seconds "$SECONDS_EACH" --rate "$RATE" "$@" "$pid" eth0 scale3) ||
        failed "$title: does not answer, or not any more"
    [ -z "$figures" ] || line "$title" $(cells <<<"$figures")
    awk '{ exit $2 * 100 < $1 * 99 }' <<<"$figures" || failed "$title: did not keep up; take a lower --rate"
    kill "$pid" || failed "$title: had ended before"
    wait "$pid" || status=$?
    [ "$status" = "$expected" ] || failed "$title: ended with $status, not $expected"
}

SECONDS_EACH=5
RATE=5000
ARGUMENTS=("$@")
while [ $# -gt 0 ]; do
    case $#:$1 in
    1:*) usage ;;
    *:--seconds) SECONDS_EACH=$2 ;;
    *:--rate) RATE=$2 ;;
    *) usage ;;
    esac
    shift 2
done
find_programs
for program in load echo; do
    "${CC:-gcc}" -std=c99 -Wall -Wextra -Werror -pedantic -O2 "$HERE/$program.c" -o "$PROGRAMS/$program"
done
link_enter "${ARGUMENTS[@]}"
trap 'set +e; link_down' EXIT   # what has ended already must not keep the rest from being cleaned up
mount -t tmpfs tmpfs /mnt       # scratch space that goes away with the namespace
WORK=/mnt
TXT=$WORK/said
one_processor
link_up 2

line '' '' '' ms ms us/query us/query us/query
line server queries answers user system user system sum
for turns in '' --turns; do
    start_in h2 "$WORK/echo.log" "$PROGRAMS/echo" $turns eth0
    sleep 0.3
    measure "echo${turns:+ $turns}" "$STARTED" 0 --echo
done
own h2 scale3
measure indicator "$PID_h2" 0
if [ -x "${R:-}/usr/sbin/llmnrd" ]; then
    start_llmnrd h2 scale3 -6
    measure llmnrd "$STARTED" 1   # which is how it ends, also by SIGINT
else
    echo 'llmnrd: skipped, it is not in R'
fi
exit "$FAILED"
