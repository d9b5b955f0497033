#!/bin/bash
# load.sh - an indicator under load: queries at a steady rate by each family, and what else it must do meanwhile.
#
# Run as root:   live/load.sh [--seconds S] [--rate N]        30 seconds for each of three parts, 50000 queries a second
#   PROGRAMS  the folder of indicator, ask and make_table (target/programs); load is built there from load.c
#
# 1, 2: load.c sends queries to an indicator in h2 by IPv4, then by IPv6. It must answer, its memory must not grow, its name must be
#    unique throughout, and afterwards it must answer as before.
# 3: the same by IPv4; meanwhile an indicator in h3 starts, with the name that h2 has and with one that nobody has. The flood reaches
#    it too. It must lose the one and own the other. With less than 5 seconds the flood ends before that.
# The exit status is 0 only if all of it was so, else 1. The share of queries that are answered is printed and stands in the last line;
# it is a matter of the machine.
set -eu
HERE=$(cd "$(dirname "$0")" && pwd)
. "$HERE/link.sh"
. "$HERE/ours.sh"
FAILED=0
SHARES=()   # answered of 100 queries, in each part

# check WHAT RESULT EXPECTED
check() {
    if [ "$2" = "$3" ]; then echo "$1: $2"; else echo "$1: $2, not $3" && FAILED=1; fi
}

# Milliseconds from the first `verifying` of a name to its `unique`: took HOST NAME PORT/FAMILY
took() {
    awk -v name="$2" -v port="$3" '
        $2 == name && $3 == port { split($1, t, /[T:Z]/); ms = (t[2] * 3600 + t[3] * 60 + t[4]) * 1000
                                   if ($4 == "verifying") from = ms; else if ($4 == "unique") print int(ms - from + 0.5) }' "$WORK/$1.log"
}

# load FAMILY: asks the indicator in h2; what load.c prints goes into a file
load() { in_host h1 "$PROGRAMS/load" --seconds "$SECONDS_EACH" --rate "$RATE" --family "$1" "$PID_h2" eth0 scale3 >"$WORK/load"; }

# After a load: what was printed, and whether the name was unique throughout. Its log has the four lines of the start, and no more.
report() {
    cat "$WORK/load"
    SHARES+=("$(sed -n 's/.* answers (\(.*\))$/\1/p' "$WORK/load")")
    check 'the name' "$(states h2 scale3), $(wc -l <"$WORK/h2.log") lines" 'unique/unique, 4 lines'
}

part_family() {
    echo "IPv$1, one indicator:"
    load "$1" || FAILED=1
    report
}

part_power_up() {
    echo 'IPv4, a second indicator starts after a second:'
    load 4 &
    local pid=$!
    sleep 1
    make_name h3 unique scale3 unique free
    start_indicator h3 --interval 1000
    settled h3 free
    wait "$pid" || FAILED=1
    report
    check 'the name that is taken' "$(states h3 scale3)" stopped/stopped
    check 'the name that is free' "$(states h3 free)" unique/unique
    echo "the free name was verified within $(took h3 free eth0/IPv4) ms by IPv4, $(took h3 free eth0/IPv6) ms by IPv6"
}

usage() {
    echo 'usage: live/load.sh [--seconds S] [--rate N]' >&2
    exit 2
}

SECONDS_EACH=30
RATE=50000
ARGUMENTS=("$@")
while [ $# -gt 0 ]; do
    case $#:$1 in
    1:*) usage ;;
    *:--seconds) SECONDS_EACH=$2 ;;
    *:--rate) RATE=$2 ;;
    *) usage ;;
    esac
    shift 2
done
find_programs
"${CC:-gcc}" -std=c99 -Wall -Wextra -Werror -pedantic -O2 "$HERE/load.c" -o "$PROGRAMS/load" || exit 1
link_enter "${ARGUMENTS[@]}"
trap 'set +e; link_down' EXIT   # what has ended already must not keep the rest from being cleaned up
mount -t tmpfs tmpfs /mnt       # scratch space that goes away with the namespace
WORK=/mnt
link_up 3
own h2 scale3
part_family 4
part_family 6
part_power_up
verdict='all as it should be'
[ "$FAILED" = 0 ] || verdict='not all as it should be'
echo "load: $verdict; answered by IPv4 ${SHARES[0]:-unknown}, by IPv6 ${SHARES[1]:-unknown}, with a second indicator ${SHARES[2]:-unknown}"
exit "$FAILED"
