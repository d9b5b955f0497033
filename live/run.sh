#!/bin/bash
# run.sh - runs indicator and ask on a link of network namespaces, against each other and against other makers' programs.
#
# Run as root:   live/run.sh [CASE ...]        all cases if none is named; live/run.sh --list names them
#   PROGRAMS  the folder of indicator, ask and make_table (target/programs; programs/build.sh makes them)
#   R         the folder into which systemd-resolved, llmnrd and libnss-resolve were unpacked by dpkg -x
#
# Prints a table: who asks or starts, who answers or holds the name, the family, the result, what is expected, and whether
# they agree. The last line counts. The exit status is 0 only if nothing differs. Needs: bash, iproute2, util-linux, procps,
# Python 3. A case that needs more (tcpdump, strace, getent, a program of R, for systemd-resolved also dbus-daemon) is skipped
# with a word where that is missing. The cases are the functions case_NAME of cases_ask.sh and cases_name.sh; each has a link of
# its own with hosts h1 to h5 (169.254.77.N, fe80::ff:fe00:N).

HERE=$(cd "$(dirname "$0")" && pwd)
. "$HERE/link.sh"
. "$HERE/peers.sh"
. "$HERE/ours.sh"
. "$HERE/cases_ask.sh"
. "$HERE/cases_name.sh"
OK=0
DIFFERS=0
SKIPPED=0

# ---- the table ----

line() { printf '%-14s %-26s %-25s %-5s %-49s %-49s %s\n' "$@"; }

# row ASKS ANSWERS FAMILY RESULT EXPECTED: one line of the table
row() {
    local verdict=ok
    if [ "$4" = "$5" ]; then OK=$((OK + 1)); else verdict=differs DIFFERS=$((DIFFERS + 1)); fi
    line "$CASE" "$1" "$2" "$3" "$4" "$5" "$verdict"
}

# skip ASKS ANSWERS FAMILY WHY
skip() {
    SKIPPED=$((SKIPPED + 1))
    line "$CASE" "$1" "$2" "$3" "$4" - skipped
}

# ---- what is not everywhere: which of it can run ----

have_llmnrd() { [ -x "${R:-}/usr/sbin/llmnrd" ]; }
have_llmnr_query() { [ -x "${R:-}/usr/bin/llmnr-query" ]; }
have_resolved() { [ -x "${R:-}/lib/systemd/systemd-resolved" ] && [ -x "$R/usr/bin/resolvectl" ] && command -v dbus-daemon >/dev/null; }
have_getent() { command -v getent >/dev/null && [ -f /etc/nsswitch.conf ] && [ -n "$(nss_resolve)" ]; }
have_tcpdump() { tcpdump --version >/dev/null 2>&1; }
have_strace() { strace -o /dev/null -e inject=pselect6:delay_exit=1 true 2>/dev/null; }

NO_LLMNRD='llmnrd is not in R'
NO_LLMNR_QUERY='llmnr-query is not in R'
NO_RESOLVED='no systemd-resolved, resolvectl or dbus-daemon'
NO_GETENT='no getent, nsswitch.conf or libnss_resolve.so.2'
NO_TCPDUMP='no tcpdump'
NO_STRACE='no strace, or it may not trace'

# ---- two links ----

# split HOST ..: puts these hosts on a second bridge
split() {
    local host
    in_host sw ip link add br1 type bridge mcast_snooping 0 stp_state 0 forward_delay 0
    in_host sw ip link set br1 up
    for host; do in_host sw ip link set "p${host#h}" master br1; done
    sleep 0.3
}

# join_cable: connects the two bridges
join_cable() {
    in_host sw ip link add c0 type veth peer name c1
    in_host sw ip link set c0 master br0 up
    in_host sw ip link set c1 master br1 up
    sleep 0.5
}

# ---- answers as words ----

declare -A ADDRESS=([4]=169.254.77. [6]=fe80::ff:fe00:) # with the number of the host behind it

# The addresses in a text, sorted, on one line; "none" if there are none.
addresses() { grep -oE '169\.254\.[0-9]+\.[0-9]+|fe80::[0-9a-f:]*[0-9a-f]' | sort -u | paste -sd ' ' | sed 's/^$/none/'; }

# The addresses, in what ask prints, that came from sources of a family: from_family FAMILY
from_family() { grep " from ${ADDRESS[$1]}" | sed 's/ from .*//' | addresses; }

# by_ask FAMILY HOST ARGUMENT ..: the addresses that ask had from sources of a family
by_ask() { in_host "$2" "$PROGRAMS/ask" -i eth0 "${@:3}" 2>/dev/null | from_family "$1"; }

# said_by_ask HOST ARGUMENT ..: its exit status and its message
said_by_ask() {
    local message status
    message=$(in_host "$1" "$PROGRAMS/ask" -i eth0 "${@:2}" 2>&1 >/dev/null)
    status=$?
    echo "exit $status: ${message#ask: *: }"
}

# The addresses in what llmnr-query, resolvectl or getent prints.
by_llmnr_query() { TXT=$WORK/said && : >"$TXT" && ask_llmnr "$@" && addresses <"$TXT"; }
by_resolved() { TXT=$WORK/said && : >"$TXT" && ask_resolved "$@" && addresses <"$TXT"; }
by_getent() { TXT=$WORK/said && : >"$TXT" && ask_getent "$@" && addresses <"$TXT"; }

# Of h2, either address alone.
one_of_two() { sed "s/^\(${ADDRESS[4]}2\|${ADDRESS[6]}2\)\$/one of the two/"; }

# responders HOST NAME FAMILY: the sources that answer a query of type any
responders() { in_host "$1" python3 "$HERE/probe.py" "$2" --family "$3" | cut -d' ' -f1 | addresses; }

# any_asker NAME WHO NUMBER ..: a row for each family: h1 is answered by the hosts of these numbers
any_asker() {
    local family
    for family in 4 6; do
        row 'any asker' "$2" "IPv$family" "$(responders h1 "$1" "$family")" "$(printf "${ADDRESS[$family]}%s\n" "${@:3}" | addresses)"
    done
}

# notify HOST NAME: a conflict notification by both families
notify() {
    local family
    for family in 4 6; do in_host "$1" python3 "$HERE/probe.py" "$2" --family "$family" --conflict --wait 1 >/dev/null; done
}

# ---- the run ----

list_cases() { declare -F | sed -n 's/^declare -f case_//p'; }

# One case on a link of its own.
run_case() {
    CASE=$1
    link_up 5
    "case_$1"
    stop_buses
    link_down
}

if [ "${1:-}" = --list ]; then
    list_cases
    exit 0
fi
find_programs
export R
[ $# -gt 0 ] || set -- $(list_cases)
for one in "$@"; do
    declare -F "case_$one" >/dev/null || { echo "run.sh: no case $one; --list names them" >&2; exit 1; }
done
link_enter "$@"
mount -t tmpfs tmpfs /mnt   # scratch space that goes away with the namespace
WORK=/mnt
TXT=$WORK/said
line case 'asks or starts' 'answers or holds' by result expected verdict
for one in "$@"; do run_case "$one"; done
printf 'live: %d ok, %d differ, %d skipped\n' "$OK" "$DIFFERS" "$SKIPPED"
[ "$DIFFERS" = 0 ] && [ "$OK" -gt 0 ]
