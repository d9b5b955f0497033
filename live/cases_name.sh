# cases_name.sh - cases about who has a name: power-up, conflicts, a joined cable, restart, one program to a machine; sourced by run.sh.
#
# Each function case_NAME is one case; row, skip, own, states and the like are in run.sh, start_llmnrd, start_resolved, name_of in peers.sh.

# ---- a name that another host holds ----

case_taken() {
    own h2 scale3
    own h5 scale3
    row indicator 'indicator, lower' both "$(states h5 scale3)" stopped/stopped
    row 'indicator before' - both "$(states h2 scale3)" unique/unique
    own h3 lamp
    own h1 lamp
    row indicator 'indicator, higher' both "$(states h1 lamp)" stopped/stopped
    row 'indicator before' - both "$(states h3 lamp)" unique/unique
}

case_taken_llmnrd() {
    have_llmnrd || { skip indicator llmnrd both "$NO_LLMNRD"; return; }
    start_llmnrd h3 lamp -6
    own h2 lamp
    row indicator 'llmnrd, higher' both "$(states h2 lamp)" stopped/stopped
    own h5 lamp
    row indicator 'llmnrd, lower' both "$(states h5 lamp)" stopped/stopped
}

case_taken_resolved() {
    have_resolved || { skip indicator resolved both "$NO_RESOLVED"; return; }
    start_resolved h4 hostalpha
    resolved_ready
    own h2 hostalpha
    row indicator 'resolved, higher' both "$(states h2 hostalpha)" stopped/stopped
    own h5 hostalpha
    row indicator 'resolved, lower' both "$(states h5 hostalpha)" stopped/stopped
    own h3 scale3
    start_resolved h1 scale3
    resolved_ready
    row 'resolved, started later' indicator both "$(states h3 scale3); $(renamed h1 scale3)" 'unique/unique; resolved has another name'
}

# Whether a resolved has still the name that it was started with: renamed HOST NAME
renamed() { if [ "$(name_of "$1" "$2")" = "$2" ]; then echo 'resolved has the name'; else echo 'resolved has another name'; fi; }

# ---- power-up together ----

case_once() {
    make_name h2 unique scale3
    make_name h5 unique scale3
    start_indicator h5
    start_indicator h2
    settled h2 scale3
    row 'indicator, lower' 'indicator, at once' both "$(states h2 scale3)" unique/unique
    row 'indicator, higher' 'indicator, at once' both "$(states h5 scale3)" stopped/stopped
}

# race HOST: an indicator in HOST starts when a resolved in h3 has just sent its first query for the same name
race() {
    make_name "$1" unique race
    start_in sw "$WORK/first" timeout 10 tcpdump --immediate-mode -i br0 -n -c 1 'udp dst port 5355'
    local first=$STARTED
    sleep 0.5
    start_resolved h3 race
    wait "$first"
    start_indicator "$1"
    settled "$1" race
    sleep 1
    echo "$(states "$1" race); $(renamed h3 race)"
}

case_once_high() {
    have_resolved || { skip indicator 'resolved, at once' both "$NO_RESOLVED"; return; }
    have_tcpdump || { skip indicator 'resolved, at once' both "$NO_TCPDUMP"; return; }
    row 'indicator, lower' 'resolved, at once' both "$(race h2)" 'unique/unique; resolved has another name'
}

case_once_low() {
    have_resolved || { skip indicator 'resolved, at once' both "$NO_RESOLVED"; return; }
    have_tcpdump || { skip indicator 'resolved, at once' both "$NO_TCPDUMP"; return; }
    row 'indicator, higher' 'resolved, at once' both "$(race h5)" 'stopped/stopped; resolved has the name'
}

# Whether one of the three indicators owns the name, the others have stopped, and it alone answers: owners FAMILY
owners() {
    local host owner= states= answers
    for host in h2 h3 h5; do
        states+=" $(state "$host" scale3 "eth0/IPv$1")"
        [ "${states##* }" = unique ] && owner+=" ${ADDRESS[$1]}${host#h}"
    done
    answers=$(responders h1 scale3 "$1")
    if [ "$(echo "$states" | tr ' ' '\n' | sort | paste -sd ' ')" = ' stopped stopped unique' ] && [ "$owner" = " $answers" ]; then
        echo '1 owns it and alone answers, 2 stopped'
    else
        echo "states$states, answers $answers"
    fi
}

# Three indicators start within one second, in any order; five times.
case_three() {
    local round host
    for round in 1 2 3 4 5; do
        for host in h2 h3 h5; do
            make_name "$host" unique scale3
            start_in "$host" "$WORK/$host.log" bash -c "sleep 0.$((RANDOM % 900 + 100)); exec $PROGRAMS/indicator $WORK/$host.table eth0"
            declare "pid_$host=$STARTED"
        done
        for host in h2 h3 h5; do settled "$host" scale3; done
        row "3 indicators, round $round" 'each other' IPv4 "$(owners 4)" '1 owns it and alone answers, 2 stopped'
        row "3 indicators, round $round" 'each other' IPv6 "$(owners 6)" '1 owns it and alone answers, 2 stopped'
        for host in "$pid_h2" "$pid_h3" "$pid_h5"; do stop_one "$host"; done
    done
}

# The three queries of a start go out one interval apart, and the name is owned one interval after the last.
case_timing() {
    have_tcpdump || { skip indicator nobody both "$NO_TCPDUMP"; return; }
    make_name h2 unique scale3
    capture_start "$WORK/timing.pcap"
    start_indicator h2 --interval 1000
    settled h2 scale3
    capture_stop
    local host
    for host in 169.254.77.2 fe80::ff:fe00:2; do
        row indicator nobody "$(case $host in *.*) echo IPv4 ;; *) echo IPv6 ;; esac)" "$(gaps "$host")" '3 queries, 1000 ms apart (up to 20 more)'
    done
}

# How far apart the queries of a host are in the capture, if all gaps are as they should be: gaps ADDRESS
gaps() {
    tcpdump -tt -n -r "$WORK/timing.pcap" "src $1 and udp dst port 5355" 2>/dev/null | awk '
        NR > 1 { gap = ($1 - last) * 1000; if (gap < 998 || gap > 1020) bad = bad " " int(gap) }
        { last = $1 }
        END { if (bad != "") print NR " queries, gaps of" bad " ms"; else print NR " queries, 1000 ms apart (up to 20 more)" }'
}

# A response counts until the tick, also if it comes when the wait for it has ended (P9). strace keeps the indicator there for 1.5 s each
# time, so that its third wait ends 3.3 s after its start and returns at 4.8. The host that has the name is held until 4, and then answers.
case_late() {
    have_strace || { skip indicator 'indicator, answers late' both "$NO_STRACE"; return; }
    own h3 scale3
    kill -STOP "$PID_h3"
    make_name h2 unique scale3
    start_in h2 "$WORK/h2.log" strace -I 1 -o /dev/null -e inject=pselect6:delay_exit=1500000 \
        "$PROGRAMS/indicator" --interval 100 "$WORK/h2.table" eth0
    sleep 4
    kill -CONT "$PID_h3"
    settled h2 scale3
    row indicator 'indicator, answers late' both "$(states h2 scale3)" stopped/stopped
}

# ---- two links are joined by a cable ----

# What an indicator did: its states, and whether it has defended the name: defended HOST NAME
defended() {
    local how='not defended'
    grep -q " $2 .* defending" "$WORK/$1.log" && how=defended
    echo "$(states "$1" "$2"), $how"
}

case_joined() {
    split h5
    own h2 scale3
    own h5 scale3
    join_cable
    any_asker scale3 'both indicators' 2 5
    notify h1 scale3
    sleep 1
    row 'notification by h1' 'indicator, lower' both "$(defended h2 scale3)" 'unique/unique, defended'
    row 'notification by h1' 'indicator, higher' both "$(defended h5 scale3)" 'stopped/stopped, defended'
    any_asker scale3 'indicator, lower' 2
}

# A resolved that asks tells of the conflict itself, if it has its cache on.
case_joined_told() {
    have_resolved || { skip resolvectl 'both indicators' both "$NO_RESOLVED"; return; }
    split h5
    own h2 scale3
    own h5 scale3
    start_resolved h4 asker Cache=yes
    resolved_ready
    join_cable
    by_resolved h4 query -4 scale3 >"$WORK/first"
    sleep 1.5
    by_resolved h4 query -6 scale3 >>"$WORK/first"
    sleep 1.5
    row 'notification by resolved' 'indicator, lower' both "$(defended h2 scale3)" 'unique/unique, defended'
    row 'notification by resolved' 'indicator, higher' both "$(defended h5 scale3)" 'stopped/stopped, defended'
    ask_resolved h4 flush-caches   # it has kept the first of two answers, which may be either
    row 'resolvectl query -4' 'indicator, lower' IPv4 "$(by_resolved h4 query -4 scale3)" 169.254.77.2
    row 'resolvectl query -6' 'indicator, lower' IPv6 "$(by_resolved h4 query -6 scale3)" fe80::ff:fe00:2
}

# joined_with_resolved HOST: an indicator in HOST and a resolved in h3 own a name on two links
joined_with_resolved() {
    split h3
    start_resolved h3 twin
    resolved_ready
    own "$1" twin
    join_cable
    notify h4 twin
    sleep 3
}

case_joined_high() {
    have_resolved || { skip indicator resolved both "$NO_RESOLVED"; return; }
    joined_with_resolved h2
    row 'notification by h4' 'indicator, lower' both "$(defended h2 twin)" 'unique/unique, defended'
    row 'notification by h4' 'resolved, higher' both "$(renamed h3 twin)" 'resolved has another name'
    any_asker twin 'indicator, lower' 2
}

case_joined_low() {
    have_resolved || { skip indicator resolved both "$NO_RESOLVED"; return; }
    joined_with_resolved h5
    row 'notification by h4' 'indicator, higher' both "$(defended h5 twin)" 'stopped/stopped, defended'
    row 'notification by h4' 'resolved, lower' both "$(renamed h3 twin)" 'resolved has the name'
    any_asker twin 'resolved, lower' 3
}

# llmnrd never gives a name up: beside it a lower indicator goes on to answer too (docs/INTEROP.md).
case_joined_llmnrd() {
    have_llmnrd || { skip indicator llmnrd both "$NO_LLMNRD"; return; }
    split h3
    start_llmnrd h3 lamp -6
    own h2 lamp
    own h4 other
    join_cable
    notify h1 lamp
    sleep 1
    row 'notification by h1' 'indicator, lower' both "$(defended h2 lamp)" 'unique/unique, defended'
    any_asker lamp 'indicator and llmnrd' 2 3
    stop_one "$PID_h2"
    in_host sw ip link set c0 down
    own h5 lamp
    in_host sw ip link set c0 up
    sleep 0.5
    notify h1 lamp
    sleep 1
    row 'notification by h1' 'indicator, higher' both "$(defended h5 lamp)" 'stopped/stopped, defended'
    any_asker lamp llmnrd 3
}

# ---- ends and beginnings ----

case_killed() {
    own h2 scale3
    kill_9 "$PID_h2"
    row ask 'indicator, killed -9' both "$(said_by_ask h1 scale3)" 'exit 1: nobody answered'
    own h2 scale3
    row 'indicator, started again' nobody both "$(states h2 scale3)" unique/unique
    row ask 'indicator, started again' IPv4 "$(by_ask 4 h1 scale3)" 169.254.77.2
    row ask 'indicator, started again' IPv6 "$(by_ask 6 h1 scale3)" fe80::ff:fe00:2
    kill_9 "$PID_h2"
    own h5 scale3
    own h2 scale3
    row 'indicator, started again' 'another took the name' both "$(states h2 scale3)" stopped/stopped
    row 'the other indicator' - both "$(states h5 scale3)" unique/unique
    kill -TERM "$PID_h5"
    wait "$PID_h5"
    row 'indicator, SIGTERM' - - "exit $?" 'exit 0'
}

# said_by_indicator HOST PORT ..: its exit status and its message
said_by_indicator() {
    local message status
    make_name "$1" unique scale3
    message=$(in_host "$1" timeout 5 "$PROGRAMS/indicator" "$WORK/$1.table" "${@:2}" 2>&1 >/dev/null)
    status=$?
    echo "exit $status: ${message#indicator: }"
}

TAKEN='exit 8: UDP port 5355 is taken by another program'

case_beside() {
    own h2 scale3
    row 'indicator' 'indicator, same machine' - "$(said_by_indicator h2 eth0)" "$TAKEN"
    if have_llmnrd; then
        start_llmnrd h3 lamp
        row 'indicator' 'llmnrd, same machine' - "$(said_by_indicator h3 eth0)" "$TAKEN"
    else
        skip 'indicator' 'llmnrd, same machine' - "$NO_LLMNRD"
    fi
    if have_resolved; then
        start_resolved h4 hostalpha
        resolved_ready
        row 'indicator' 'resolved, same machine' - "$(said_by_indicator h4 eth0)" "$TAKEN"
    else
        skip 'indicator' 'resolved, same machine' - "$NO_RESOLVED"
    fi
}

# A port that cannot be used, and one too many.
case_ports() {
    row indicator 'a port that is not there' - "$(said_by_indicator h1 eth7)" 'exit 5: eth7: no such network interface'
    in_host h1 ip link add d0 type veth peer name d1
    row indicator 'a port that is down' - "$(said_by_indicator h1 d0)" 'exit 6: d0: down, no link, or no address'
    in_host h1 sysctl -qw net.ipv6.conf.d0.disable_ipv6=1
    in_host h1 ip link set d0 up
    in_host h1 ip addr add 192.0.2.1/24 dev d0
    row indicator 'a port without a link' - "$(said_by_indicator h1 d0)" 'exit 6: d0: down, no link, or no address'
    in_host h1 ip addr del 192.0.2.1/24 dev d0
    in_host h1 ip link set d1 up
    row indicator 'a port without address' - "$(said_by_indicator h1 d0)" 'exit 6: d0: down, no link, or no address'
    in_host h1 sysctl -qw net.ipv6.conf.d0.disable_ipv6=0
    in_host h1 ip addr add 192.0.2.1/24 dev d0
    in_host h1 ip addr add 192.0.3.1/24 dev d1
    sleep 0.3
    row indicator '5 addresses' - "$(said_by_indicator h1 eth0 d0 d1)" 'exit 7: d1: more than 4 addresses in all'
}

# After power-up the system looks for a second or two whether another machine has the IPv6 address; the indicator waits for it.
case_power_up() {
    in_host h2 ip link set eth0 down
    in_host h2 sysctl -qw net.ipv6.conf.eth0.accept_dad=1
    in_host h2 ip link set eth0 up
    own h2 scale3
    row 'indicator, port just up' nobody both "$(states h2 scale3)" unique/unique
}

# Waits for an indicator that ends by itself; $ENDED is then its exit status and its message: ended HOST
ended() {
    local pid=PID_$1
    wait "${!pid}"
    ENDED="exit $?: $(sed -n 's/^indicator: //p' "$WORK/$1.log")"
}

# A query that nobody can hear, and an address that is gone, end the program: the name must then be verified anew.
case_lost() {
    make_name h2 unique scale3
    make_name h4 unique scale4
    start_indicator h2
    start_indicator h4
    sleep 0.3
    in_host h2 ip link set eth0 down
    in_host sw ip link set p4 down
    ended h2
    row 'indicator, verifying' 'port goes down' - "$ENDED" 'exit 10: eth0/IPv4: the link is lost'
    ended h4
    row 'indicator, verifying' 'cable is pulled' - "$ENDED" 'exit 10: eth0/IPv4: the link is lost'
    own h3 scale3
    in_host h3 ip addr del 169.254.77.3/16 dev eth0
    in_host h3 ip addr add 169.254.77.33/16 dev eth0
    responders h1 scale3 4 >"$WORK/first"
    ended h3
    row 'indicator, unique' 'address changes' - "$ENDED" 'exit 10: eth0/IPv4: the address is lost'
}
