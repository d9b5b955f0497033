# cases_ask.sh - cases about asking: who answers whom, by which family, and with what; sourced by run.sh.
#
# Each function case_NAME is one case; row, skip, own, by_ask and the like are in run.sh, start_llmnrd, start_resolved in peers.sh.

case_ours() {
    own h2 scale3
    row ask indicator IPv4 "$(by_ask 4 h1 scale3)" 169.254.77.2
    row ask indicator IPv6 "$(by_ask 6 h1 scale3)" fe80::ff:fe00:2
    row 'ask SCALE3' indicator IPv4 "$(by_ask 4 h1 SCALE3)" 169.254.77.2
    row 'ask SCALE3' indicator IPv6 "$(by_ask 6 h1 SCALE3)" fe80::ff:fe00:2
    row 'ask scale3 ANY' indicator IPv4 "$(by_ask 4 h1 scale3 ANY)" '169.254.77.2 fe80::ff:fe00:2'
    row 'ask scale3 ANY' indicator IPv6 "$(by_ask 6 h1 scale3 ANY)" '169.254.77.2 fe80::ff:fe00:2'
    row 'ask scale3 16' indicator both "$(said_by_ask h1 scale3 16)" 'exit 1: found, but no such record'
    row 'ask other' nobody both "$(said_by_ask h1 other)" 'exit 1: nobody answered'
    row 'ask scale3.plant' nobody both "$(said_by_ask h1 scale3.plant)" 'exit 2: a name of several labels needs --several'
    row 'ask --several scale3.plant' nobody both "$(said_by_ask h1 --several scale3.plant)" 'exit 1: nobody answered'
    row 'ask 2.77.254.169.in-addr.arpa' nobody both "$(said_by_ask h1 2.77.254.169.in-addr.arpa PTR)" 'exit 1: nobody answered'
    row 'ask, on the same machine' indicator both "$(said_by_ask h2 scale3)" 'exit 1: only this machine answers'
}

# Asked at once after its start, an indicator shows T for three intervals; ask goes on asking until it owns the name.
case_early() {
    make_name h2 unique scale3
    start_indicator h2 --interval 1000
    sleep 0.2
    in_host h1 "$PROGRAMS/ask" -i eth0 --interval 1000 scale3 >"$WORK/first" 2>/dev/null   # once: afterwards the name is owned
    row 'ask --interval 1000' 'indicator, verifying' IPv4 "$(from_family 4 <"$WORK/first")" 169.254.77.2
    row 'ask --interval 1000' 'indicator, verifying' IPv6 "$(from_family 6 <"$WORK/first")" fe80::ff:fe00:2
}

case_shared() {
    local host
    for host in h2 h3 h5; do
        make_name "$host" shared printers
        start_indicator "$host"
    done
    sleep 0.5
    row ask '3 indicators, shared' IPv4 "$(by_ask 4 h1 printers)" '169.254.77.2 169.254.77.3 169.254.77.5'
    row ask '3 indicators, shared' IPv6 "$(by_ask 6 h1 printers)" 'fe80::ff:fe00:2 fe80::ff:fe00:3 fe80::ff:fe00:5'
}

case_llmnrd() {
    have_llmnrd || { skip ask llmnrd both "$NO_LLMNRD"; return; }
    start_llmnrd h3 lamp -6
    row ask llmnrd IPv4 "$(by_ask 4 h1 lamp)" 169.254.77.3
    row ask llmnrd IPv6 "$(by_ask 6 h1 lamp)" fe80::ff:fe00:3
    row 'ask lamp PTR' llmnrd both "$(said_by_ask h1 lamp PTR)" 'exit 1: nobody answered'
}

case_llmnr_query() {
    have_llmnr_query || { skip llmnr-query indicator both "$NO_LLMNR_QUERY"; return; }
    own h2 scale3
    row 'llmnr-query -T A' indicator IPv4 "$(by_llmnr_query h1 -I eth0 -T A scale3)" 169.254.77.2
    row 'llmnr-query -T AAAA' indicator IPv6 "$(by_llmnr_query h1 -6 -I eth0 -T AAAA scale3)" fe80::ff:fe00:2
    row 'llmnr-query -T ANY' indicator IPv4 "$(by_llmnr_query h1 -I eth0 -T ANY scale3)" '169.254.77.2 fe80::ff:fe00:2'
    row 'llmnr-query -T A other' indicator IPv4 "$(by_llmnr_query h1 -I eth0 -T A other)" none
}

# resolved answers by IPv4 with A alone and by IPv6 with AAAA alone; the empty answer of one family must not hide the other's. As an
# asker it takes the first response, of either family.
case_resolved() {
    have_resolved || { skip ask/resolved resolved/indicator both "$NO_RESOLVED"; return; }
    own h2 scale3
    start_resolved h4 hostalpha
    resolved_ready
    row ask resolved IPv4 "$(by_ask 4 h1 hostalpha)" 169.254.77.4
    row ask resolved IPv6 "$(by_ask 6 h1 hostalpha)" fe80::ff:fe00:4
    row 'ask hostalpha A' 'resolved, empty by IPv6' both "$(by_ask 4 h1 hostalpha A)" 169.254.77.4
    row 'ask hostalpha AAAA' 'resolved, empty by IPv4' both "$(by_ask 6 h1 hostalpha AAAA)" fe80::ff:fe00:4
    row 'resolvectl query -4' indicator IPv4 "$(by_resolved h4 query -4 scale3)" 169.254.77.2
    row 'resolvectl query -6' indicator IPv6 "$(by_resolved h4 query -6 scale3)" fe80::ff:fe00:2
    row 'resolvectl query' indicator both "$(by_resolved h4 query scale3 | one_of_two)" 'one of the two'
    row 'resolvectl query other' indicator both "$(by_resolved h4 query other)" none
}

# An ordinary program finds an indicator, if the system's library asks resolved.
case_getent() {
    have_resolved || { skip getent indicator both "$NO_RESOLVED"; return; }
    have_getent || { skip getent indicator both "$NO_GETENT"; return; }
    own h2 scale3
    start_resolved h4 hostalpha
    resolved_ready
    row 'getent ahosts' 'indicator, by resolved' both "$(by_getent h4 ahosts scale3 | one_of_two)" 'one of the two'
    row 'getent ahostsv4' 'indicator, by resolved' IPv4 "$(by_getent h4 ahostsv4 scale3)" 169.254.77.2
    row 'getent ahostsv6' 'indicator, by resolved' IPv6 "$(by_getent h4 ahostsv6 scale3)" fe80::ff:fe00:2
    row 'getent ahosts other' 'indicator, by resolved' both "$(by_getent h4 ahosts other)" none
}

# What became of the datagrams of so many octets by a family, counted: became HOST FAMILY OCTETS
became() {
    sed -n "s/.*\/IPv$2 $3 octets .*: \(refused [0-9]*\|reply\).*/\1/p" "$WORK/$1.log" | sort | uniq -c | sed 's/^ *//' | paste -sd ' '
}

# Long datagrams arrive in several packets. 9,194 octets are read; one more is refused with 5, and not cut and read.
case_long() {
    own h2 scale3 --verbose
    local family
    for family in 4 6; do
        send_long "$family" 9194
        row '9194 octets' indicator "IPv$family" "$(became h2 "$family" 9194)" '1 reply'
        send_long "$family" 9195
        row '9195 octets' indicator "IPv$family" "$(became h2 "$family" 9195)" '1 refused 5'
        send_long "$family" 9600
        row '9600 octets, told as 9195' indicator "IPv$family" "$(became h2 "$family" 9195)" '2 refused 5'
        send_long "$family" 77 --to "${ADDRESS[$family]}2"
        row 'query to its own address' indicator "IPv$family" "$(became h2 "$family" 77)" '1 refused 6'
    done
}

# send_long FAMILY OCTETS [OPTION ..]
send_long() { in_host h1 python3 "$HERE/probe.py" scale3 --family "$1" --octets "$2" --wait 100 "${@:3}" >/dev/null; }

# 20,000 damaged and random datagrams, to the groups and to the address of the host.
case_garbage() {
    own h2 scale3
    in_host h1 python3 "$HERE/garbage.py" scale3 169.254.77.2 fe80::ff:fe00:2
    row ask 'indicator, after garbage' IPv4 "$(by_ask 4 h1 scale3)" 169.254.77.2
    row ask 'indicator, after garbage' IPv6 "$(by_ask 6 h1 scale3)" fe80::ff:fe00:2
    row - 'indicator, after garbage' both "$(states h2 scale3), $(wc -l <"$WORK/h2.log") lines" 'unique/unique, 4 lines'
}

# The same name and the same subnet on two ports: each port has its own state and its own answers.
case_two_ports() {
    split h4 h5
    in_host h2 ip link add eth1 address 02:00:00:00:01:02 type veth peer name q2 netns sw
    in_host h2 sysctl -qw net.ipv6.conf.eth1.accept_dad=0
    in_host sw ip link set q2 master br1 up
    in_host h2 ip link set eth1 up
    in_host h2 ip addr add 169.254.78.2/16 dev eth1
    sleep 0.5
    own h5 scale3
    make_name h2 unique scale3 unique here
    PORTS='eth0 eth1' start_indicator h2 --interval 100
    settled h2 scale3
    sleep 0.5
    row 'indicator on eth0' nobody both "$(states h2 scale3 eth0)" unique/unique
    row 'indicator on eth1' 'another indicator' both "$(states h2 scale3 eth1)" stopped/stopped
    row 'ask at eth0' 'indicator on two ports' IPv4 "$(responders h1 scale3 4)" 169.254.77.2
    row 'ask at eth0' 'indicator on two ports' IPv6 "$(responders h1 scale3 6)" fe80::ff:fe00:2
    row 'ask at eth1' 'the other indicator' IPv4 "$(responders h4 scale3 4)" 169.254.77.5
    row 'ask at eth1' 'the other indicator' IPv6 "$(responders h4 scale3 6)" fe80::ff:fe00:5
    row 'ask here at eth0' 'indicator on two ports' IPv4 "$(responders h1 here 4)" 169.254.77.2
    row 'ask here at eth0' 'indicator on two ports' IPv6 "$(responders h1 here 6)" fe80::ff:fe00:2
    row 'ask here at eth1' 'indicator on two ports' IPv4 "$(responders h4 here 4)" 169.254.78.2
    row 'ask here at eth1' 'indicator on two ports' IPv6 "$(responders h4 here 6)" fe80::ff:fe00:102
}
