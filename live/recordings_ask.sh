# recordings_ask.sh - recordings of what the askers (resolved, llmnr-query) do with unusual answers; sourced by record.sh.
#
# Each function rec_NN_name makes one: h1 asks, h2 and h3 are its peers. begin, finish, capture_begin, scripted_log are
# in record.sh; start_..., ask_..., say, stop_peer in peers.sh.

H2_ADDRESSES="--a 169.254.77.2 --aaaa fe80::ff:fe00:2"
H3_ADDRESSES="--a 169.254.77.3 --aaaa fe80::ff:fe00:3"

# resolvectl three ways: both families, IPv4, IPv6.
ask_resolved_all() {
    ask_resolved h1 query "$1"
    ask_resolved h1 query -4 "$1"
    ask_resolved h1 query -6 "$1"
}

# llmnr-query: every type over IPv4, then over IPv6.
ask_llmnr_all() {
    local type
    for type in A AAAA ANY; do ask_llmnr h1 -I eth0 -T "$type" "$1"; done
    for type in A AAAA ANY; do ask_llmnr h1 -6 -I eth0 -T "$type" "$1"; done
}

rec_20_resolved_asks_tc() {
    begin "$1" "the only responder (h2) sets TC and gives its addresses; nothing listens on TCP there"
    start_scripted h2 --name trunc $H2_ADDRESSES --rule '*:*:addr,tc'
    start_resolved h1 asker
    resolved_ready
    capture_begin
    ask_resolved_all trunc
    say "llmnr-query asks the same"
    ask_llmnr h1 -I eth0 -T A trunc
    ask_llmnr h1 -6 -I eth0 -T AAAA trunc
    scripted_log h2
    finish
}

rec_20b_resolved_asks_tc_with_tcp() {
    begin "$1" "as 20, but h2 listens on TCP too and answers there"
    start_scripted h2 --name trunc $H2_ADDRESSES --rule '*:*:addr,tc' --tcp
    start_resolved h1 asker
    resolved_ready
    capture_begin
    ask_resolved_all trunc
    scripted_log h2
    finish
}

# More questions for 21 a: the plain question again and again, then by llmnr-query.
ask_more() {
    local i
    for i in 1 2 3 4 5; do ask_resolved h1 query "$1"; done
    ask_llmnr_all "$1"
}

# One set of rules of 21: rules_21 TITLE RULE...
rules_21() {
    local rules=() rule
    say "$1"
    for rule in "${@:2}"; do rules+=(--rule "$rule"); done
    start_scripted h2 --name part $H2_ADDRESSES "${rules[@]}"
    local pid=$STARTED
    ask_resolved_all part
    [ -n "${MORE:-}" ] && ask_more part
    scripted_log h2
    sleep 2   # resolved may still repeat a query of the last question
    stop_peer "$pid" h2 scripted.py
}

rec_21_resolved_asks_empty() {
    begin "$1" "h2 answers A over IPv4 with an address, others with an empty answer, in several orders"
    start_resolved h1 asker
    resolved_ready
    capture_begin
    MORE=1 rules_21 "a: A over IPv4 has the address; all else is answered empty at once" 4:A:addr '*:*:empty'
    rules_21 "b: as a, but the answer to A over IPv4 comes 400 ms later: the empty answer over IPv6 is first" \
        4:A:addr,wait=400 '*:*:empty'
    rules_21 "c: as a, but the empty answer over IPv6 comes 400 ms later: the address is first" \
        4:A:addr '6:*:empty,wait=400' '*:*:empty'
    rules_21 "d: A over IPv4 has the address, AAAA over IPv4 is answered empty, nothing is answered over IPv6" \
        4:A:addr '4:*:empty'
    rules_21 "e: AAAA over IPv6 has the address; A over IPv4 is answered empty at once, the address 400 ms later" \
        6:AAAA:addr,wait=400 '*:*:empty'
    rules_21 "f: AAAA over IPv6 has the address; nothing is answered over IPv4" 6:AAAA:addr
    rules_21 "g: everything is answered empty" '*:*:empty'
    finish
}

# The questions of 24 and 25: by resolved with a pause for what it may send afterwards, then by llmnr-query.
ask_two() {
    local how
    for how in "" -4 -6; do
        ask_resolved h1 query $how "$1"
        sleep 1.5
    done
    ask_llmnr h1 -I eth0 -T A "$1"
    ask_llmnr h1 -6 -I eth0 -T AAAA "$1"
    ask_llmnr h1 -I eth0 -T ANY "$1"
}

rec_25_c_set() {
    begin "$1" "h2 and h3 answer for the name shared with C set; resolved with Cache=yes"
    start_scripted h2 --name shared $H2_ADDRESSES --rule '*:*:addr,c'
    start_scripted h3 --name shared $H3_ADDRESSES --rule '*:*:addr,c'
    start_resolved h1 asker Cache=yes
    resolved_ready
    capture_begin
    ask_two shared
    resolved_log h1 asker 'Detected conflict|changing published'
    finish
}

# One kind of answer of 28: answer_28 TITLE RULE
answer_28() {
    say "$1"
    start_scripted h2 --name odd $H2_ADDRESSES --rule "$2"
    local pid=$STARTED
    ask_resolved h1 query -4 odd
    ask_resolved h1 query -6 odd
    ask_llmnr h1 -I eth0 -T A odd
    ask_llmnr h1 -6 -I eth0 -T AAAA odd
    stop_peer "$pid" h2 scripted.py
}

rec_28_odd_answers() {
    begin "$1" "resolved and llmnr-query are given answers with T set, RCODE 3, TTL 64, another port, another name"
    start_resolved h1 asker
    resolved_ready
    CAPTURE_FILTER='port 5355 or port 5399'
    capture_begin
    answer_28 "a: T set (the name is not yet known to be unique)" '*:*:addr,t'
    answer_28 "b: RCODE 3 and no records" '*:*:empty,rcode=3'
    answer_28 "c: IP TTL / hop limit 64" '*:*:addr,ttl=64'
    answer_28 "d: IP TTL / hop limit 1" '*:*:addr,ttl=1'
    answer_28 "e: sent from UDP port 5399" '*:*:addr,port=5399'
    answer_28 "f: question and records are of another name" '*:*:addr,othername'
    finish
    CAPTURE_FILTER='port 5355'
}

rec_27_ptr_by_tcp() {
    begin "$1" "resolved asks for the name of an address: h2 has llmnrd, h3 has resolved"
    start_llmnrd h2 second -6
    start_resolved h3 third
    start_resolved h1 asker
    resolved_ready
    capture_begin
    ask_resolved h1 query 169.254.77.2
    ask_resolved h1 query fe80::ff:fe00:2%eth0
    ask_resolved h1 query 169.254.77.3
    ask_resolved h1 query fe80::ff:fe00:3%eth0
    finish
}
