# recordings_name.sh - recordings about names and the shared port: start, conflicts, two programs on one machine.
# Sourced by record.sh. Each function rec_NN_name makes one; begin, finish, capture_begin are in record.sh; start_...,
# ask_..., say, name_of, trace_of in peers.sh; ask_two, ask_resolved_all in recordings_ask.sh.

rec_22_resolved_shows_t() {
    begin "$1" "h3 asks for the name of a resolved (h1) that is just starting, every 25 ms over IPv4"
    capture_begin
    start_resolved h1 fresh
    run_in h3 python3 "$HERE/ask_often.py" fresh --after 1400
    finish
}

# The sockets of a host on port 5355, into TXT.
show_sockets() {
    run_in "$1" ss -H -uan -p 'sport = :5355'
    run_in "$1" ss -H -tln -p 'sport = :5355'
}

# h2 asks for names of h1, both families: ask_from_h2 NAME...
ask_from_h2() {
    local name
    say "h2 asks by multicast for the names of h1"
    for name in "$@"; do
        ask_llmnr h2 -I eth0 -T A "$name"
        ask_llmnr h2 -6 -I eth0 -T AAAA "$name"
    done
}

# h1 asks for the name of a peer by resolved and by llmnr-query: ask_from_h1 NAME
ask_from_h1() {
    say "h1 asks for the name of a peer: resolved (responses come by unicast to port 5355 of h1), then llmnr-query"
    ask_resolved_all "$1"
    ask_llmnr h1 -I eth0 -T A "$1"
    ask_llmnr h1 -6 -I eth0 -T AAAA "$1"
}

rec_23_shared_port() {
    begin "$1" "llmnrd (name one), then resolved (name two) in h1; h3 has an llmnrd named third"
    start_llmnrd h3 third -6
    capture_begin h1
    start_llmnrd_traced h1 one -6
    start_resolved h1 two
    resolved_ready
    show_sockets h1
    ask_from_h2 one two
    ask_from_h1 third
    say "h1's resolved asks for the name of the llmnrd in h1 itself"
    ask_resolved h1 query one
    trace_of h1 one
    resolved_log h1 two 'LLMNR (responder|support)|in use|another|Another'
    finish
}

rec_23b_shared_port_resolved_first() {
    begin "$1" "as 23, but resolved (name two) is started first, then llmnrd (name one)"
    start_llmnrd h3 third -6
    start_resolved h1 two
    resolved_ready
    capture_begin h1
    start_llmnrd_traced h1 one -6
    show_sockets h1
    ask_from_h2 one two
    ask_from_h1 third
    say "h1's resolved asks for the name of the llmnrd in h1 itself"
    ask_resolved h1 query one
    trace_of h1 one
    resolved_log h1 two 'LLMNR (responder|support)|in use|another|Another'
    finish
}

rec_23c_shared_port_same_name() {
    begin "$1" "llmnrd, then resolved in h1, both with the name same"
    capture_begin h1
    start_llmnrd_traced h1 same -6
    start_resolved h1 same
    resolved_ready
    show_sockets h1
    say "the name resolved has now: $(name_of h1 same)"
    ask_from_h2 same
    [ "$(name_of h1 same)" = same ] || ask_from_h2 "$(name_of h1 same)"
    trace_of h1 same
    resolved_log h1 same 'Detected conflict|changing published|nother LLMNR'
    finish
}

# The end of 23d, 23e: who answers, who hears the responses; then a new check by eth0 down and up.
end_of_23de() {
    show_sockets h1
    say "the name resolved has now: $(name_of h1 third)"
    ask_from_h2 one "$(name_of h1 third)"
    ask_from_h1 fourth
    say "eth0 down and up: resolved checks its name again"
    run_in h1 ip link set eth0 down
    run_in h1 ip link set eth0 up
    run_in h1 ip route add 224.0.0.0/4 dev eth0
    resolved_ready
    say "the name resolved has now: $(name_of h1 third)"
    ask_from_h2 "$(name_of h1 third)"
    scripted_log h1
    resolved_log h1 third 'Detected conflict|changing published|nother LLMNR'
    finish
}

rec_23d_shared_port_reuse_resolved_later() {
    begin "$1" "h1: scripted.py (one; SO_REUSEADDR), then a resolved with the name of h3's llmnrd (third)"
    start_llmnrd h3 third -6
    start_llmnrd h2 fourth -6
    capture_begin h1
    start_scripted h1 --all --name one --a 169.254.77.1 --aaaa fe80::ff:fe00:1 --rule '*:*:addr'
    start_resolved h1 third
    resolved_ready
    end_of_23de
}

rec_23e_shared_port_reuse_resolved_first() {
    begin "$1" "h1: resolved (third), then scripted.py (one; SO_REUSEADDR); then h3's llmnrd (third) starts"
    start_llmnrd h2 fourth -6
    start_resolved h1 third
    resolved_ready
    capture_begin h1
    start_scripted h1 --all --name one --a 169.254.77.1 --aaaa fe80::ff:fe00:1 --rule '*:*:addr'
    start_llmnrd h3 third -6
    end_of_23de
}

rec_23f_shared_port_tcp_taken() {
    begin "$1" "h1: scripted.py (one; SO_REUSEADDR) listens on UDP and TCP 5355; then resolved (two) starts"
    start_llmnrd h3 third -6
    capture_begin h1
    start_scripted h1 --tcp --name one --a 169.254.77.1 --aaaa fe80::ff:fe00:1 --rule '*:*:addr'
    start_resolved h1 two
    resolved_ready
    show_sockets h1
    ask_from_h2 one two
    ask_from_h1 third
    resolved_log h1 two 'LLMNR (responder|support)|in use|another|Another'
    finish
}

rec_24_two_answers() {
    begin "$1" "h2 and h3 both have an llmnrd named twin; resolved with Cache=no"
    start_llmnrd h2 twin -6
    start_llmnrd h3 twin -6
    start_resolved h1 asker
    resolved_ready
    capture_begin
    ask_two twin
    resolved_log h1 asker 'Detected conflict|changing published'
    finish
}

rec_24b_two_answers_cache() {
    begin "$1" "as 24, but resolved keeps a cache (Cache=yes, its default)"
    start_llmnrd h2 twin -6
    start_llmnrd h3 twin -6
    start_resolved h1 asker Cache=yes
    resolved_ready
    capture_begin
    ask_two twin
    resolved_log h1 asker 'Detected conflict|changing published'
    finish
}

rec_24c_two_answers_for_how_long() {
    begin "$1" "as 24b, one question over IPv4 only, and then 45 s of silence: for how long is the notification repeated?"
    start_llmnrd h2 twin
    start_llmnrd h3 twin
    start_resolved h1 asker Cache=yes
    resolved_ready
    capture_begin
    ask_resolved h1 query -4 twin
    sleep 45
    finish
}

# 24d and 24e: the host with resolved, then the other: defend NAME HOST OTHER ADDRESSES-OF-OTHER
defend() {
    begin "$1" "$2 has a resolved named twin, $3 a scripted.py that answers for twin too and heeds C; h1 (Cache=yes) asks"
    start_resolved "$2" twin
    resolved_ready
    start_scripted "$3" --name twin $4 --rule '*:*:addr'
    start_resolved h1 asker Cache=yes
    resolved_ready
    capture_begin
    ask_resolved h1 query -4 twin
    sleep 4
    scripted_log "$3"
    say "the name resolved in $2 has now: $(name_of "$2" twin)"
    resolved_log "$2" twin 'Detected conflict|changing published|probe|exicographic'
    finish
}

rec_24d_conflict_resolved_has_smaller_address() { defend "$1" h2 h3 "$H3_ADDRESSES"; }

rec_24e_conflict_resolved_has_larger_address() { defend "$1" h3 h2 "$H2_ADDRESSES"; }

rec_26_llmnrd_same_name() {
    begin "$1" "two llmnrd of one name start (h2, h3); then a resolved of that name in h1"
    capture_begin
    start_llmnrd h2 taken -6
    start_llmnrd h3 taken -6
    sleep 2
    say "h1 asks once by llmnr-query: the first packets of the capture"
    ask_llmnr h1 -I eth0 -T A taken
    say "resolved starts in h1 with the name taken"
    start_resolved h1 taken
    resolved_ready
    say "the name resolved has now: $(name_of h1 taken)"
    ask_llmnr h2 -I eth0 -T A "$(name_of h1 taken)"
    ask_llmnr h2 -I eth0 -T A taken
    resolved_log h1 taken 'Detected conflict|changing published'
    finish
}
