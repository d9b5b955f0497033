# link.sh - a link of our own on one machine: network namespaces, a bridge, and hosts h1, h2, ... with eth0.
#
# Not run by itself; a script sources it (see record.sh):
#     . ./link.sh
#     link_enter "$@"       # first of all: starts the script anew in namespaces of its own (root is needed)
#     link_up 3             # bridge "sw" and hosts h1 h2 h3
#     in_host h1 COMMAND    # run a command in a host
#     start_in h1 LOG CMD   # run it in the background, output to LOG; its process number is then in $STARTED
#     stop_one PID          # end one such program
#     capture_start F.pcap ; capture_stop
#
# Host hN has MAC 02:00:00:00:00:0N, so fe80::ff:fe00:N, and 169.254.77.N/16. No packet leaves the machine.
# At exit every program started here is ended by its process number and every namespace made here is deleted.
# All of it lives in a network, mount and process namespace of its own, so nothing is left even after kill -9.

LINK_HOSTS=()      # names of the namespaces made here
LINK_PIDS=()       # process numbers started here
CAPTURE_PIDS=()    # tcpdump processes that are running
CAPTURE_FILTER='port 5355'
CAPTURE_FILES=()   # the pcap files of the capture that runs or ran last

# Start this script again inside new namespaces; the second time, set up a private /run and the clean-up.
link_enter() {
    if [ -z "${LINK_INSIDE:-}" ]; then
        [ "$(id -u)" = 0 ] || { echo "link.sh: root is needed" >&2; exit 1; }
        LINK_INSIDE=1 exec unshare --net --mount --pid --fork --kill-child --mount-proc bash "$0" "$@"
    fi
    mount -t tmpfs tmpfs /run
    mkdir -p /run/netns
    trap link_down EXIT
    trap 'exit 130' INT TERM
}

# The switch: a bridge with nothing of its own to say.
link_switch() {
    ip netns add sw
    LINK_HOSTS+=(sw)
    in_host sw sysctl -qw net.ipv6.conf.all.disable_ipv6=1 net.ipv6.conf.default.disable_ipv6=1
    in_host sw ip link add br0 type bridge mcast_snooping 0 stp_state 0 forward_delay 0
    in_host sw ip link set br0 up
}

# One host: $1 is its number.
link_host() {
    local n=$1
    ip netns add "h$n"
    LINK_HOSTS+=("h$n")
    in_host "h$n" ip link set lo up
    in_host "h$n" ip link add eth0 address "02:00:00:00:00:0$n" type veth peer name "p$n" netns sw
    in_host "h$n" sysctl -qw net.ipv6.conf.eth0.accept_dad=0 net.ipv6.conf.eth0.router_solicitations=0
    in_host sw ip link set "p$n" master br0 up
    in_host "h$n" ip link set eth0 up
    in_host "h$n" ip addr add "169.254.77.$n/16" dev eth0
    in_host "h$n" ip route add 224.0.0.0/4 dev eth0
}

# The whole link with $1 hosts.
link_up() {
    local n
    link_switch
    for n in $(seq 1 "$1"); do link_host "$n"; done
    sleep 1
}

# Run a command in the network namespace of a host.
in_host() {
    local host=$1
    shift
    nsenter --net="/run/netns/$host" "$@"
}

# Run a command in a host in the background: start_in HOST LOGFILE COMMAND...
start_in() {
    local host=$1 log=$2
    shift 2
    nsenter --net="/run/netns/$host" "$@" >"$log" 2>&1 </dev/null &
    STARTED=$!
    LINK_PIDS+=("$STARTED")
}

# End one program that was started here, also one that is held by SIGSTOP.
stop_one() {
    kill "$1" 2>/dev/null
    kill -CONT "$1" 2>/dev/null
    wait "$1" 2>/dev/null
    return 0
}

# Record what fits CAPTURE_FILTER on the bridge; with a second name also of lo in that host: capture_start F.pcap [HOST]
capture_start() {
    CAPTURE_FILES=("$1")
    CAPTURE_PIDS=()
    capture_one sw br0 "$1"
    if [ -n "${2:-}" ]; then
        CAPTURE_FILES+=("$1.lo")
        capture_one "$2" lo "$1.lo"
    fi
}

# One tcpdump: capture_one HOST INTERFACE FILE. Returns when it listens.
capture_one() {
    start_in "$1" "$3.log" tcpdump --immediate-mode -i "$2" -U -n -s0 -Z root -w "$3" "$CAPTURE_FILTER"
    CAPTURE_PIDS+=("$STARTED")
    local i
    for i in $(seq 50); do
        [ -s "$3" ] && return 0
        sleep 0.1
    done
    echo "link.sh: tcpdump did not start, see $3.log" >&2
    return 1
}

# End the capture, a moment after the last packet.
capture_stop() {
    sleep 0.3
    local pid
    for pid in "${CAPTURE_PIDS[@]}"; do stop_one "$pid"; done
}

# End what was started, delete what was made.
link_down() {
    local x
    for x in "${LINK_PIDS[@]}"; do stop_one "$x"; done
    for x in "${LINK_HOSTS[@]}"; do ip netns del "$x" 2>/dev/null; done
    LINK_PIDS=()
    LINK_HOSTS=()
}
