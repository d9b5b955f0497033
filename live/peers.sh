# peers.sh - the programs of other makers on the link of link.sh: start them, and ask by them.
#
# Not run by itself; a script sources it after link.sh:
#     R=/folder/of/unpacked/debs     # apt-get download systemd-resolved llmnrd libnss-resolve; dpkg -x each into $R
#     WORK=/tmp/folder               # logs and small configuration files go here
#     TXT=file.txt                   # each command, its output and its exit status are written there
#     . ./peers.sh
#     start_llmnrd h2 name [-6 ...]  # process number then in $STARTED
#     start_resolved h1 name [Cache=yes ...]   # the words are lines of resolved.conf
#     ask_llmnr h3 -I eth0 name
#     ask_resolved h1 query name     # resolvectl's arguments
#     ask_getent h1 ahosts name      # getent's arguments
#     stop_peer PID HOST WHAT        # end one of them, and say so in $TXT
#     stop_buses                     # at the end, before link_down
#
# (resolved is started through "bash peers.sh --resolved NAME FOLDER" inside its namespaces; see resolved_inside.)

declare -A RESOLVED_PID   # host -> process number of its resolved
RESOLVE_UID=993

# A line of time for TXT; record.sh turns it into milliseconds since the first packet.
stamp() { printf '@%s ' "$(date +%s.%N)" >>"$TXT"; }

# Write a remark into TXT.
say() { printf '\n# %s\n' "$*" >>"$TXT"; }

# Leave the folders out of a command line: $R for the packages, . for the scripts.
shorten() { sed "s|$R|\$R|g; s|$HERE|.|g"; }

# Run a command in a host, writing the command, its output and its exit status into TXT.
run_in() {
    local host=$1 status
    shift
    stamp
    echo "$host\$ $*" | shorten >>"$TXT"
    in_host "$host" "$@" >>"$TXT" 2>&1 </dev/null
    status=$?
    echo "(exit status $status)" >>"$TXT"
    return 0
}

# Start a program in the background and write its command into TXT: note_start HOST LOG COMMAND...
note_start() {
    local host=$1
    stamp
    echo "$host\$ ${*:3} &" | shorten >>"$TXT"
    start_in "$@"
}

# Start llmnrd: start_llmnrd HOST NAME [more arguments]
start_llmnrd() {
    local host=$1 name=$2
    shift 2
    note_start "$host" "$WORK/llmnrd-$host-$name.log" "$R/usr/sbin/llmnrd" -H "$name" "$@"
    sleep 0.5
}

# As start_llmnrd, under strace, to see later (trace_of) what became of its sockets.
start_llmnrd_traced() {
    local host=$1 name=$2
    shift 2
    note_start "$host" "$WORK/trace-$host-$name" strace -tt -e trace=bind,setsockopt "$R/usr/sbin/llmnrd" -H "$name" "$@"
    sleep 0.5
}

# What an llmnrd under strace did with its sockets and printed, but for the datagrams: trace_of HOST NAME
trace_of() {
    echo "llmnrd in $1, its socket options, binds and own words (strace):" >>"$TXT"
    grep -aE 'REUSE|bind\(.*5355|^[^0-9]|exited|killed' "$WORK/trace-$1-$2" | cut -d' ' -f2- | sed 's/^/    /' >>"$TXT"
    return 0
}

# Start scripted.py and wait until its sockets are bound: start_scripted HOST arguments...
start_scripted() {
    local host=$1
    shift
    note_start "$host" "$WORK/scripted-$host.log" python3 "$HERE/scripted.py" "$@"
    local i
    for i in $(seq 50); do
        grep -q '^ready' "$WORK/scripted-$host.log" && break
        sleep 0.1
    done
    sleep 0.3
}

# Start resolved with a host name; more words are lines for resolved.conf: start_resolved HOST NAME [Cache=yes]
start_resolved() {
    local host=$1 name=$2 dir="$WORK/resolved-$1-$2"
    shift 2
    resolved_files "$dir" "$@"
    stamp
    echo "$host\$ \$R/lib/systemd/systemd-resolved &   # host name $name ${*:+; $*}" >>"$TXT"
    start_in "$host" "$dir/log" unshare -m -u env R="$R" bash "$HERE/peers.sh" --resolved "$name" "$dir"
    RESOLVED_PID[$host]=$STARTED
}

# Wait until resolved has passed its start and its uniqueness check.
resolved_ready() { sleep 3; }

# The name that a resolved took after a conflict; its host name when there was none: name_of HOST NAME
name_of() {
    local new
    new=$(sed -n "s/.*changing published hostname from .* to '\(.*\)'.*/\1/p" "$WORK/resolved-$1-$2/log" | tail -1)
    echo "${new:-$2}"
}

# The files resolved needs, in a folder of their own.
resolved_files() {
    local dir=$1 user="systemd-resolve:x:$RESOLVE_UID:$RESOLVE_UID"
    shift
    mkdir -p "$dir/systemd"
    { grep -v '^systemd-resolve:' /etc/passwd; echo "$user::/:/usr/sbin/nologin"; } >"$dir/passwd"
    { grep -v '^systemd-resolve:' /etc/group; echo "systemd-resolve:x:$RESOLVE_UID:"; } >"$dir/group"
    : >"$dir/resolv.conf"
    printf '%s\n' '[Resolve]' DNS= FallbackDNS= MulticastDNS=no LLMNR=yes DNSStubListener=no DNSSEC=no \
        Cache=no ReadEtcHosts=no "$@" >"$dir/systemd/resolved.conf"
    cat >"$dir/bus.conf" <<'EOF'
<!DOCTYPE busconfig PUBLIC "-//freedesktop//DTD D-Bus Bus Configuration 1.0//EN"
 "http://www.freedesktop.org/standards/dbus/1.0/busconfig.dtd">
<busconfig>
  <type>system</type>
  <listen>unix:path=/run/dbus/system_bus_socket</listen>
  <auth>EXTERNAL</auth>
  <policy context="default">
    <allow user="*"/> <allow own="*"/> <allow send_destination="*"/> <allow receive_sender="*"/>
  </policy>
</busconfig>
EOF
}

# Inside the namespaces of one resolved: mounts, host name, bus; then become resolved.
resolved_inside() {
    local name=$1 dir=$2
    mount --make-rprivate /
    hostname "$name"
    mount --bind "$dir/passwd" /etc/passwd
    mount --bind "$dir/group" /etc/group
    mount --bind "$dir/systemd" /etc/systemd
    mount --bind "$dir/resolv.conf" /etc/resolv.conf
    mount -t tmpfs tmpfs /run
    mkdir -p /run/dbus /run/systemd/resolve /run/systemd/netif/links
    chown "$RESOLVE_UID:$RESOLVE_UID" /run/systemd/resolve
    dbus-daemon --nofork --nopidfile --config-file="$dir/bus.conf" >"$dir/bus.log" 2>&1 &
    echo $! >"$dir/bus.pid"
    while [ ! -S /run/dbus/system_bus_socket ]; do sleep 0.05; done
    export DBUS_SYSTEM_BUS_ADDRESS=unix:path=/run/dbus/system_bus_socket
    export SYSTEMD_LOG_LEVEL="${RESOLVED_LOG:-debug}" SYSTEMD_LOG_TARGET=console
    exec "$R/lib/systemd/systemd-resolved"
}

# Ask by llmnr-query in a host.
ask_llmnr() {
    local host=$1
    shift
    run_in "$host" "$R/usr/bin/llmnr-query" "$@"
}

# Ask by resolvectl, which talks to the resolved of that host.
ask_resolved() {
    local host=$1 status
    shift
    stamp
    echo "$host\$ \$R/usr/bin/resolvectl $*" >>"$TXT"
    nsenter -t "${RESOLVED_PID[$host]}" -m -u -n env DBUS_SYSTEM_BUS_ADDRESS=unix:path=/run/dbus/system_bus_socket \
        SYSTEMD_COLORS=0 "$R/usr/bin/resolvectl" --no-pager "$@" >>"$TXT" 2>&1 </dev/null
    status=$?
    echo "(exit status $status)" >>"$TXT"
    return 0
}

# libnss-resolve, by which ordinary programs ask resolved, if R has it and it can be loaded here.
nss_resolve() {
    find "${R:-/nowhere}/" -name libnss_resolve.so.2 -exec python3 -c 'import ctypes, sys; ctypes.CDLL(sys.argv[1])' {} \; -print \
        2>/dev/null | head -n 1
}

# Ask by getent, as an ordinary program does: the system's library finds hosts through libnss-resolve and the resolved of that host. The
# nsswitch.conf that says so is seen by this getent alone.
ask_getent() {
    local host=$1 status
    shift
    echo 'hosts: resolve' >"$WORK/nsswitch.conf"
    stamp
    echo "$host\$ getent $*" >>"$TXT"
    nsenter -t "${RESOLVED_PID[$host]}" -m -u -n unshare -m bash -c \
        'mount --bind "$0" /etc/nsswitch.conf && LD_LIBRARY_PATH=$1 exec getent "${@:2}"' \
        "$WORK/nsswitch.conf" "$(dirname "$(nss_resolve)")" "$@" >>"$TXT" 2>&1 </dev/null
    status=$?
    echo "(exit status $status)" >>"$TXT"
    return 0
}

# Lines of resolved's own log that match a pattern, into TXT: resolved_log HOST NAME PATTERN
resolved_log() {
    echo "from the log of resolved in $1 (lines with: $3):" >>"$TXT"
    grep -aE "$3" "$WORK/resolved-$1-$2/log" | sed 's/^/    /' >>"$TXT"
    return 0
}

# End the message buses that were started for resolved.
stop_buses() {
    local file
    for file in "$WORK"/resolved-*/bus.pid; do
        [ -f "$file" ] && kill "$(cat "$file")" && rm -f "$file"
    done 2>/dev/null
    return 0
}

# End a peer and say so: stop_peer PID HOST WHAT
stop_peer() {
    stamp
    echo "$2: $3 is ended" >>"$TXT"
    stop_one "$1"
}

if [ "${1:-}" = --resolved ]; then
    resolved_inside "$2" "$3"
fi
