#!/bin/bash
# record.sh - record LLMNR traffic of systemd-resolved, llmnrd and llmnr-query on a link made by link.sh.
#
# Run as root:   R=/folder/of/unpacked/debs live/record.sh NAME [NAME ...]     (live/record.sh with no name lists them)
#
# Writes NAME.jsonl (the packets, see to_jsonl.py) and NAME.txt (each command with the time in milliseconds since the
# first packet of the capture, what it printed, its exit status) into target/captures, or into $OUT. captures/ has some
# of them as they once were recorded.
# Needs: bash, iproute2, util-linux, procps, tcpdump, dbus-daemon, Python 3, for 23 to 23c strace; in $R systemd-resolved
# and llmnrd, unpacked by dpkg -x. The recordings themselves are the functions of recordings_ask.sh and
# recordings_name.sh, named rec_NAME with _ for -.

HERE=$(cd "$(dirname "$0")" && pwd)
. "$HERE/link.sh"
. "$HERE/peers.sh"
. "$HERE/recordings_ask.sh"
. "$HERE/recordings_name.sh"

# With no name: the names there are.
list_names() { declare -F | sed -n 's/^declare -f rec_//p' | tr _ -; }

# Open the text file of a recording: begin NAME TITLE
begin() {
    NAME=$1
    TXT="$OUT/$NAME.txt"
    printf '%s: %s\n' "$NAME" "$2" >"$TXT"
    printf 'Times are milliseconds since the first packet of %s.jsonl. R is the folder of the unpacked packages.\n' \
        "$NAME" >>"$TXT"
}

# Start the capture; with a host also its lo: capture_begin [HOST]
capture_begin() {
    capture_start "$WORK/$NAME.pcap" "${1:-}"
    say "capture starts: tcpdump --immediate-mode -i br0 -U -n -s0 -w F '$CAPTURE_FILTER' ${1:+(and on lo of $1)}"
}

# End the capture, write the jsonl, turn the times of the text file into milliseconds.
finish() {
    capture_stop
    python3 "$HERE/to_jsonl.py" "${CAPTURE_FILES[@]}" >"$OUT/$NAME.jsonl" 2>"$WORK/first"
    awk -v first="$(cat "$WORK/first")" '
        /^@[0-9.]+ / { at = substr($1, 2); sub(/^@[0-9.]+ /, "")
                       if (first == "") printf "\n%s\n", $0
                       else printf "\n[%+.0f ms] %s\n", (at - first) * 1000, $0
                       next }
        { print }' "$TXT" >"$WORK/txt"
    cat "$WORK/txt" >"$TXT"
    echo "$NAME: $(wc -l <"$OUT/$NAME.jsonl") packets"
}

# What the scripted responder in a host printed, into TXT.
scripted_log() {
    echo "scripted.py in $1 printed:" >>"$TXT"
    sed '/^ready/d; s/^/    /' "$WORK/scripted-$1.log" >>"$TXT"
}

# One recording on a link of its own: record_one NAME
record_one() {
    local name=$1
    link_up 3
    "rec_$(echo "$name" | tr - _)" "$name"
    stop_buses
    link_down
}

if [ $# = 0 ]; then
    list_names
    exit 0
fi
[ -x "${R:-}/lib/systemd/systemd-resolved" ] || { echo "record.sh: set R to the folder of the unpacked packages" >&2; exit 1; }
R=$(cd "$R" && pwd)
export R
OUT=${OUT:-$HERE/../target/captures}
mkdir -p "$OUT"
link_enter "$@"
mount -t tmpfs tmpfs /mnt   # scratch space that goes away with the namespace
WORK=/mnt
for one in "$@"; do
    declare -F "rec_$(echo "$one" | tr - _)" >/dev/null || { echo "record.sh: no recording $one" >&2; exit 1; }
    record_one "$one"
done
