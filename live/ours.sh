# ours.sh - our programs on the link of link.sh: start indicators, and see what they say of their names.
#
# Not run by itself; a script sources it after link.sh:
#     find_programs                  # first of all; sets PROGRAMS, the folder of indicator, ask and make_table
#     WORK=/tmp/folder               # tables and logs go here: $WORK/HOST.table, $WORK/HOST.log
#     own h2 scale3                  # an indicator in h2 that has verified a name
#     make_name h2 unique scale3 shared printers ; start_indicator h2 --interval 100 ; settled h2 scale3
#     state h2 scale3 eth0/IPv4      # verifying, unique, defending, stopped, shared, or - if nothing was said
#     states h2 scale3               # of both families: unique/unique
# The process number of the indicator in h2 is then in $PID_h2.

# The folder of our programs: $PROGRAMS, or else target/programs.
find_programs() {
    local folder=${PROGRAMS:-$HERE/../target/programs}
    [ -x "$folder/indicator" ] || { echo "$0: no indicator in $folder: run programs/build.sh, or set PROGRAMS" >&2; exit 1; }
    PROGRAMS=$(cd "$folder" && pwd)
    export PROGRAMS
}

# make_name HOST KIND NAME ..: the table file of a host, with its addresses for each name; the file is $WORK/HOST.table
make_name() {
    local host=$1 n=${1#h}
    shift
    : >"$WORK/$host.txt"
    while [ $# -gt 0 ]; do
        printf '%s %s\n    A 169.254.77.%s\n    AAAA fe80::ff:fe00:%s\n' "$1" "$2" "$n" "$n" >>"$WORK/$host.txt"
        shift 2
    done
    "$PROGRAMS/make_table" "$WORK/$host.txt" >"$WORK/$host.table"
}

# start_indicator HOST [OPTION ..]: with the table of make_name, on eth0 or on $PORTS. Its log is $WORK/HOST.log
start_indicator() {
    local host=$1
    shift
    start_in "$host" "$WORK/$host.log" "$PROGRAMS/indicator" "$@" "$WORK/$host.table" ${PORTS:-eth0}
    declare -g "PID_$host=$STARTED"
}

# own HOST NAME [OPTION ..]: an indicator that has a unique name, up to the moment at which it owns it
own() {
    make_name "$1" unique "$2"
    start_indicator "$1" --interval 100 "${@:3}"
    settled "$1" "$2"
}

# What an indicator last said of a name on a port: state HOST NAME PORT/FAMILY
state() {
    awk -v name="$2" -v port="$3" '$2 == name && $3 == port { sub(",", "", $4); s = $4 } END { print s == "" ? "-" : s }' "$WORK/$1.log"
}

# Both families: unique/unique, and so on.
states() { echo "$(state "$1" "$2" "${3:-eth0}/IPv4")/$(state "$1" "$2" "${3:-eth0}/IPv6")"; }

# Waits until an indicator neither verifies nor defends a name: settled HOST NAME [SECONDS]
settled() {
    local k
    for k in $(seq $((10 * ${3:-6}))); do
        sleep 0.1
        case $(states "$1" "$2") in *verifying* | *defending* | *-*) ;; *) return ;; esac
    done
}

kill_9() {
    kill -9 "$1"
    wait "$1" 2>/dev/null
}
