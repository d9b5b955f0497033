#!/usr/bin/env bash
# Measures now, and prints the tables of docs/PERFORMANCE.md in Markdown, ready to be pasted.
# usage: tables.sh [PART ..]        parts: machine times instructions growth sizes, which are all if none is named; and socket
#   growth also draws growth.svg; instructions needs valgrind; socket is ../live/cpu.sh, needs root, and takes more than four minutes
set -euo pipefail
cd "$(dirname "$0")"

# Two spaces or more stand between the columns of a table; lines without them are text.
markdown() {
    sed 's/\t/  /g; s/ *$//' | awk -F '  +' '
        NF < 2 { if (rows > 0 && $0 != "") print ""; print; rows = 0; text = $0; next }
        { line = "|"; rule = "|"
          for (k = 1; k <= NF; k++) { line = line " " $k " |"; rule = rule (k == 1 ? "---|" : "---:|") }
          if (rows == 0 && text != "") print ""
          print line
          if (rows++ == 0) print rule }'
    echo
}

part_machine() {
    echo 'machine   what it says'
    lscpu | sed -n 's/^\(Model name\|CPU family\|Model\|CPU(s)\|L1d cache\|L2 cache\|L3 cache\|Hypervisor vendor\): */\1   /p'
    echo "Linux   $(uname -r)"
    echo "gcc   $("${CC:-gcc}" -dumpfullversion)"
    echo "rustc   $(rustc --version | cut -d' ' -f2)"
    echo "load average of the last minute, before   $(cut -d' ' -f1 /proc/loadavg)"
}

part_times() { cargo run --release --quiet; }
part_instructions() { ./instructions.sh; }
part_growth() { cargo run --release --quiet -- --plot growth.svg | sed '/^ .*[0-9]$/s/$/   growth/'; }
part_sizes() { ./sizes.sh | sed '/(TOTALS)/d; s/ (ex .*)//; s/^ *text/  code/'; }
part_socket() { ../live/cpu.sh --seconds 60 | tail -n +2; }

[ $# -gt 0 ] || set -- machine times instructions growth sizes
for part; do
    declare -F "part_$part" >/dev/null || { echo "tables.sh: no part $part" >&2; exit 2; }
done
for part; do
    printf '### %s\n\n' "$part"
    "part_$part" | markdown
done
