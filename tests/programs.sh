#!/usr/bin/env bash
# Builds indicator, ask and make_table with warnings as errors, and runs what needs no network: texts and tables, good and bad ones, with
# the message and the exit status of each; tables that are made into texts and back; the usage of all three.
# usage: tests/programs.sh     PROGRAMS=folder of programs that are built already
# The last line counts the cases; the exit status is 0 only if there were some and all passed.
set -u
root=$(cd "$(dirname "$0")/.." && pwd)
work=$(mktemp -d)
trap 'rm -rf "$work"' EXIT
passed=0
failed=0
export LC_ALL=C

built='built before'
if [ -z "${PROGRAMS:-}" ]; then
    built='built without a warning'
    PROGRAMS=$root/target/programs
    "$root/programs/build.sh" >"$work/build" 2>&1 || { cat "$work/build"; echo 'programs: not built'; exit 1; }
fi
PATH=$PROGRAMS:$PATH

octets() { printf "$(printf %s "$1" | sed 's/../\\x&/g')"; }
hex() { od -An -v -tx1 "$@" | tr -d ' \n'; }
repeat() { for ((i = 0; i < $2; i++)); do printf %s "$1"; done; }

# judge LABEL GOT WANTED
judge() {
    if [ "$2" = "$3" ]; then
        passed=$((passed + 1))
    else
        failed=$((failed + 1))
        printf 'programs: %s: %s, not %s\n' "$1" "$2" "$3"
    fi
}

# good LABEL TEXT TABLE: the text gives the table, in hexadecimal; the table's text gives it again
good() {
    printf '%b' "$2" >"$work/text"
    make_table "$work/text" >"$work/table" 2>"$work/said"
    judge "$1" "$? $(hex "$work/table")$(cat "$work/said")" "0 $3"
    round "$1, and back" "$work/table"
}

# round LABEL FILE: a table is the same after it was made into a text and back
round() {
    make_table --back "$2" >"$work/back" && make_table "$work/back" >"$work/again"
    judge "$1" "$(hex "$work/again")" "$(hex "$2")"
}

# bad LABEL TEXT MESSAGE: exit status 4, no table, and the message
bad() {
    printf '%b' "$2" >"$work/text"
    make_table "$work/text" >"$work/table" 2>"$work/said"
    judge "$1" "$? $(hex "$work/table")$(cat "$work/said")" "4 make_table: $3"
}

# bad_table LABEL TABLE MESSAGE: of --back and of indicator, which read tables alike
bad_table() {
    octets "$2" >"$work/table"
    make_table --back "$work/table" >"$work/back" 2>"$work/said"
    judge "$1" "$? $(cat "$work/back" "$work/said")" "4 make_table: $work/table: $3"
    indicator "$work/table" none.0 >"$work/back" 2>"$work/said"
    judge "$1, indicator" "$? $(cat "$work/back" "$work/said")" "4 indicator: $work/table: $3"
}

# ends STATUS MESSAGE COMMAND ..: the exit status and what is said on standard error
ends() {
    local status=$1 message=$2
    shift 2
    "$@" >"$work/out" 2>"$work/said" </dev/null
    judge "$*" "$? $(cat "$work/said")" "$status $message"
}

# helps PROGRAM: --help prints its usage
helps() {
    "$1" --help >"$work/out" 2>"$work/said"
    judge "$1 --help" "$? $(head -n 1 "$work/out" | cut -d ' ' -f 1,2)$(cat "$work/said")" "0 usage: $1"
}

# ---- good texts ----

s=0c000100067363616c65330008000300c0000211
good 'table S' 'unique scale3\nA 192.0.2.17\n' "$s"
good 'no line' '' ''
good 'comments and space' '# first\n\n  unique\tscale3 # one\n\t A  192.0.2.17   #two\r\n#end' "$s"
good 'Windows ends of lines' 'unique scale3\r\nA 192.0.2.17\r\n' "$s"
good 'no end of the last line' 'unique scale3\nA 192.0.2.17' "$s"
good 'all kinds' 'unique scale3\nAAAA 2001:db8::17\nshared all.scales\nPTR scale3\nPTR .\n' \
    0c000100067363616c6533001400040020010db80000000000000000000000171000020003616c6c067363616c6573000c000500067363616c6533000500050000
good 'octets by number' 'unique a\\046b\\092\\000\\255\n' 0c00010006612e625c00ff00
good 'a # within a word' 'unique a#b\n' 090001000361236200
good 'UTF-8 as it stands' 'unique s\xc3\xbcd\n' 0a0001000473c3bc6400
label=$(repeat x 63)
good 'a label of 63 octets' "shared $label\n" "45000200$(printf 3f)$(repeat 78 63)00"
good 'a name of 255 octets' "unique $(repeat x. 126)x\n" "03010100$(repeat 0178 127)00"
good 'a name of 255 octets by number' "unique $(repeat '\\001.' 126)\\\\001\n" "03010100$(repeat 0101 127)00"
good 'names that differ in @ and `' 'unique @\nunique `\n' 0700010001400007000100016000
eight=$(for k in 1 2 3 4 5 6 7 8; do printf 'unique n%s\n' "$k"; repeat 'AAAA ::1\n' 24; done)
printf '%b' "$eight" >"$work/text"
make_table "$work/text" >"$work/eight"
judge '8 names with 24 records' "$? $(wc -c <"$work/eight" | tr -d ' ')" "0 $((8 * 8 + 8 * 24 * 20))"
round '8 names with 24 records, and back' "$work/eight"
exact="${eight%AAAA*}PTR $(repeat "$label." 3)$(repeat x $((4096 - 8 * 8 - 191 * 20 - 4 - 3 * 64 - 2)))"
printf '%b' "$exact\n" >"$work/text"
make_table "$work/text" >"$work/table"
judge '4,096 octets' "$? $(wc -c <"$work/table" | tr -d ' ')" '0 4096'
round '4,096 octets, and back' "$work/table"

# masks: on which interfaces the records below serve
name=0c000100067363616c653300
hall=08000300c0000211
office=08000300c6336411
aaaa=1400040020010db8000000000000000000000017
good 'two ports' 'unique scale3\nAAAA 2001:db8::17\non 0\nA 192.0.2.17\non 1\nA 198.51.100.17\n' \
    "$name${aaaa}0500060001${hall}0500060002$office"
make_table --back "$work/table" >"$work/back"
judge 'two ports, as a text' "$(cat "$work/back")" \
    "$(printf '%s\n' 'unique scale3' '    AAAA 2001:db8::17' '    on 0' '    A 192.0.2.17' '    on 1' '    A 198.51.100.17')"
good 'masks with no record, two in a row, and at the end' 'unique a\non 0\nshared b\non 1\non 0,2 # mask 5\nA 192.0.2.17\non 3\n' \
    "0700010001610005000600010700020001620005000600020500060005${hall}0500060008"
masks=(0 1 0,1 2 0,2 1,2 0,1,2 3 0,3 1,3 0,1,3 2,3 0,2,3 1,2,3 0,1,2,3)
for k in "${!masks[@]}"; do
    good "on ${masks[k]}" "unique scale3\non ${masks[k]}\nA 192.0.2.17\n" "${name}05000600$(printf %02x $((k + 1)))$hall"
    make_table --back "$work/table" >"$work/back"
    judge "on ${masks[k]}, as a text" "$(sed -n 2p "$work/back")" "    on ${masks[k]}"
done
good '24 records with masks between' "unique scale3\n$(repeat 'on 1\nA 192.0.2.17\n' 24)on 0\non 1\n" \
    "$name$(repeat "0500060002$hall" 24)05000600010500060002"

# every octet in a label, and random labels
all=$(for ((k = 0; k < 256; k++)); do printf %02x "$k"; done)
for ((k = 0; k < 5; k++)); do
    body=$(printf %s "${all:126*k:126}" | sed 's/$/00/')
    body=$(printf %02x $(((${#body} - 2) / 2)))$body
    octets "$(printf %02x $((4 + ${#body} / 2)))000200$body" >"$work/table"
    round "octets from $((63 * k)) on" "$work/table"
done
RANDOM=4795
for ((k = 0; k < 60; k++)); do
    body=
    for ((j = RANDOM % 4; j >= 0; j--)); do
        len=$((1 + RANDOM % 20))
        body+=$(printf %02x "$len")
        for ((i = 0; i < len; i++)); do body+=$(printf %02x $((RANDOM % 256))); done
    done
    octets "$(printf %02x $((5 + ${#body} / 2)))000100${body}00" >"$work/table"
    round "random labels $k" "$work/table"
done

# ---- bad texts ----

bad 'not a kind' 'unique a\nCNAME b\n' 'line 2: not understood: CNAME (unique, shared, A, AAAA, PTR or on)'
bad 'a kind in other letters' 'Unique a\n' 'line 1: not understood: Unique (unique, shared, A, AAAA, PTR or on)'
bad 'nothing after the kind' '\n\nunique # none\n' 'line 3: a word is missing after unique'
bad 'a word too many' 'unique a b\n' 'line 1: one word too many: b'
bad 'IPv4: no number' 'unique a\nA 192.0.2.x\n' 'line 2: not an IPv4 address: 192.0.2.x'
bad 'IPv4: above 255' 'unique a\nA 192.0.2.256\n' 'line 2: not an IPv4 address: 192.0.2.256'
bad 'IPv4: of the other family' 'unique a\nA ::1\n' 'line 2: not an IPv4 address: ::1'
bad 'IPv6: of the other family' 'unique a\nAAAA 192.0.2.1\n' 'line 2: not an IPv6 address: 192.0.2.1'
bad 'an empty label' 'unique a..b\n' 'line 1: not a name: a..b: an empty label'
bad 'a dot at the end' 'unique a.\n' 'line 1: not a name: a.: an empty label'
bad 'two digits' 'unique a\\04\n' 'line 1: not a name: a\04: a \ needs three digits up to 255 behind it'
bad 'above 255' 'unique a\\256\n' 'line 1: not a name: a\256: a \ needs three digits up to 255 behind it'
bad 'a label of 64 octets' "unique ${label}x\n" "line 1: not a name: ${label}x: a label of more than 63 octets"
long=$(repeat x. 126)xx
bad 'a name of 256 octets' "unique $long\n" "line 1: not a name: $long: a name of more than 255 octets"
bad 'a target of 256 octets' "unique a\nPTR $long\n" "line 2: not a name: $long: a name of more than 255 octets"
bad 'the root' 'unique .\n' 'line 1: the root cannot be a name of the table'
bad 'a record before any name' '# none\nA 192.0.2.17\nunique a\n' 'line 2: a record before any name'
bad 'a name again' 'unique scale3\nA 192.0.2.17\nshared Scale3\n' \
    'line 3: this name is in the table already (capital and small letters count alike)'
bad 'a ninth name' "$(for k in 1 2 3 4 5 6 7 8 9; do printf 'unique n%s\\n' "$k"; done)" 'line 9: a ninth name; a table has at most 8'
bad 'a 25th record' "unique a\n$(repeat 'A 192.0.2.17\n' 25)" 'line 26: a 25th record; a name has at most 24'
bad '4,097 octets' "${exact}x\n" 'line 200: with this line the table has more than 4096 octets'
bad 'on before any name' '# none\non 0\nunique a\n' 'line 2: on stands before any name'
bad 'no interface' 'unique a\non # none\n' 'line 2: a word is missing after on'
bad 'interfaces with space' 'unique a\non 0, 2\n' 'line 2: one word too many: 2'
for mask in 4 0,4 3,9 10 00 01 0x1 -1 x A , ,0 0, 0,,1 '0;1' 01,2 0,1,2,3, 0,1,2,3,4; do
    bad "on $mask" "unique a\nA 192.0.2.17\non $mask\n" \
        "line 3: not interfaces: $mask: numbers from 0 to 3 are needed, with commas between them"
done
for mask in 0,0 1,1 2,0 0,2,1 0,1,2,2 0,3,2 0,1,2,3,3 0,1,2,3,0; do
    bad "on $mask" "unique a\nA 192.0.2.17\non $mask\n" "line 3: not interfaces: $mask: each number has to be above the one before"
done
bad 'a 25th record with masks between' "unique a\n$(repeat 'on 0\nA 192.0.2.17\n' 25)" 'line 51: a 25th record; a name has at most 24'
bad '4,101 octets with a mask' "$exact\non 0\n" 'line 201: with this line the table has more than 4096 octets'
bad 'an octet 0' 'unique a\nA\x00 192.0.2.17\n' 'line 2: an octet 0; is this a text?'
bad 'the first of two' 'unique a\nA x\nA y\n' 'line 2: not an IPv4 address: x'

# ---- bad tables ----

bad_table 'S less its last octet' "${s%??}" 'no good name table: the entry at offset 12 is bad'
bad_table 'S twice' "$s$s" 'no good name table: the entry at offset 20 is bad'
bad_table 'a record first' 08000300c0000211 'no good name table: the entry at offset 0 is bad'
bad_table 'a mask of 0' "${s}0500060000" 'no good name table: the entry at offset 20 is bad'
bad_table 'a mask of 16' "${s}0500060010" 'no good name table: the entry at offset 20 is bad'
bad_table 'a mask of no octet' "${s}04000600" 'no good name table: the entry at offset 20 is bad'
bad_table 'a mask of two octets' "${s}060006000100" 'no good name table: the entry at offset 20 is bad'
bad_table 'a mask first' "0500060001$s" 'no good name table: the entry at offset 0 is bad'
bad_table 'kind 7' "${s}0500070001" 'no good name table: the entry at offset 20 is bad'
bad_table '4,097 octets' "$(repeat 00 4097)" 'more than 4096 octets, so no name table'

# ---- usage and files ----

octets "$s" >"$work/table"
helps indicator
helps ask
helps make_table
usage='make_table TEXT or make_table --back TABLE; --help tells more'
ends 2 "make_table: $usage" make_table
ends 2 "make_table: $usage" make_table --forward x
ends 2 "make_table: $usage" make_table a b
ends 2 "make_table: $usage" make_table --back
ends 3 "make_table: $work/none: No such file or directory" make_table "$work/none"
ends 3 "make_table: $work: Is a directory" make_table "$work"
ends 3 "make_table: $work/none: No such file or directory" make_table --back "$work/none"
ends 3 'make_table: cannot write: No space left on device' sh -c "make_table --back $work/eight >/dev/full"
ends 2 'indicator: a table and a network interface are needed; --help tells more' indicator
ends 2 'indicator: a table and a network interface are needed; --help tells more' indicator "$work/table"
ends 2 'indicator: --interval is 100 or 1000' indicator --interval 250 "$work/table" none.0
ends 2 'indicator: --interval is 100 or 1000' indicator --interval
ends 2 'indicator: --loud: no such option; --help tells more' indicator --loud "$work/table" none.0
ends 3 "indicator: $work/none: No such file or directory" indicator "$work/none" none.0
ends 3 "indicator: $work: Is a directory" indicator "$work" none.0
ends 5 'indicator: none.0: no such network interface' indicator --verbose --interval 100 "$work/table" none.0
ends 2 'ask: a name is needed, and a type may follow; --help tells more' ask
ends 2 'ask: a name is needed, and a type may follow; --help tells more' ask a A b
ends 2 'ask: --interval is 100 or 1000' ask --interval 10 a
ends 2 'ask: -x: no such option, or a word is missing behind it; --help tells more' ask -x a
ends 2 'ask: -i: no such option, or a word is missing behind it; --help tells more' ask -i
ends 2 'ask: a..b: not a name: an empty label' ask -i none.0 a..b
ends 2 'ask: .: the root cannot be asked for' ask -i none.0 .
ends 2 'ask: TXT: not a type; A, AAAA, PTR, ANY or a number' ask -i none.0 a TXT
ends 2 'ask: 65536: not a type; A, AAAA, PTR, ANY or a number' ask -i none.0 a 65536
ends 2 'ask: 1x: not a type; A, AAAA, PTR, ANY or a number' ask -i none.0 a 1x
ends 2 'ask: none.0: no such network interface' ask -i none.0 --interval 1000 a 65535
ends 2 'ask: none.0: no such network interface' ask -i none.0 --several a.b

printf 'programs: %s; %d cases as they should be, %d not\n' "$built" "$passed" "$failed"
[ "$passed" -gt 0 ] && [ "$failed" -eq 0 ]
