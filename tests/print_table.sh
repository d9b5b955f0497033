#!/usr/bin/env bash
# Runs the table printer on cases and compares what it prints with what the rules T say. Tables are written
# in hexadecimal.
# The last line counts the cases; the exit status is 0 only if there were some and all passed.
set -u
program=${1:-crates/print_table/out/print_table}
passed=0
failed=0

octets() { printf "$(printf %s "$1" | sed 's/../\\x&/g')"; }
print() { octets "$1" | "$program"; }

# check LABEL TABLE EXPECTED: the lines of EXPECTED are separated by a vertical bar
check() {
    local got
    got=$(print "$2" | tr '\n' '|')
    if [ "$got" = "$3|" ]; then
        passed=$((passed + 1))
    else
        failed=$((failed + 1))
        printf 'print_table: %s: printed %s, not %s|\n' "$1" "$got" "$3"
    fi
}

le() { printf '%02x%02x' $(($1 % 256)) $(($1 / 256)); }
repeat() { for ((i = 0; i < $2; i++)); do printf %s "$1"; done; }
# entry KIND BODY: with its length
entry() { printf '%s%s%s' "$(le $((4 + ${#2} / 2)))" "$(le "$1")" "$2"; }
label() { printf '%02x' ${#1} && printf %s "$1" | od -An -v -tx1 | tr -d ' \n'; }
name() { for l in "$@"; do label "$l"; done && printf 00; }
unique() { entry 1 "$(name "$@")"; }
shared() { entry 2 "$(name "$@")"; }
a=$(entry 3 c0000211)
aaaa=$(entry 4 "$(repeat 20 16)")
ptr=$(entry 5 "$(name host plant)")
mask() { entry 6 "$1"; }
s=$(unique scale3)$a

check 'the empty table' '' 'names 0'
check 'table S' "$s" 'names 1|0 unique 8 1'
check 'S less its last octet' "${s%??}" 'refused 2 at 12'
check 'S twice' "$s$s" 'refused 2 at 20'
check 'two names, all kinds of records' "$(unique scale3)$a$aaaa$ptr$(shared all scales)$ptr" \
    'names 2|0 unique 8 3|1 shared 12 1'
check 'a name with no record' "$(unique scale3)" 'names 1|0 unique 8 0'

eight=$(for k in 1 2 3 4 5 6 7 8; do unique "n$k"; done)
check 'eight names' "$eight" \
    'names 8|0 unique 4 0|1 unique 4 0|2 unique 4 0|3 unique 4 0|4 unique 4 0|5 unique 4 0|6 unique 4 0|7 unique 4 0'
check 'a ninth name' "$eight$(unique n9)" 'refused 2 at 64'
full=$(for k in 1 2 3 4 5 6 7 8; do unique "n$k"; repeat "$aaaa" 24; done)
check 'eight names with 24 records each' "$full" \
    'names 8|0 unique 4 24|1 unique 4 24|2 unique 4 24|3 unique 4 24|4 unique 4 24|5 unique 4 24|6 unique 4 24|7 unique 4 24'
check 'a 25th record' "$(unique n1)$(repeat "$a" 25)" "refused 2 at $((8 + 24 * 8))"
check '24 records, and 24 of the next name' "$(unique n1)$(repeat "$a" 24)$(unique n2)$(repeat "$a" 24)" \
    'names 2|0 unique 4 24|1 unique 4 24'

check 'a record before any name' "$a$(unique n1)" 'refused 2 at 0'
check 'kind 0' "$s$(entry 0 00)" 'refused 2 at 20'
check 'kind 7' "$s$(entry 7 01)" 'refused 2 at 20'
check 'kind 262' "$s$(entry 262 01)" 'refused 2 at 20'
check 'kind 257' "$s$(entry 257 "$(name n2)")" 'refused 2 at 20'
check 'length 3' "${s}030001" 'refused 2 at 20'
check 'length 0' "${s}00000100" 'refused 2 at 20'
check 'length 3 with four octets' "${s}03000100" 'refused 2 at 20'
check 'length one past the end' "$(unique n1)09000300c00002ff" 'refused 2 at 8'
check 'three octets left' "${s}080003" 'refused 2 at 20'
check 'one octet left' "${s}08" 'refused 2 at 20'
check 'an A record of 3 octets' "$(unique n1)$(entry 3 c00002)" 'refused 2 at 8'
check 'an A record of 5 octets' "$(unique n1)$(entry 3 c000021100)" 'refused 2 at 8'
check 'an AAAA record of 15 octets' "$(unique n1)$(entry 4 "$(repeat 20 15)")" 'refused 2 at 8'
check 'an AAAA record of 17 octets' "$(unique n1)$(entry 4 "$(repeat 20 17)")" 'refused 2 at 8'

# masks, kind 6: from 1 to 15, one octet, after a name; they are no records and are not printed
check 'a mask of 1' "$(unique scale3)$(mask 01)$a" 'names 1|0 unique 8 1'
check 'a mask of 15' "$(unique scale3)$(mask 0f)$a" 'names 1|0 unique 8 1'
check 'a mask of 0' "$s$(mask 00)" 'refused 2 at 20'
check 'a mask of 16' "$s$(mask 10)" 'refused 2 at 20'
check 'a mask of 17' "$s$(mask 11)" 'refused 2 at 20'
check 'a mask of 255' "$s$(mask ff)" 'refused 2 at 20'
check 'a mask with no octet' "$s$(mask '')" 'refused 2 at 20'
check 'a mask of two octets' "$s$(mask 0100)" 'refused 2 at 20'
check 'a mask before any name' "$(mask 01)$s" 'refused 2 at 0'
check 'a bad mask after a good one' "$(unique scale3)$(mask 01)$(mask 00)$a" 'refused 2 at 17'
check 'a mask with no record' "$(unique scale3)$(mask 01)" 'names 1|0 unique 8 0'
check 'a mask at the end' "$s$(mask 01)" 'names 1|0 unique 8 1'
check 'masks in a row, before records and before the next name' \
    "$(unique scale3)$(mask 01)$(mask 02)$a$(mask 04)$(shared all)$(mask 08)$a$ptr" 'names 2|0 unique 8 1|1 shared 5 2'
check '24 records with masks between' "$(unique n1)$(repeat "$(mask 03)$a" 24)$(mask 0c)" 'names 1|0 unique 4 24'
check '100 masks and 24 records' "$(unique n1)$(repeat "$(mask 03)" 100)$(repeat "$a" 24)" 'names 1|0 unique 4 24'
check 'a 25th record with masks between' "$(unique n1)$(repeat "$(mask 03)$a" 25)" "refused 2 at $((8 + 24 * 13 + 5))"
check 'eight names with a mask each' "$(for k in 1 2 3 4 5 6 7 8; do unique "n$k"; mask 01; done)" \
    'names 8|0 unique 4 0|1 unique 4 0|2 unique 4 0|3 unique 4 0|4 unique 4 0|5 unique 4 0|6 unique 4 0|7 unique 4 0'

check 'the root as a unique name' "$(entry 1 00)" 'refused 2 at 0'
check 'the root as a shared name' "$(entry 2 00)" 'refused 2 at 0'
check 'the root as the target of a PTR' "$(unique n1)$(entry 5 00)" 'names 1|0 unique 4 1'
check 'a PTR with no octets' "$(unique n1)$(entry 5 '')" 'refused 2 at 8'
check 'a name with no octets' "$(entry 1 '')" 'refused 2 at 0'
check 'a name that leaves an octet over' "$(entry 1 "$(name n1)00")" 'refused 2 at 0'
check 'a name that is cut short' "$(entry 1 036e31)" 'refused 2 at 0'
check 'a name without its zero octet' "$(entry 1 026e31)" 'refused 2 at 0'
check 'a pointer in a name' "$(entry 1 c000)" 'refused 2 at 0'
check 'a label of 63 octets' "$(unique "$(repeat x 63)")" 'names 1|0 unique 65 0'
check 'a label of 64 octets' "$(unique "$(repeat x 64)")" 'refused 2 at 0'
check 'a length octet of 191' "$(unique "$(repeat x 191)")" 'refused 2 at 0'
ones=$(repeat 0178 126)
check 'a name of 255 octets' "$(entry 1 "${ones}017800")" 'names 1|0 unique 255 0'
check 'a name of 256 octets' "$(entry 1 "${ones}02787800")" 'refused 2 at 0'

check 'an equal name' "$(unique scale3)$(unique scale3)" 'refused 2 at 12'
check 'an equal name in capitals, of the other kind' "$(unique scale3)$(shared SCALE3)" 'refused 2 at 12'
check '@ and the back-quote' "$(unique @)$(unique \`)" 'names 2|0 unique 3 0|1 unique 3 0'
check '[ and the brace' "$(unique [)$(unique {)" 'names 2|0 unique 3 0|1 unique 3 0'
check 'octets above 127' "$(entry 1 01c400)$(entry 1 01e400)" 'names 2|0 unique 3 0|1 unique 3 0'
check 'one name at the start of another' "$(unique scale)$(unique scale3)" 'names 2|0 unique 7 0|1 unique 8 0'
check 'the same octets in other labels' "$(unique ab c)$(unique a bc)" 'names 2|0 unique 6 0|1 unique 6 0'
check 'the eighth name equals the first' "${eight%"$(unique n8)"}$(shared N1)" 'refused 2 at 56'

# 4,096 octets: the last record is a PTR with a name that fills what is left
long=$(for k in 1 2 3 4 5 6 7; do unique "n$k"; repeat "$aaaa" 24; done)
rest=$((4096 - ${#long} / 2 - 8 - 22 * 20))
exact=$long$(unique n8)$(repeat "$aaaa" 22)
long_label=$(label "$(repeat y 63)")
last=$(entry 5 "$(repeat "$long_label" 3)$(label "$(repeat y $((rest - 4 - 3 * 64 - 2)))")00")
check 'a table of 4,096 octets' "$exact$last" \
    'names 8|0 unique 4 24|1 unique 4 24|2 unique 4 24|3 unique 4 24|4 unique 4 24|5 unique 4 24|6 unique 4 24|7 unique 4 23'
check 'a table of 4,097 octets' "$exact${last}00" 'refused 2 at 4096'
check 'a long table whose first entry is bad' "$(repeat 00 4200)" 'refused 2 at 4096'
check 'a table of 4,096 zero octets' "$(repeat 00 4096)" 'refused 2 at 0'

# a table cut anywhere: good where an entry ends, else refused where the last whole entry ends
table=$(unique scale3)$a$aaaa$ptr$(shared all)$ptr$(mask 02)$a
lines=('names 0' 'names 1|0 unique 8 0' 'names 1|0 unique 8 1' 'names 1|0 unique 8 2' 'names 1|0 unique 8 3'
    'names 2|0 unique 8 3|1 shared 5 0' 'names 2|0 unique 8 3|1 shared 5 1' 'names 2|0 unique 8 3|1 shared 5 1'
    'names 2|0 unique 8 3|1 shared 5 2')
ends=(0 12 20 40 56 65 81 86 94)
for ((cut = 0; 2 * cut <= ${#table}; cut++)); do
    k=0
    for j in "${!ends[@]}"; do [ "${ends[$j]}" -le "$cut" ] && k=$j; done
    if [ "${ends[$k]}" -eq "$cut" ]; then want=${lines[$k]}; else want="refused 2 at ${ends[$k]}"; fi
    check "cut at $cut" "${table:0:2*cut}" "$want"
done

# any octets give a definite answer
RANDOM=4795
for ((k = 0; k < 120; k++)); do
    text=$s
    for ((j = RANDOM % 300; j > 0; j--)); do text+=$(printf %02x $((RANDOM % 7))); done
    case $(print "$text" | head -n 1) in
    'names '[0-9]* | 'refused 2 at '[0-9]*) passed=$((passed + 1)) ;;
    *) failed=$((failed + 1)) && printf 'print_table: no answer to %s\n' "$text" ;;
    esac
done

printf 'print_table: %d cases as the rules say, %d not\n' "$passed" "$failed"
[ "$passed" -gt 0 ] && [ "$failed" -eq 0 ]
