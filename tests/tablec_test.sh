#!/bin/sh
# Tests target/bin/tablec: the tables of a folder of examples there and back, and wrong texts with what is said of them.
# Usage: tests/tablec_test.sh EXAMPLES, a folder whose subfolders have a table.txt and the rules.bin it must give.
set -u
if [ $# -ne 1 ] || [ ! -d "$1" ]; then
    echo "usage: tests/tablec_test.sh EXAMPLES" >&2
    exit 2
fi
root=$(cd "$(dirname "$0")/.." && pwd)
examples=$(cd "$1" && pwd)
tablec=$root/target/bin/tablec
if [ ! -x "$tablec" ]; then
    echo "tablec_test.sh: no program $tablec" >&2
    exit 2
fi
work=$(mktemp -d)
trap 'rm -rf "$work"' EXIT
cd "$work" || exit 2
passed=0
failed=0

# A test by its name and the status of its comparison.
count() {
    if [ "$2" -eq 0 ]; then
        passed=$((passed + 1))
    else
        failed=$((failed + 1))
        echo "tablec: failed: $1"
    fi
}

# The text in the file `text` gives the bytes of a file, and nothing is said.
gives() {
    "$tablec" <text >out 2>err
    cmp -s out "$2" && [ ! -s err ]
    count "$1" $?
}

# Table bytes give a text that gives the same bytes.
goes_back() {
    "$tablec" -r <"$2" >text 2>err
    [ ! -s err ]
    count "$1, as text" $?
    gives "$1, there and back" "$2"
}

# Table bytes, a format of printf, give a text, a format too.
prints() {
    # shellcheck disable=SC2059
    printf "$2" >in
    # shellcheck disable=SC2059
    printf "$3" >expected
    "$tablec" -r <in >out 2>err
    cmp -s out expected && [ ! -s err ]
    count "$1" $?
}

# With this argument the file `text` gives no output and one line on standard error.
complains() {
    "$tablec" ${2+"$2"} <text >out 2>err
    printf '%s\n' "$1" >expected
    cmp -s err expected && [ ! -s out ]
    count "$1" $?
}

# Where the device is full, the input in a file gives one line on standard error.
unwritten() {
    "$tablec" ${3+"$3"} <"$2" >/dev/full 2>err
    printf '%s\n' "$1" >expected
    cmp -s err expected
    count "$1" $?
}

# The text, a format of printf, gives a line on standard error and nothing else.
wrong() {
    # shellcheck disable=SC2059
    printf "$2" >text
    complains "$1"
}

# Table bytes, a format of printf, give a line on standard error and nothing else.
refused() {
    # shellcheck disable=SC2059
    printf "$2" >text
    complains "$1" -r
}

# A line for each of the numbers 1 to N: a text with %d in the number's place.
lines() {
    i=1
    while [ "$i" -le "$1" ]; do
        # shellcheck disable=SC2059
        printf "$2\n" "$i"
        i=$((i + 1))
    done
}

# A word of N letters.
letters() {
    awk -v n="$1" 'BEGIN { while (n-- > 0) printf "x" }'
}

some=0
for folder in "$examples"/*/; do
    name=$(basename "$folder")
    if [ -f "$folder/table.txt" ]; then
        some=1
        cp "$folder/table.txt" text
        gives "$name" "$folder/rules.bin"
        goes_back "$name" "$folder/rules.bin"
    fi
done
count "there are examples" $((1 - some))

# Blanks, comments, line ends: table P in other words, then at its widest and longest.
printf '\002\000\001\000\002\000\014\000\016\000\022\000\000\001\000\000\002\001\000\001' >p.bin
printf '\ttray  rent\t leave  \n\n#\n   # x\ntray release waiting#x\nrule pay=x = x\n' >text
complains 'line 6: a name is 1 to 24 letters, digits, - or _'
printf '\ttray  rent\t leave  \n\n#\n   # x\ntray release waiting#x\nrule pay =\trent +  release same\tproperty' >text
gives "blanks and comments" p.bin
printf 'tray a leave\r\n\r\ntray b waiting # x\r\nrule c = a + b same property\r\n' >text
gives "carriage returns" p.bin
printf 'tray same leave\ntray property waiting\nrule tray = same + property same property\n' >text
gives "words of the language as names" p.bin
{ printf 'tray %s leave\ntray %s waiting\n' "$(letters 24)" "$(letters 23)y" &&
    printf 'rule %s = %s + %s same property\n' "$(letters 24)" "$(letters 24)" "$(letters 23)y"; } >text
gives "names of 24" p.bin
{ printf 'tray a leave #%s\n' "$(letters 1010)" && lines 3000 '# %d' &&
    printf 'tray b waiting\nrule c = a + b same property'; } >text
gives "a line of 1024 bytes, and many lines" p.bin

# The wishes: none, `same property`, `same unit`, there and back.
header='\002\000\001\000\002\000\014\000\016\000\022\000\000\001\000\000\002'
trays='tray t0 leave\ntray t1 waiting\n'
prints "no wish" "$header\\000\\000\\001" "${trays}rule r0 = t0 + t1\\n"
prints "same property" "$header\\001\\000\\001" "${trays}rule r0 = t0 + t1 same property\\n"
prints "same unit" "$header\\002\\000\\001" "${trays}rule r0 = t0 + t1 same unit\\n"
# shellcheck disable=SC2059
printf "$header\\002\\000\\001" >unit.bin
goes_back "same unit" unit.bin
printf 'tray a leave\ntray b waiting\nrule c =\ta + b   same\tunit  # same property\r\n' >text
gives "same unit, with blanks and a comment" unit.bin
printf 'tray same leave\ntray unit waiting\nrule property = same + unit same unit' >text
gives "same and unit as names" unit.bin
{ printf '\001\000\004\000\004\000\014\000\015\000\035\000\000' &&
    printf '\000\000\001\002\001\000\001\000\002\000\001\001\003\000\001\002\000\000\000\000'; } >four.bin
printf 'tray a leave\nrule p = a same unit\nrule q = a\nrule r = a same property\nrule s = a same unit\n' >text
gives "four rules with their wishes" four.bin
goes_back "four rules with their wishes" four.bin

printf '\001\000\000\000\000\000\014\000\015\000\015\000\001' >one.bin
printf 'tray a waiting' >text
gives "one tray, no rule" one.bin
goes_back "one tray, no rule" one.bin
{ lines 16 'tray t%d leave' && lines 32 'rule r%d = t1 + t2 + t3 + t4 + t5 + t6 + t7 + t16 same unit'; } >text
"$tablec" <text >full.bin 2>err
[ "$(wc -c <full.bin)" -eq 412 ] && [ ! -s err ]
count "the full table" $?
goes_back "the full table" full.bin

# Wrong texts.
wrong 'the table has no tray' ''
wrong 'the table has no tray' '# tray a leave\n\n'
wrong 'line 1: expected tray or rule, not trey' 'trey a leave\n'
wrong 'line 2: expected tray or rule, not Tray' '\nTray a leave\n'
wrong "$(printf 'line 1: expected tray or rule, not tray\r')" 'tray\r a leave\n'
wrong 'line 1: a name is 1 to 24 letters, digits, - or _' 'tray\n'
wrong 'line 1: a name is 1 to 24 letters, digits, - or _' 'tray a.b leave\n'
wrong 'line 1: a name is 1 to 24 letters, digits, - or _' "tray $(letters 25) leave\\n"
wrong 'line 2: tray receipt is declared already' 'tray receipt leave\ntray receipt waiting\n'
wrong 'line 3: expected leave or waiting' 'tray a leave\n\ntray b\n'
wrong 'line 1: expected leave or waiting' 'tray a leaves\n'
wrong 'line 1: expected the end of the line, not x' 'tray a leave x\n'
wrong 'line 2: a name is 1 to 24 letters, digits, - or _' 'tray a leave\nrule = a\n'
wrong 'line 3: rule r is declared already' 'tray a leave\nrule r = a\nrule r = a\n'
wrong 'line 2: expected =' 'tray a leave\nrule r a\n'
wrong 'line 2: expected =' 'tray a leave\nrule r'
wrong 'line 2: a rule has 1 to 8 trays' 'tray a leave\nrule r =\n'
wrong 'line 2: a rule has 1 to 8 trays' 'tray a leave\nrule r = a + a + a + a + a + a + a + a + a\n'
wrong 'line 2: expected a tray after +' 'tray a leave\nrule r = a + # a\n'
wrong 'line 4: no tray is called recipt' 'tray receipt leave\n\n\nrule r = receipt + recipt\n'
wrong 'line 1: no tray is called a' 'rule r = a\ntray a leave\n'
wrong 'line 2: no tray is called a+a' 'tray a leave\nrule r = a+a\n'
wrong 'line 2: no tray is called same' 'tray a leave\nrule r = same property\n'
for end in a same property unit 'same properties' 'same units' 'same uni' 'same Unit' 'Same unit' 'same a unit' \
    'same + unit' 'unit same' 'property unit' 'same property-unit'; do
    wrong 'line 2: expected +, same property or same unit' "tray a leave\\nrule r = a $end\\n"
done
for wish in property unit; do
    for end in + unit property same x; do
        wrong "line 2: expected the end of the line, not $end" "tray a leave\\nrule r = a same $wish $end a\\n"
    done
done
{ lines 17 'tray t%d leave' && printf 'x\n'; } >text
complains 'line 17: more than 16 trays'
{ printf 'tray a leave\n' && lines 33 'rule r%d = a'; } >text
complains 'line 34: more than 32 rules'
printf 'tray a leave\n%s\n' "#$(letters 1024)" >text
complains 'line 2: longer than 1024 bytes'
printf 'tray a leave\n%s' "#$(letters 5000)" >text
complains 'line 2: longer than 1024 bytes'

# Wrong bytes, and wrong arguments.
refused 'refused 1: under 12 bytes' ''
refused 'refused 2: T, R or M out of range' '\000\000\000\000\000\000\014\000\014\000\014\000'
refused 'refused 3: offsets or length wrong' '\001\000\000\000\000\000\014\000\015\000\015\000'
refused 'refused 4: byte over 1' '\001\000\000\000\000\000\014\000\015\000\015\000\002'
for end in '\011\000' '\000\000' '\001\003' '\001\377'; do
    refused 'refused 5: wrong first member, count not 1 to 8, or last byte over 2' \
        "\\001\\000\\001\\000\\001\\000\\014\\000\\015\\000\\021\\000\\000\\000\\000$end\\000"
done
refused 'refused 6: member counts do not sum to M' \
    '\001\000\001\000\001\000\014\000\015\000\021\000\000\000\000\002\000\000'
refused 'refused 7: tray number T or more' \
    '\001\000\001\000\001\000\014\000\015\000\021\000\000\000\000\001\000\001'
{ cat full.bin && printf 'x'; } >text
complains 'refused 3: offsets or length wrong' -r
: >text
usage='usage: tablec < table.txt > rules.bin, or tablec -r < rules.bin > table.txt'
complains "$usage" -x
complains "$usage" -rr
complains "$usage" ''

# A full device.
printf 'tray a leave\n' >text
unwritten 'cannot write the table' text
unwritten 'cannot write the text' full.bin -r

echo "tablec: $passed passed, $failed failed"
[ "$failed" -eq 0 ]
