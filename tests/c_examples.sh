#!/usr/bin/env bash
# Builds the C examples against the proved archives that archives.sh made. Runs the message check on good and damaged messages, the gateway
# on good and refused words, and the log check on logs that hold and that do not. The bytes, the rows and what is expected are written here
# by hand, from the requirements ("Messages", "Numbers by the place of the check", request (l)). Ends with 1 if any of them differs.
set -eu
cd "$(dirname "$0")/.."
out=$(mktemp -d)
trap 'rm -rf "$out"' EXIT

# build PROGRAM CRATE: examples/PROGRAM.c with the archive of that crate.
build() {
    cc -std=c99 -Wall -Wextra -Werror -Iinclude "examples/$1.c" "target/staticlib/lib$2.a" -o "$out/$1"
}
build check_messages messages
build gateway board
build check_log log_check

tried=0 wrong=0

# compare WHAT EXPECTED GOT
compare() {
    tried=$((tried + 1))
    [ "$2" = "$3" ] && return
    wrong=$((wrong + 1))
    printf '%s: expected %s, got %s\n' "$1" "${2@Q}" "${3@Q}"
}

# Bytes, given as numbers.
bytes() {
    local octal
    printf -v octal '\\%03o' "$@"
    printf "$octal"
}

# message NUMBER N WHAT BYTES..: a board of N answers NUMBER to these bytes, which are one message, whole or damaged.
message() {
    local number=$1 n=$2 what=$3
    shift 3
    bytes "$@" >"$out/bytes"
    compare "$what" "1 $# $number" "$("$out/check_messages" "$n" "$out/bytes")"
}

# A count, a value and n x n counts, each of four bytes and none of the bytes zero.
part() {
    local n=$1 i
    for ((i = 0; i < 4 * (1 + 8 + n * n); i++)); do printf '%d ' $((1 + i % 255)); done
}
two=$(part 2) twelve=$(part 12)

# Shorthands: S a submit's count, R what follows member, slot and type in a record.
S='255 254 253 252' R=$two

# A board of 2: reply 81 + 8 * 4 = 113 and 115 bytes in all, commit 42 + 4 * 4 = 58 and 60 in all.
message 0 2 'submit of a read'     0 9 1 1 1 2 1 $S
message 0 2 'submit of a write'    0 9 1 1 2 2 2 $S
message 0 2 'what 7 would refuse'  0 9 1 1 1 2 2 $S
message 0 2 'reply'                0 113 1 2 2 1 2 1 $R 2 2 2 $R
message 0 2 'commit'               0 58 1 3 2 1 2 1 $R
message 0 2 'accepted'             0 3 1 4 1
message 0 2 'aborted'              0 3 1 4 2

# A board of 12: 81 + 8 * 144 = 1233 = 4 * 256 + 209, and 42 + 4 * 144 = 618 = 2 * 256 + 106.
message 0 12 'reply of twelve'     4 209 1 2 12 12 1 1 $twelve 1 1 2 $twelve
message 0 12 'commit of twelve'    2 106 1 3 12 1 12 1 $twelve

message 1 0 'n is 0'               0 9 1 1 1 2 1 $S
message 1 13 'n is 13'             0 9 1 1 1 2 1 $S
message 1 4294967295 'n is large'  0 9 1 1 1 2 1 $S
message 1 13 '1 before 12'         7

message 12 2 'one byte'            0
message 12 2 'two bytes'           0 0
message 12 2 'three bytes'         0 1 1
message 12 2 'a byte too few'      0 9 1 1 1 2 1 255 254 253
message 12 2 'length field + 256'  1 9 1 1 1 2 1 $S
message 12 2 '12 before 13'        0 4 0 4 1

message 13 2 'version 0'           0 9 0 1 1 2 1 $S
message 13 2 'version 2'           0 9 2 1 1 2 1 $S
message 13 2 '13 before 14'        0 3 2 5 1

message 14 2 'kind 0'              0 9 1 0 1 2 1 $S
message 14 2 'kind 5'              0 9 1 5 1 2 1 $S
message 14 2 'kind, no field'      0 2 1 5

message 15 2 'submit, no field'    0 2 1 1
message 15 2 'submit, a byte more' 0 10 1 1 1 2 1 $S 0
message 15 2 'outcome, a byte more' 0 4 1 4 1 0
message 15 2 'reply of one record' 0 58 1 2 2 1 2 1 $R
message 15 2 'commit of two'       0 113 1 3 2 1 2 1 $R 2 2 2 $R
message 15 1 'commit, length of 2' 0 58 1 3 1 1 1 2 $R
message 15 2 'commit, n is 1'      0 58 1 3 1 1 2 1 $R
message 15 2 'commit, n is 3'      0 58 1 3 3 1 2 1 $R
message 15 2 'reply, n is 0'       0 113 1 2 0 1 2 1 $R 2 2 2 $R
message 15 2 'submit, member 0'    0 9 1 1 0 2 1 $S
message 15 2 'submit, member 3'    0 9 1 1 3 2 1 $S
message 15 2 'submit, slot 0'      0 9 1 1 1 0 1 $S
message 15 2 'submit, slot 3'      0 9 1 1 1 3 1 $S
message 15 2 'submit, type 0'      0 9 1 1 1 2 0 $S
message 15 2 'submit, type 3'      0 9 1 1 1 2 3 $S
message 15 2 'commit, member 0'    0 58 1 3 2 0 2 1 $R
message 15 2 'commit, slot 3'      0 58 1 3 2 1 3 1 $R
message 15 2 'commit, type 3'      0 58 1 3 2 1 2 3 $R
message 15 2 'newest, member 3'    0 113 1 2 2 3 2 1 $R 2 2 2 $R
message 15 2 'newest, slot 0'      0 113 1 2 2 1 0 1 $R 2 2 2 $R
message 15 2 'newest, type 0'      0 113 1 2 2 1 2 0 $R 2 2 2 $R
message 15 2 'stored, member 0'    0 113 1 2 2 1 2 1 $R 0 2 2 $R
message 15 2 'stored, slot 3'      0 113 1 2 2 1 2 1 $R 2 3 2 $R
message 15 2 'stored, type 3'      0 113 1 2 2 1 2 1 $R 2 2 3 $R
message 15 2 'outcome 0'           0 3 1 4 0
message 15 2 'outcome 3'           0 3 1 4 3

# A stream, from standard input: good, refused, good, and a rest of three bytes. Then an empty one.
bytes 0 9 1 1 1 2 1 $S 0 3 1 4 3 0 58 1 3 2 1 2 1 $R 0 9 1 >"$out/bytes"
compare 'stream' $'1 11 0\n2 5 15\n3 60 0\n4 3 12' "$("$out/check_messages" 2 <"$out/bytes")"
compare 'no message' '' "$("$out/check_messages" 2 </dev/null)"

# says WHAT EXPECTED STATUS PROGRAM WORDS..: what a program says, on either output, and its status.
says() {
    local what=$1 expected=$2 right=$3 status=0 said
    shift 3
    said=$("$out/$1" "${@:2}" 2>&1) || status=$?
    compare "$what" "$right $expected" "$status $said"
}

# Words that are no number, and files that cannot be read, are a program's own refusal.
for program in check_messages check_log; do
    for word in '' -1 +1 2x 4294967296; do
        says "$program, n given as '$word'" "usage: $program N [FILE]" 2 "$program" "$word" </dev/null
    done
    says "$program, no word" "usage: $program N [FILE]" 2 "$program" </dev/null
    says "$program, three words" "usage: $program N [FILE]" 2 "$program" 2 FILE FILE </dev/null
    says "$program, no file" "$out/none: No such file or directory" 2 "$program" 2 "$out/none"
    says "$program, a folder" "$program: Is a directory" 2 "$program" 2 "$out"
done

# gateway EXPECTED STATUS WORDS..
gateway() {
    says "gateway ${*:3}" "$1" "$2" gateway "${@:3}"
}
gateway 'member 2 read slot 1: 77'            0 2 1 2 77
gateway 'member 1 read slot 12: 4294967295'   0 12 12 1 4294967295
gateway 'member 7 read slot 3: 0'             0 7 3 7 0
gateway 'open refused: 1'                     1 0 1 2 77
gateway 'open refused: 1'                     1 13 1 2 77
gateway 'begin refused: 4'                    1 2 3 1 77
gateway 'begin refused: 4'                    1 2 1 0 77
gateway 'member 1 read slot 1: 77'            0 1 1 1 77
gateway 'member 3 read slot 3: 5'             0 4 3 3 5
gateway 'member 1 read slot 4: 9'             0 auction 4 4 1 9
gateway 'member 1 read slot 1: 77'            0 auction 1 1 1 77
gateway 'member 5 read slot 4: 9'             0 5 4 5 9
gateway 'open refused: 1'                     1 auction 5 4 5 9
gateway 'open refused: 1'                     1 auction 0 1 1 9
gateway 'begin refused: 4'                    1 auction 4 5 1 9
gateway 'usage: gateway [auction] N WRITER READER VALUE' 2 2 1 2
gateway 'usage: gateway [auction] N WRITER READER VALUE' 2 auction 2 1 2

# rows ROW..: a log as check_log reads it. Here a row's value is given as a number, its last digits.
rows() {
    local row member type slot value positions
    for row in "$@"; do
        read -r member type slot value positions <<<"$row"
        printf '%s %s %s %064x %s\n' "$member" "$type" "$slot" "$value" "$positions"
    done
}

# log VERDICT N WHAT: the log on standard input, for a board of N, is given this verdict: yes, no, or `refused: NUMBER`.
log() {
    local status=1
    [ "$1" != yes ] || status=0
    says "log: $3" "$1" "$status" check_log "$2"
}

# holds N WHAT ROW.. and fails N WHAT ROW..: these rows are a yes, or a no.
holds() { log yes "$1" "$2" < <(rows "${@:3}"); }
fails() { log no "$1" "$2" < <(rows "${@:3}"); }

# Shorthand: member 1 writes 7. A row is member, type, slot, value, begin, acceptance, end.
W='1 2 1 7 1 4 5'

holds 1 'no row'
holds 1 'a write'                      "$W"
holds 12 'members 12 and 11'           '12 2 12 7 1 2 3' '11 1 12 7 1 3 4'
holds 2 'a write read'                 "$W" '2 1 1 7 6 9 10'
holds 2 'an own read'                  "$W" '1 1 1 7 6 9 10'
holds 2 'a slot never written'         "$W" '1 1 2 0 6 9 10'
holds 2 'a slot written later'         '2 1 1 0 1 3 7' "$W"
holds 2 'the last of two writes'       "$W" '1 2 1 8 6 9 10' '2 1 1 8 11 14 15'
holds 2 'zeros written'                "$W" '1 2 1 0 6 9 10' '2 1 1 0 11 14 15'
holds 2 'a write without end read'     '1 2 1 7 1 4 0' '2 1 1 7 6 9 10'
holds 2 'a read without end'           "$W" '2 1 1 8 6 9 0'
holds 2 'and one after it'             "$W" '2 1 1 8 6 9 0' '1 1 1 7 6 10 11'
holds 2 'operations at once'           '1 2 1 7 2 4 9' '2 1 1 7 1 5 8'
holds 2 'one begin and one end'        '1 2 1 7 1 4 6' '2 1 1 7 1 5 6'
holds 1 'positions without gaps'       '1 2 1 7 1 2 3' '1 1 1 7 4 5 6'
holds 1 'the last positions'           '1 2 1 7 1 2 3' '1 1 1 7 4 4294967294 4294967295'
holds 1 'accepted at the last one'     '1 2 1 7 4294967294 4294967295 0'

fails 2 'member 0'                     '0 1 1 0 1 4 5'
fails 2 'member 3 of 2'                '3 1 1 0 1 4 5'
fails 12 'member 13 of 12'             '13 1 1 0 1 4 5'
fails 2 'the largest member'           '4294967295 1 1 0 1 4 5'
fails 2 'slot 0'                       '1 1 0 0 1 4 5'
fails 2 'slot 3 of 2'                  '1 1 3 0 1 4 5'
fails 12 'slot 13 of 12'               '1 1 13 0 1 4 5'
fails 2 'slot 0 without end'           '1 1 0 0 1 4 0'
fails 2 'type 0'                       '1 0 1 0 1 4 5'
fails 2 'type 3'                       '1 3 1 0 1 4 5'
fails 2 'begin 0'                      '1 1 1 0 0 4 5'
fails 2 "another's slot written"       '1 2 2 7 1 4 5'
fails 2 'the same acceptance'          "$W" '2 1 1 7 2 4 5'
fails 2 'a lower acceptance'           "$W" '2 1 1 7 2 3 5'
fails 2 'accepted at its begin'        '1 1 1 0 4 4 5'
fails 2 'accepted before its begin'    '1 1 1 0 5 4 6'
fails 2 'accepted at its end'          '1 1 1 0 1 4 4'
fails 2 'accepted after its end'       '1 1 1 0 1 4 3'
fails 2 'acceptance 0'                 '1 1 1 0 1 0 0'
fails 2 'begun at the end before'      "$W" '1 1 1 7 5 9 10'
fails 2 'begun before the end before'  "$W" '1 1 1 7 4 9 10'
fails 2 'and a row between'            '1 2 1 7 1 4 10' '2 1 1 7 6 9 10' '1 1 1 7 10 13 14'
fails 2 'the row before has no end'    '1 2 1 7 1 4 0' '1 1 1 7 6 9 10'
fails 2 'nor has a read'               '1 1 1 0 1 4 0' '2 1 1 0 6 9 10' '1 1 1 0 11 14 15'
fails 2 'nor have two rows'            '1 2 1 7 1 4 0' '1 1 1 7 6 9 0'
fails 2 'another value'                "$W" '2 1 1 8 6 9 10'
fails 2 'another value, an own read'   "$W" '1 1 1 8 6 9 10'
fails 2 'the value before the last'    "$W" '1 2 1 8 6 9 10' '2 1 1 7 11 14 15'
fails 2 'zeros though written'         "$W" '2 1 1 0 6 9 10'
fails 2 'zeros, a write without end'   '1 2 1 7 1 4 0' '2 1 1 0 6 9 10'
fails 2 'a value never written'        '2 1 1 7 1 4 5'
fails 2 'a value written later'        '2 1 1 7 1 3 7' "$W"
fails 2 "another slot's value"         "$W" '2 1 2 7 6 9 10'
fails 2 "a read's value"               "$W" '2 1 1 8 6 9 0' '1 1 1 8 6 10 11'
fails 2 'the first row alone'          '1 1 1 8 1 4 5' '1 2 1 7 6 9 10' '2 1 1 7 11 14 15'
fails 2 'the row in the middle alone'  "$W" '1 1 1 8 6 9 10' '2 1 1 7 11 14 15'

# Every word of a value counts, and digits of either case are the same.
zeros=$(printf '%064d' 0)
for word in {0..7}; do
    value=${zeros:0:8 * word}0000a000${zeros:8 * word + 8}
    log yes 2 "word $word" < <(printf '1 2 1 %s 1 4 5\n2 1 1 %s 6 9 10\n' "$value" "${value^^}")
    log no 2 "word $word alone" < <(printf '1 2 1 %s 1 4 5\n2 1 1 %s 6 9 10\n' "$value" "$zeros")
done

# reads COUNT: so many own reads of zeros one after the other, begun at 1, 4, 7 and so on.
reads() {
    printf "1 1 1 $zeros %s %s %s\n" $(seq $((3 * $1)))
}
for n in 0 13 4294967295; do
    log 'refused: 1' "$n" "n is $n" </dev/null
done
log 'refused: 1' 13 '1 before the rows' < <(rows '0 1 1 0 1 4 5')
log 'refused: 1' 13 '1 before 34'       < <(reads 1025)
log yes 1 '1,024 rows'                  < <(reads 1024)
log no 1 'the last of 1,024 rows'       < <(reads 1023; rows '1 1 1 0 3069 3071 3072')
log 'refused: 34' 1 '1,025 rows'        < <(reads 1025)
log 'refused: 34' 1 '34 before the rows' < <(rows '0 0 0 0 0 0 0'; reads 1024)
log 'refused: 34' 1 '5,000 rows'        < <(reads 5000)
log 'refused: 34' 1 'no row behind 1,025' < <(reads 1025; echo)

# unread LINE WHAT TEXT: line LINE of this text is not a row. `W` in it is the row above.
unread() {
    says "log: $2" "check_log: line $1 is not a row" 2 check_log 2 < <(printf -- "${3//W/$(rows "$W")}")
}
unread 1 'an empty line'            '\n'
unread 1 'a space before'           ' W'
unread 1 'a space behind'           'W \n'
unread 1 'a field more'             'W 6\n'
unread 1 'a carriage return'        'W\r\n'
unread 1 'a zero byte'              'W\0\n'
unread 1 'a leading zero'           '0W\n'
unread 1 'a sign'                   '+W\n'
unread 1 'a negative number'        '-W\n'
unread 1 'two spaces'               "1  2 1 $zeros 1 4 5\n"
unread 1 'a field less'             "1 2 1 $zeros 1 4\n"
unread 1 'no end'                   "1 2 1 $zeros 1 4 \n"
unread 1 'a tab'                    "1\t2 1 $zeros 1 4 5\n"
unread 1 'a type in letters'        "1 write 1 $zeros 1 4 5\n"
unread 1 'a digit less'             "1 2 1 ${zeros:1} 1 4 5\n"
unread 1 'a digit more'             "1 2 1 0$zeros 1 4 5\n"
unread 1 'no digit'                 "1 2 1 ${zeros:1}g 1 4 5\n"
unread 1 'a value with a prefix'    "1 2 1 0x${zeros:2} 1 4 5\n"
unread 1 'a member of 2^32'         "4294967296 2 1 $zeros 1 4 5\n"
unread 1 'an end of 2^32'           "1 2 1 $zeros 1 4 4294967296\n"
unread 1 'a long end'               "1 2 1 $zeros 1 4 $zeros$zeros$zeros\n"
unread 2 'an empty line below'      'W\n\nW\n'
unread 3 'the third line'           'W\nW\n2 1 1\n'
unread 1025 'the line after 1,024'  "$(reads 1024)\n\n"

# The last line needs no line feed.
log yes 2 'no line feed at the end' < <(rows "$W"; printf "2 1 1 ${zeros:1}7 6 9 10")
log no 2 'nor for a no'             < <(rows "$W"; printf "2 1 1 ${zeros:1}8 6 9 10")

says 'vendor.log' yes 0 check_log 3 examples/vendor.log
says 'stale.log' no 1 check_log 3 examples/stale.log

echo "C examples: $tried cases, $wrong wrong"
[ "$wrong" -eq 0 ]
