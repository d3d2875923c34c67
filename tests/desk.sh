#!/usr/bin/env bash
# What only a script can try of the desk tool: what is said and where, exit status, bad use, round trips through files. Says what it tried; fails at the end if any failed.
set -u
cd "$(dirname "$0")/.." || exit 2
scratch=$(mktemp -d) || exit 2
trap 'rm -rf "$scratch"' EXIT
tried=0 failed=0

# verdict NAME: counts the try of this name, which held if the command before it did.
verdict() {
    local held=$?
    tried=$((tried + 1))
    if [ "$held" -eq 0 ]; then
        printf 'ok      %s\n' "$1"
    else
        failed=$((failed + 1))
        printf 'FAILED  %s\n' "$1"
        printf '        status %s\n' "$status"
        sed 's/^/        out: /' "$scratch/out"
        sed 's/^/        err: /' "$scratch/err"
    fi
}

# run ARGUMENTS: keeps the exit status and what is written.
run() {
    ./ttplan "$@" >"$scratch/out" 2>"$scratch/err"
    status=$?
}

# answers STATUS TEXT ARGUMENTS: this status and exactly this on standard output, nothing on standard error.
answers() {
    local wanted=$1 text=$2
    shift 2
    run "$@"
    [ "$status" -eq "$wanted" ] && [ "$(cat "$scratch/out")" = "$text" ] && [ ! -s "$scratch/err" ]
    verdict "ttplan $*: $text"
}

# refuses TEXT ARGUMENTS: status 1, nothing on standard output, exactly `refused` and this text on standard error, where @ is the last argument.
refuses() {
    local text=$1
    shift
    run "$@"
    [ "$status" -eq 1 ] && [ ! -s "$scratch/out" ] && [ "$(cat "$scratch/err")" = "refused ${text//@/"${!#}"}" ]
    verdict "ttplan $*: refused $text"
}

# is_bad TEXT ARGUMENTS: status 2, nothing on standard output, one sentence with this text on standard error.
is_bad() {
    local text=$1
    shift
    run "$@"
    [ "$status" -eq 2 ] && [ ! -s "$scratch/out" ] && [ "$(wc -l <"$scratch/err")" -eq 1 ] && grep -qF -- "$text" "$scratch/err"
    verdict "ttplan $*: $text"
}

# says STATUS TEXT ARGUMENTS: this status, and a line that has this text.
says() {
    local wanted=$1 text=$2
    shift 2
    run "$@"
    [ "$status" -eq "$wanted" ] && grep -qF -- "$text" "$scratch/out" && [ ! -s "$scratch/err" ]
    verdict "ttplan $*: $text"
}

# edited NUMBER VALUE: the words of T1 with the word at a place (from 0) changed, in a file that is then named.
edited() {
    tr -s ' \n' '\n' < <(sed 's/#.*//' examples/t1.words) | grep -v '^$' | awk -v at="$1" -v to="$2" '{ print (NR - 1 == at) ? to : $0 }' >"$scratch/edited.words"
}

e=examples
meeting="refused 13, $e/t1-meeting.plan, line 4, message 2 (0x030) meets message 1 (0x020), line 3, in column 1, row 1"
printf '%s\n' '-- answers'
t1='accepted
losses over one matrix cycle of 800
reference         130    16.25 %
used              430    53.75 %
in-window          40     5.00 %
empty             200    25.00 %
gaps                0     0.00 %'
answers 0 "$t1" check $e/t1.tsm $e/t1.plan
answers 0 "$t1" check $e/t1.words $e/t1.plan
answers 0 'accepted
losses over one matrix cycle of 20000
reference         624     3.12 %
used             7560    37.80 %
in-window         800     4.00 %
empty           11016    55.08 %
gaps                0     0.00 %' check $e/document-003.words $e/document-003.plan
answers 0 'accepted
losses over one matrix cycle of 4000
reference         300     7.50 %
used             1880    47.00 %
in-window         405    10.13 %
empty             455    11.38 %
gaps              960    24.00 %' check $e/press-line.words $e/press-line.plan
answers 1 "$meeting" check $e/t1.words $e/t1-meeting.plan
says 0 'cycle  7  0x0f0  0x051  0x052  0x053  0x102  0x104  0x202  0x404      .'
says 0 'cycle  1  0x001  0x010  0x020      .' show $e/t1.tsm $e/t1.plan
says 0 'in-window          40     5.00 %' show $e/t1.tsm $e/t1.plan
says 0 '   200    1      2  receives  0x020' lists $e/t1.tsm $e/t1.plan 0
says 0 'node 15, triggers: 1' lists $e/t1.tsm $e/t1.plan
says 1 'deadlines missed: 1' times $e/events.words
printf '%s\n' '-- every refusal that a person can meet'

# words_refused AT VALUE TEXT: T1's words, one a line, with the one at a place (from 0) changed are refused with this text; @ is the file.
words_refused() {
    edited "$1" "$2"
    refuses "$3" plan "$scratch/edited.words"
}

# file_refused AT BYTES TEXT: T1's file with bytes (as printf writes them) put at a place is refused with this text.
file_refused() {
    cp $e/t1.tsm "$scratch/edited.tsm"
    printf '%b' "$2" | dd of="$scratch/edited.tsm" bs=1 seek="$1" conv=notrunc 2>/dev/null
    refuses "$3" plan "$scratch/edited.tsm"
}

# proposal_refused COMMAND WORDS TEXT: this proposal for T1 is refused by a command with this text, on standard output.
proposal_refused() {
    printf '%b\n' "$2" >"$scratch/p"
    answers 1 "refused ${3//@/"$scratch/p"}" "$1" $e/t1.tsm "$scratch/p"
}

# events_refused WORDS TEXT: these events are refused with this text, on standard output.
events_refused() {
    printf '%b\n' "$1" >"$scratch/events"
    answers 1 "refused ${2//@/"$scratch/events"}" times "$scratch/events"
}

head -c 15 $e/t1.tsm >"$scratch/length.tsm"
refuses '1, @: 15 bytes; a problem file has at least 16' plan "$scratch/length.tsm"
(cat $e/t1.tsm && printf 'x') >"$scratch/length.tsm"
refuses '1, @: 83 bytes; 3 columns and 3 messages make a file of version 1 of 82' plan "$scratch/length.tsm"
head -c 81 $e/t1.tsm >"$scratch/length.tsm"
answers 1 "refused 1, $scratch/length.tsm: 81 bytes; 3 columns and 3 messages make a file of version 1 of 82" check "$scratch/length.tsm" $e/t1.plan
echo 2 400 65 1 32 3 >"$scratch/length.words"
refuses '1, @: 6 words; a problem has at least the 7 of its header' plan "$scratch/length.words"
edited 34 0
head -n 33 "$scratch/edited.words" >"$scratch/length.words"
t1_count='3 columns and 3 messages make 34 words in version 1 and 37 in version 2'
refuses "1, @: 33 words; $t1_count" plan "$scratch/length.words"
sed 's/^0x020 1 1 1 800 400 300/0x020 1 1 800 400 300/' $e/t1.words >"$scratch/length.words"
refuses "1, @: 33 words; $t1_count; line 10 has 6 words where 7 are due" plan "$scratch/length.words"
sed 's/^200 100/200 100 7 7/' $e/t1.words >"$scratch/length.words"
refuses "1, @: 36 words; $t1_count; line 6 has 4 words where 2 are due" words "$scratch/length.words"
sed 's/^200 100 0/200 100/' $e/t1-version-2.words >"$scratch/length.words"
refuses "1, @: 36 words; $t1_count; line 6 has 2 words where 3 are due" file "$scratch/length.words"
sed '/^0x030 /d' $e/t1.words >"$scratch/length.words"
refuses "1, @: 27 words; $t1_count" plan "$scratch/length.words"
echo 1 1000 65 1 32 1 1 65 135 >"$scratch/length.words"
refuses '1, @: 9 words; 1 column and 1 message make 16 words in version 1 and 17 in version 2' file "$scratch/length.words"
sed 's/^2 400 65 0x001 32 3 3/2 400 65 32 3 3/' $e/t1.words >"$scratch/length.words"
refuses '4, @, line 5: messages 65; it must be 0 to 64; line 3 has 6 words where the 7 of the header are due' plan "$scratch/length.words"
sed 's/^0x020 1 1 1 800 400 300/0x020 1 1 1 800 400/; s/^0x030 1 4/0x030 1 4 4/' $e/t1.words >"$scratch/length.words"
refuses '6, @, line 11, message 2 (0x001): identifier 0x001; the reference message has it, and each must have its own; line 10 has 6 words where 7 are due' plan "$scratch/length.words"
printf '2 400 65 1 32 2 1\n65 135\n200 100\n300 100\n0x10 0 4 0 400 0 400\n' >"$scratch/length.words"
run plan "$scratch/length.words"
[ "$status" -eq 1 ] && grep -q 'line 3, column 0: kind 200; .*: if two were meant, columns or messages are miscounted' "$scratch/err"
verdict 'ttplan plan: a column too many is not only called a kind'
refuses '1, @: 6 words; a problem has at least the 7 of its header; it has a line # problem, as a plan has: is it one?' plan $e/t1.plan
sed 's/^200 100/200 250/' $e/t1.words >"$scratch/length.words"
refuses '5, @, line 7, column 2: start 300; it must be at least 450, where column 1 ends, beyond the basic cycle, 400' plan "$scratch/length.words"
sed 's/^2 400 65/2 60 65/' $e/t1.words >"$scratch/length.words"
refuses '4, @, line 3: basic cycle 60; it must be 66 at least, for the reference window and a column' plan "$scratch/length.words"
file_refused 2 N '2, @: the bytes 84 83 78 in front; a problem file has 84 83 77 there, the mark TSM, and a word list is not named .tsm'
file_refused 3 '\0\3' '3, @, byte 3: version 3; it must be 1 or 2'
file_refused 3 '\2\1' '3, @, byte 3: version 513; it must be 1 or 2'
file_refused 3 '\0\2' '1, @: 82 bytes; 3 columns and 3 messages make a file of version 2 of 91'
words_refused 0 3 '4, @, line 1: rows 3; it must be 1, 2, 4, 8, 16, 32 or 64'
words_refused 1 0 '4, @, line 2: basic cycle 0; it must be 1 to 65535'
words_refused 1 65536 '4, @, line 2: basic cycle 65536; it must be 1 to 65535'
words_refused 2 64 '4, @, line 3: reference window 64; it must be 65 to 400, the basic cycle'
words_refused 2 401 '4, @, line 3: reference window 401; it must be 65 to 400, the basic cycle'
words_refused 3 2048 '4, @, line 4: reference identifier 0x800; it must be 0x000 to 0x7ff'
words_refused 4 0 '4, @, line 5: limit of triggers 0; it must be 1 to 32'
words_refused 5 0 '4, @, line 6: columns 0; it must be 1 to 32'
words_refused 6 65 '4, @, line 7: messages 65; it must be 0 to 64'
file_refused 5 '\3' '4, @, byte 5: rows 3; it must be 1, 2, 4, 8, 16, 32 or 64'
file_refused 6 '\0\0' '4, @, byte 6: basic cycle 0; it must be 1 to 65535'
file_refused 8 '\0\100' '4, @, byte 8: reference window 64; it must be 65 to 400, the basic cycle'
file_refused 10 '\10\0' '4, @, byte 10: reference identifier 0x800; it must be 0x000 to 0x7ff'
file_refused 12 '\41' '4, @, byte 12: limit of triggers 33; it must be 1 to 32'
file_refused 13 '\0' '4, @, byte 13: columns 0; it must be 1 to 32'
file_refused 14 '\101' '4, @, byte 14: messages 65; it must be 0 to 64'
file_refused 15 '\1' '4, @, byte 15: the last byte of the header 1; it must be 0'
words_refused 7 64 '5, @, line 8, column 0: start 64; it must be at least 65, where the reference window ends'
words_refused 9 150 '5, @, line 10, column 1: start 150; it must be at least 200, where column 0 ends'
words_refused 9 65536 '5, @, line 10, column 1: start 65536; it must be 0 to 65535'
words_refused 10 0 '5, @, line 11, column 1: width 0; it must be 1 to 65535'
words_refused 10 65536 '5, @, line 11, column 1: width 65536; it must be 1 to 65535'
words_refused 12 101 '5, @, line 13, column 2: start 300 and width 101 end at 401; it must end at 400, the basic cycle, or before'
file_refused 20 '\0\226' '5, @, byte 20, column 1: start 150; it must be at least 200, where column 0 ends'
file_refused 22 '\0\0' '5, @, byte 22, column 1: width 0; it must be 1 to 65535'
words_refused 21 16 '6, @, line 22, message 1 (0x020): sender 16; it must be 0 to 15'
words_refused 20 2048 '6, @, line 21, message 1 (0x800): identifier 0x800; it must be 0x000 to 0x7ff'
words_refused 20 1 '6, @, line 21, message 1 (0x001): identifier 0x001; the reference message has it, and each must have its own'
words_refused 22 9 '6, @, line 23, message 1 (0x020): data bytes 9; it must be 0 to 8'
words_refused 23 65536 '6, @, line 24, message 1 (0x020): receivers 65536; it must be 0 to 65535, 1 for node 0 and 2 for node 1 and 4 for node 2 and so on'
words_refused 23 6 '6, @, line 24, message 1 (0x020): receivers 6 have its sender among them, node 1; they must be 4, or others without it'
words_refused 27 16 '6, @, line 28, message 2 (0x010): identifier 0x010; message 0 has it too, and each must have its own'
file_refused 46 '\0\20' '6, @, byte 46, message 1 (0x010): identifier 0x010; message 0 has it too, and each must have its own'
file_refused 48 '\20' '6, @, byte 48, message 1 (0x020): sender 16; it must be 0 to 15'
file_refused 49 '\11' '6, @, byte 49, message 1 (0x020): data bytes 9; it must be 0 to 8'
file_refused 50 '\0\2' '6, @, byte 50, message 1 (0x020): receivers 2 have its sender among them, node 1; they must be 0, or others without it'
words_refused 24 500 '7, @, line 25, message 1 (0x020): period 500; it must be 400 times 1 or 2'
words_refused 25 800 '7, @, line 26, message 1 (0x020): offset 800; it must be below 800, the period'
words_refused 26 801 '7, @, line 27, message 1 (0x020): deadline 801; it must be 1 to 800, the period'
words_refused 26 0 '7, @, line 27, message 1 (0x020): deadline 0; it must be 1 to 800, the period'
file_refused 52 '\0\0\1\364' '7, @, byte 52, message 1 (0x020): period 500; it must be 400 times 1 or 2'
file_refused 56 '\0\0\3\040' '7, @, byte 56, message 1 (0x020): offset 800; it must be below 800, the period'
file_refused 60 '\0\0\3\041' '7, @, byte 60, message 1 (0x020): deadline 801; it must be 1 to 800, the period'
sed 's/^0x050 3 2 1 4000/0x050 3 2 1 15000/' $e/press-line.words >"$scratch/period.words"
refuses '7, @, line 31, message 5 (0x050): period 15000; it must be 1000 times 1, 2 or 4' plan "$scratch/period.words"
echo 1 400 65 1 32 1 1 65 135 16 0 8 2 800 0 400 >"$scratch/period.words"
refuses '7, @, line 1, message 0 (0x010): period 800; it must be 400 times 1' plan "$scratch/period.words"
many='it needs 4 triggers, one for the reference and one for each message that it sends or receives; the limit is 3'
words_refused 4 3 "8, @, line 5, node 0: $many"
file_refused 12 '\3' "8, @, byte 12, node 0: $many"
proposal_refused check '0 0 1 1 1' '9, @: 5 words; 3 messages need 6, column and base row of each'
proposal_refused check '0 0\n1\n1 1' '9, @: 5 words; 3 messages need 6, column and base row of each; line 2 has 1 word where 2 are due'
echo 1 1000 65 1 32 1 1 65 135 2 0 0 0 1000 0 1000 >"$scratch/one.words"
answers 1 "refused 9, $scratch/p: 5 words; 1 message needs 2, column and base row of each" check "$scratch/one.words" "$scratch/p"
proposal_refused check '0 0\n1 1\n3 0' '10, @, line 3, message 2 (0x030): column 3; it must be 0 to 2'
proposal_refused check '0 0\n1 1\n1\n2' '10, @, line 4, message 2 (0x030): base row 2; it must be 0 to 1'
proposal_refused lists '1 0 0 0 0 0' '11, @, line 1, message 0 (0x010): column 1 is 100 wide, and its frame takes 135; wide enough: 0'
proposal_refused show '0 0\n1 0\n1 1' '12, @, line 2, message 1 (0x020): in column 1, base row 0 it waits 600 and its frame takes 65, in all 665; its deadline is 300, so that it is late by 365'
proposal_refused check '0 0\n1 1\n0 1' '13, @, line 3, message 2 (0x030) meets message 0 (0x010), line 1, in column 0, row 1'
edited 26 264
crowded='each message has a place alone, but not all of them together'
refuses "14, @: no plan exists; $crowded" plan "$scratch/edited.words"
edited 26 64
refuses '14, @: no plan exists
no place even alone, line 21, message 1 (0x020): wherever its frame fits it would end after its deadline, 64' plan "$scratch/edited.words"
edited 8 100
refuses '14, @: no plan exists
no place even alone, line 14, message 0 (0x010): no column is as wide as its frame, 135' plan "$scratch/edited.words"
echo 1 300 65 1 32 1 2 65 135 2 0 0 0 300 0 300 3 0 0 0 300 0 300 >"$scratch/two.words"
refuses "14, @: no plan exists; $crowded" plan "$scratch/two.words"
(echo 1 1000 65 1 32 1 17 65 135 && for i in $(seq 17); do echo "$((i + 1)) $((i % 16)) 0 0 1000 0 1000"; done) >"$scratch/many.words"
refuses '15, @, line 1: 17 messages; the planner takes at most 16: plan a file with the first 16, then extend it' plan "$scratch/many.words"
each_five='each event has five, and there are at most 64 events'
events_refused '1 8 337 0' "17, @: 4 words; $each_five; line 1 has 4 words where 5 are due"
events_refused '1 8 337 0 337\n2 8 337 0 337 1\n3 8 337 0 337' "17, @: 16 words; $each_five; line 2 has 6 words where 5 are due"
events_refused '1 8 337 0 337\n2 8 337 0\n3 8 337 0 337' "17, @: 14 words; $each_five; line 2 has 4 words where 5 are due"
events_refused "$(seq 325)" "17, @: 325 words; $each_five"
events_refused '2048 8 337 0 337' '18, @, line 1, event 0 (0x800): identifier 0x800; it must be 0x000 to 0x7ff'
events_refused '1 8 337 0 337\n2 9 337 0 337' '18, @, line 2, event 1 (0x002): data bytes 9; it must be 0 to 8'
events_refused '1 8 0 0 337' '18, @, line 1, event 0 (0x001): period 0; it must be 1 to 4194304'
events_refused '1 8 4194305 0 337' '18, @, line 1, event 0 (0x001): period 4194305; it must be 1 to 4194304'
events_refused '1 8 337 337 337' '18, @, line 1, event 0 (0x001): jitter 337; it must be below 337, the period'
events_refused '1 8 337 0 338' '18, @, line 1, event 0 (0x001): deadline 338; it must be 1 to 337, the period'
events_refused '1 8 337 0 0' '18, @, line 1, event 0 (0x001): deadline 0; it must be 1 to 337, the period'
events_refused '1 8 337 0 337\n1 8 337 0 337' '18, @, line 2, event 1 (0x001): identifier 0x001; event 0 has it too, and each must have its own'

# endless WORDS EVENT LOAD: these events are refused with 19 at an event, for a load of at most so many per cent.
endless() {
    events_refused "$1" "19, @, $2: with it and the events of higher priority the load is $3 %, rounded up; the bus must come to rest within 16777216 bit times"
}

endless '1 8 134 0 134' 'line 1, event 0 (0x001)' 100.75
endless '1 8 135 0 135 2 0 1000 0 1000' 'line 1, event 0 (0x001)' 100.00
endless '7 8 4000 0 4000 3 0 56 0 56 5 1 600 0 600' 'line 1, event 0 (0x007)' 112.43
endless '7 8 4000 0 4000 3 0 56 0 56 5 1 3640 0 3640' 'line 1, event 0 (0x007)' 103.38
endless '1 6 117 0 117\n2 3 4973 1688 4973' 'line 2, event 1 (0x002)' 100.00
endless "$(for i in $(seq 0 63); do echo "$((2047 - i)) 8 1 0 1"; done)" 'line 1, event 0 (0x7ff)' 864000.00
edited 26 265
says 0 '1 1 # message 1, identifier 0x020' plan "$scratch/edited.words"

printf '%s\n' '-- shares of the matrix cycle'

# share FIGURE WHOLE TEXT: a reference window and a cycle of these lengths, one row and no message: the reference takes this share.
share() {
    echo "1 $2 $1 1 32 1 0 $1 $(($2 - $1))" >"$scratch/share.words"
    : >"$scratch/share.plan"
    says 0 "$(printf 'reference   %9d%11s' "$1" "$3")" check "$scratch/share.words" "$scratch/share.plan"
}

share 65 66 '98.48 %'
share 199 200 '99.50 %'
share 65534 65535 '100.00 %'
share 65 65535 '0.10 %'
share 101 800 '12.63 %'
share 67 65535 '0.10 %'
share 69 65535 '0.11 %'

printf '%s\n' '-- response times'

# times_are STATUS WORDS LINES: these events have this table, below its two heading lines.
times_are() {
    echo "$2" >"$scratch/events"
    run times "$scratch/events"
    [ "$status" -eq "$1" ] && [ ! -s "$scratch/err" ] && [ "$(tail -n +3 "$scratch/out")" = "$3" ]
    verdict "ttplan times: $2"
}

three='1 8 337 0 337  2 8 475 0 475  3 8 475 0'
above=' 0x001     8      337        0      337       270        0       270
 0x002     8      475        0      475       405        0       810'
times_are 0 "$three 475" "$above
 0x003     8      475        0      475       470        1       945
deadlines missed: 0"
times_are 0 "$three 470" "$above
 0x003     8      475        0      470       470        1       945
deadlines missed: 0"
times_are 1 "$three 469" "$above
 0x003     8      475        0      469       470        1       945  missed
deadlines missed: 1"
times_are 0 '1 8 135 0 135' ' 0x001     8      135        0      135       135        0       135
deadlines missed: 0'
times_are 1 '1 6 117 0 117 2 3 4973 1687 4973' ' 0x001     6      117        0      117       200        0      5030  missed
 0x002     3     4973     1687     4973      1887        0  16777215
deadlines missed: 1'
times_are 0 '' 'deadlines missed: 0'
printf '10 6 119 0 119 11 1 1935 1170 1935 12 1 4194304 4194303 4194304' >"$scratch/events"
run times "$scratch/events"
[ "$(awk '{ if (length($0) > most) most = length($0) } END { print most }' "$scratch/out")" -le 80 ]
verdict 'the table of times fits 80 columns'

printf '%s\n' '-- plans and files can be read back'
for name in t1 document-003 press-line; do
    run plan $e/$name.words
    [ "$status" -eq 0 ] && cmp -s "$scratch/out" $e/$name.plan
    verdict "ttplan plan $e/$name.words is $e/$name.plan"
    run file $e/$name.words
    cp "$scratch/out" "$scratch/$name.tsm"
    run words "$scratch/$name.tsm"
    cp "$scratch/out" "$scratch/$name.words"
    run file "$scratch/$name.words"
    [ "$status" -eq 0 ] && cmp -s "$scratch/out" "$scratch/$name.tsm"
    verdict "ttplan file, words, file of $e/$name.words"
done
cmp -s "$scratch/t1.tsm" $e/t1.tsm
verdict "ttplan file $e/t1.words is $e/t1.tsm"
cmp -s $e/t1.tsm crates/ttplan_show/data/t1.tsm && cmp -s $e/t1.plan crates/ttplan_show/data/t1.plan
verdict 'the program that the gate runs has the same files'
./ttplan show $e/document-003.words $e/document-003.plan >"$scratch/shown"
./ttplan | sed -n '/^window  /,/^gaps/p' >"$scratch/default"
sed -n '/^window  /,/^gaps/p' "$scratch/shown" | cmp -s - "$scratch/default"
verdict 'the example built in is examples/document-003.words'
run show $e/document-003.words $e/document-003.plan
[ "$(awk '{ if (length($0) > most) most = length($0) } END { print most }' "$scratch/out")" -le 80 ]
verdict 'tables fit 80 columns'

printf '%s\n' '-- files moved up and back'
for name in t1 document-003 press-line; do
    run up $e/$name.words "$scratch/$name.up"
    [ "$status" -eq 0 ] && grep -qx 'version 2, [0-9]* bytes' "$scratch/out" && [ ! -s "$scratch/err" ]
    verdict "ttplan up $e/$name.words"
    run back "$scratch/$name.up" "$scratch/$name.back"
    [ "$status" -eq 0 ] && cmp -s "$scratch/$name.back" "$scratch/$name.tsm"
    verdict "ttplan up and back of $e/$name.words gives the old bytes"
    run plan "$scratch/$name.up"
    [ "$status" -eq 0 ] && cmp -s "$scratch/out" $e/$name.plan
    verdict "ttplan plan of version 2 of $e/$name.words is $e/$name.plan"
done
answers 0 "$t1" check "$scratch/t1.up" $e/t1.plan
says 0 'file version                   1' show $e/t1.tsm
says 0 'file version                   2' show "$scratch/t1.up"
says 0 '# columns: start, width, kind' words "$scratch/t1.up"
run words "$scratch/t1.up"
cp "$scratch/out" "$scratch/two.words"
run file "$scratch/two.words"
[ "$status" -eq 0 ] && cmp -s "$scratch/out" "$scratch/t1.up"
verdict 'ttplan file, words, file of version 2'
says 0 'file version                   2' show "$scratch/two.words"
answers 0 "$t1" check "$scratch/two.words" $e/t1.plan
run file $e/t1-version-2.words
[ "$status" -eq 0 ] && cmp -s "$scratch/out" "$scratch/t1.up"
verdict "ttplan file $e/t1-version-2.words is version 2 of $e/t1.tsm"
cp $e/t1.tsm "$scratch/same.tsm"
answers 0 'version 2, 91 bytes' up "$scratch/same.tsm" "$scratch/same.tsm"
cmp -s "$scratch/same.tsm" "$scratch/t1.up"
verdict 'a file may be moved in its place'
answers 1 "refused 3, $scratch/same.tsm: the file is already of version 2" up "$scratch/same.tsm" "$scratch/none.tsm"
answers 1 "refused 3, $e/t1.tsm: the file is already of version 1" back $e/t1.tsm "$scratch/none.tsm"
[ ! -e "$scratch/none.tsm" ]
verdict 'a refused move writes no file'
sed 's/^200 100 0/200 100 1/' "$scratch/two.words" >"$scratch/kind.words"
kinds='0, an exclusive window (1, an arbitration window, is not taken yet)'
refuses "5, @, line 5, column 1: kind 1; it must be $kinds" plan "$scratch/kind.words"
sed 's/^200 100 0/200 100 7/' "$scratch/two.words" >"$scratch/kind.words"
miscounted='; so many words are version 2, with three for a column: if two were meant, columns or messages are miscounted'
refuses "5, @, line 5, column 1: kind 7; it must be $kinds$miscounted" file "$scratch/kind.words"
cp "$scratch/t1.up" "$scratch/kind.tsm"
printf '\7' | dd of="$scratch/kind.tsm" bs=1 seek=25 conv=notrunc 2>/dev/null
refuses "5, @, byte 25, column 1: kind 7; it must be $kinds" plan "$scratch/kind.tsm"
sed 's/^0x010 0/0x80000010 0/' "$scratch/two.words" >"$scratch/long-id.words"
refuses '6, @, line 8, message 0 (0x80000010): identifier 0x80000010; it must be 0x000 to 0x7ff' plan "$scratch/long-id.words"

printf '%s\n' '-- a log against the plan'
log=$scratch/log

# due SPAN: the log that T1's plan has due, in a file.
due() {
    ./ttplan due $e/t1.tsm $e/t1.plan "$1" >"$log"
}

# differs PAIR LOGGED DUE: the log differs from one matrix cycle of T1's plan at this pair, where it has this and that is due.
differs() {
    run hold $e/t1.tsm $e/t1.plan "$log" 1
    [ "$status" -eq 1 ] && [ ! -s "$scratch/err" ] && printf '%s\n' "differs at pair $1, counted from 0" "in the log: $2" "due there:  $3" | cmp -s - "$scratch/out"
    verdict "ttplan hold: at pair $1 the log has $2; due is $3"
}

run due $e/t1.tsm $e/t1.plan 1
[ "$status" -eq 0 ] && cmp -s "$scratch/out" $e/t1.log
verdict "ttplan due $e/t1.tsm $e/t1.plan 1 is $e/t1.log"
says 0 '465 0x010  # message 0, matrix cycle 0, row 1, column 0' due $e/t1.words $e/t1.plan 1
says 0 '79600 0x001  # reference message, matrix cycle 99, row 1' due $e/t1.words $e/t1.plan 100
answers 0 'clean: 6 sends in 1 matrix cycle' hold $e/t1.words $e/t1.plan $e/t1.log 1
printf '0 1 65 16 200 48 400 1 465 16 600 32' >"$log"
answers 0 'clean: 6 sends in 1 matrix cycle' hold $e/t1.tsm $e/t1.plan "$log" 1
due 100
answers 0 'clean: 600 sends in 100 matrix cycles' hold $e/t1.tsm $e/t1.plan "$log" 100
for name in document-003 press-line; do
    ./ttplan due $e/$name.words $e/$name.plan 100 >"$log"
    says 0 'clean: ' hold $e/$name.words $e/$name.plan "$log" 100
done
due 1
sed -i '2{h;d};3G' "$log"
differs 1 'time 200, identifier 0x030: message 2' 'time 65, identifier 0x010: message 0, matrix cycle 0, row 0, column 0'
due 1
sed -i 4d "$log"
differs 3 'time 465, identifier 0x010: message 0' 'time 400, identifier 0x001: reference message, matrix cycle 0, row 1'
due 1
sed -i 6d "$log"
differs 5 'nothing, the log ends there' 'time 600, identifier 0x020: message 1, matrix cycle 0, row 1, column 1'
due 1
echo 800 1 >>"$log"
differs 6 'time 800, identifier 0x001: reference message' 'nothing, the span ends there'
echo 0 70000 >"$log"
differs 0 'time 0, identifier 0x11170: no message of the plan' 'time 0, identifier 0x001: reference message, matrix cycle 0, row 0'
: >"$log"
differs 0 'nothing, the log ends there' 'time 0, identifier 0x001: reference message, matrix cycle 0, row 0'
due 1
for span in 0 101; do
    wrong="24, SPAN $span; it must be 1 to 100 matrix cycles"
    answers 1 "refused $wrong" hold $e/t1.tsm $e/t1.plan "$log" "$span"
    refuses "$wrong" due $e/t1.tsm $e/t1.plan "$span"
done
echo 800 >>"$log"
answers 1 "refused 24, $log: 13 words; a log has two for each send, its time and its identifier" hold $e/t1.tsm $e/t1.plan "$log" 1
answers 1 "$meeting" hold $e/t1.tsm $e/t1-meeting.plan "$log" 1
refuses "${meeting#refused }" due $e/t1.tsm $e/t1-meeting.plan 1
printf '0 1 # start\n50.5 16\n' >"$log"
is_bad 'log, line 2, character 1: 50.5: a decimal point; numbers are whole' hold $e/t1.tsm $e/t1.plan "$log" 1
printf '0 1\n\n  50us 16\n' >"$log"
is_bad 'log, line 3, character 3: 50us: a unit; times are whole network time units' hold $e/t1.tsm $e/t1.plan "$log" 1

printf '%s\n' '-- long logs'
due 100
awk '{ printf "%s %120s\n", $0, "." }' "$log" >"$scratch/long"
[ "$(wc -c <"$scratch/long")" -gt 65536 ]
verdict 'the log is longer than 65,536 bytes'
answers 0 'clean: 600 sends in 100 matrix cycles' hold $e/t1.tsm $e/t1.plan "$scratch/long" 100
printf '80000 1\n 80065,5 16\n' >>"$scratch/long"
is_bad 'long, line 602, character 2: 80065,5: a comma' hold $e/t1.tsm $e/t1.plan "$scratch/long" 100
(cat "$log" && printf '# ' && head -c 65533 /dev/zero | tr '\0' '.' && printf '\n#\n') >"$scratch/long"
answers 0 'clean: 600 sends in 100 matrix cycles' hold $e/t1.tsm $e/t1.plan "$scratch/long" 100
(cat "$log" && printf '# ' && head -c 65534 /dev/zero | tr '\0' '.' && printf '\n#\n') >"$scratch/long"
is_bad 'long, line 601: a line of a log has at most 65,535 bytes' hold $e/t1.tsm $e/t1.plan "$scratch/long" 100
seq 422402 >"$scratch/long"
says 1 'differs at pair 0' hold $e/t1.tsm $e/t1.plan "$scratch/long" 100
echo 1 >>"$scratch/long"
is_bad 'long, line 422403, character 1: more than 422,402 words, where at most 422,400 can be due' hold $e/t1.tsm $e/t1.plan "$scratch/long" 100
(
    echo 64 5000 65 1 32 32 64
    for c in $(seq 0 31); do echo $((65 + 140 * c)) 135; done
    for j in $(seq 2 65); do echo "$j $((j % 16)) 0 0 10000 0 10000"; done
) >"$scratch/full.words"
for j in $(seq 0 63); do echo $((j / 2)) $((j % 2)); done >"$scratch/full.plan"
run due "$scratch/full.words" "$scratch/full.plan" 100
cp "$scratch/out" "$scratch/long"
answers 0 'clean: 211200 sends in 100 matrix cycles' hold "$scratch/full.words" "$scratch/full.plan" "$scratch/long" 100

printf '%s\n' '-- planned again with placements that are kept'
kept=$scratch/kept

# words_of FILE: its words on one line, without the comments.
words_of() {
    sed 's/#.*//' "$1" | xargs
}

# replanned KEPT PLAN: with these placements kept T1 has this plan, and it is accepted.
replanned() {
    echo "$1" >"$kept"
    run replan $e/t1.tsm "$kept"
    [ "$status" -eq 0 ] && [ ! -s "$scratch/err" ] && [ "$(words_of "$scratch/out")" = "$2" ] && ./ttplan check $e/t1.tsm "$scratch/out" >"$scratch/checked"
    verdict "ttplan replan with $1 gives $2, and check accepts it"
}

# kept_refused KEPT TEXT: T1 with these placements kept is refused with this text. (16 cannot be met at the desk, which has room for every plan.)
kept_refused() {
    printf '%b\n' "$1" >"$kept"
    refuses "$2" replan $e/t1.words "$kept"
}

echo '- - - - - -' >"$kept"
run replan $e/t1.words "$kept"
[ "$status" -eq 0 ] && cmp -s "$scratch/out" $e/t1.plan
verdict "ttplan replan with nothing kept is $e/t1.plan"
replanned '- - - - 2 1 # the last message stays' '0 0 1 1 2 1'
replanned '- - - - 2 0' '0 0 1 1 2 0'
replanned '4294967295 4294967295 1 1 - -' '0 0 1 1 1 0'
replanned '0 0 1 1 2 1' '0 0 1 1 2 1'
kept_refused '0 0 1 1 1' '9, @: 5 words; 3 messages need 6, column and base row of each'
kept_refused '- -\n-\n- -' '9, @: 5 words; 3 messages need 6, column and base row of each; line 2 has 1 word where 2 are due'
kept_refused '0 0\n1 1\n3 0' '10, @, line 3, kept message 2 (0x030): column 3; it must be 0 to 2'
kept_refused '- - 1 2 - -' '10, @, line 1, kept message 1 (0x020): base row 2; it must be 0 to 1'
kept_refused '- 0 - - - -' '10, @, line 1, kept message 0 (0x010): column -, none, beside a number; it must be 0 to 2'
kept_refused '0 0 1 - - -' '10, @, line 1, kept message 1 (0x020): base row -, none, beside a number; it must be 0 to 1'
kept_refused '1 0 - - - -' '11, @, line 1, kept message 0 (0x010): column 1 is 100 wide, and its frame takes 135; wide enough: 0'
late='it waits 600 and its frame takes 65, in all 665; its deadline is 300, so that it is late by 365'
kept_refused '- -\n1 0\n- -' "12, @, line 2, kept message 1 (0x020): in column 1, base row 0 $late"
kept_refused '0 0\n- -\n0 1' '13, @, line 3, kept message 2 (0x030) meets kept message 0 (0x010), line 1, in column 0, row 1'
crowd=': no plan exists that keeps the kept placements'
kept_refused '- - - - 1 1' "14, $e/t1.words$crowd; $crowded"
kept_refused '0 0 - - 1 1' "14, $e/t1.words$crowd
no place even alone, line 10, message 1 (0x020): kept messages have all of its places"
for i in $(seq 17); do echo - -; done >"$kept"
refuses "15, $scratch/many.words, line 1: 17 messages without a kept placement; the planner takes at most 16" replan "$scratch/many.words" "$kept"
(echo 0 0 && tail -n +2 "$kept") >"$scratch/one-kept"
run replan "$scratch/many.words" "$scratch/one-kept"
[ "$status" -eq 1 ] && [ ! -s "$scratch/out" ] && [ "$(head -n 1 "$scratch/err")" = "refused 14, $scratch/many.words$crowd" ] && [ "$(grep -c '^no place even alone, line ' "$scratch/err")" -eq 16 ]
verdict 'ttplan replan: 16 messages have no place beside the one that is kept, each named with its line'
(head -n 48 "$scratch/full.plan" && for i in $(seq 16); do echo - -; done) >"$kept"
run replan "$scratch/full.words" "$kept"
[ "$status" -eq 0 ] && [ "$(words_of "$scratch/out")" = "$(words_of "$scratch/full.plan")" ]
verdict 'ttplan replan plans 16 of 64 messages'
edited 2 64
refuses "4, $scratch/edited.words, line 3: reference window 64; it must be 65 to 400, the basic cycle" replan "$scratch/edited.words" "$kept"
refuses "1, $scratch/length.tsm: 81 bytes; 3 columns and 3 messages make a file of version 1 of 82" replan "$scratch/length.tsm" "$kept"

printf '%s\n' '-- a line extended'
old="$e/press-line.words $e/press-line.plan"

# extended NEW OLD PLAN LINES: NEW, planned with what PLAN has of OLD kept, is told with these lines behind its matrix, and check accepts it.
extended() {
    run extend "$1" "$2" "$3"
    [ "$status" -eq 0 ] && [ ! -s "$scratch/err" ] && [ "$(sed -n '/^# new/,$p' "$scratch/out")" = "$4" ]
    verdict "ttplan extend $1 $2 $3: new, kept, gone and the nodes"
    cp "$scratch/out" "$scratch/new.plan"
    says 0 accepted check "$1" "$scratch/new.plan"
}

# extend_refused NEW TEXT: NEW in the place of T1 with T1's plan is refused with this text.
extend_refused() {
    refuses "$2" extend "$1" $e/t1.words $e/t1.plan
}

run extend $e/press-line-2.words $old
[ "$status" -eq 0 ] && cmp -s "$scratch/out" $e/press-line-2.plan
verdict "ttplan extend $e/press-line-2.words $old is $e/press-line-2.plan"
says 0 '2 2 # message 3, identifier 0x031' plan $e/press-line-2.words
says 0 'used             2220    55.50 %' check $e/press-line-2.words $e/press-line-2.plan
for n in 0 1 4; do
    ./ttplan lists $old $n >"$scratch/list"
    run lists $e/press-line-2.words $e/press-line-2.plan $n
    [ "$status" -eq 0 ] && cmp -s "$scratch/out" "$scratch/list"
    verdict "the list of node $n stays with the second binder"
done
for name in press-line press-line-2; do
    ./ttplan file $e/$name.words >"$scratch/$name.tsm"
    ./ttplan up $e/$name.words "$scratch/$name.up" >"$scratch/moved"
done
run extend "$scratch/press-line-2.tsm" "$scratch/press-line.up" $e/press-line.plan
[ "$status" -eq 0 ] && cmp -s "$scratch/out" $e/press-line-2.plan
verdict 'ttplan extend takes problem files of both versions'
stayed='# nodes with a changed trigger list: none
# nodes whose trigger list stayed: 0 1 2 3 4 5 6 7 8 9 10 11 12 13 14 15'
extended $e/t1.tsm $e/t1.words $e/t1.plan "# new  none
# kept 0x010 in column 0, base row 0
# kept 0x020 in column 1, base row 1
# kept 0x030 in column 1, base row 0
# gone none

$stayed"
edited 20 33
extended "$scratch/edited.words" $e/t1.words $e/t1.plan '# new  0x021 in column 1, base row 1
# kept 0x010 in column 0, base row 0
# kept 0x030 in column 1, base row 0
# gone 0x020 in column 1, base row 1

# nodes with a changed trigger list: 0 1
# nodes whose trigger list stayed: 2 3 4 5 6 7 8 9 10 11 12 13 14 15'
says 0 '# cycle  1  0x001  0x010 0x021*      .' extend "$scratch/edited.words" $e/t1.words $e/t1.plan
echo '0 0 1 1 2 1' >"$scratch/other.plan"
awk '/^0x010 /{ last = $0; next } { print } END { print last }' $e/t1.words >"$scratch/turned.words"
extended "$scratch/turned.words" $e/t1.words "$scratch/other.plan" "# new  none
# kept 0x020 in column 1, base row 1
# kept 0x030 in column 2, base row 1
# kept 0x010 in column 0, base row 0
# gone none

$stayed"
echo '2 400 65 1 32 3 0 65 135 200 100 300 100' >"$scratch/empty.words"
: >"$scratch/empty.plan"
extended $e/t1.words "$scratch/empty.words" "$scratch/empty.plan" '# new  0x010 in column 0, base row 0
# new  0x020 in column 1, base row 1
# new  0x030 in column 1, base row 0
# kept none
# gone none

# nodes with a changed trigger list: 0 1
# nodes whose trigger list stayed: 2 3 4 5 6 7 8 9 10 11 12 13 14 15'
extended "$scratch/empty.words" $e/t1.words $e/t1.plan '# new  none
# kept none
# gone 0x010 in column 0, base row 0
# gone 0x020 in column 1, base row 1
# gone 0x030 in column 1, base row 0

# nodes with a changed trigger list: 0 1
# nodes whose trigger list stayed: 2 3 4 5 6 7 8 9 10 11 12 13 14 15'
edited 3 2
says 0 '# nodes with a changed trigger list: 0 1 2 3 4 5 6 7 8 9 10 11 12 13 14 15' extend "$scratch/edited.words" $e/t1.words $e/t1.plan
says 0 '# nodes whose trigger list stayed: none' extend "$scratch/edited.words" $e/t1.words $e/t1.plan
sed '1s/64$/60/' "$scratch/full.words" | head -n 93 >"$scratch/fewer.words"
head -n 60 "$scratch/full.plan" >"$scratch/fewer.plan"
run extend "$scratch/full.words" "$scratch/fewer.words" "$scratch/fewer.plan"
[ "$status" -eq 0 ] && [ "$(words_of "$scratch/out")" = "$(words_of "$scratch/full.plan")" ] && [ "$(grep -c '^# new  0x' "$scratch/out")" -eq 4 ] && [ "$(awk '{ if (length($0) > most) most = length($0) } END { print most }' "$scratch/out")" -le 80 ]
verdict 'ttplan extend adds 4 messages to 60, and fits 80 columns'
edited 8 130
extend_refused "$scratch/edited.words" "11, $scratch/edited.words, line 14, kept message 0 (0x010): column 0 is 130 wide, and its frame takes 135; wide enough: none"
sed 's/^0x030 1 4 1 800 0 800/0x030 1 4 1 800 0 290/' $e/t1.words >"$scratch/changed.words"
extend_refused "$scratch/changed.words" "12, $scratch/changed.words, line 11, kept message 2 (0x030): in column 1, base row 0 it waits 200 and its frame takes 95, in all 295; its deadline is 290, so that it is late by 5"
sed 's/^0x030 1 4 1 800 0 800/0x030 1 4 1 400 0 400/' $e/t1.words >"$scratch/changed.words"
extend_refused "$scratch/changed.words" "13, $scratch/changed.words, line 11, kept message 2 (0x030) meets kept message 1 (0x020), line 10, in column 1, row 1"
edited 26 800
echo '0 0 1 0 1 1' >"$scratch/other.plan"
sed 's/^0x020 /0x021 /' $e/t1.words >"$scratch/changed.words"
refuses "14, $scratch/changed.words$crowd
no place even alone, line 10, message 1 (0x021): kept messages have all of its places" extend "$scratch/changed.words" "$scratch/edited.words" "$scratch/other.plan"
refuses "15, $scratch/many.words, line 1: 17 messages without a kept placement; the planner takes at most 16" extend "$scratch/many.words" "$scratch/empty.words" "$scratch/empty.plan"
edited 2 64
window="$scratch/edited.words, line 3: reference window 64; it must be 65 to 400, the basic cycle"
extend_refused "$scratch/edited.words" "4, $window"
extend_refused "$scratch/length.tsm" "1, $scratch/length.tsm: 81 bytes; 3 columns and 3 messages make a file of version 1 of 82"
refuses "4, $window" extend $e/t1.tsm "$scratch/edited.words" $e/t1.plan
refuses "1, $scratch/length.tsm: 81 bytes; 3 columns and 3 messages make a file of version 1 of 82" extend $e/t1.tsm "$scratch/length.tsm" $e/t1.plan
for new in $e/t1.tsm "$scratch/edited.words"; do
    refuses "${meeting#refused }" extend "$new" $e/t1.words $e/t1-meeting.plan
done
echo '0 0 1 1 1' >"$scratch/p"
refuses '9, @: 5 words; 3 messages need 6, column and base row of each' extend $e/t1.tsm $e/t1.tsm "$scratch/p"

printf '%s\n' '-- bad use'
is_bad 'no such command' frobnicate
for arguments in '' "$e/t1.tsm $e/t1.plan"; do
    is_bad 'ttplan check FILE PROPOSAL shows them' losses $arguments
done
run help
! grep -q '^ttplan losses' "$scratch/out"
verdict 'ttplan help does not name losses'
is_bad 'use: ttplan check FILE PROPOSAL' check $e/t1.tsm
is_bad 'use: ttplan show FILE [PROPOSAL]' show
is_bad 'use: ttplan plan FILE' plan $e/t1.tsm $e/t1.plan
is_bad 'use: ttplan replan FILE KEPT' replan $e/t1.tsm
is_bad 'use: ttplan extend NEW OLD OLDPLAN' extend $e/t1.tsm $e/t1.plan
is_bad 'use: ttplan times EVENTS' times
is_bad 'use: ttplan up FILE OUT' up $e/t1.tsm
is_bad 'use: ttplan back FILE OUT' back $e/t1.tsm
is_bad 'Is a directory' up $e/t1.tsm "$scratch"
cp $e/t1.words "$scratch/own.words"
is_bad 'OUT is the word list that is read; a problem file needs a name of its own' up "$scratch/own.words" "$scratch/own.words"
cmp -s "$scratch/own.words" $e/t1.words
verdict 'a word list is not overwritten by its problem file'
is_bad 'OUT is the name of a file, and - is none' up $e/t1.tsm -
for arguments in "check $e/t1.words $e/t1.tsm" "file $e/t1.tsm" "times $e/t1.tsm"; do
    is_bad "$e/t1.tsm, line 1, character 1: a problem file, where a word list is due; ttplan words makes one of it" $arguments
done
is_bad 'No such file or directory' up $e/t1.tsm "$scratch/nowhere/out.tsm"
is_bad 'use: ttplan hold FILE PROPOSAL LOG SPAN' hold $e/t1.tsm $e/t1.plan 1
is_bad 'use: ttplan due FILE PROPOSAL SPAN' due $e/t1.tsm $e/t1.plan
is_bad 'SPAN is a number of matrix cycles from 1 to 100, and not one' due $e/t1.tsm $e/t1.plan one
is_bad 'nowhere.log: No such file or directory' hold $e/t1.tsm $e/t1.plan "$scratch/nowhere.log" 1
is_bad 'Is a directory' hold $e/t1.tsm $e/t1.plan "$scratch" 1
is_bad 'nowhere.words: No such file or directory' plan "$scratch/nowhere.words"
is_bad 'Is a directory' plan "$scratch"
head -c 65537 /dev/zero >"$scratch/long.tsm"
is_bad 'longer than 65,536 bytes' plan "$scratch/long.tsm"
seq 1025 >"$scratch/bad.words"
is_bad 'line 1025, character 1: a word list has at most 1,024 words' replan $e/t1.tsm "$scratch/bad.words"
is_bad 'line 1025, character 1: a word list has at most 1,024 words' plan "$scratch/bad.words"
is_bad 'nowhere.plan: No such file or directory' replan $e/t1.tsm "$scratch/nowhere.plan"
is_bad 'nowhere.plan: No such file or directory' extend $e/t1.tsm $e/t1.tsm "$scratch/nowhere.plan"
is_bad 'nowhere.tsm: No such file or directory' extend $e/t1.tsm "$scratch/nowhere.tsm" $e/t1.plan
is_bad 'nowhere.tsm: No such file or directory' extend "$scratch/nowhere.tsm" $e/t1.tsm $e/t1.plan
is_bad 'NODE is a number from 0 to 15, and not 16' lists $e/t1.tsm $e/t1.plan 16
is_bad 'NODE is a number from 0 to 15, and not one' lists $e/t1.tsm $e/t1.plan one

printf '%s\n' '-- words that are no numbers'

# hinted TEXT HINT ARGUMENTS: a word list of this text (as printf writes it) is bad use, and the sentence says where, and then this.
hinted() {
    local text=$1 hint=$2
    shift 2
    printf '%b' "$text" >"$scratch/bad.words"
    is_bad "bad.words, $hint" "$@" "$scratch/bad.words"
}

bit_times='times are whole network time units (bit times), written without one'
hinted '# one\n2 400 six\n' 'line 2, character 7: six: not a whole number, decimal or with 0x in front hexadecimal' plan
hinted '2 0x1g' 'line 1, character 3: 0x1g: not a whole number, decimal or with 0x in front hexadecimal' plan
hinted '2 0x' 'line 1, character 3: 0x: not a whole number' plan
hinted '2 0x100000000' 'line 1, character 3: 0x100000000: larger than 4,294,967,295, the largest number' plan
hinted '2 7FF' 'line 1, character 3: 7FF: hexadecimal digits have 0x in front' plan
hinted '2 5 ms' "line 1, character 5: ms: a unit; $bit_times" plan
hinted '2 25\0302\0265s' "line 1, character 3: 25µs: a unit; $bit_times" plan
for word in 12O0 1:2 2_500 0-15 20h 0X20 '2500;' '\0342\0210\022230'; do
    hinted "2 $word" "line 1, character 3: $(printf '%b' "$word"): not a whole number, decimal or with 0x in front hexadecimal" plan
done
hinted "2 $(printf '%040d' 7)x" 'line 1, character 3: 00000000000000000000000000000000..: not a whole number' plan
hinted '2 a\0007' 'line 1, character 3: a?: not a whole number' plan
hinted '2 4294967296' 'line 1, character 3: 4294967296: larger than 4,294,967,295, the largest number' plan
hinted '2 -1' 'line 1, character 3: -1: no number is below 0' check $e/t1.tsm
hinted '2 400,5' 'line 1, character 3: 400,5: a comma; only white space parts numbers, and they have no comma in them' file
hinted '2 4.5' 'line 1, character 3: 4.5: a decimal point; numbers are whole, and times are network time units (bit times)' words
hinted '2 10ms' "line 1, character 3: 10ms: a unit; $bit_times" times
hinted '2\0302\0240400' 'line 1, character 1: a no-break space; write a plain space' plan
hinted '2\0240400' 'line 1, character 1: a no-break space; write a plain space' plan
hinted '2 caf\0303\0240' 'line 1, character 3: cafà: not a whole number' plan
hinted '\0377\03762\0' 'line 1, character 1: the text is UTF-16; save it as UTF-8 or as plain text' plan
hinted '\0376\0377\0002' 'line 1, character 1: the text is UTF-16; save it as UTF-8 or as plain text' plan
hinted '2\0 \0004\0' 'line 1, character 1: the text is UTF-16; save it as UTF-8 or as plain text' plan
hinted '0 0\n- one' 'line 2, character 3: one: not a whole number, decimal or with 0x in front hexadecimal; a - by itself is none' replan $e/t1.tsm
hinted '0 0 -1 0 - -' 'line 1, character 5: -1: no number is below 0; a - by itself is none' replan $e/t1.tsm
hinted '0 0 - -' 'line 1, character 5: -: a - is for none, in a kept list (replan) alone' check $e/t1.tsm
hinted '0 0 - -' 'line 1, character 5: -: a - is for none, in a kept list (replan) alone' extend $e/t1.tsm $e/t1.tsm
hinted '\0357\0273\02772 x' 'line 1, character 3: x: not a whole number' plan
(printf '\357\273\277' && cat $e/t1.words) >"$scratch/bom.words"
run plan "$scratch/bom.words"
[ "$status" -eq 0 ] && cmp -s "$scratch/out" $e/t1.plan
verdict 'a byte order mark of UTF-8 is skipped'
(printf '\357\273\277' && cat $e/t1.log) >"$scratch/bom.log"
answers 0 'clean: 6 sends in 1 matrix cycle' hold $e/t1.tsm $e/t1.plan "$scratch/bom.log" 1
sed 's/^0x010 /16 /; s/^0x020 /0x20 /; s/^0x030 /0x0030 /; s/ 800 0 800$/ 0x320 0x0 0x320/' $e/t1.words >"$scratch/hex.words"
run plan "$scratch/hex.words"
[ "$status" -eq 0 ] && cmp -s "$scratch/out" $e/t1.plan
verdict 'decimal and hexadecimal numbers are read alike in word lists'
run words $e/t1.tsm
grep -qx '2 400 65 0x001 32 3 3' "$scratch/out" && grep -qx '0x020 1 1 1 800 400 300' "$scratch/out"
verdict 'ttplan words shows identifiers as it reads them'

printf '%s\n' '-- a plan and its problem'
mark=$(sed -n 's/^# problem //p' $e/t1.plan)
[[ $mark =~ ^[0-9a-f]{8}$ ]] && [ "$(head -n 1 $e/t1.plan)" = "# problem $mark" ]
verdict 'a plan begins with the mark of its problem'
other=$(sed -n 's/^# problem //p' $e/press-line.plan)
is_bad "ttplan: $e/press-line.plan was made for problem $other, and $e/t1.words is problem $mark; plan it anew, or take the line # problem out to use the plan as it stands" check $e/t1.words $e/press-line.plan
for command in show lists; do
    is_bad "was made for problem $other, and $e/t1.tsm is problem $mark" $command $e/t1.tsm $e/press-line.plan
done
is_bad "was made for problem $other" hold $e/t1.tsm $e/press-line.plan $e/t1.log 1
is_bad "was made for problem $other" due $e/t1.tsm $e/press-line.plan 1
is_bad "ttplan: $e/press-line.plan was made for problem $other, and $e/t1.tsm is problem $mark" extend $e/press-line-2.words $e/t1.tsm $e/press-line.plan
for k in $(seq 0 33); do
    edited "$k" 7
    run words "$scratch/edited.words"
    [ "$status" -eq 0 ] && is_bad 'was made for problem' check "$scratch/edited.words" $e/t1.plan
done
sed 1d $e/t1.plan >"$scratch/bare.plan"
says 0 accepted check $e/t1.tsm "$scratch/bare.plan"
(echo '# problem with the feeder' && echo '# problem 12345678x' && cat "$scratch/bare.plan") >"$scratch/comment.plan"
says 0 accepted check $e/t1.tsm "$scratch/comment.plan"
sed '1s/.*/# problem 00000000/' $e/t1.plan >"$scratch/marked.plan"
is_bad 'was made for problem 00000000' check $e/t1.tsm "$scratch/marked.plan"
run replan $e/t1.tsm "$scratch/marked.plan"
[ "$status" -eq 0 ] && cmp -s "$scratch/out" $e/t1.plan
verdict 'a kept list is not held to a problem'

printf '%s\n' '-- standard input'
./ttplan plan - <$e/t1.words >"$scratch/out" && cmp -s "$scratch/out" $e/t1.plan
verdict 'ttplan plan - reads words'
./ttplan words - <$e/t1.tsm | ./ttplan file - | cmp -s - $e/t1.tsm
verdict 'ttplan words - reads a problem file, ttplan file - its words'
./ttplan plan $e/t1.tsm | ./ttplan check $e/t1.tsm - >"$scratch/out"
[ "$(head -n 1 "$scratch/out")" = accepted ]
verdict 'ttplan plan FILE | ttplan check FILE -'
./ttplan due $e/t1.tsm $e/t1.plan 100 | ./ttplan hold $e/t1.tsm $e/t1.plan - 100 >"$scratch/out"
[ "$(cat "$scratch/out")" = 'clean: 600 sends in 100 matrix cycles' ]
verdict 'ttplan hold reads a log from standard input'
echo 2 400 64 >"$scratch/short.words"
./ttplan plan - <"$scratch/short.words" >"$scratch/out" 2>"$scratch/err"
[ "$(cat "$scratch/err")" = 'refused 1, standard input: 3 words; a problem has at least the 7 of its header' ]
verdict 'standard input is named in a refusal'

{ sleep 1 && ./ttplan plan $e/t1.words; } 2>"$scratch/err" | : >"$scratch/out"
status=${PIPESTATUS[0]}
[ "$status" -eq 141 ] && [ ! -s "$scratch/err" ]
verdict 'ttplan plan whose reader is gone ends quietly'
./ttplan plan $e/t1.words >/dev/full 2>"$scratch/err"
status=$?
[ "$status" -eq 2 ] && [ "$(cat "$scratch/err")" = 'ttplan: the output could not be written' ]
verdict 'ttplan plan with standard output /dev/full says so'

printf '%s\n' '-- the manual and the README'

# typed FILE: all that FILE shows as typed in (indented, behind a dollar sign) answers, in a folder of its own, with the lines below it.
typed() {
    local line command='' wanted=''
    mkdir -p "$scratch/typed"
    ln -sfn "$PWD/ttplan" "$scratch/typed/ttplan"
    ln -sfn "$PWD/examples" "$scratch/typed/examples"
    while IFS= read -r line; do
        if [[ $line == '    $ '* || $line != '    '* ]] && [ -n "$command" ]; then
            (cd "$scratch/typed" && eval "$command") >"$scratch/out" 2>"$scratch/err"
            status=$?
            [ "$(cat "$scratch/out" "$scratch/err")" = "${wanted%$'\n'}" ]
            verdict "$1: $command"
            command='' wanted=''
        fi
        case $line in
        '    $ '*) command=${line#'    $ '} ;;
        '    '*) [ -z "$command" ] || wanted+=${line#'    '}$'\n' ;;
        esac
    done < <(cat "$1" && echo)
}

typed docs/MANUAL.md
sed -n 's/^    //p' README.md | grep -A 10 '^window' | cmp -s - <(./ttplan | grep -A 10 -m 1 '^window')
verdict 'README.md shows the example as it is planned'
sed -n 's/^    //p' README.md | grep -A 10 '^# Case T1' | cmp -s - $e/t1.words
verdict "README.md shows $e/t1.words"
grep -q '^    refused 7, my.words, line 31, message 5 (0x050): period 15000; it must be 1000 times 1, 2 or 4$' README.md && grep -qF 'refused 7, my.words, line 31, message 5' docs/MANUAL.md
verdict "README.md shows a refusal of docs/MANUAL.md"
sed -n 's/^    //p' docs/MANUAL.md | grep -A 21 -F '# The matrix; a new message' | cmp -s - <(sed -n '/^# The matrix/,$p' $e/press-line-2.plan | grep .)
verdict "docs/MANUAL.md shows what $e/press-line-2.plan changes"
: >"$scratch/out"
for compiler in 'gcc -std=c99' 'g++ -std=c++11 -x c++'; do
    command -v "${compiler%% *}" >/dev/null || continue
    for file in examples/c/*.c; do
        $compiler -Wall -Wextra -pedantic -Werror -fsyntax-only -Iinclude "$file" 2>"$scratch/err"
        verdict "$compiler takes $file"
    done
done
. tests/script.sh

printf '%s tried, %s failed\n' "$tried" "$failed"
[ "$failed" -eq 0 ]
