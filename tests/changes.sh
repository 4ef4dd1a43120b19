#!/usr/bin/env bash
# Tests of the console on tables with struck trenches: what is left out, and what the commands that change lines write and tell.
# usage: changes.sh STAR..   the program, with words before it if it is to be run by another. Ends in one line 'N passed, M failed'.
. "$(dirname "$0")/try.sh"

# Struck trenches: left out of everything, and no longer asked about; the stored cases have the rest. What strike, add and merge write and tell on
# random files is what a list of the trenches says.
try struck 0 'Total 12' '' check $struck
try struck-only 0 'It is the only cheapest network' '' check $struck
try struck-explained 2 'trench 3 is struck' '' explain $struck 3
try struck-page 0 'Passed' '' page --static $struck
grep -q 'id="own-t4"' "$work/out" && ! grep -q 'id="own-[tl]3"' "$work/out"
verdict struck-page-left-out $?
for picture in draw dot; do
    "${star[@]}" strike $yard 1 3 5 | "${star[@]}" $picture - >"$work/all" 2>/dev/null
    grep -q '[>"]4: 4[<"]' "$work/all" && ! grep -q '[>"][135]: ' "$work/all"
    verdict "struck-$picture" $?
done
"${star[@]}" draw $yard | grep -o '<circle[^>]*>' >"$work/all"
"${star[@]}" strike $yard 1 | "${star[@]}" draw - | grep -o '<circle[^>]*>' | diff - "$work/all"
verdict struck-lies-alike $?
python3 -B tests/changes.py "${star[@]}" >"$work/all"
verdict changes $?

# The largest tables: all 1,024 trenches in use, one of them struck, and one more trench than there can be.
for ((u = 1; u < 46; u++)); do for ((v = u + 1; v <= 46; v++)); do echo "$u $v $((u * v % 50)) 0"; done; done | head -n 1024 >"$work/full.txt"
"${star[@]}" strike "$work/full.txt" 1 >"$work/first.txt"
"${star[@]}" strike "$work/full.txt" 1024 >"$work/last.txt"
{ cat "$work/first.txt"; echo 'struck 1 2 3 0'; } >"$work/more.txt"
try full 2 'Refused \(17\): .*full.txt: all 1024 trenches are in use; strike one before another is added' '' add "$work/full.txt" 45 46 9
[ ! -s "$work/out" ]
verdict full-nothing $?
try packed 0 '^trench 1024 is new$' '' add "$work/first.txt" 1 2 9
[ "$(grep -c 'is now trench' "$work/err")" = 1023 ] && grep -qx '1 struck trench is gone.' "$work/err" && grep -qx 'trench 1024 is now trench 1023' "$work/err"
verdict packed-told $?
[ "$(tail -n 1 "$work/out")" = '1 2 9 0' ] && diff <(tail -n +2 "$work/full.txt") <(grep -v '^junctions' "$work/out" | head -n 1023)
verdict packed-written $?
try last-struck 0 '^trench 1024 is new$' '' add "$work/last.txt" 45 46 9
[ "$(wc -l <"$work/err")" = 1 ] && [ "$(grep -vc junctions "$work/out")" = 1024 ] && [ "$(tail -n 1 "$work/out")" = '45 46 9 0' ]
verdict last-struck-written $?
for words in 'strike %s 1' 'add %s 1 2 3' 'merge %s' 'check %s' 'unstrike %s 1' 'mark %s 1' 'unmark %s 1' 'price %s 1 5'; do
    try "more: $words" 2 'Refused \(2\): .*more.txt:1025: there are more than 1024 trenches; at most 1024 are taken, struck ones included' '' ${words/\%s/$work/more.txt}
done
try first-build 0 '^Total ' '' build "$work/first.txt"

# Changes: usage, STP files, a file that is changed in its place.
try strike-no-number 4 "the number of a trench follows the file of 'strike'" '' strike $yard
try strike-word 4 "a trench is named by its number, from 1 on, and not by 'x'" '' strike $yard 1 x
try strike-large 2 'Refused \(18\): .*there is no trench 99999999999 to strike' '' strike $yard 99999999999
try add-few 4 "two junctions and a price follow the file of 'add'" '' add $yard 1 2
try add-many 4 "two junctions and a price follow the file of 'add'" '' add $yard 1 2 3 4
try add-256 4 "a junction is a number from 1 to 255, and not '256'" '' add $yard 1 256 3
try add-0 4 "a junction is a number from 1 to 255, and not '0'" '' add $yard 0 2 3
try add-price 4 "a price is a whole number from -2147483648 to 2147483647, and not '2147483648'" '' add $yard 1 2 2147483648
try add-least 0 '^2 4 -2147483648 0$' '' add $yard 2 4 -2147483648
try merge-two 4 "one file is read, and there is also '$dear'" '' merge $yard $dear
for words in 'strike %s 1' 'add %s 1 2 3' 'merge %s' 'unstrike %s 1' 'mark %s 1' 'unmark %s 1' 'price %s 1 5'; do try "stp: $words" 3 "an STP file is not changed\. 'star table' writes a table, whose lines ${words%% *} can change" '' ${words/\%s/$street}; done
cp $yard "$work/changed.txt"
try changed 0 '^exit 0' '' strike -o "$work/changed.txt" "$work/changed.txt" 4
try changed-again 2 'Refused \(18\): .*changed.txt:5: trench 4 is struck already' '' strike -o "$work/changed.txt" "$work/changed.txt" 2 4
try changed-kept 0 '^Total 13$' '' build "$work/changed.txt"

# A trench that is named twice; one that is not there, or is struck; one that is so already.
for command in strike unstrike mark unmark; do
    try "$command-twice" 4 '^star: trench 2 is named twice, and nothing is written$' '1 2 5 0\n2 3 4 1\n1 3 6 1\n' $command - 2 3 02
    try "$command-no-number" 4 "the number of a trench follows the file of '$command'" '' $command $yard
    try "$command-word" 4 "a trench is named by its number, from 1 on, and not by 'x'" '' $command $yard 1 x
done
for command in unstrike mark unmark; do
    try "$command-none" 2 "^Refused \\(7\\): $yard: there is no trench 99999999999; the table has 5\\.\$" '' $command $yard 99999999999
    try "$command-zero" 2 "^Refused \\(7\\): $yard: there is no trench 0; the table has 5\\.\$" '' $command $yard 1 0
    [ ! -s "$work/out" ]
    verdict "$command-nothing" $?
done
for words in "mark $struck 3" "unmark $struck 3" "price $struck 3 7"; do try "struck: $words" 2 'Refused \(7\): .*struck.txt:4: trench 3 is struck, and so left out of everything\.$' '' $words; done
try mark-again 0 '^trench 4 is marked already$' '' mark $yard 4 1
try unmark-again 0 '^trench 1 is unmarked already$' '' unmark $yard 1 4
try unstrike-again 0 '^trench 1 is not struck$' '' unstrike $struck 1 3
try price-again 0 '^trench 1 has this price already$' '' price $yard 1 005
try price-few 4 "the number of a trench and its price follow the file of 'price'" '' price $yard 1
try price-many 4 "the number of a trench and its price follow the file of 'price'" '' price $yard 1 2 3
try price-word 4 "a price is a whole number from -2147483648 to 2147483647, and not '4.5'" '' price $yard 1 4.5
try price-least 0 '^1 2 -2147483648 0$' '' price $yard 1 -2147483648
try price-none 2 'Refused \(7\): .*there is no trench 6; the table has 5' '' price $yard 6 1

# A trench that comes in and would be refused: nothing is written, and what would follow is said.
comes() { # NAME STATUS PATTERN TEXT WORDS..: with -o, the file is as it was where the status is not 0
    local name=$1 expected=$2 pattern=$3 text=$4 command=$5
    shift 5
    try "$name" "$expected" "$pattern" "$text" "$command" - "$@"
    if [ "$expected" != 0 ]; then
        grep -qx 'Nothing is written: that would be said of the file with this change.' "$work/err" && [ ! -s "$work/out" ]
        verdict "$name-told" $?
        printf "$text" >"$work/comes.txt"
        "${star[@]}" "$command" "$work/comes.txt" "$@" -o "$work/comes.txt" 2>"$work/all"
        [ $? = "$expected" ] && cmp -s "$work/comes.txt" <(printf "$text")
        verdict "$name-kept" $?
    fi
}
comes add-loop 2 '^Refused \(4\): standard input:2: trench 2 joins junction 2 to itself\.$' '1 2 5 1\n' add 2 2 7
comes add-pair 2 '^Refused \(15\): standard input:3: trench 3 joins the same junctions as trench 1\.$' '1 2 5 1\n2 3 4 1\n' add 2 1 7
comes add-above 2 '^Refused \(4\): standard input:3: trench 2 ends at junction 9; junctions are numbered from 1 to 4\.$' 'junctions 4\n1 2 5 1\n' add 1 9 7
comes add-refused 2 '^Refused \(4\): standard input:1: trench 1 joins junction 1 to itself\.$' '1 1 5 1\n' add 1 2 7
comes add-gap 0 '^No trench names junctions 3 to 8, and junctions are numbered from 1 to 9 \(line 2\)\.$' '1 2 5 1\n' add 1 9 7
comes add-struck-pair 0 '^trench 2 is new$' '1 2 5 1\nstruck 2 3 4 1\n' add 3 2 7
comes unstrike-pair 2 '^Refused \(15\): standard input:2: trench 2 joins the same junctions as trench 1\.$' '1 2 5 1\nstruck 2 1 4 1\n' unstrike 2
comes unstrike-loop 2 '^Refused \(4\): standard input:2: trench 2 joins junction 2 to itself\.$' '1 2 5 1\nstruck 2 2 4 1\n' unstrike 2
comes unstrike-above 2 '^Refused \(4\): standard input:3: trench 2 ends at junction 3; junctions are numbered from 1 to 2\.$' 'junctions 2\n1 2 5 1\nstruck 2 3 4 0\n' unstrike 2
comes unstrike-one 2 '^Refused \(15\): standard input:3: trench 3 joins the same junctions as trench 2\.$' 'struck 1 3 2 0\nstruck 2 1 4 1\nstruck 1 2 4 0\n' unstrike 3 2

# A byte order mark and the ends of lines stay as they are, and a new line ends as the first one does.
bytes() { # NAME TEXT EXPECTED COMMAND WORDS..: the texts as printf takes them
    local name=$1 text=$2 expected=$3 command=$4
    shift 4
    printf "$text" | "${star[@]}" "$command" - "$@" 2>/dev/null | cmp - <(printf "$expected") >"$work/all"
    verdict "$name" $?
}
order='\xef\xbb\xbf'
bytes bytes-strike "${order}1 2 5\r\n2 3 4\r\n" "${order}1 2 5\r\nstruck 2 3 4\r\n" strike 2
bytes bytes-add "${order}1 2 5\r\n2 3 4\r\n" "${order}1 2 5\r\n2 3 4\r\n1 3 6 0\r\n" add 1 3 6
bytes bytes-add-struck "${order}1 2 5\r\nstruck 2 3 4\r\n" "${order}junctions 3\r\n1 2 5\r\n1 3 6 0\r\n" add 1 3 6
bytes bytes-add-open "1 2 5\r\n2 3 4" "1 2 5\r\n2 3 4\r\n1 3 6 0\r\n" add 1 3 6
bytes bytes-add-cr "1 2 5\r2 3 4\r" "1 2 5\r2 3 4\r1 3 6 0\r" add 1 3 6
bytes bytes-merge "${order}struck 1 2 5\r\n2 3 4\r\n" "${order}junctions 3\r\n2 3 4\r\n" merge
bytes bytes-unstrike "${order}# a\r\n \tSTRUCK  1 2 5 # b\r\n2 3 4\r\n" "${order}# a\r\n \t1 2 5 # b\r\n2 3 4\r\n" unstrike 1
bytes bytes-mark "${order}1 2 5# b\r\n2  3  4 0000  # c\r\n3 4 2 00" "${order}1 2 5 1# b\r\n2  3  4 1  # c\r\n3 4 2 00" mark 1 2
bytes bytes-unmark "${order}1 2 5 1# b\r\n2  3  4 001 \t # c\r\n3 4 2 1" "${order}1 2 5 0# b\r\n2  3  4 0 \t # c\r\n3 4 2 1" unmark 1 2
bytes bytes-unmark-none "1 2 5\r2 3 4 1\r" "1 2 5\r2 3 4 1\r" unmark 1
bytes bytes-price "${order}1 2 5# b\r\n2\t 3 \t-04\t0000  # c\r\n3 4 2" "${order}1 2 5# b\r\n2\t 3 \t-7\t0000  # c\r\n3 4 2" price 2 -007
bytes bytes-price-same "1 2 005 1\r\n" "1 2 005 1\r\n" price 1 5
bytes bytes-mend "${order}1 2 5\r\n2 3 4 0 # yes\r\n" "${order}1 2 5 1\r\n2 3 4 1 # yes\r\n" mend

# Where the file cannot be written, nothing is told of its changes.
for words in "add %s $yard 2 4 7" "merge %s $struck" 'mend %s console/examples/old.txt'; do
    try "unwritten: $words" 5 '/full: it could not be written: No space left' '' ${words/\%s/-o $work/full}
    [ "$(wc -l <"$work/err")" = 1 ]
    verdict "unwritten, and nothing told: $words" $?
done

echo "$passed passed, $failed failed"
[ "$failed" = 0 ]
