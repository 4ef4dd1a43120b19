#!/usr/bin/env bash
# Tests of the commands of the console that answer a question: quote, breaking, which, stretch and digs. The stored cases of console.sh have what they
# say of small tables.
# usage: asked.sh STAR..   the program, with words before it if it is to be run by another. Ends in one line 'N passed, M failed'.
. "$(dirname "$0")/try.sh"
bridge=console/examples/bridge.txt city=console/examples/city.txt first=console/examples/office-a.txt second=console/examples/office-b.txt

# The examples.
try quote 0 '^The cheapest network costs 12 today and 13 at the new price: 1 more\.$' '' quote $yard 4 9
try quote-city 0 '^The cheapest network costs 130316 today and ' '' quote $city 5 100000
try breaking 0 'is in a cheapest network up to 5; above, trench 1 \(1-2, price 5\) takes its place' '' breaking $yard 4
try breaking-bridge 0 'no other route; it is in every network' '' breaking $bridge 4
try breaking-city 0 'is in a cheapest network up to [0-9]+; above, trench [0-9]+ ' '' breaking $city 5
try which 0 '^The second plan stands, console/examples/office-b.txt: it costs 17 and the first 19, 2 more\.$' '' which $first $second
try which-turned 0 '^The first plan stands, console/examples/office-b.txt: it costs 17 and the second 19, 2 more\.$' '' which $second $first
try which-standard-input 0 'The first plan stands, .*office-b.txt' "$(sed 's/$/\\n/' $first | tr -d '\n')" which $second -
try stretch 0 '^No route between 1 and 2 over the table.s trenches has a dearest trench cheaper than 5\.$' '' stretch $yard 1 2
try stretch-dear 1 'nothing is promised of other routes' '' stretch $dear 1 3
try stretch-city 0 'Its dearest is trench ' '' stretch $city 1 255
try digs 0 '^Total 249$' '' digs $street
try digs-city 0 '^Total 130316$' '' digs $city
[ "$(wc -l <"$work/out")" = 255 ]
verdict digs-city-lines $?

# Usage.
try quote-few 4 "the number of a trench and its new price follow the file of 'quote'" '' quote $yard 4
try quote-many 4 "the number of a trench and its new price follow the file of 'quote'" '' quote $yard 4 9 9
try quote-word 4 "a trench is named by its number, from 1 on, and not by 'x'" '' quote $yard x 9
try quote-price 4 "a price is a whole number from -2147483648 to 2147483647, and not '2147483648'" '' quote $yard 4 2147483648
try quote-price-word 4 "a price is .*, and not '4.50'" '' quote $yard 4 4.50
try quote-price-below 4 "a price is .*, and not '-2147483649'" '' quote $yard 4 -2147483649
try quote-minus 4 "unknown option '-x'" '' quote $yard 4 -x
try which-large 3 'standard input:1: 4000000000 junctions$' 'junctions 4000000000\n1 2 5 0\n2 3 3 1\n3 4 5 1\n1 4 4 1\n1 3 6 0\n' which - $yard
try breaking-few 4 "the number of one trench follows the file of 'breaking'" '' breaking $yard
try breaking-many 4 "the number of one trench follows the file of 'breaking'" '' breaking $yard 4 5
try breaking-word 4 "a trench is named by its number, from 1 on, and not by 'x'" '' breaking $yard x
try which-few 4 "a second file with marks follows the file of 'which'" '' which $yard
try which-many 4 "a second file with marks follows the file of 'which'" '' which $yard $dear $dear
try which-both 4 "one of the two files alone is standard input" '1 2 5 1\n' which - -
try which-missing 3 'nowhere.txt: No such file' '' which $yard nowhere.txt
try which-stp 3 "an STP file marks no trench, so there is no plan to compare. 'star build'" '' which $street $yard
try stretch-few 4 "two junctions follow the file of 'stretch'" '' stretch $yard 1
try stretch-many 4 "two junctions follow the file of 'stretch'" '' stretch $yard 1 2 3
try stretch-same 4 "a stretch joins two different junctions, and both are '2'" '' stretch $yard 2 2
try stretch-256 2 'there is no junction 256; the table has 4' '' stretch $yard 1 256
try stretch-above 2 'there is no junction 5; the table has 4' '' stretch $yard 1 5
try digs-two 4 "one file is read, and there is also '$dear'" '' digs $yard $dear
try digs-option 4 "unknown option '--table'" '' digs --table $yard

# Tables that are too large, and a text that is.
yes '1 2 3 0' | head -n 1025 >"$work/rows.txt"
for words in 'quote %s 1 2' 'breaking %s 1' "which %s $work/rows.txt" 'stretch %s 1 2' 'digs %s'; do
    try "rows: $words" 2 'Refused \(2\): .*1025' '' ${words/\%s/$work/rows.txt}
done
[ "$(cat "$work/out")" = 'Refused 2 8192' ]
verdict digs-rows-line $?
{ cat $street; head -c 65536 /dev/zero | tr '\0' ' '; } >"$work/long.stp"
try digs-long 2 'Refused \(12\): .*at most 65536' '' digs "$work/long.stp"
[ "$(cat "$work/out")" = 'Refused 12 65536' ]
verdict digs-long-line $?

# An output file is left as it was where there is nothing to write, and a list is written whole.
cp $yard "$work/kept.txt"
try kept 4 'two junctions follow' '' stretch -o "$work/kept.txt" $yard 1
try kept-differ 3 'The two tables are not the same' '' which -o "$work/kept.txt" $yard $first
diff $yard "$work/kept.txt" >"$work/all"
verdict kept-file $?
try list-file 0 '^exit 0' '' digs -o "$work/list.txt" $yard
printf '1 1 2 5\n2 2 3 3\n4 1 4 4\nTotal 12\n' | diff - "$work/list.txt" >"$work/all"
verdict list-file-whole $?

# On random tables, against plain searches; and the dig lists of many texts and tables, against the printer in Python that the program is held to.
python3 -B tests/asked.py "${star[@]}" >"$work/all" && [[ $(tail -n 1 "$work/all") =~ \ 0\ failed$ ]]
verdict asked $?
python3 -B tests/stp/digs.py --console "${star[@]}" >"$work/all" && [[ $(tail -n 1 "$work/all") =~ \ 0\ failed$ ]]
verdict lists $?

echo "$passed passed, $failed failed"
[ "$failed" = 0 ]
