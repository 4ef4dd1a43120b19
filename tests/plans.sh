#!/usr/bin/env bash
# Tests of the console's commands districts, mend and outlets; the stored cases of console.sh have the rest.
# usage: plans.sh STAR..   the program, with words before it if it is to be run by another. Ends in one line 'N passed, M failed'.
. "$(dirname "$0")/try.sh"
city=console/examples/city.txt old=console/examples/old.txt

# Random files, against plain searches.
python3 -B tests/plans.py "${star[@]}" >"$work/all"
verdict plans $?

# The examples. The city's total is that of build, whatever the districts are; the mended plan passes.
for ends in 1024 '200 1024' '100 101 300 555 556 800 900 1024'; do
    try "districts of the city: $ends" 0 '^Total 130316$' '' districts $city $ends
    "${star[@]}" districts --table $city $ends | "${star[@]}" check - >"$work/all"
    verdict "districts of the city, checked: $ends" $?
done
try districts-street 0 '^Total 249$' '' districts $street 5 12
try old 0 '^The marked trenches were no network, and cost 14\. The plan.s total is 12 now: no network is cheaper\.$' '' mend $old
try old-steps 0 '^exchanged trench 1 \(1-2, price 5\) for trench 4 \(1-4, price 4\): saves 1$' '' mend $old --steps
"${star[@]}" mend $old 2>/dev/null | "${star[@]}" check - >"$work/all"
verdict old-checked $?
try old-refused 2 'Refused \((9|10)\)' '' check $old
try city-mended 0 'There is nothing to mend: the plan is a cheapest network. Total 130316' '' mend $city
sed 's/ 1$/ 0/' $city | "${star[@]}" mend - 2>"$work/err" | "${star[@]}" check - >"$work/all"
grep -q 'Total 130316' "$work/all"
verdict city-from-nothing $?
cp $old "$work/old.txt"
try old-in-place 0 '^exit 0' '' mend -o "$work/old.txt" "$work/old.txt"
try old-again 0 'nothing to mend' '' mend "$work/old.txt"
for count in 1 2 3; do
    "${star[@]}" outlets --table $yard 1 $count | "${star[@]}" table - | awk '$4 == 1 && ($1 == 1 || $2 == 1)' | wc -l | grep -qx "$count"
    verdict "outlets $count" $?
done
try outlets-city 0 '^Total 130' '' outlets $city 1 2
try outlets-city-many 2 'Refused \(19\): .*from [0-9]+ to [0-9]+ are possible' '' outlets $city 1 200

# The largest tables, and one trench more.
for ((u = 1; u < 46; u++)); do for ((v = u + 1; v <= 46; v++)); do echo "$u $v $((u * v % 50)) $(((u + v) % 2))"; done; done | head -n 1024 >"$work/full.txt"
{ cat "$work/full.txt"; echo '45 46 3 0'; } >"$work/more.txt"
for words in 'districts %s 1024' 'mend %s' 'outlets %s 1 1'; do
    try "full: $words" 0 '.' '' ${words/\%s/$work/full.txt}
    try "more: $words" 2 'Refused \(2\): .*more.txt:1025: there are more than 1024 trenches; at most 1024' '' ${words/\%s/$work/more.txt}
done

# Usage, what is refused before anything is written, output that cannot be written.
try districts-word 4 "a district is given by the number of its last trench, and not by 'x'" '' districts $yard 2 x
try districts-below-0 4 "a district is given by the number of its last trench, and not by '-1'" '' districts $yard -1 5
try districts-large 2 'Refused \(14\): .*the last district ends with trench 99999999999; it has to end with the last trench' '' districts $yard 99999999998 99999999999
try districts-large-before 2 'district 3 ends with trench 5, and district 2 before it with trench 99999999999\.$' '' districts $yard 99999999998 99999999999 5
try districts-missing 3 'nowhere.txt: No such file' '' districts nowhere.txt 5
try districts-option 4 "unknown option '--all'" '' districts --all $yard 5
try mend-two 4 "one file is read, and there is also '$dear'" '' mend $yard $dear
try mend-option 4 "unknown option '--table'" '' mend --table $yard
try mend-stp 3 'an STP file is not changed\. .* whose lines mend can change' '' mend $street
try outlets-few 4 "a junction and a number of trenches follow the file of 'outlets'" '' outlets $yard 1
try outlets-more 4 "a junction and a number of trenches follow the file of 'outlets'" '' outlets $yard 1 2 3
try outlets-count 4 "the trenches at a junction are a number, and not '-1'" '' outlets $yard 1 -1
for words in "districts --table -o %s $yard 4" 'mend -o %s tests/console/mend-apart.txt' "outlets --table -o %s $yard 1 9"; do
    echo kept >"$work/kept.txt"
    try "refused: $words" 2 '^Refused' '' ${words/\%s/$work/kept.txt}
    [ "$(cat "$work/kept.txt")" = kept ] && [ ! -s "$work/out" ]
    verdict "refused, and nothing written: $words" $?
done
for words in "districts $yard 5" "districts --table $yard 5" "mend $old" "outlets $yard 1 2" "outlets --table $yard 1 2"; do unwritten $words; done
for word in districts mend outlets; do try "help: $word" 0 "^usage: star $word " '' $word --help; done

echo "$passed passed, $failed failed"
[ "$failed" = 0 ]
