#!/usr/bin/env bash
# Tests of the console: what it writes and how it ends, on good, odd and bad input.
# usage: console.sh STAR..   the program, with words before it if it is to be run by another. Ends in one line 'N passed, M failed'.
. "$(dirname "$0")/try.sh"

# Each stored case is a file COMMAND-NAME.txt with its input; .out has what it writes, standard error after standard output, and its status; .words
# has the words that follow the command, if there are any.
for input in tests/console/*.txt; do
    case=$(basename "$input" .txt) words=()
    if [ -f "tests/console/$case.words" ]; then read -ra words <"tests/console/$case.words"; fi
    "${star[@]}" "${case%%-*}" "${words[@]}" <"$input" >"$work/out" 2>"$work/err"
    status=$?
    { cat "$work/out" "$work/err"; echo "exit $status"; } >"$work/all"
    diff "$work/all" "tests/console/$case.out"
    verdict "$case" $?
done

# The examples.
try yard 0 'Total 12' '' check $yard
try dear 1 'for 1 less' '' check $dear
try grant 1 'for 7 less' '' check $grant
try grant-build 0 '^Total -9$' '' build $grant
try stem 0 'Total 11' '' check console/examples/stem.txt
try t1 0 'Total 20' '' check console/examples/t1.txt
try t2 1 'for 2 less' '' check console/examples/t2.txt
try city 0 'Total 130316' '' check console/examples/city.txt
try build 0 'Total 130316' '' build console/examples/city.txt
try street 0 'Total 249' '' build $street
try street-unmarked 3 'star table' '' check $street
"${star[@]}" table $street >"$work/street.txt"
try street-table 0 'Total 249' '' build "$work/street.txt"
{ cat $street; head -c 65536 /dev/zero | tr '\0' ' '; } >"$work/long.stp"
try long 2 'Refused \(12\): .*long.stp: .*at most 65536' '' build "$work/long.stp"

# What a plan's check says beside the verdict.
try only 0 '^It is the only cheapest network\.$' '' check console/examples/t1.txt
try not-only 0 '^Another network costs the same: take out trench 3 \(3-4, price 5\), put in trench 1 \(1-2, price 5\)\.$' '' check $yard
try total-beside 1 "^The plan's total is 13, and 12 after this exchange\\. The least total is 12\\.$" '' check $dear
try saves-all 1 '^At most 1 is saved, and this exchange saves all of it\.$' '' check $dear
! grep -q 'saves more' "$work/all"
verdict saves-all-alone $?
try saves-some 1 '^At most 17 is saved; no exchange of one trench for another saves more than this one\.$' '1 2 9 1\n2 3 1 1\n1 3 1 0\n3 4 10 1\n4 5 1 1\n3 5 1 0\n' check
grep -qx '  take out trench 4 (3-4, price 10)' "$work/out" && grep -q '^A cheaper set exists, for 9 less' "$work/out"
verdict saves-most $?
try next-explain 1 "^'star explain' says why\\.$" '' check $dear
try next-mend 1 "^'star mend' writes the file with its plan made a cheapest network\\.$" '' check $dear
try next-apart 2 "^No marks would do: 'star build' names a junction" '1 2 5 1\n3 4 5 1\n' check
try lonely-first 2 '^  junction 1$' '1 2 5 0\n2 3 3 1\n3 4 5 1\n2 4 4 1\n' check
grep -qx '  junctions 2, 3, 4' "$work/out" && grep -qx 'A ring: trenches 2, 3, 4 (2-3-4-2).' "$work/out"
verdict lonely-first-ring $?
try build-saves 0 '^The marked trenches cost 13: these save 1\.$' '' build $dear
try build-saves-nothing 0 '^The marked trenches cost 12 too\.$' '' build $yard
try build-no-plan 0 '^The marked trenches cost 14, and are no network: they do not reach every junction\.$' '1 2 5 1\n2 3 3 1\n3 4 5 0\n1 4 4 0\n1 3 6 1\n' build
try build-few 0 '^The marked trenches cost 5, and are no network: they are not one fewer than the junctions\.$' '1 2 5 1\n2 3 3 0\n' build
try build-unmarked 0 '^Total 8$' '1 2 5\n2 3 3\n' build
! grep -q 'marked trenches' "$work/out"
verdict build-unmarked-alone $?

# explain: one trench, left out or of the plan, or none; all of them; a number that is none. The stored cases have the rest.
try explain-one 0 'sum 9, does not count; dearest 5 \(trench 3\); 6 > 5: ' '' explain $yard 5
! grep -q '^trench 1' "$work/out"
verdict explain-one-alone $?
try explain-marked 0 'trench 3 .*on the detour of trenches 1, 5' '' explain $yard 3
try explain-marked-equal 0 'the cheapest of them costs 5 \(trench 1\); 5 = 5: ' '' explain $yard 3
try explain-marked-dear 0 '5 > 4: the exchange is cheaper' '' explain $dear 1
try explain-bridge 0 'on no detour' '1 2 5 1\n2 3 4 1\n' explain - 2
try explain-all 0 '^trench 30 ' '' explain tests/console/explain-bounded.txt --all
! grep -q 'more are left out' "$work/out"
verdict explain-all-whole $?
try explain-city 0 '^760 more are left out: 0 that save, 0 that cost as much' '' explain console/examples/city.txt
[ "$(wc -l <"$work/out")" -lt 40 ]
verdict explain-city-short $?
# One fault, one status, one wording: a trench or a junction that is not there.
for number in 6 0 99999999999; do
    for words in "explain $yard $number" "quote $yard $number 9" "breaking $yard $number"; do
        try "not there: $words" 2 "^Refused \(7\): $yard: there is no trench $number; the table has 5\.$" '' $words
    done
    for words in "stretch $yard 1 $number" "stretch $yard $number 1" "outlets $yard $number 2"; do
        try "not there: $words" 2 "^Refused \(7\): $yard: there is no junction $number; the table has 4\.$" '' $words
    done
done
for words in "explain $struck 3" "quote $struck 3 9" "breaking $struck 3"; do
    try "struck: $words" 2 "^Refused \(7\): $struck:4: trench 3 is struck, and so left out of everything\.$" '' $words
done
for words in "explain $yard x" "quote $yard x 9" "breaking $yard x"; do try "no number: $words" 4 "a trench is named by its number, from 1 on, and not by 'x'" '' $words; done
for words in "stretch $yard x 2" "outlets $yard x 2"; do try "no number: $words" 4 "a junction is named by its number, from 1 on, and not by 'x'" '' $words; done
try explain-unseen 2 '^Trench 3 was not looked at: the marks are no network' '1 2 5 1\n2 3 3 1\n3 4 5 0\n1 4 4 0\n1 3 6 1\n' explain - 3
try explain-unseen-table 2 '^Trench 1 was not looked at: the table is refused' '1 2 5 1\n2 1 3 1\n' explain - 1
try explain-files 4 "one trench is explained, and there is also '3'" '' explain $yard 2 3
try explain-stp 3 'no plan to explain' '' explain $street
try certificate-passed 0 '^left-out 5 dearest 3 detour 4 3$' '' check --certificate $yard
try certificate-cheaper 1 '^cheaper 1 4 13 12$' '' check --certificate $dear
try certificate-refused 2 '^Refused \(9\)' '1 2 5 1\n2 3 4 0\n' check --certificate
try explain-option 4 "unknown option '--all'" '' check --all $yard

# The detours are those that a search over marked trenches finds, and so are a ring and what is cut off.
python3 -B tests/detours.py "${star[@]}" >"$work/all"
verdict detours $?

# Output that cannot be written is told, with a status of its own.
for words in "check $yard" "build $yard" "build --table $yard" "explain $yard" "page $yard" "draw $yard" "dot $yard" "table $yard" "digs $yard" "quote $yard 4 9" "breaking $yard 4" "which $yard $dear" "stretch $yard 1 3" "strike $yard 1" "add $yard 2 4 7" "merge $struck" "--help" "check --help" "--version"; do unwritten $words; done
try full-file 5 '/full: it could not be written: No space left' '' draw -o "$work/full" $yard
try no-folder 5 'nowhere/x.svg: it could not be written: No such file' '' draw -o "$work/nowhere/x.svg" $yard
"${star[@]}" check >"$work/all" 2>&1 <&-
[ $? = 3 ]
verdict closed-input $?
printf '1 2 5 1\n2 3 5 1\n1 3 5 1\n4 1 5 0\n' >"$work/ring.txt"
"${star[@]}" draw -o "$work/mixed.svg" "$work/ring.txt" 2>&-
[ $? = 2 ] && ! grep -q '^Refused' "$work/mixed.svg"
verdict closed-messages $?

# draw and dot tell refusals. A table that is refused gives no picture; a plan that is refused is drawn, with the refusal in the picture.
rows() { for ((i = 0; i < $1; i++)); do printf '1 2 3 0\\n'; done; }
for picture in draw dot; do
    try "$picture-256" 2 'Refused \(1\)' 'junctions 256\n1 2 5 1\n' $picture
    try "$picture-empty" 2 'Refused \(1\)' '' $picture
    try "$picture-repeat" 2 'Refused \(15\)' '1 2 5 1\n2 1 5 0\n' $picture
    try "$picture-rows" 2 'Refused \(2\).*1025' "$(rows 1025)" $picture
    try "$picture-mark" 3 "'7' is not a mark" '1 2 5 7\n' $picture
    [ ! -s "$work/out" ]
    verdict "$picture-no-picture" $?
    try "$picture-ring" 2 '^Refused \(10\)' '' $picture "$work/ring.txt"
    grep -q 'Refused (10): the marked trenches do not reach junction 4' "$work/out"
    verdict "$picture-ring-words" $?
    try "$picture-passed" 0 'Passed. Total 12' '' $picture $yard
    try "$picture-lighter" 0 'A cheaper set exists, for 1 less: take out trench 1 ' '' $picture $dear
    try "$picture-grant" 0 'for 7 less: take out trench 1 \(1-2, price 5\), put in trench 5 \(1-3, price -2\)' '' $picture $grant
    try "$picture-grant-label" 0 '[>"]4: -4[<"]' '' $picture $grant
    try "$picture-below-0" 0 'Passed. Total -5\.' '1 2 -5 1\n' $picture
    try "$picture-unmarked" 0 'No trench is marked' '' $picture $street
done

"${star[@]}" draw "$work/ring.txt" 2>/dev/null | grep -q '<rect class="refused" '
verdict draw-refused-box $?
"${star[@]}" draw $yard >"$work/all"
! grep -q '<rect class="refused" ' "$work/all"
verdict draw-passed-no-box $?

# Large and endless input is told quickly and in little room.
yes '1 2 3 0' | head -n 2000001 >"$work/rows.txt"
for words in check draw table; do
    (ulimit -S -v 200000 && timeout 20 "${star[@]}" $words "$work/rows.txt") >"$work/all" 2>&1
    [ $? = 2 ] && grep -q 'Refused (2): .*more than 1024 trenches' "$work/all"
    verdict "many rows: $words" $?
done
python3 -c 'import random, sys; sys.stdout.buffer.write(random.Random(1).randbytes(1 << 20))' >"$work/bytes"
yes 'a long word of text without any trench' | head -c 1048576 >"$work/words.txt"
for file in bytes words.txt; do
    (ulimit -S -v 200000 && timeout 20 "${star[@]}" check "$work/$file") >"$work/all" 2>&1
    [ $? = 3 ] && [ "$(wc -l <"$work/all")" = 21 ] && grep -q "$file: more lines cannot stand" "$work/all"
    verdict "a megabyte: $file" $?
done
(ulimit -S -v 200000 && timeout 20 "${star[@]}" check /dev/zero) >"$work/all" 2>&1
[ $? = 3 ] && grep -q 'more than 16777216 bytes' "$work/all"
verdict endless $?

# Messages. Junctions and marks of any length are numbers, and the door refuses them; lines are those of the file, comments counted.
top='# a comment\n\n'
try junction-large 3 "^standard input:3: '4294967296' is not a junction, a number from 1 to 255 or a name" "${top}4294967296 2 5 1\n" check
try junction-large-told 3 "^standard input:2: '4294967296' is not a junction" 'junctions 4\n4294967296 2 5 1\n' check
try mark-2 3 "^standard input:4: '2' is not a mark, 1 \\(x, yes, true\\) or 0 \\(no, false, nothing\\)" "${top}1 2 5 1\n2 3 4 2\n" check
try mark-256 3 "^standard input:4: '256' is not a mark" "${top}1 2 5 1\n2 3 4 256\n" check
try end-above 2 'Refused \(4\): standard input:4: trench 1 ends at junction 9; .* 1 to 3' "${top}junctions 3\n1 9 5 1\n" check
try end-257 3 "'257' is not a junction" 'junctions 4\n257 2 5 1\n' check
try end-258 3 "'258' is not a junction" 'junctions 4\n1 258 5 1\n' check
try end-left 3 "'0' is not a junction" '0 2 5 1\n' check
try end-equal 2 'Refused \(4\): standard input:4: trench 2 joins junction 2 to itself' "${top}1 2 5 1\n2 2 3 1\n" check
try repeat 2 'Refused \(15\): standard input:6: trench 4 joins the same junctions as trench 1\.$' "${top}1 2 5 1\n2 3 3 1\n1 3 4 0\n2 1 4 0\n" check
try repeat-first 2 'trench 2 joins the same junctions as trench 1\.' '1 2 5 1\n1 2 5 1\n2 1 5 1\n' check
try repeat-after-end 2 'Refused \(4\): .* trench 3 joins junction 3 to itself' '1 2 5 1\n2 1 5 1\n3 3 5 1\n' check
try repeat-after-mark 3 "'7' is not a mark" '1 2 5 7\n2 1 5 1\n' check
for words in build 'build --table' table explain; do try "repeat: $words" 2 'Refused \(15\): standard input:2: trench 2 joins the same junctions as trench 1' '1 2 5 1\n2 1 5 1\n' $words; done
try repeat-stp 2 'Refused \(15\): standard input:8: trench 3 joins the same junctions as trench 2\.$' '33D32945\nSECTION Graph\nNodes 3\nEdges 3\nE 1 2 5\nE 2 3 5\n\nE 3 2 1\nEND\nEOF\n' build
try digits 3 "'9{40}\.\.' is not a junction" "$(printf '9%.0s' {1..700}) 2 5 1\n" check
try one-mark 2 ': 1 trench is marked; a network of 4 junctions has exactly 3' '1 2 5 1\n2 3 3 0\n3 4 1 0\n' check
try edges 2 'Refused \(13\): standard input:4: the line Edges says 3, and 2 E lines stand' '33D32945\nSECTION Graph\nNodes 3\nEdges 3\nE 1 2 5\nE 2 3 5\nEND\nEOF\n' build
try edges-one 2 'says 3, and 1 E line stands' '33D32945\nSECTION Other\nSECTION Graph\nEdges 7\nE 1 2 3\nEND\nSECTION Graph\nNodes 3\nEdges 3\nE 1 2 5\nEND\nEOF\n' build
try edges-end 2 'says 3, and 1 E line stands' '33D32945\nSECTION Other\nEND x\nSECTION Graph\nEdges 7\nE 1 2 3\nEND\nSECTION Graph\nNodes 3\nEdges 3\nE 1 2 5\nEND\nEOF\n' build
try stp-end 2 'Refused \(4\): standard input:6: trench 2 joins junction 3 to itself' '33D32945\nSECTION Graph\nNodes 3\nEdges 2\nE 1 2 5\nE 3 3 5\nEND\nEOF\n' build
try stp-name 2 'Refused \(12\): tests/console/build-stp-word.txt:5: ' '' build tests/console/build-stp-word.txt
try four-columns 3 "standard input:4: '1 2' is not a trench" "${top}1 2 5 1\n1 2\n" check
try five-columns 3 "'1 2 5 1 7' is not a trench" '1 2 5 1 7\n' check
try word-junction 3 "standard input:1: '2' is a number, and 'x1' in line 1 a name: the junctions of a file are all numbers or all names$" 'x1 2 5 1\n' check
try word-price 3 "'4.50' is not a price, a whole number from -2147483648 to 2147483647" '1 2 4.50 1\n' check
try price-long 3 "standard input:1: '99999999999999999999999' is not a price" '1 2 99999999999999999999999 1\n' check
try price-long-below 3 "standard input:1: '-99999999999999999999999' is not a price" '1 2 -99999999999999999999999 1\n' check
try price-zeros 0 'Total -2147483648' '1 2 -00000000000000000002147483648 1\n' check
try price-least-two 0 'Total -4294967296' '1 2 -2147483648 1\n2 3 -2147483648 1\n' check
try word-mark 0 'Total 5' '1 2 5 yes\n' check
try csv 0 'Total 5' 'left,right,price,mark\n1,2,5,1\n' check
try semicolons 0 'Total 5' '1;2;5;1\n' check
try decimal-comma 3 "'1 2 4,50 1' is not a trench.*; a comma stands in the line, so that commas alone part its fields$" '1 2 4,50 1\n' check
try decimal-semicolons 3 "'4,50' is not a price.*; write it without a point or comma, and all prices in the same unit$" '1;2;4,50;1\n' check
try decimal-commas 3 "'50' is not a mark.*; where commas part the fields, a price with a comma is two of them$" '1,2,4,50\n' check
try mixed-tabs 3 "'1 2 5 1' is not a trench.*; a tab stands in the line, so that tabs alone part its fields$" '1 2\t5 1\n' check
try mixed-tabs-junction 3 "'1 2' is not a junction.*; a tab stands in the line" '1 2\t5\t1\n' check
try empty-field 3 "'' is not a junction" 'a;;5\n' check
try name-quote 3 " is not a junction.* and no quotation mark" 'a;b"c;5\n' check
try name-256 2 "^Refused \(26\): standard input:255: 'n255' is name 256; from 1 to 255 junctions are taken\.$" "$(for ((v = 1; v < 257; v++)); do printf 'n0,n%s,5\\n' $v; done)" check
try byte-order-mark 0 'Total 5' '\xef\xbb\xbf1 2 5 1\n' check
try byte-order-mark-stp 0 'Total 5' '\xef\xbb\xbf33D32945\nSECTION Graph\nNodes 2\nEdges 1\nE 1 2 5\nEND\nEOF\n' build
try utf-16 3 'UTF-16 text; save it as UTF-8' '\xff\xfe1\x002\x00' check
try cr-alone 0 'Total 8' '1 2 5 1\r2 3 3 1\r' check
try cr-lf 3 'standard input:3: ' '1 2 5 1\r\n2 3 3 1\r\nx\r\n' check
try cr-lines 3 'standard input:3: ' '1 2 5 1\r2 3 3 1\rx\r' check

# Every line that cannot stand is told, up to twenty, and that there are more; the line of trench 1,025 is; and junctions that no trench names are.
try lines-all 3 "^standard input:2: 'x' is not a trench" '1 2 5 1\nx\n2 3 4 1\n\n2 y 4 1 # no\njunctions 3\njunctions 4\n' check
[ "$(cut -d : -f 1,2 "$work/err")" = "$(printf 'standard input:%s\n' 2 5 7)" ]
verdict lines-each $?
lines() { for ((i = 0; i < $1; i++)); do printf '1 2\\n'; done; }
try lines-20 3 "^standard input:20: '1 2' is not a trench" "$(lines 20)" check
! grep -q 'more' "$work/err"
verdict lines-20-alone $?
try lines-21 3 '^standard input: more lines cannot stand$' "$(lines 21)" mend
[ "$(wc -l <"$work/err")" = 21 ] && [ ! -s "$work/out" ]
verdict lines-21-told $?
try lines-many 3 '^standard input: more lines cannot stand$' "$(lines 500)" check
yes '1 2' | head -n 4000000 >"$work/lines.txt"
(ulimit -S -v 200000 && timeout 20 "${star[@]}" check "$work/lines.txt") >"$work/all" 2>&1
[ $? = 3 ] && grep -q 'lines.txt: more lines cannot stand' "$work/all"
verdict lines-endless $?
try row-1025 2 'Refused \(2\): standard input:1028: there are more than 1024 trenches; at most 1024 are taken, struck ones included, and trench 1025 stands in this line' "# a\n\n$(rows 1000)junctions 2\n$(rows 26)" check
try row-1025-stp 2 'Refused \(2\): standard input:1029: there are 1025 E lines; at most 1024 are taken, and E line 1025 is this one' "33D32945\nSECTION Graph\nNodes 2\nEdges 1025\n$(rows 1025 | sed 's/1 2 3 0/E 1 2 3/g')END\nEOF\n" build
gap='1 2 5 1\n2 3 4 1\n3 7 2 1\n'
for words in check build explain; do try "gap: $words" 2 'Refused \((9|11)\).* No trench names junctions 4 to 6, and junctions are numbered from 1 to 7 \(line 3\)\.' "$gap" $words; done
try gap-one 2 ' No trench names junction 1, and junctions are numbered from 1 to 3 \(line 1\)\.' '2 3 4 1\n' check
try gap-told 2 ' No trench names junctions 1, 3, 5 to 6, and junctions are numbered from 1 to 6 \(line 2\)\.' '2 4 4 1\njunctions 6\n' build
try gap-struck 2 ' No trench in use names junction 3, and' '1 2 4 1\nstruck 2 3 4 1\n' build
try gap-none 2 'junction 3 cannot be reached from junction 1\.$' '1 2 4 1\n3 4 4 1\n' build
try gap-many 2 ' No trench names junctions 3 to 9, 11, 13, 15, 17, 19, 21, 23, 25, 27 and others, and' "1 2 1\n$(for ((v = 10; v < 100; v += 4)); do printf '%s %s 1\\n' $v $((v + 2)); done)" build

# Refusal 11 names the smallest junction that cannot be reached; in large tables too, and where prices are the largest.
try apart 2 'Refused \(11\): standard input: .*: junction 3 cannot be reached from junction 1' '1 2 2147483647\n3 4 2147483647\n5 4 1\njunctions 6\n' build
try apart-first 2 'junction 2 cannot be reached' '1 3 5\n3 4 5\n2 5 1\n' build
python3 -B - "$work" <<'PYTHON'
import random, sys
random.seed(7)
for number in range(12):
    n = random.choice((40, 255))
    parts = [random.randrange(2 + number % 3) for v in range(n)]
    pairs = [(u, v) for u in range(n) for v in range(u) if parts[u] == parts[v]]
    pairs = random.sample(pairs, min(len(pairs), random.choice((60, 1024))))
    near = {v: set() for v in range(n)}
    for u, v in pairs:
        near[u].add(v)
        near[v].add(u)
    seen, rest = {0}, [0]
    while rest:
        for v in near[rest.pop()] - seen:
            seen.add(v)
            rest.append(v)
    with open("%s/apart%d.txt" % (sys.argv[1], number), "w") as out:
        out.write("junctions %d\n" % n + "".join("%d %d %d\n" % (u + 1, v + 1, random.choice((1, 9, 2147483647, -9, -2147483648))) for u, v in pairs))
    with open("%s/apart%d.least" % (sys.argv[1], number), "w") as out:
        out.write(str(min(set(range(n)) - seen, default=-1) + 1))
PYTHON
# A chain at the top, then trenches beside it that fill the table: those at the top count as much as those at the bottom.
{
    echo 'junctions 255'
    for ((v = 1; v < 254; v++)); do echo "$v $((v + 1)) 1"; done
    for ((u = 2; u < 60; u++)); do for ((v = u + 2; v < 60; v++)); do echo "$u $v 7"; done; done | head -n 771
} >"$work/apart12.txt"
echo 255 >"$work/apart12.least"
for ((number = 0; number < 13; number++)); do
    try "apart-$number" 2 "junction $(cat "$work/apart$number.least") cannot be reached" '' build "$work/apart$number.txt"
done

# Habits.
try dash 0 'Total 5' '1 2 5 1\n' check -
try help 0 '^usage: star COMMAND' '' --help
try help-short 0 '^usage: star COMMAND' '' -h
try help-after 0 '^usage: star build ' '' build --help
try help-after-short 0 '^usage: star draw ' '' draw -h $yard
try version 0 '^star [0-9]+\.[0-9]+\.[0-9]+$' '' --version
try usage-none 4 '^usage: star COMMAND' ''
try usage-command 4 "unknown command 'mending'" '' mending
try usage-option 4 "unknown option '--tabel'" '' build --tabel $yard
try usage-table 4 "unknown option '--table'" '' check --table $yard
try usage-files 4 "one file is read, and there is also '$dear'" '' check $yard $dear
try usage-output 4 "no file follows '-o'" '' check $yard -o
try missing 3 'nowhere.txt: No such file' '' check nowhere.txt
try folder 3 'console: Is a directory' '' check console
printf '1 2 5 1\n' >"$work/-o"
(cd "$work" && "${star[@]}" check -- -o) >"$work/all" 2>&1
verdict option-end $?
try output 0 '^exit 0' '' check $yard -o "$work/verdict.txt"
grep -q 'Total 12' "$work/verdict.txt" && [ "$(wc -l <"$work/all")" = 1 ]
verdict output-file $?
try output-dash 0 'Total 12' '' check -o - $yard
try output-joined 0 '^exit 0' '' draw "-o$work/joined.svg" $yard
[ -s "$work/joined.svg" ]
verdict output-joined-file $?
cp $yard "$work/same.txt"
try output-same 0 '^exit 0' '' build --table -o "$work/same.txt" "$work/same.txt"
try output-same-checked 0 'Total 12' '' check "$work/same.txt"
try output-refused 2 'Refused \(2\)' "$(rows 1025)" table - -o "$work/same.txt"
try output-left 0 'Total 12' '' check "$work/same.txt"
for file in $yard $dear $grant $street console/examples/city.txt; do
    "${star[@]}" build --table $file | "${star[@]}" check - >"$work/all" 2>&1
    verdict "build --table $file" $?
done
try table-refused 2 '^Refused \(11\)' '1 2 5\n3 4 1\n' build --table
[ ! -s "$work/out" ]
verdict table-refused-empty $?
"${star[@]}" table $dear >"$work/dear.txt"
try table-plain 1 'for 1 less' '' check "$work/dear.txt"
"${star[@]}" table $grant >"$work/grant.txt"
try table-grant 1 'for 7 less' '' check "$work/grant.txt"
try table-mark 3 "'3' is not a mark" '1 2 5 3\n' table
try table-plan 0 '^1 2 5$' '1 2 5\n2 3 4\n' table

# dot has the colours of draw, and Graphviz takes it, where it is installed.
"${star[@]}" dot $dear >"$work/all"
"${star[@]}" draw $dear >"$work/draw.svg"
for colour in c62828 1565c0 222222 9e9e9e; do
    grep -q "$colour" "$work/all" && grep -q "$colour" "$work/draw.svg"
    verdict "colour $colour" $?
done
grep -q '  1 -- 4 \[label="4: 4", color="#1565c0", fontcolor="#1565c0", penwidth=5\];' "$work/all"
verdict dot-line $?
grep -q '  1 -- 2 \[label="1: 5", .*, style=dashed\];' "$work/all" && grep -q '\.out{[^}]*dasharray' "$work/draw.svg"
verdict dashed $?
if command -v neato >/dev/null; then
    neato -Tsvg "$work/all" >"$work/neato.svg"
    verdict neato $?
fi

echo "$passed passed, $failed failed"
[ "$failed" = 0 ]
