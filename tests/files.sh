#!/usr/bin/env bash
# Tests of the console's files: what -o replaces stands as it was or whole, whatever happens, and
# nothing is left beside it; no result but a table takes the place of the file that is read; tables
# keep their lines.
# usage: files.sh STAR..   the program, with words before it if it is to be run by another. Ends in
# one line 'N passed, M failed'.
. "$(dirname "$0")/try.sh"
city=console/examples/city.txt
folder=$work/folder plan=$work/folder/plan.txt
chmod 755 "$work"
mkdir "$folder"

# A plan of 1,024 trenches that is no cheapest network, and what mend makes of it.
sed 's/ 1$/ 0/' $city >"$work/before"
"${star[@]}" mend "$work/before" >"$work/after" 2>/dev/null

begin() { # an empty folder with the plan in it
    chmod -R u+rwx "$folder"
    rm -rf "$folder"
    mkdir "$folder"
    cp "$work/before" "$plan"
}

# The plan is a file's bytes, and nothing but the names given stands in the folder.
stands() { # FILE [NAME..]
    local bytes=$1
    shift
    cmp -s "$bytes" "$plan" && [ "$(ls -A "$folder")" = "$(printf '%s\n' plan.txt "$@" | sort)" ]
}
kept() { stands "$work/before" "$@"; }
whole() { stands "$work/after" "$@"; }

# Runs a command, and keeps its status and what it writes.
ends() { # STATUS COMMAND..
    local expected=$1
    shift
    "$@" >"$work/out" 2>"$work/err"
    status=$?
    { cat "$work/out" "$work/err"; echo "exit $status"; } >"$work/all"
    [ "$status" = "$expected" ]
}
mend() { ends "$1" "${star[@]}" mend "$plan" -o "$plan"; }
mend_to() { ends "$1" "${star[@]}" mend "$plan" -o "$2"; } # STATUS OUTPUT
says() { grep -q -- "$1" "$work/all"; }
mode() { stat -c %a "$1"; }

# Written: whole, with the old mode; a new file with the mode that the mask leaves.
begin
chmod 640 "$plan"
mend 0 && whole && [ "$(mode "$plan")" = 640 ]
verdict written $?
begin
(umask 027 && mend_to 0 "$folder/new") && kept new && cmp -s "$work/after" "$folder/new" &&
    [ "$(mode "$folder/new")" = 640 ]
verdict written-new $?
if [ "$(id -u)" = 0 ]; then
    begin
    chown 65534:65533 "$plan"
    mend 0 && whole && [ "$(stat -c %u:%g "$plan")" = 65534:65533 ]
    verdict written-owner $?
fi

# A file size limit; a full file system, where one may be mounted.
begin
(ulimit -f 4 && mend 5) && kept && says 'plan.txt: it could not be written: File too large'
verdict limit $?
begin
(ulimit -f 4 && ends 5 "${star[@]}" page "$plan" -o "$folder/page.html") && kept
verdict limit-new $?
full() { # in a name space of its own: a file system with room for the plan and little more
    mount -t tmpfs -o size=20k tmpfs "$folder" && cp "$work/before" "$plan" && mend 5 && kept &&
        says 'No space left'
}
if unshare -rm true 2>/dev/null; then
    begin
    export -f full mend ends stands kept says
    export folder plan work
    unshare -rm bash -c 'star=("$@"); full' full "${star[@]}"
    verdict full-file-system $?
fi
begin
mend_to 5 "$work/full" && kept && says '/full: it could not be written: No space left'
verdict full-device $?

# A folder, and a file, that may not be written; as another user where the tests are root's.
unprivileged=()
if [ "$(id -u)" = 0 ]; then unprivileged=(setpriv --reuid 65534 --regid 65534 --clear-groups); fi
if [ "$(id -u)" != 0 ] || command -v setpriv >/dev/null; then
    binary=("${star[@]}")
    last=$((${#binary[@]} - 1))
    cp "${binary[last]}" "$work/star"
    binary[last]=$work/star
    mended() { ends "$1" "${unprivileged[@]}" "${binary[@]}" mend "$plan" -o "$2"; }
    own() { if [ "$(id -u)" = 0 ]; then chown -R 65534:65534 "$folder"; fi; }
    begin
    own
    chmod 555 "$folder"
    mended 5 "$plan" && kept && says 'plan.txt: it could not be written: Permission denied'
    verdict folder-closed $?
    begin
    own
    chmod 444 "$plan"
    mended 5 "$plan" && kept && says 'Permission denied'
    verdict file-closed $?
    begin
    own
    mended 0 "$plan" && whole
    verdict file-own $?
    chmod 755 "$folder"
fi

# Symbolic links: what they name is replaced, and they stay; also where it is not there yet.
begin
links=$work/links
mkdir "$links"
ln -s ../folder/plan.txt "$links/first"
ln -s first "$links/second"
ends 0 "${star[@]}" mend "$links/second" -o "$links/second" && whole && [ -L "$links/first" ] &&
    [ -L "$links/second" ]
verdict link $?
[ "$(ls -A "$links")" = "$(printf 'first\nsecond')" ]
verdict link-alone $?
begin
ln -s ../folder/new.txt "$links/dangling"
mend_to 0 "$links/dangling" && kept new.txt && cmp -s "$work/after" "$folder/new.txt" &&
    [ -L "$links/dangling" ]
verdict link-dangling $?
begin
ln -s ../nowhere/new.txt "$links/lost"
ln -s loop "$links/loop"
mend_to 5 "$links/lost" && mend_to 5 "$links/loop" && kept
verdict link-lost $?
begin
mend_to 5 "$folder" && kept
verdict folder $?

# The file under two names. A hard link stays the old file, and that is told.
begin
ln "$plan" "$folder/other"
mend 0 && whole other && cmp -s "$work/before" "$folder/other" &&
    says 'plan.txt: the file had 1 other name, which keeps the old one$'
verdict hard-link $?
begin
ln "$plan" "$folder/other"
ln -s plan.txt "$folder/link"
mkfifo "$folder/pipe"
names=(other link pipe)
kept_names() { [ "$(ls -A "$folder")" = "$(printf '%s\n' plan.txt "${names[@]}" | sort)" ]; }
spares() { # COMMAND WORDS..: with -o onto the plan, by each of its names, it ends with 4
    local name
    for name in plan.txt other link ./plan.txt; do
        ends 4 "${star[@]}" "$@" -o "$folder/$name" && cmp -s "$work/before" "$plan" &&
            cmp -s "$work/before" "$folder/other" && kept_names &&
            says 'is the file that is read, and is left as it is' || return 1
    done
}
for words in "check $plan" "build $plan" "explain $plan" "page $plan" "draw $plan" "dot $plan" \
    "digs $plan" "quote $plan 1 9" "breaking $plan 1" "stretch $plan 1 2" "districts $plan 1024" \
    "outlets $plan 1 2" "which $plan $city" "which $city $plan"; do
    spares $words
    verdict "spared: $words" $?
done

# Also where the table, or the text, is refused; and where standard input is the file.
sed 's/$/ 7/' $yard >"$work/refused" # each line has a word too many
{ cat $yard; echo '1 1 5 0'; } >"$work/loop"
printf '33D32945\nSECTION Graph\nEND x\nEOF\n' >"$work/stp"
for file in refused loop stp; do
    for words in check build 'build --table' digs page; do
        begin
        cp "$work/$file" "$plan"
        "${star[@]}" $words "$plan" -o "$plan" >"$work/all" 2>&1
        status=$?
        [ $status -ge 2 ] && [ $status -le 4 ] && stands "$work/$file"
        verdict "refused $file: $words" $?
    done
done
begin
"${star[@]}" check - -o "$plan" <"$plan" >"$work/all" 2>&1
[ $? = 4 ] && kept
verdict standard-input $?
begin
"${star[@]}" mend - -o "$plan" <"$plan" >"$work/all" 2>&1
[ $? = 0 ] && whole
verdict standard-input-table $?
begin
"${star[@]}" check "$plan" >>"$plan" 2>"$work/all"
[ $? = 4 ] && kept
verdict standard-output $?
"${star[@]}" mend "$plan" -o /proc/self/fd/1 >>"$plan" 2>"$work/all"
[ $? = 4 ] && kept
verdict standard-output-table $?
for words in 'check --json' 'mend --json' "mend --json -o $plan" "mend -o $plan" \
    'check --json --bad' 'quote --json'; do
    begin
    "${star[@]}" $words "$plan" >>"$plan" 2>"$work/all"
    [ $? = 4 ] && kept
    verdict "standard output: $words" $?
done
begin
cp $street "$plan"
ends 4 "${star[@]}" table "$plan" -o "$plan" && stands $street
verdict stp-spared $?

# The file to be read is forgotten: nothing is touched. So with a file after -o that is forgotten,
# and with help.
for words in check build 'build --table' explain page draw dot table digs merge mend; do
    begin
    "${star[@]}" $words -o "$plan" </dev/null >"$work/all" 2>&1
    [ $? = 4 ] && kept && grep -q "no file is named to be read" "$work/all"
    verdict "forgotten: $words" $?
done
begin
(cd "$folder" && ends 4 "${star[@]}" build plan.txt -o --table) && kept
verdict forgotten-output $?
ends 4 "${star[@]}" check $yard -o "$plan" -o "$folder/other" && kept
verdict two-outputs $?
ends 0 "${star[@]}" check --help -o "$plan" && kept && [ -s "$work/out" ]
verdict help-spares $?

# What is no regular file is written as it is: a pipe, a stream that is open.
begin
mkfifo "$folder/pipe"
cat "$folder/pipe" >"$work/read" &
ends 0 "${star[@]}" mend "$plan" -o "$folder/pipe"
wait $!
cmp -s "$work/after" "$work/read" && kept pipe && [ -p "$folder/pipe" ]
verdict pipe $?
ln -s /proc/self/fd/1 "$links/stdout" # as /dev/stdout is, which a wrong console would replace
for name in "$links/stdout" /dev/fd/1 /proc/self/fd/1; do
    begin
    { echo before; "${star[@]}" mend "$plan" -o "$name" 2>/dev/null; echo after; } >"$folder/list"
    kept list && cmp -s "$folder/list" <(echo before; cat "$work/after"; echo after)
    verdict "open: $name" $?
done
[ -L "$links/stdout" ]
verdict open-link $?
ends 0 "${star[@]}" check $yard -o "$work/null" && [ -c "$work/null" ]
verdict null $?

# Streams that are closed do not end in the plan.
begin
"${star[@]}" mend "$plan" -o "$plan" 2>&- && whole
verdict closed-messages $?
begin
"${star[@]}" mend "$plan" -o "$plan" >&- 2>&- <&- && whole
verdict closed-all $?

# Calls of the system that fail, and signals, one by one.
failing() { # CALL WITH [NUMBER]: sets what fails
    export FAILING=$1 FAILING_WITH=$2 FAILING_CALL=${3:-1}
}
preloaded() { LD_PRELOAD=$library "${star[@]}" mend "$plan" -o "$plan"; }
# The same with no signal ignored, as a shell hands INT and QUIT to what it runs in the background.
listening() {
    env --default-signal=INT,TERM,HUP,QUIT LD_PRELOAD="$library" "${star[@]}" mend "$plan" -o "$plan"
}
library=$work/failing.so
if cc -shared -fPIC -o "$library" tests/failing.c 2>/dev/null; then
    for call in mkstemp write fchmod fsync rename; do
        for error in 5 13 28; do # EIO, EACCES, ENOSPC
            begin
            failing $call $error
            ends 5 preloaded && kept && says 'plan.txt: it could not be written: '
            verdict "failing: $call $error" $?
        done
        for signal in INT TERM HUP QUIT; do
            begin
            failing $call -$(kill -l $signal)
            ends $((128 + $(kill -l $signal))) listening
            [ $status -gt 128 ] && { kept || { [ $call = rename ] && whole; }; }
            verdict "signal: $call $signal" $?
        done
        begin
        failing $call -9
        ends 137 preloaded
        [ $status = 137 ] && cmp -s "$work/before" "$plan"
        verdict "killed: $call" $?
    done 2>/dev/null
    begin
    failing fsync 5 2
    ends 5 preloaded && whole && says 'it is written, but the disk did not confirm it'
    verdict folder-unsure $?
    # Another program changes the plan after it was read: it is left so.
    for change in "echo '1 2 3 0' >>'$plan'" "cp '$city' '$plan'" "rm '$plan'; cp '$city' '$plan'" \
        "cp '$plan' '$work/new'; mv '$work/new' '$plan'"; do
        begin
        failing fsync 0
        export FAILING_RUN="$change; cp '$plan' '$work/other'"
        ends 5 preloaded && stands "$work/other" && says 'plan.txt: it was changed after it was'
        verdict "changed: $change" $?
    done
    begin
    chmod 664 "$plan"
    failing fchown 1
    ends 0 preloaded && whole && [ "$(mode "$plan")" = 664 ]
    verdict owner-lost $?
    (trap '' TERM; begin; failing fsync -15; ends 0 preloaded && whole)
    verdict signal-ignored $?
    unset FAILING
fi

# Tables keep their lines: comments, blank lines, order, line ends and a byte order mark; only marks
# change.
lines() { # NAME TEXT EXPECTED WORDS..: the texts as printf takes them
    local name=$1 text=$2 expected=$3
    shift 3
    begin
    printf "$text" >"$plan"
    printf "$expected" >"$work/expected"
    ends 0 "${star[@]}" "$@" && cmp "$work/out" "$work/expected" >>"$work/all"
    verdict "lines: $name" $?
    ends 0 "${star[@]}" "$@" -o "$plan" && stands "$work/expected"
    verdict "lines in place: $name" $?
}
order='\xef\xbb\xbf'
head="${order}# the yard\r\n1 2 5"
text="$head # Mill Lane\r\n\r\n  2 3 3 0 # Quay\r\n3\t4\t5\t1\r\nstruck 2 4 1 1 # blocked\r\n"
marked="$head 1 # Mill Lane\r\n\r\n  2 3 3 1 # Quay\r\n3\t4\t5\t0\r\nstruck 2 4 1 1 # blocked\r\n"
text+="1 4 4 1\r\n1 3 6 0"
marked+="1 4 4 1\r\n1 3 6 0"
lines build "$text" "$marked" build --table "$plan"
lines districts "$text" "$marked" districts --table "$plan" 2 6
lines outlets "$text" "$marked" outlets --table "$plan" 1 2
lines table "$text" "$text" table "$plan"
lines cr '1 2 5 0\r# a\r2 3 4\r' '1 2 5 1\r# a\r2 3 4 1\r' build --table "$plan"
late='\njunctions 2 # told late'
lines junctions "1 2 5 0$late" "1 2 5 1$late" build --table "$plan"
lines zeros '1 2 -007 0001\n2 3 4 00' '1 2 -007 0001\n2 3 4 1' build --table "$plan"

echo "$passed passed, $failed failed"
[ "$failed" = 0 ]
