# What the tests of the console have in common, to be read by bash: the program, a folder for its output, the examples, and what counts a test.
set -u
cd "$(dirname "${BASH_SOURCE[0]}")/.."
star=("$@") passed=0 failed=0 work=$(mktemp -d)
trap 'rm -rf "$work"' EXIT
yard=console/examples/yard.txt dear=console/examples/yard-dear.txt grant=console/examples/grant.txt street=console/examples/street.stp struck=console/examples/struck.txt

# Devices of the tests' own: a wrong console that is run by root would replace those of the system.
device() { # NAME MAJOR MINOR
    if [ "$(id -u)" != 0 ]; then ln -s "/dev/$1" "$work/$1"; else mknod "$work/$1" c "$2" "$3"; fi
}
device full 1 7
device null 1 3

verdict() { # NAME STATUS: counts a test whose last command ended with STATUS
    if [ "$2" = 0 ]; then passed=$((passed + 1)); else
        echo "console $1 failed:"
        sed -n 1,5p "$work/all" 2>/dev/null
        failed=$((failed + 1))
    fi
}

# Runs the console on a text, given as printf takes it, and holds its status and what it writes, on both streams, to what is expected.
try() { # NAME STATUS PATTERN TEXT ARGUMENTS..
    local name=$1 expected=$2 pattern=$3 text=$4 status
    shift 4
    printf "$text" | "${star[@]}" "$@" >"$work/out" 2>"$work/err"
    status=$?
    { cat "$work/out" "$work/err"; echo "exit $status"; } >"$work/all"
    [ "$status" = "$expected" ] && grep -Eq -- "$pattern" "$work/all"
    verdict "$name" $?
}

# Output that cannot be written, on a full device and on a closed stream, is told with a status of its own.
unwritten() { # ARGUMENTS..
    "${star[@]}" "$@" >/dev/full 2>"$work/all"
    [ $? = 5 ] && grep -q 'standard output: it could not be written: No space left' "$work/all"
    verdict "full: $*" $?
    "${star[@]}" "$@" >&- 2>"$work/all"
    [ $? = 5 ] && grep -q 'standard output: it could not be written' "$work/all"
    verdict "closed: $*" $?
}
