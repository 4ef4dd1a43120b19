#!/bin/sh
# kit.sh: prints the folder of the Rattle kit.
# kit.sh --id: its one-line identity, as `rt version` prints it.
set -eu
rt=$(command -v rt) || {
    echo "the Rattle kit is not installed: there is no rt on the path" >&2
    exit 1
}
kit=${RATTLE_HOME:-$(dirname "$(dirname "$(readlink -f "$rt")")")}
if [ "${1:-}" = --id ]; then cat "$kit/KIT-ID"; else echo "$kit"; fi
