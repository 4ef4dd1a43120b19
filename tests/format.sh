#!/usr/bin/env bash
# The format of the sources: the C by .clang-format, within its columns. rt ci refuses a crate that
# is not in the layout of rt fmt.
# usage: format.sh   Ends in one line 'N passed, M failed'.
set -u
cd "$(dirname "$0")/.."
version=14 passed=0 failed=0

# Counts whether a command says nothing and succeeds; the first lines that it says are shown.
holds() { # NAME COMMAND..
    local name=$1 said
    shift
    if said=$("$@" 2>&1) && [ -z "$said" ]; then passed=$((passed + 1)); else
        printf 'format: %s\n%s\n' "$name" "$(head -n 20 <<<"$said")"
        failed=$((failed + 1))
    fi
}

shopt -s globstar
files=({console,include,programs,tests}/**/*.[ch])
columns=$(sed -n 's/^ColumnLimit: //p' .clang-format)
holds "wider than $columns columns" awk -v most="$columns" 'length > most { print FILENAME ":" FNR }' "${files[@]}"
# Another version may lay out the same source in another way.
if [[ $(clang-format --version 2>&1) =~ version\ $version\. ]]; then holds clang-format clang-format --dry-run -Werror "${files[@]}"; else
    echo "format: the C is not checked, skipped: no clang-format $version"
fi

echo "$passed passed, $failed failed"
[ "$failed" = 0 ]
