#!/usr/bin/env bash
# Every test of the repository: `rt ci` proves every crate, tries the must-fail edits and runs the programs; then the static library and
# the program are built, and the Rust programs of host/ and the C example run over them. Stops at the first failure; the very last line
# counts all that ran.
set -euo pipefail
cd "$(dirname "$0")"

passed=0

# Runs a command that ends in 'N passed, 0 failed', shows its output, and adds N to the count.
count() {
    local log last
    log=$(mktemp)
    "$@" 2>&1 | tee "$log" || { echo "test.sh: '$*' failed" >&2; exit 1; }
    last=$(tail -n 1 "$log")
    rm -f "$log"
    [[ $last =~ ^([0-9]+)\ passed,\ 0\ failed$ ]] || { echo "test.sh: '$*' ended without a count" >&2; exit 1; }
    passed=$((passed + BASH_REMATCH[1]))
}

# `rt ci` passes where a must-fail edit cannot be applied or read. Here that fails too: such an edit shows nothing.
prove() {
    local log
    log=$(mktemp)
    rt ci 2>&1 | tee "$log" || return 1
    if grep -qE '^rt: ok.*, [1-9][0-9]* bad' "$log"; then
        echo "test.sh: a must-fail edit is bad, as rt ci tells above" >&2
        return 1
    fi
    tail -n 1 "$log" | sed -E 's/ \(.*\)$//'
    rm -f "$log"
}

pinned=$(cat toolchain.txt)
found=$(rt version)
if [ "$found" != "$pinned" ]; then
    echo "The toolchain here is '$found'; this repository is proved with '$pinned' (toolchain.txt). Going on with the one here."
fi

count prove
./build.sh
count host/test.sh
count host/library/test.sh
count examples/test.sh
count examples/files/test.sh

echo "$passed passed, 0 failed"
