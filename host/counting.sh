# shellcheck shell=bash
# Sourced by the test scripts of the Rust programs: `passed` counts the tests that ran.
passed=0

# Runs a test command, shows its output and adds its passed tests to the count.
count_tests() {
    local output
    output=$("$@" 2>&1) || { echo "$output"; exit 1; }
    echo "$output"
    local k
    while read -r k; do
        passed=$((passed + k))
    done < <(sed -n 's/^test result: ok\. \([0-9]*\) passed.*/\1/p' <<< "$output")
}

# Runs a program that exits with 0 exactly if all it tried went well; it counts as one test.
count_program() {
    "$@"
    passed=$((passed + 1))
}

# The customer's Rust source, for programs that run the Rust driver itself.
customer_source=$(cd "$(dirname "${BASH_SOURCE[0]}")/../.." && pwd)/shared/docs/src/lalrpop-util
customer_source_is_here() {
    [ -d "$customer_source" ]
}
