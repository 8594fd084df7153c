#!/usr/bin/env bash
# Runs every test of this folder that does not need the proved library, and stops at the first failure
# (library/test.sh has the others). The last line counts the tests that ran; a differential program
# counts as one.
set -euo pipefail
cd "$(dirname "$0")"
source counting.sh

cargo fmt --check
count_tests cargo test --offline --locked

if customer_source_is_here; then
    cd oracle
    cargo fmt --check
    count_tests cargo test --offline --locked
    count_program cargo run --offline --locked --release --bin differential -- 20000
else
    echo "The customer's Rust source is not here: the live comparison with it is skipped."
fi

echo "$passed passed, 0 failed"
