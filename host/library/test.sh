#!/usr/bin/env bash
# Holds the proved library to document 01: its tests, a fuzz run over the C boundary, and where the
# customer's source is here the Rust driver side by side. Stops at the first failure. The last line
# counts the tests that ran; a program counts as one.
set -euo pipefail
source "$(dirname "$0")/../../archive.sh"
source "$(dirname "$0")/../counting.sh"
cd "$(dirname "$0")"

cargo fmt --check
count_tests cargo test --offline --locked --release -- --show-output
count_program cargo run --offline --locked --release --bin fuzz -- 400000

if customer_source_is_here; then
    cd ../live
    cargo fmt --check
    count_program cargo run --offline --locked --release --bin compare -- 200000
    cargo build --offline --locked --release --bin benchmark
else
    echo "The customer's Rust source is not here: the live comparison with it is skipped."
fi

echo "$passed passed, 0 failed"
