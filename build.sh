#!/usr/bin/env bash
# Proves what is not proved yet and builds the library for C and the program: target/staticlib/libchamrolak.a and target/bin/recipe.
set -euo pipefail
cd "$(dirname "$0")"

(cd crates/chamrolak_c && rt lib)
install -D -m 644 crates/chamrolak_c/out/libchamrolak_c.a target/staticlib/libchamrolak.a
(cd crates/recipe && rt run < stdin > /dev/null)
install -D -m 755 crates/recipe/out/recipe target/bin/recipe
