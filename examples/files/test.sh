#!/usr/bin/env bash
# The program on files: every bench example of document 01, and files that are refused. Each NAME.file gives NAME.expected; a file of
# 65,537 bytes is refused with 33, and one of 65,536 with 30 (its first record is cut). Needs target/bin/recipe (./build.sh).
set -euo pipefail
cd "$(dirname "$0")"
recipe=../../target/bin/recipe
passed=0

same() {
    cmp "$2" "$3" || { echo "examples/files: $1 printed something else" >&2; exit 1; }
    passed=$((passed + 1))
}

for file in *.file; do
    name=${file%.file}
    same "$name" <("$recipe" <"$file") "$name.expected"
done
same "65,537 bytes" <(head -c 65537 /dev/zero | tr '\0' '\377' | "$recipe") <(echo "refused 33 0")
same "65,536 bytes" <(head -c 65536 /dev/zero | tr '\0' '\377' | "$recipe") <(echo "refused 30 0")

echo "$passed passed, 0 failed"
