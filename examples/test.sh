#!/usr/bin/env bash
# Builds the C host and the header under every compiler at hand, compares what the host prints with
# expected/, and runs it under AddressSanitizer and UndefinedBehaviorSanitizer on good, damaged and
# hostile inputs. Stops at the first failure; the last line counts the tests that ran.
# `./test.sh --write` writes expected/ anew.
set -euo pipefail
source "$(dirname "$0")/../archive.sh"
cd "$(dirname "$0")"
export LC_ALL=C

passed=0
work=$(mktemp -d)
trap 'rm -rf "$work"' EXIT
warnings=(-Wall -Wextra -pedantic -Werror)
mode=${1:-compare}

fail() {
    echo "examples/test.sh: $*" >&2
    exit 1
}

# build PROGRAM SOURCE COMPILER WORDS...: the recipe tables are those beside the source.
build() {
    local program=$1 source=$2
    shift 2
    "$@" "${warnings[@]}" -I../include "$source" -x none "$CHAMROLAK_ARCHIVE" -o "$program" || fail "$* does not build $source"
    passed=$((passed + 1))
}

# expect NAME COMMAND...: output and exit status, as stored in expected/NAME.
expect() {
    local name=$1 status=0
    shift
    "$@" > "$work/output" 2>&1 || status=$?
    echo "exit status $status" >> "$work/output"
    if [ "$mode" = --write ]; then
        cp "$work/output" "expected/$name"
    fi
    diff "expected/$name" "$work/output" || fail "'$*' does not print expected/$name"
    passed=$((passed + 1))
}

# survives NAME COMMAND...: no sanitizer speaks, and the exit status is one of the host's own.
survives() {
    local name=$1 status=0
    shift
    "$@" > "$work/output" 2>&1 || status=$?
    if [ "$status" -gt 3 ] || grep -qE 'runtime error|Sanitizer' "$work/output"; then
        head -c 3000 "$work/output"
        fail "the host does not survive $name: exit status $status"
    fi
    passed=$((passed + 1))
}

# Every answer that the recipe tables give, and every limit.
expect_recipes() {
    local underline=$1 recipe
    for recipe in recipes/*.recipe; do
        expect "$(basename "$recipe" .recipe).txt" "$underline" "$recipe"
    done
    expect out_of_units.txt "$underline" --units 20 recipes/errors.recipe
    expect out_of_depth.txt "$underline" --depth 3 recipes/errors.recipe
    expect out_of_children.txt "$underline" --children 3 recipes/errors.recipe
    expect out_of_nodes.txt "$underline" --nodes 5 recipes/errors.recipe
    expect out_of_records.txt "$underline" --records 2 recipes/errors.recipe
    expect nothing_lent.txt "$underline" --units 0 --depth 0 --children 0 --nodes 0 --records 0 recipes/good.recipe
    expect standard_input.txt "$underline" < recipes/errors.recipe
    expect too_many_words.txt "$underline" < "$work/too_many_words"
    expect too_long.txt "$underline" < "$work/too_long"
    expect usage.txt "$underline" --depth 1000000 recipes/good.recipe
    expect no_such_file.txt "$underline" recipes/none
}

# Words of the language in no order, and other inputs that nobody would type.
hostile_inputs() {
    local n
    awk 'BEGIN { for (n = 0; n < 1366; n++) print "bone above 7" }' > "$work/too_many_words"
    head -c 65537 /dev/zero | tr '\0' ' ' > "$work/too_long"
    mkdir "$work/hostile"
    head -c 65536 "$CHAMROLAK_ARCHIVE" > "$work/hostile/binary"
    head -c 65536 /dev/zero > "$work/hostile/zeros"
    head -c 65536 /dev/zero | tr '\0' '\n' > "$work/hostile/newlines"
    head -c 65536 /dev/zero | tr '\0' '\377' > "$work/hostile/high_bytes"
    head -c 65535 /dev/zero | tr '\0' 'x' > "$work/hostile/one_word"
    head -c 65535 /dev/zero | tr '\0' '}' > "$work/hostile/braces"
    cp underline.c recipe_tables.h "$work/hostile"
    awk 'BEGIN { for (n = 0; n < 1000; n++) print "region r {" }' > "$work/hostile/regions"
    awk 'BEGIN { printf "bone above 1 colour "; for (n = 0; n < 1000; n++) printf "mix(" }' > "$work/hostile/mixes"
    awk 'BEGIN { for (n = 0; n < 1000; n++) print "bone above" }' > "$work/hostile/errors"
    printf 'bone above 1\033[31m\nlinen' > "$work/hostile/escape"
    printf 'bone\r\nabove\t\t1\r\n' > "$work/hostile/returns"
    for n in $(seq 0 7 "$(wc -c < recipes/errors.recipe)"); do
        head -c "$n" recipes/errors.recipe > "$work/hostile/first_$n"
    done
    for n in $(seq 40); do
        awk -v seed="$n" 'BEGIN {
            srand(seed)
            count = split("title region { } linen resin bone from to above below colour opacity hidden" \
                " white amber ivory red mix ( , ) 7 300 gold @later # $", words, " ")
            for (n = 0; n < 50 * seed; n++)
                printf "%s%s", words[1 + int(rand() * count)], rand() < 0.15 ? "\n" : " "
        }' > "$work/hostile/words_$n"
    done
}

if command -v clang-format > /dev/null; then
    clang-format --dry-run -Werror ../include/chamrolak.h underline.c recipe_tables.h
    passed=$((passed + 1))
else
    echo "clang-format is not here: the layout of the C files is not checked."
fi

for compiler in gcc clang; do
    command -v "$compiler" > /dev/null || { echo "$compiler is not here, and is left out."; continue; }
    build "$work/underline_$compiler" underline.c "$compiler" -std=c99 -O2
done
for compiler in g++ clang++; do
    command -v "$compiler" > /dev/null || { echo "$compiler is not here, and is left out."; continue; }
    build "$work/underline_$compiler" underline.c "$compiler" -x c++ -std=c++11
    build "$work/underline_$compiler" underline.c "$compiler" -x c++ -std=c++20
done

# As someone who has it installed builds it.
../install.sh "$work/installed"
if command -v pkg-config > /dev/null; then
    export PKG_CONFIG_PATH=$work/installed/lib/pkgconfig
    read -r -a cflags <<< "$(pkg-config --cflags chamrolak)"
    read -r -a libs <<< "$(pkg-config --libs chamrolak)"
    gcc -std=c99 "${warnings[@]}" "${cflags[@]}" underline.c "${libs[@]}" -o "$work/underline_installed" \
        || fail "the host does not build against the installed library"
    passed=$((passed + 1))
else
    echo "pkg-config is not here: the installed library is not tried."
fi

sanitizers=(-g -O1 -fsanitize=address -fsanitize=undefined -fno-sanitize-recover=all)
build "$work/sanitized" underline.c gcc -std=c99 "${sanitizers[@]}"
hostile_inputs
for underline in "$work"/underline_* "$work/sanitized"; do
    expect_recipes "$underline"
done

export ASAN_OPTIONS=exitcode=99 UBSAN_OPTIONS=exitcode=99
for input in "$work"/hostile/*; do
    survives "$(basename "$input")" "$work/sanitized" "$input"
done
for limit in --units --depth --children --nodes --records; do
    for number in 1 2 3 7 20 60; do
        survives "$limit $number" "$work/sanitized" "$limit" "$number" recipes/errors.recipe
    done
done

# Tables with a fault: what the host says where it was built with them.
for number in 2 5 10 11 12 13 14 15 16 17; do
    faulty=$work/faulty_$number
    mkdir "$faulty"
    cp underline.c "$faulty"
    cargo run --quiet --offline --locked --manifest-path ../host/Cargo.toml --bin recipe_tables -- "$number" \
        > "$faulty/recipe_tables.h"
    build "$faulty/underline" "$faulty/underline.c" gcc -std=c99 "${sanitizers[@]}"
    expect "faulty_$number.txt" "$faulty/underline" recipes/brace.recipe
done

echo "$passed passed, 0 failed"
