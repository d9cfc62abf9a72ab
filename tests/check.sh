#!/bin/sh
# Fails, naming the files, when the second program would make another expected output
# than the one kept here, or when an input or an output stands alone.
set -eu

tests=$(cd "$(dirname "$0")" && pwd)
package=$tests/../second
cargo build --release --quiet --offline \
    --manifest-path "$package/Cargo.toml" --target-dir "$package/target"

made=$(mktemp)
trap 'rm -f "$made"' EXIT
failed=0
fail() {
    echo "$1: ${2#"$tests"/}" >&2
    failed=1
}

for input in "$tests"/stream/*.in "$tests"/call/*.in "$tests"/walk/*.in "$tests"/demo/*.in "$tests"/challenge/*.in; do
    program=$(basename "$(dirname "$input")")
    output=${input%.in}.out
    if [ ! -f "$output" ]; then
        fail "no output" "$input"
    elif ! "$package/target/release/second" "$program" < "$input" > "$made"; then
        fail "no answer" "$input"
    elif ! cmp -s "$made" "$output"; then
        fail "differs" "$output"
    fi
done
for output in "$tests"/stream/*.out "$tests"/call/*.out "$tests"/walk/*.out "$tests"/demo/*.out "$tests"/challenge/*.out; do
    [ -f "${output%.out}.in" ] || fail "no input" "$output"
done
exit "$failed"
