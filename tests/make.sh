#!/bin/sh
# Makes every expected output of this folder anew from its input, by the second program.
set -eu

tests=$(cd "$(dirname "$0")" && pwd)
package=$tests/../second
cargo build --release --quiet --offline \
    --manifest-path "$package/Cargo.toml" --target-dir "$package/target"

for input in "$tests"/stream/*.in "$tests"/call/*.in "$tests"/walk/*.in "$tests"/demo/*.in "$tests"/challenge/*.in; do
    program=$(basename "$(dirname "$input")")
    "$package/target/release/second" "$program" < "$input" > "${input%.in}.out"
done
