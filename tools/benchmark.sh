#!/usr/bin/env bash
# Times the proved program `benchmark` beside the second program built for release, in one run: its version with tables, and the club's baseline, which
# evaluates the equations of S9 at each look-up (document 02, item 9) and computes the S-box of AES at each use. It is no test. With the word `lengths` it
# times GEA4 alone, at many lengths.
set -euo pipefail
top=$(cd "$(dirname "$0")/.." && pwd -P)
cd "$top"
. tools/kit.sh
. tools/progress.sh

kit_there
prove benchmark
cargo build --quiet --release --offline --manifest-path second/Cargo.toml
room=$(mktemp -d)
trap 'rm -rf "$room"' EXIT

ours() { printf '%s\n' "$*" | run_proved benchmark; }
second=$top/second/target/release/second
# shellcheck disable=SC2086
baseline() { $second baseline $1; }
# shellcheck disable=SC2086
tables() { $second benchmark $1; }
programs='ours baseline tables'
rounds=9

# The nanoseconds that a program takes for a line; what it says goes to $room/PROGRAM.
took() {
    local began
    began=$(date +%s%N)
    "$1" "$2" >"$room/$1"
    echo $(($(date +%s%N) - began))
}

# least WHAT M COUNT: for each program the least time of a call in nanoseconds, over rounds in which the three take turns. What a program takes to start is
# measured with no call, and taken off.
least() {
    local round program now
    for program in $programs; do : >"$room/$program.all"; : >"$room/$program.start"; done
    for round in $(seq $rounds); do
        printf '\r%s, round %s of %s   ' "$label" "$round" "$rounds" >&2
        for program in $programs; do
            now=$(took "$program" "$1 $2 0")
            echo "$now" >>"$room/$program.start"
            now=$(took "$program" "$1 $2 $3")
            echo "$now" >>"$room/$program.all"
        done
        { cmp -s "$room/ours" "$room/baseline" && cmp -s "$room/ours" "$room/tables"; } || { echo "the programs do not agree at $1 $2 $3" >&2; exit 1; }
    done
    printf '\r%60s\r' '' >&2
    for program in $programs; do
        echo "$(sort -n "$room/$program.all" | head -n 1) $(sort -n "$room/$program.start" | head -n 1) $3" | awk '{ printf "%.1f ", ($1 - $2) / $3 }'
    done
}

# LABEL WHAT M COUNT
row() {
    label=$1
    read -r mine plain table < <(least "$2" "$3" "$4"; echo)
    awk -v l="$label" -v o="$mine" -v b="$plain" -v t="$table" 'BEGIN { printf "%-28s %12.3f %12.3f %12.3f %10.2f %10.2f\n", l, o / 1000, b / 1000, t / 1000, o / b, o / t }'
}

printf '%s, %s\n' "$(uname -m)" "$(sed -n 's/^model name[^:]*: //p; s/^CPU part[^:]*: /CPU part /p' /proc/cpuinfo | head -n 1)"
printf '%-28s %12s %12s %12s %10s %10s\n' 'microseconds a call' ours baseline tables ours/base ours/table
if [ "${1:-}" = lengths ]; then
    for line in '8 40000' '32 40000' '128 20000' '512 8000' '1520 4000' '4096 1500' '16384 400' '32768 200' '65536 100'; do
        row "GEA4, ${line% *} octets" 0 "${line% *}" "${line#* }"
    done
    exit
fi
row 'KASUMI, one block' 2 0 100000
row 'A5/4 for GSM, one call' 1 0 40000
row 'GEA4, 20 octets' 0 20 40000
row 'GEA4, 1,520 octets' 0 1520 4000
row 'GEA4, 65,536 octets' 0 65536 100
row 'seal, 1,520 octets' 3 1520 4000
row 'open, 1,520 octets' 4 1520 4001
row 'f8, 1,000 bits' 5 1000 20000
row 'f9, 1,000 bits' 6 1000 20000
row 'f8, 20,000 bits' 5 20000 2000
row 'f9, 20,000 bits' 6 20000 2000
row 'MILENAGE, a full set' 7 0 20000

# What sealing and opening take beside GEA4 alone is little, so these three take turns too.
for what in 0 3 4; do : >"$room/$what.all"; done
for round in $(seq $rounds); do
    printf '\rGEA4, seal and open in turn, round %s of %s   ' "$round" "$rounds" >&2
    for what in 0 3 4; do now=$(took ours "$what 1520 8000"); echo "$now" >>"$room/$what.all"; done
done
printf '\r%60s\r' '' >&2
for what in 0 3 4; do sort -n "$room/$what.all" | head -n 1; done | xargs | awk '{ printf "in turn: sealing takes %.2f and opening %.2f of GEA4 alone\n", $2 / $1, $3 / $1 }'
