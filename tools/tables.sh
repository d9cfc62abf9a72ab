#!/usr/bin/env bash
# Fails when the tables or the gate equations of the definitions are not the published ones in vectors/, when the numbers of the code's S9, or of its
# picture, are not those of the published equations, or when the code has another table than those of S7 and of AES: S9 is to be none of its constants.
set -euo pipefail
top=$(cd "$(dirname "$0")/.." && pwd -P)
cd "$top/crates/sboxes/specs"

numbers() { grep -v '^#' | grep -oE '[0-9]+'; }
table() { sed -n "/^$1 =/,/\[\]/p" Tables.antt | sed '1d' | numbers; }
for n in 7 9; do
    cmp <(table "s${n}_table") <(numbers <"$top/vectors/kasumi-S$n.txt") || { echo "s${n}_table is not the published S$n" >&2; exit 1; }
    # a published equation `y0 = x1x3 ^ x4 ^ 1` is written `(x1 * x3 + x4 + 1) % 2`
    cmp <(sed -n "/^gates$n x0/,/\[\]/p" Gates.antt | sed -nE 's/^ *\((.*)\) % 2.*/\1/p') \
        <(sed -n "/^S$n\$/,/^\$/p" "$top/vectors/kasumi-gates.txt" | sed -nE 's/^y[0-9] = //p' | sed -E 's/([0-9])x/\1 * x/g; s/ \^ / + /g') \
        || { echo "gates$n are not the published equations of S$n" >&2; exit 1; }
done

# The number of a product has bit i where the equation of yi has it; here in the order of the code, row by row, each bit alone last, at the end that of 1.
equations=$(sed -n '/^S9$/,/^$/p' "$top/vectors/kasumi-gates.txt" | sed -nE 's/^y([0-9]) = (.*)/\1 ^ \2/p' | awk -F ' \\^ ' '
    { for (k = 2; k <= NF; k++) number[$k] += 2 ^ $1 }
    END {
        for (k = 0; k < 9; k++) { for (j = 0; j < k; j++) printf "%03X\n", number["x" j "x" k]; printf "%03X\n", number["x" k] }
        printf "%03X\n", number[1]
    }')
code=$(sed -n '/fn s9(/,/^}/p' ../src/boxes.rt | grep -oE '0x[0-9A-F]+' | sed -nE 's/^0x(...)$/\1/p')
picture=$(grep -oE '>[0-9A-F]{3}<' "$top/docs/pictures/s9.svg" | tr -d '<>')
[ "$code" = "$equations" ] || { echo 'the numbers of s9 are not those of the published equations' >&2; exit 1; }
[ "$picture" = "$code" ] || { echo 'docs/pictures/s9.svg does not have the numbers of s9' >&2; exit 1; }

# A table is a list of more than 64 words between brackets.
found=$(for source in "$top"/crates/*/src/*.rt "$top"/crates/*/src/*/*.rt; do
    [ ! -f "$source" ] || sed 's|//.*||' "$source" | tr -d '\n' | grep -oE '\[[^][;]*\]' | awk -F , -v name="${source#"$top"/crates/}" '
        { count = NF - ($NF ~ /^[ ]*\]$/) } count > 64 { print name, count }' || true
done)
[ "$found" = $'aes/src/table.rt 256\nsboxes/src/boxes.rt 128' ] || { printf 'the code has other tables than those of S7 and of AES:\n%s\n' "$found" >&2; exit 1; }
