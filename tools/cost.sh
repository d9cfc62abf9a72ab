#!/usr/bin/env bash
# Measures what the proof of each crate takes, one after the other from nothing: seconds, and the most memory at one time. It is no test.
# Works on a copy, so that what is proved already stays. Needs GNU time. rt begins with what it kept of the same crate in another folder of this machine,
# where there is such work: such a row is marked, and measures nothing. So let it run where no other copy has its folders out/.
set -euo pipefail
top=$(cd "$(dirname "$0")/.." && pwd -P)
room=$(mktemp -d)
trap 'rm -rf "$room"' EXIT
mkdir "$room/crates"
cp "$top/crates.txt" "$room/"
for crate in $(sed 's/#.*//; s/:.*//' "$top/crates.txt"); do
    mkdir "$room/crates/$crate"
    for part in src specs proofs; do [ ! -d "$top/crates/$crate/$part" ] || cp -R "$top/crates/$crate/$part" "$room/crates/$crate/"; done
done
cd "$room"

printf '%-12s %8s %8s\n' crate seconds MB
for crate in $(sed 's/#.*//; s/:.*//' crates.txt); do
    # a library is built too, as the crates above it need it
    how=check
    [ ! -f "crates/$crate/src/lib.rt" ] || how=lib
    (cd "crates/$crate" && command time -o "$room/figures" -f '%e %M' rt "$how" --jobs 1 </dev/null) >said 2>&1 || { tail -n 20 said >&2; exit 1; }
    read -r seconds kilobytes <figures
    kept=$(grep -qF ": begins with what a check kept in " said && echo '  over kept work' || true)
    printf '%-12s %8.0f %8d%s\n' "$crate" "$seconds" $((kilobytes / 1024)) "$kept"
done
