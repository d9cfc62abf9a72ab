#!/usr/bin/env bash
# Fails when an example on a page is not what the second program, whose path is given, answers. An example is a line `$ COMMAND | ./run NAME` in a fenced
# block, with the lines after it, up to the next such line or the block's end, as its output; or what scripts of the demonstration print, each of which
# begins with the heading of `demo`. COMMAND may have programs of its own, each as `./run NAME`.
set -euo pipefail
second=$1
top=$(cd "$(dirname "$0")/.." && pwd -P)
cd "$top"

failed=0
tried=0
# compare PAGE EXAMPLE SHOWN MADE
compare() {
    tried=$((tried + 1))
    [ "$3" = "$4" ] || { printf '%s: %s\n' "$1" "$2" >&2; diff <(echo "$3") <(echo "$4") >&2 || true; failed=1; }
}

for page in README.md docs/*.md; do
    while IFS= read -r command; do
        shown=$(LINE="\$ $command" awk '/^```/ { on = 0 } on && /^\$ / { exit } on { print } $0 == ENVIRON["LINE"] { on = 1 }' "$page")
        made=$(bash -c "${command//.\/run /$second }")
        compare "$page" "$command" "$shown" "$made"
    done < <(sed -nE 's/^\$ ((echo|printf) .* \| \.\/run [a-z]+)$/\1/p' "$page")
done

for shown in 'README.md demo/rollover.txt' 'docs/BENCH.md demo/plug.txt demo/refusals.txt'; do
    read -r page scripts <<<"$shown"
    compare "$page" "$scripts" "$(sed -n '/^phone  /,/^```$/p' "$page" | grep -v '^```$')" "$(for script in $scripts; do "$second" demo <"$script"; done)"
done

[ "$tried" -gt 2 ] || { echo 'no example was found on the pages' >&2; exit 1; }
exit "$failed"
