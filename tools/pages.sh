#!/usr/bin/env bash
# Fails when a page names a file or a name that does not exist, or leads to a heading or a line that does not; when docs/USING.md does not show the files of
# the crate `using` as they are; when docs/CALL-LINES.md does not have a line of `call` for each call of the library; when docs/ARCHITECTURE.md does not say
# what crates.txt says, or the picture of the layers does not show it; or when docs/FRAME.md does not have exactly the services of the definition.
# On the pages, `crate/folder/File.ext#name` is a name in a file under crates/, and `a/path.ext` a file.
set -euo pipefail
top=$(cd "$(dirname "$0")/.." && pwd -P)
cd "$top"

failed=0
fault() { echo "$1" >&2; failed=1; }

# A file of the repository, named from its root or from crates/.
found() { [ -e "$1" ] && echo "$1" || { [ -e "crates/$1" ] && echo "crates/$1"; }; }

# Whether a file declares a name: a definition, law or record; a function, struct, module or constant.
declares() {
    local name
    name=$(printf '%s' "$2" | sed 's/[][\.*^$]/\\&/g')
    case $1 in
    *.antt) grep -qE "^ *((unfoldable|abbrev|pub|record|data) )*$name( |$)" "$1" ;;
    *.rt) grep -qE "(fn|struct|enum|trait|const|static|mod) $name([^A-Za-z0-9_]|$)" "$1" ;;
    *) grep -qF -- "$2" "$1" ;;
    esac
}

# A file as a page shows it: in the first fenced block after a line that ends with the file's name and a colon.
shown() { awk -v name="\`$2\`:" 'substr($0, length($0) - length(name) + 1) == name { on = 1; next } on && /^```/ { if (inside) exit; inside = 1; next } inside' "$1"; }

for page in README.md docs/*.md docs/*/*.md vectors/README.md; do
    while IFS= read -r token; do
        path=${token%%#*}
        file=$(found "$path") || { fault "$page: no file $path"; continue; }
        case $token in *'#'*) declares "$file" "${token#*#}" || fault "$page: $file declares no ${token#*#}" ;; esac
    done < <(grep -oE '`[A-Za-z0-9_][A-Za-z0-9_./-]*/[A-Za-z0-9_./-]+(\.(antt|rt|edit|md|rs|txt|sh|in|out)(#[^`]+)?|/stdin|/stdout)`' "$page" | tr -d '`' | sort -u)
done
# links: each to a file, a heading or the line of its name
room=$(mktemp -d)
trap 'rm -rf "$room"' EXIT
tools/browse "$room" >/dev/null || failed=1
tools/links || failed=1
tools/layers --check || failed=1

for file in crates/using/src/main.rt crates/using/stdout crates/using/proofs/seal/Answers.antt; do
    cmp -s <(shown docs/USING.md "$file") "$file" || fault "docs/USING.md does not show $file as it is"
done

# The line of `call` that makes a call of the library bears its name, after its crate's where two crates share it; but for these. What only the programs
# are made of has none.
library=$(for source in crates/*/src/*.rt; do
    crate=${source#crates/} crate=${crate%%/*}
    [ -f "crates/$crate/src/lib.rt" ] || continue
    case $crate in refusals | lines | script) ;; *) sed -nE "s/^ *pub fn ([a-z0-9_]+).*/$crate::\1/p" "$source" ;; esac
done | sort)
line_of() {
    local name=${1##*::}
    case $1 in
    frames::header_of) echo header ;;
    frames::look_refusal) echo look ;;
    *) if [ "$(grep -c "::$name$" <<<"$library")" -gt 1 ]; then echo "${1%%::*}_$name"; else echo "$name"; fi ;;
    esac
}
told=$(for call in $library; do line_of "$call"; done | sort -u)
known=$(awk '/^## By hand: the program call$/ { on = 1; next } on && /^```$/ { fences++; next } fences == 1 { print $1 } fences == 2 { exit }' docs/CALL-LINES.md | sort)
[ "$told" = "$known" ] || { fault 'docs/CALL-LINES.md does not list a line of `call` for each call of the library:'; diff <(echo "$known") <(echo "$told") >&2 || true; }

uses=$(sed 's/#.*//' crates.txt | sed -nE 's/^([a-z0-9_]+): *(.*)$/\1: \2/p' | sed 's/ *$//' | sort)
said=$(sed -nE 's/^\| `([a-z0-9_]+)` \| uses ([^|]*) \|.*/\1: \2/p' docs/ARCHITECTURE.md | sed 's/: nothing$/:/; s/`//g; s/,//g' | sort)
[ "$uses" = "$said" ] || { fault 'docs/ARCHITECTURE.md does not say what crates.txt says:'; diff <(echo "$said") <(echo "$uses") >&2 || true; }

# Of the list every line counts, so that one of another form is a difference.
services=$(sed -n '/^assigned =$/,/^ *\[\]$/p' crates/link/specs/Services.antt | sed -E '1d; $d; s/^ *([0-9]+) ∷ +-- ([A-Z0-9]+):.*/\1 \2/')
named=$(sed -nE 's/^\| ([0-9]+) \| ([A-Z0-9]+) \|.*/\1 \2/p' docs/FRAME.md)
[ -n "$services" ] && [ "$services" = "$named" ] || { fault 'docs/FRAME.md does not list exactly the services that are assigned:'; diff <(echo "$named") <(echo "$services") >&2 || true; }
exit "$failed"
