# To be sourced: proves a crate with all that it uses, and says on standard error how far that is.

# The crates that NAME reaches, itself last, in the order in which rt proves them. For each: its name, the seconds that docs/COST.md gives for it, which
# are taken only to compare crates, and those of all crates after it. A crate that the page does not have counts as 10.
plan_of() {
    awk -v name="$1" '
        function visit(n,    a, k, m) {
            if (n in seen || !(n in uses)) return
            seen[n] = 1
            m = split(uses[n], a, " ")
            for (k = 1; k <= m; k++) visit(a[k])
            print n
        }
        { sub(/#.*/, ""); i = index($0, ":"); if (i) uses[substr($0, 1, i - 1)] = substr($0, i + 1) }
        END { visit(name) }' crates.txt | awk '
        FILENAME != "-" {
            gsub(/[ `]/, "")
            m = split($0, field, "|")
            for (k = 1; k < m; k++) if (!(field[k] in seconds) && field[k + 1] ~ /^[0-9]+$/) seconds[field[k]] = field[k + 1]
            next
        }
        { name[++count] = $1; weight[count] = $1 in seconds ? seconds[$1] : 10 }
        END {
            for (k = count; k > 0; k--) rest[k] = rest[k + 1] + weight[k + 1]
            for (k = 1; k <= count; k++) print name[k], weight[k], rest[k]
        }' docs/COST.md -
}

# A time in words.
about() { if [ "$1" -ge 90 ]; then echo "about $((($1 + 30) / 60)) minutes"; else echo "about $((($1 + 9) / 10 * 10)) seconds"; fi; }

# prove NAME: proves and compiles a program, and fails where that does. What it is about to do is said once there is something to prove: when a function
# was proved, or after two seconds of silence. All that rt says is kept in target/log/NAME.out. rt runs the program too, here on nothing.
prove() {
    local plan crates
    plan=$(plan_of "$1")
    crates=$(printf '%s\n' "$plan" | wc -l)
    mkdir -p target/log
    { (cd "crates/$1" && rt run </dev/null 2>&1 >/dev/null) || true; } | tee "target/log/$1.out" | {
        local line part='' patience='-t 2' crate='' weight rest told took=0 weighed=0 at=$SECONDS stands=''
        begin() {
            [ -n "$patience" ] || return 0
            patience=''
            echo "proving $1 and what it uses, $crates crates; the first time that takes minutes" >&2
        }
        while :; do
            if IFS= read -r $patience line; then
                line=$part$line part=''
            elif [ $? -gt 128 ]; then
                # the time is over; what has come of a line so far is kept
                part=$line
                begin "$1"
                continue
            else
                break
            fi
            case $line in
            'fn '*': proved') begin "$1" ;;
            'crate '*': modules loaded='*) crate=${line#crate } crate=${crate%%:*} ;;
            'logic=proved '*)
                begin "$1"
                told=$((SECONDS - at)) at=$SECONDS
                read -r weight rest < <(printf '%s\n' "$plan" | sed -n "s/^$crate //p")
                took=$((took + told)) weighed=$((weighed + ${weight:-0}))
                if [ "$weighed" -gt 0 ]; then rest=$((${rest:-0} * took / weighed)); fi
                echo "$crate is proved ($told s)$([ "$crate" = "$1" ] || echo ": $(about "$rest") to go")" >&2
                ;;
            'logic=not-proved'*) echo "$crate is NOT PROVED; target/log/$1.out says why" >&2 ;;
            'rt: nothing has changed '*) patience='' ; echo "$1 is proved already" >&2 ;;
            'rt: running out/'*) stands=yes ;;
            esac
        done
        [ -n "$stands" ] || { echo "$1 cannot be run; target/log/$1.out says why" >&2; false; }
    }
}
