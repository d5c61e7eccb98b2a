# Runs a program of this repository: read by `planner` and `planner-chart`, which say its crate (crate_name) and its name for messages
# (name), and where the repository lies (top). It proves and builds the program first where there is none, or where a file that the
# program is made of is not as it was when the program was built: the files are told apart by what they hold and not by their times.
crate=$top/crates/$crate_name
out=$crate/out
program=$out/$crate_name
sum=$out/$name.sum
log=$out/$name.log

say() { echo "$name: $*" >&2; }

# The crates that the program stands on, and itself, by crates.txt.
crates_below() {
    awk -v top="$crate_name" '
        !/^#/ && /:/ { split($1, head, ":"); name = head[1]; line = $0; sub(/^[^:]*:/, "", line); below[name] = line }
        END {
            ready[1] = top; seen[top] = 1; count = 1
            for (i = 1; i <= count; i++) {
                print ready[i]
                parts = split(below[ready[i]], names, " ")
                for (k = 1; k <= parts; k++) if ((names[k] in below) && !(names[k] in seen)) { seen[names[k]] = 1; ready[++count] = names[k] }
            }
        }' "$top/crates.txt"
}

# One checksum of all that the program is made of: its crates, what they stand on, and the toolchain.
checksum() {
    (
        cd "$top" || exit 1
        rt version
        cat crates.txt HANDLES
        for name in $(crates_below | sort); do
            find "crates/$name" \( -name out -o -name must-fail \) -prune -o -type f \( -name '*.rt' -o -name '*.antt' \) -print0
        done | LC_ALL=C sort -z | xargs -0 cksum
    ) | cksum
}

# How far the building is: what is being proved, how many crates of how many are done, and the time so far.
progress() {
    done_crates=$(grep -c '^logic=proved' "$log")
    now=$(sed -n 's/^rt: chose --jobs [0-9]* for //p' "$log" | tail -n 1)
    seconds=$(($(date +%s) - start))
    printf '%s: proving %s; %d of %d crates are done; %d:%02d' "$name" "${now:-the lowest crates}" "$done_crates" "$total" $((seconds / 60)) $((seconds % 60))
}

build() {
    mkdir -p "$out" 2>/dev/null
    if ! (: >"$log") 2>/dev/null; then
        say "the program is not built, or not from these files, and $out cannot be written"
        exit 1
    fi
    rm -f "$program" "$sum"
    total=$(crates_below | wc -l)
    start=$(date +%s)
    say "proving and building the program ($total crates); the first time this takes long"
    (cd "$crate" && exec rt run --) >"$log" 2>&1 </dev/null &
    worker=$!
    trap 'kill "$worker" 2>/dev/null; exit 130' INT TERM
    last=
    while kill -0 "$worker" 2>/dev/null; do
        sleep 1
        line=$(progress)
        if [ -t 2 ]; then
            printf '\r\033[K%s' "$line" >&2
        elif [ "${line%%; [0-9]*:*}" != "$last" ]; then
            last=${line%%; [0-9]*:*}
            echo "$line" >&2
        fi
    done
    trap - INT TERM
    [ -t 2 ] && printf '\r\033[K' >&2
    seconds=$(($(date +%s) - start))
    if [ ! -x "$program" ]; then
        tail -n 20 "$log" >&2
        say "the program was not built; $log has the whole account"
        exit 1
    fi
    echo "$wanted" >"$sum"
    say "proved and built in $((seconds / 60)):$(printf %02d $((seconds % 60)))"
}

if ! command -v rt >/dev/null 2>&1; then
    say "rt, the command of the Rattle toolchain, is not on the PATH"
    exit 1
fi
wanted=$(checksum)
if [ ! -x "$program" ] || [ "$(cat "$sum" 2>/dev/null)" != "$wanted" ]; then
    build
fi
exec "$program" "$@"
