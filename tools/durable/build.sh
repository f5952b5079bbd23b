# shellcheck shell=bash
# Which program runs, and how it is proved and built.

log=$top/out/build.log

# whether there is a program; its path is in `program`
has_program() {
    program=$kept
    if [ -n "${DURABLE:-}" ]; then program=$(readlink -f -- "$DURABLE"); fi
    [ -f "$program" ] && [ -x "$program" ]
}

# sees that there is a program: one that stands serves, though its sources may be newer
find_program() {
    if has_program; then
        if [ -z "${DURABLE:-}" ] && is_stale; then
            say "out/durable, of $(day_of "$kept"), is older than its sources, and serves as it is; ./durable --build builds it anew"
        fi
    elif [ -n "${DURABLE:-}" ]; then
        say "DURABLE names $DURABLE, which is no program"
        exit 70
    else
        build_anew || exit 70
    fi
}

day_of() { date -r "$1" '+%Y-%m-%d %H:%M'; }

tell_version() {
    if [ -n "${DURABLE:-}" ] && ! has_program; then
        say "DURABLE names $DURABLE, which is no program"
    elif ! has_program; then
        say "there is no program yet: ./durable --build builds it"
    elif [ -z "${DURABLE:-}" ] && [ -r "$top/out/built" ]; then
        say "out/durable of $(day_of "$kept"), $(cat "$top/out/built")"
    else
        say "$program of $(day_of "$program")"
    fi
}

# the crates that the program stands on, those below first
program_crates() {
    awk -F: '
        /^[a-z]/ { split($1, word, " "); names[++count] = word[1]; deps[word[1]] = $2 }
        END {
            need["durable"] = 1
            do {
                more = 0
                for (i = 1; i <= count; i++) if (names[i] in need) {
                    n = split(deps[names[i]], dep, " ")
                    for (j = 1; j <= n; j++) if (!(dep[j] in need) && dep[j] in deps) { need[dep[j]] = 1; more = 1 }
                }
            } while (more)
            for (i = 1; i <= count; i++) if (names[i] in need) print names[i]
        }' "$top/crates.txt"
}

# whether a source of the program is newer than the one that is kept
is_stale() {
    local crates
    [ "$top/crates.txt" -nt "$kept" ] && return 0
    mapfile -t crates < <(program_crates)
    crates=("${crates[@]/#/$top/crates/}")
    [ -n "$(find "${crates[@]/%//src}" -name '*.rt' -newer "$kept" -print -quit)" ]
}

build_anew() {
    local crates
    if [ -x "$kept" ] && ! is_stale; then say "out/durable, of $(day_of "$kept"), is as new as its sources"; return 0; fi
    if ! command -v rt >/dev/null; then
        say "rt isn't in the PATH: to build the program, install the Rattle toolchain that README.md names, so that 'rt version' runs"
        return 1
    fi
    mapfile -t crates < <(program_crates)
    tell_start
    if ! build; then
        say "the program isn't built: $log tells why; at its end stands"
        tail -n 3 "$log" >&2
        return 1
    fi
    say "the program is built: out/durable"
}

# what begins now, before anything else is done
tell_start() {
    local free
    free=$(awk '$1 == "MemAvailable:" { printf "%.1f", $2 / 1048576 }' /proc/meminfo)
    say "the program is to be proved and built now, ${#crates[@]} crates: about an hour on four processors (here are $(nproc)). Have 12 GB of memory (here $free are free)"
    say "for a first look without any proof, in three minutes: cd '$top/crates/durable' && rt try -- check '$top/examples/counter/script.js'"
    say "what rt says goes to $log"
}

# Crate by crate, those below first: where libraries below are missing, rt would read the sources of all of them at once, which takes more than 13 GB.
build() {
    local name began began_at before number=0
    began=$(date +%s) began_at=$SECONDS
    mkdir -p "$top/out" && : >"$log" || return 1
    for name in "${crates[@]}"; do
        number=$((number + 1))
        if [ "$name" = durable ]; then continue; fi
        work_at "$name" lib || return 1
    done
    # It runs with no words, so that its line of usage shows that it stands.
    before=$(stat -c %s "$log")
    work_at durable run
    tail -c "+$((before + 1))" "$log" | grep -F '["usage"]' >/dev/null && [ -x "$top/crates/durable/out/durable" ] || return 1
    cp "$top/crates/durable/out/durable" "$kept.new" && touch -d "@$began" "$kept.new" && mv "$kept.new" "$kept" || return 1
    printf 'built from %s by %s\n' "$(git -C "$top" describe --always --dirty 2>/dev/null || echo 'these sources')" "$(rt version)" >"$top/out/built"
}

# has rt do its work at a crate: `lib` proves and keeps a library, `run` proves, builds and runs a program
work_at() {
    local builder
    (cd "$top/crates/$1" && exec rt "$2") </dev/null >>"$log" 2>&1 &
    builder=$!
    trap 'kill "$builder" 2>/dev/null; exit 130' INT TERM
    tell_progress "$builder" "$1"
    wait "$builder"
    local ended=$?
    trap - INT TERM
    return "$ended"
}

# tells which crate the build works at, where it takes more than a moment, and again every two minutes
tell_progress() {
    local rounds=0 said=-120 passed
    while kill -0 "$1" 2>/dev/null; do
        passed=$((SECONDS - began_at))
        if [ "$((rounds += 1))" -gt 8 ] && [ $((passed - said)) -ge 120 ]; then
            say "$(printf '%d:%02d:%02d' $((passed / 3600)) $((passed / 60 % 60)) $((passed % 60))) since the start: proving $2, crate $number of ${#crates[@]}"
            said=$passed
        fi
        if [ "$rounds" -gt 8 ]; then sleep 2; else sleep 0.25; fi
    done
}
