# shellcheck shell=bash
# The run itself, and what is seen of its streams beside it: nothing stands between the program and them but at a terminal, where
# what it prints is looked at on its way.

lines_of_run=1048576

# the place of a stream that is a file, before the run: its input's in `input_from`, its output's in `output_from`
see_streams() {
    input_from='' output_from=''
    if [ -f /dev/stdin ]; then input_from=$(place_of 0); fi
    if [ -f /dev/stdout ]; then
        output_from=$(place_of 1)
        if is_appended; then output_from=$(stat -L -c %s "/proc/$$/fd/1"); fi
    fi
}

place_of() { awk '$1 == "pos:" { print $2 }' "/proc/$$/fdinfo/$1"; }

is_appended() { [ $((0$(awk '$1 == "flags:" { print $2 }' "/proc/$$/fdinfo/1") & 02000)) -ne 0 ]; }

# The program ends with this script, even where that is killed.
run_program() {
    if command -v setpriv >/dev/null && setpriv --pdeathsig KILL true 2>/dev/null; then
        setpriv --pdeathsig KILL "$program" "$@"
    else
        "$program" "$@"
    fi
}

# Runs the program, and leaves its `status` and in `seen` which errors were printed, as far as that can be seen.
run_watched() {
    seen=''
    if [ "$command" = serve ] && [ -t 1 ]; then
        run_at_terminal "$@"
        return
    fi
    run_program "$@"
    status=$?
    if [ "$command" = serve ] && [ -n "$output_from" ]; then
        seen=$(tail -c "+$((output_from + 1))" "/proc/$$/fd/1" 2>/dev/null </dev/null | errors_of)
    fi
}

# The notes go to a file without a name, which ends with the run, and end with a full stop.
run_at_terminal() {
    local notes watcher waited=0
    notes=$(mktemp) || { run_program "$@"; status=$?; return; }
    exec 3>&1 4<>"$notes"
    rm -f "$notes"
    run_program "$@" > >(tee >({ errors_of; echo .; } >&4) >&3) 3>&- 4>&-
    status=$?
    watcher=$!
    exec 3>&-
    wait "$watcher"
    while seen=$(cat "/proc/$$/fd/4") && [[ $seen != *. ]] && [ $((waited += 1)) -le 20 ]; do sleep 0.05; done
    exec 4>&-
}

# of the lines of answers: the errors that somebody has to do something about, each kind once
errors_of() {
    LC_ALL=C awk '
        /^\["(reply|error|refused|waiting)",/ { answers++ }
        substr($0, 1, 9) != "[\"error\"," { next }
        match($0, /^\["error",[0-9]+,"(NoSlot",|Reset",\[")/) {
            what = substr($0, RLENGTH + 1)
            if (what ~ /^[0-9]+\]/) told["slots"] = 1
            else if (what ~ /^full",[0-9]+,[0-9]+\]/) { told["full"] = 1 }
            else if (what ~ /^start"/) told["start"] = 1
        }
        END {
            if (answers >= '"$lines_of_run"') printf "lines "
            for (kind in told) printf "%s ", kind
        }'
}

# what of the input was left behind the last line that a run reads, as far as that can be seen: some, perhaps, or nothing. A line has one answer at
# most, so as many answers as a run reads lines are those of all of them; where they are seen, a pipe's rest may have been read ahead.
left_of_input() {
    [ "$command" = serve ] && [ -z "$fault" ] && [ "$status" = 0 ] || return 0
    if [ -n "$input_from" ]; then
        [ $(($(stat -L -c %s "/proc/$$/fd/0") - input_from)) -gt "$lines_of_run" ] || return 0
        if [ -n "$(tail -c "+$((input_from + 1))" "/proc/$$/fd/0" | tail -n "+$((lines_of_run + 1))" | head -c 1 | od -An -tx1)" ]; then echo some; fi
    elif [ -p /dev/stdin ] || [ -S /dev/stdin ]; then
        # Its end stands for ever, and is there at once. What is taken here is the rest of a line whose front is gone.
        if ! read -r -t 0; then echo perhaps
        elif IFS= read -r -N 1 -t 1; then echo some
        elif [[ " $seen" == *' lines '* ]]; then echo perhaps
        fi
    elif [[ " $seen" == *' lines '* ]]; then
        echo perhaps
    fi
}
