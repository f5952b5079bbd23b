# shellcheck shell=bash
# What is told behind a run.

# what of the answers stands behind a run; a script may allow its last writes to be lost
what_stands() {
    if [ -n "$script" ] && grep -q allowUnconfirmed -- "$script" 2>/dev/null; then
        printf '%s, but for the last writes with allowUnconfirmed.' "$1"
    else
        printf '%s.' "$1"
    fi
}

tell() {
    case "$1" in
        0) ;;
        1) tell_words ;;
        2) tell_refusal "$script" ;;
        3) tell_opening "$script" "$folder" ;;
        4) say "memory was refused: run again where there is more, and keep a window of calls under way. $(what_stands 'What was answered is there')" ;;
        5) say "standard input couldn't be read further: each whole line before that was answered. See what stands at its other end." ;;
        6) say "standard output couldn't be written: see what stands at its other end, or whether its disk is full. $(what_stands 'What was printed is durable')" ;;
        7) tell_bad_slot "$folder" "$slots" ;;
        *) say "the program was ended by signal $(($1 - 128)): run it again. $(what_stands 'What was answered is there')" ;;
    esac
    if [ "$command" = serve ] && [ -z "$fault" ]; then tell_served "$1"; fi
}

# what a run that served lines leaves to be done
tell_served() {
    case "$1" in 0 | 4 | 5 | 6) ;; *) return ;; esac
    tell_input
    tell_journals
    case " $seen" in *' start '*)
        say "a constructor threw, or a throw left its block ([\"start\"]): each call of that object runs it anew. Mend the script, or what it reads." ;;
    esac
}

# where the run ended before its input, or may have
tell_input() {
    local next='as by tail -n +1048577'
    case $(left_of_input) in
        some) say "this run ended at line 1,048,576, to which a run reads, and what stands behind it in the input was left: give that to a next run, $next" ;;
        perhaps) say "this run ended at line 1,048,576, to which a run reads: if the input has more, give what stands behind it to a next run, $next" ;;
    esac
}

# where a journal is full, and where no slot is free
tell_journals() {
    local full free
    full=$(journals_of "$folder" "$((most_bytes - most_bytes / 16))" | head -n 1)
    if [[ " $seen" == *' full '* ]]; then
        say "a journal is full${full:+ ($full)}: what would pass --journal-bytes $most_bytes isn't written. Serve the folder with a greater --journal-bytes; nothing else is to be done."
    elif [ -n "$full" ]; then
        say "$full is nearly full: past --journal-bytes $most_bytes no write of its object is done. Serve the folder with a greater --journal-bytes."
    fi
    if [[ " $seen" == *' slots '* ]]; then
        say "no slot was free for a further object (NoSlot): $(more_slots). A slot isn't freed by what its object deletes."
    elif [ -z "$output_from" ] && [ ! -t 1 ]; then
        free=$(($(journals_of "$folder" "$bare_bytes" | wc -l) - slots))
        if [ "$free" -ge 0 ]; then say "all $slots slots of $folder have an object, and a further one is answered by NoSlot: $(more_slots)"; fi
    fi
}

more_slots() {
    if [ "$slots" -lt "$slots_at_most" ]; then echo "serve the folder with more --slots, $slots_at_most at most"; else echo 'put further objects into another folder'; fi
}

# whether another run holds this file
is_held() {
    command -v flock >/dev/null && [ -r "$1" ] && ! flock -n "$1" true 2>/dev/null
}

# what of a journal can't be opened, if anything
tell_journal() {
    local file=$1 folder=$2
    if [ -d "$file" ]; then say "$file is a folder, and no journal"; return 0; fi
    if [ -e "$file" ]; then
        if [ ! -r "$file" ] || [ ! -w "$file" ]; then say "$file can't be read and written by this user"; return 0; fi
    elif [ ! -w "$folder" ]; then
        say "$file can't be made by this user"; return 0
    fi
    if is_held "$file"; then say "another run holds $file: end that run first, or take another folder"; return 0; fi
    return 1
}

# what isn't there of the paths that the words name, if anything
tell_paths() {
    local script=$1 folder=$2
    if [ -n "$script" ]; then
        if [ ! -e "$script" ]; then say "there is no script $script"; return 0; fi
        if [ -d "$script" ]; then say "$script is a folder, and no script"; return 0; fi
        if [ ! -r "$script" ]; then say "the script $script can't be read by this user"; return 0; fi
    fi
    if [ -n "$folder" ]; then
        if [ ! -e "$folder" ]; then say "there is no folder $folder: make it with mkdir"; return 0; fi
        if [ ! -d "$folder" ]; then say "$folder is no folder"; return 0; fi
    fi
    return 1
}

# what of the words can't be opened
tell_opening() {
    local script=$1 folder=$2 number
    if tell_paths "$script" "$folder"; then return; fi
    if [ -z "$folder" ]; then say "the script $script couldn't be read"; return; fi
    for ((number = 0; number < slots; number++)); do
        if tell_journal "$(file_of "$folder" "$number")" "$folder"; then return; fi
    done
    say "a call of the disk failed in $folder: see that its disk has room and is healthy, and run again. $(what_stands 'What was answered is there')"
}

file_of() { printf '%s/slot-%03d.journal' "$1" "$2"; }

# Whether a journal that isn't taken is none but for a program that knows version 1 alone (docs/FORMATS.md): it is of version 2, or has the marker
# where it is said to be damaged, as its first.
is_newer() {
    local version
    version=$(head -c 14 "$1" 2>/dev/null | tail -c 13)
    if [ "$2" = foreign ]; then [ "$version" = DO-JOURNAL-V2 ]; return; fi
    [ "$2" = damaged ] && [ "$version" = DO-JOURNAL-V1 ] || return 1
    [ "$(tail -c "+$(($3 + 2))" "$1" | head -c 12 | od -An -tx1 | tr -d ' \n')" = 00000008ffffffff00000002 ] || return 1
    head -c "$3" "$1" | LC_ALL=C grep -qaP '\x00\x00\x00\x08\xff\xff\xff\xff\x00\x00\x00\x02'
    [ $? = 1 ]
}

# which file is bad, and where: the folder is looked at again, with as many slots
tell_bad_slot() {
    local told file
    told=$("$program" dump --slots "$2" -- "$1" </dev/null 2>/dev/null)
    if ! [[ $told =~ ^\[\"([a-z]+)\",([0-9]+),(.*)\]$ ]]; then
        say "a journal of $1 is no good one, which the printed line tells. It was left as it was."
        return
    fi
    file=$(file_of "$1" "${BASH_REMATCH[2]}")
    if is_newer "$file" "${BASH_REMATCH[1]}" "${BASH_REMATCH[3]}"; then
        say "$file was written by a newer program than this one, which can't read it: serve the folder with that one, or build it by ./durable --build. docs/RUNNING.md ('A folder of an older program') has more."
        return
    fi
    case "${BASH_REMATCH[1]}" in
        damaged) say "$file is damaged at byte ${BASH_REMATCH[3]}: behind the open gate there stands no whole frame. It was left as it was; take it from a copy." ;;
        foreign) say "$file is no journal: it differs from one at byte ${BASH_REMATCH[3]}. It was left as it was; take another folder, or the file from a copy." ;;
        twice) say "$file and $(file_of "$1" "${BASH_REMATCH[3]}") are journals of one object. Neither was touched. docs/RUNNING.md ('Two journals of one object') tells how to mend that." ;;
        *) say "$file has frames of two objects, which the printed line names. It was left as it was; take it from a copy." ;;
    esac
}
