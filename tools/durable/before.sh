# shellcheck shell=bash
# What is seen before a run, in the words and in the folder.

# Before the program is built, which takes an hour: ends where the words are none, or name what isn't there.
see_words() {
    if [ -n "$fault" ]; then tell_words; exit 1; fi
    if tell_paths "$script" "$folder"; then exit 3; fi
    if [ "$command" = dump ]; then see_journals "$folder"; fi
}

# the most bytes of a journal without an object: its header has 16, and the marker that one of version 1 gets has 45 (docs/FORMATS.md)
bare_bytes=61

# the journals that stand in a folder, in order; where a number is given, those of more bytes than that
journals_of() {
    find "$1" -maxdepth 1 -name 'slot-[0-9][0-9][0-9].journal' ${2:+-size "+$2c"} 2>/dev/null | sort
}

number_of() {
    local digits=${1: -11:3}
    echo $((10#$digits))
}

# A dump of a folder without a journal would make its journals there. So it isn't begun.
see_journals() {
    [ -d "$1" ] || return 0
    [ -z "$(journals_of "$1")" ] || return 0
    say "$1 has no journal (slot-000.journal and on), so there is nothing to print, and nothing was made there"
    exit 3
}

# Warns where objects stand in journals behind the last slot.
warn_of_slots() {
    local file last
    file=$(journals_of "$1" "$bare_bytes" | tail -n 1)
    [ -n "$file" ] && [ "$(number_of "$file")" -ge "$2" ] || return 0
    if [ "$command" = gen ]; then
        say "WARNING: $file has an object, and gen serves and adds up the first $2 slots alone. Give gen another folder."
        return
    fi
    last=$(journals_of "$1" | tail -n 1)
    say "WARNING: $file has an object, and --slots $2 ends before it. Give --slots $(($(number_of "$last") + 1)), as the folder has journals to there."
    if [ "$command" = serve ]; then
        say "WARNING: with --slots $2 that object is taken for a new one, and a call of it begins a second journal of it, which no later run opens beside the first. docs/RUNNING.md tells how to mend that."
    fi
}
