# shellcheck shell=bash
# The words of a run, read as the program reads them.

slots_at_most=256

help_page() { cat "$top/tools/durable/help.txt"; }

# Of the words: what is to be done (aim), the command with its words, and what is wrong with them (fault).
read_words() {
    aim=run command=${1:-} script='' folder='' slots=16 most_bytes=1073741824 fault=''
    local places='' options='' given=' '
    read_aim "$@"
    case "$command" in
        serve) places='script folder' options='slots workers journal-bytes' ;;
        check) places=script ;;
        dump) places=folder options=slots ;;
        gen) places='seed count folder' ;;
        '') fault='no command is given'; return ;;
        --build) if [ "$aim" = run ]; then fault='--build stands alone'; fi; return ;;
        -*) fault="$command stands before the command: serve, check, dump or gen comes first"; return ;;
        *) fault="there is no command $command"; return ;;
    esac
    shift
    read_rest "$@"
    if [ -z "$fault" ] && [ -n "$places" ]; then fault="$command wants a ${places// / and a } yet"; fi
}

# whether the words ask something of this script
read_aim() {
    local word
    case "${1:-}" in
        --build) if [ $# = 1 ]; then aim=build; fi ;;
        help) aim=help ;;
        version | --version | -V) aim=version ;;
    esac
    for word in "$@"; do
        case "$word" in
            --) return ;;
            -h | --help) aim=help ;;
        esac
    done
}

# the words behind the command: options anywhere, up to `--`, and the others in their order
read_rest() {
    local word
    while [ $# -gt 0 ] && [ -z "$fault" ]; do
        word=$1
        shift
        case "$word" in
            --) for word in "$@"; do read_place "$word"; done; return ;;
            --*=*) read_option "${word%%=*}" "${word#*=}" ;;
            -?*)
                if [ $# -gt 0 ] && [[ $1 != -?* ]]; then read_option "$word" "$1" && shift
                else read_option "$word" '' && fault="$word wants a number behind it"; fi ;;
            *) read_place "$word" ;;
        esac
    done
}

read_place() {
    local path=$1
    if [[ $path == -* ]]; then path=./$path; fi
    case "${places%% *}" in
        seed) read_made SEED "$1" 18446744073709551615 ;;
        count) read_made COUNT "$1" 1000000 ;;
        script) script=$path ;;
        folder) folder=$path ;;
        *) if [ -z "$fault" ]; then fault="'$1' is one word too many for $command"; fi ;;
    esac
    if [[ $places == *' '* ]]; then places=${places#* }; else places=''; fi
}

# whether the command has such an option, to which the value belongs
read_option() {
    local name=${1#--}
    if [[ $1 != --* || " $options " != *" $name "* ]]; then
        fault="$command has no option $1"
        if [ -n "$options" ]; then fault+=": it has --${options// /, --}"; fi
        return 1
    fi
    if [[ $given == *" $name "* ]]; then fault="$1 is given twice"; fi
    given+="$name "
    case "$name" in
        slots) read_number "$1" "$2" 1 "$slots_at_most"; slots=$2 ;;
        workers) read_number "$1" "$2" 1 16 ;;
        journal-bytes) read_number "$1" "$2" 4096 1099511627776; most_bytes=$2 ;;
    esac
}

read_number() {
    if ! [[ $2 =~ ^(0|[1-9][0-9]{0,12})$ ]] || [ "$2" -lt "$3" ] || [ "$2" -gt "$4" ]; then
        fault="$1 takes a whole number from $3 to $4, in digits alone, and not '$2'"
    fi
}

# a number of `gen`, which may be longer than a number of bash
read_made() {
    if ! [[ $2 =~ ^(0|[1-9][0-9]{0,19})$ ]] || [[ ${#2} -gt ${#3} ]] || { [[ ${#2} -eq ${#3} ]] && [[ $2 > $3 ]]; }; then
        fault="$1 is a whole number from 0 to $3, in digits alone, and not '$2'"
    fi
}

# what the words are to be
tell_words() {
    say "${fault:-these words are no command}"
    case "$command" in
        serve) say "usage: ./durable serve SCRIPT FOLDER [--slots N] [--workers N] [--journal-bytes N]" ;;
        check) say "usage: ./durable check SCRIPT" ;;
        dump) say "usage: ./durable dump FOLDER [--slots N]" ;;
        gen) say "usage: ./durable gen SEED COUNT FOLDER" ;;
        *) say "usage: ./durable serve SCRIPT FOLDER, check SCRIPT, dump FOLDER, or gen SEED COUNT FOLDER; ./durable --help tells more" ;;
    esac
}
