# shellcheck shell=bash
# Why a script is refused: line and column, the line of text with a caret, and what to write instead where that is sure.

meaning() {
    case "$1" in
        TooLong) echo 'a script has at most 262,144 bytes' ;;
        BadChar) echo 'no token begins or goes on with this character' ;;
        OpenText) echo 'this text or comment has no end' ;;
        LongNumber) echo 'this number is past 9007199254740991' ;;
        Unexpected) echo 'no script goes on like this here' ;;
        TooNested) echo 'more than 64 phrases stand inside each other' ;;
        Doubled) echo 'this name is there already' ;;
        Reserved) echo 'this name is the language'\''s own' ;;
        Unbound) echo 'no variable of this name is declared before' ;;
        ConstAssigned) echo 'this name is a const, and neither it nor its parts are written' ;;
        BadTarget) echo 'this is no place that can be written' ;;
        Form) echo 'this is none of the forms that the language has' ;;
        NoMember) echo 'the class has no method of this name' ;;
        AwaitInSync) echo 'await stands in an async method, and in a constructor only in its block' ;;
        NotAwaited) echo 'this is to be awaited' ;;
        AwaitOfSync) echo 'this is nothing to be awaited' ;;
        InTransaction) echo 'the body of a transaction has only the transaction'\''s own calls' ;;
        InBlock) echo 'a block stands in another block' ;;
        LoopExit) echo 'no loop is around this' ;;
        StartTwice) echo 'start and startAfter exclude each other' ;;
        *) echo 'the script is refused here' ;;
    esac
}

# the script's name with line and column, the line of text with a caret, and a hint
tell_refusal() {
    local script=$1 told place kind line column text before
    told=$("$program" check -- "$script" </dev/null 2>/dev/null)
    if ! [[ $told =~ ^\[\"script-refused\",([0-9]+),\"([A-Za-z]+)\"\]$ ]]; then
        say "$script is refused; the printed line has the place of its first fault, in bytes from 0, and its kind"
        return
    fi
    place=${BASH_REMATCH[1]} kind=${BASH_REMATCH[2]}
    line=$(($(head -c "$place" "$script" | tr -cd '\n' | wc -c) + 1))
    before=$(head -c "$place" "$script" | tail -n +"$line" | tr -d '\n'; echo .)
    before=${before%.}
    column=$((${#before} + 1))
    text=$(tail -n +"$line" "$script" | head -n 1 | tr -d '\r')
    say "$script, line $line, column $column: $(meaning "$kind") ($kind)"
    if [ ${#text} -le 200 ]; then
        printf '%s\n%s^\n' "$text" "$(printf '%s' "$before" | sed 's/[^\t]/ /g')" >&2
    fi
    tell_hint "$script" "$place" "$kind"
}

tell_hint() {
    local hint
    hint=$(LC_ALL=C awk -v place="$2" -v kind="$3" -f "$top/tools/durable/hint.awk" <"$1" 2>/dev/null)
    if [ -n "$hint" ]; then
        say "$hint"
        say "docs/FROM-CLOUDFLARE.md has such forms beside what stands for them here; docs/SCRIPT.md has the language"
    else
        say "docs/SCRIPT.md has the language, docs/FROM-CLOUDFLARE.md what to write here for what other JavaScript has"
    fi
}
