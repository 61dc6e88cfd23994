# Completions of eraser-record for bash. tests/shell_tests.py keeps them equal to what --help says.

_eraser_record() {
    local word=${COMP_WORDS[COMP_CWORD]} place=1 option=
    # Up to the program: options, some with a value in the next word. Bash cuts --format=json into three words.
    while ((place < COMP_CWORD)); do
        case ${COMP_WORDS[place]} in
        --) place=$((place + 1)) && break ;;
        --output | -o | --report | --workers | --suppress | --analysis | --format | --exit-status | --runs | --trace | --limit | --root)
            option=${COMP_WORDS[place]}
            [ "${COMP_WORDS[place + 1]}" != = ] || place=$((place + 1))
            place=$((place + 2))
            ;;
        -*) place=$((place + 1)) ;;
        *) break ;;
        esac
    done
    COMPREPLY=()
    if ((place < COMP_CWORD)); then
        # Behind the program come its arguments.
        _eraser_record_files
        return
    elif ((place == COMP_CWORD)); then
        case $word in
        -*) _eraser_record_words "--output --replay --report --workers --suppress --analysis --explain --by-site --format --strict --until-fault --exit-status --online --stop-at-race --shake --runs --order --trace --stacks --flow --thin --limit --root --paths --quiet --help --version -o -q -h -V" ;;
        *) _eraser_record_programs ;;
        esac
        return
    fi
    [ "$word" != = ] || word=
    case $option in
    --output | -o | --report | --suppress) _eraser_record_files ;;
    --root) _eraser_record_folders ;;
    --analysis) _eraser_record_words "lockset happens-before both" ;;
    --format) _eraser_record_words "text json sarif html" ;;
    --exit-status) _eraser_record_words "program report" ;;
    --trace) _eraser_record_words "3 4" ;;
    esac
}

# Those of the words that begin as the word at the cursor.
_eraser_record_words() {
    mapfile -t COMPREPLY < <(compgen -W "$1" -- "$word")
}

_eraser_record_files() {
    compopt -o filenames 2>/dev/null
    mapfile -t COMPREPLY < <(compgen -f -- "$word")
}

_eraser_record_folders() {
    compopt -o filenames 2>/dev/null
    mapfile -t COMPREPLY < <(compgen -d -- "$word")
}

# Commands and folders. A word with a slash is a command's path.
_eraser_record_programs() {
    compopt -o filenames 2>/dev/null
    mapfile -t COMPREPLY < <({ compgen -d -- "$word"; compgen -c -- "$word"; } | sort -u)
}

complete -F _eraser_record eraser-record
