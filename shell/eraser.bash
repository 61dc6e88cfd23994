# Completions of eraser for bash. tests/shell_tests.py keeps them equal to what --help says.

_eraser() {
    local word=${COMP_WORDS[COMP_CWORD]} before=${COMP_WORDS[COMP_CWORD - 1]} command=
    # The first word that is no option is the command.
    local place
    for ((place = 1; place < COMP_CWORD; place++)); do
        case ${COMP_WORDS[place]} in
        -*) ;;
        *) command=${COMP_WORDS[place]} && break ;;
        esac
    done
    COMPREPLY=()
    case $command:$before in
    replay:--suppress | replay:--write-rules | merge:--trace | merge:--suppress)
        _eraser_files
        return
        ;;
    replay:--source | merge:--source)
        _eraser_folders
        return
        ;;
    replay:--analysis)
        _eraser_words "lockset happens-before both"
        return
        ;;
    replay:--format | merge:--format)
        _eraser_words "text json sarif html"
        return
        ;;
    replay:--workers)
        _eraser_words "1 2 3 4 5 6 7 8 9 10 11 12 13 14 15 16"
        return
        ;;
    replay:--shards)
        _eraser_words "1 2 4 8 16 32 64"
        return
        ;;
    replay:--byte-limit | replay:--max-races | replay:--part | explain:--byte-limit | merge:--byte-limit) return ;;
    esac
    case $command:$word in
    :-*) _eraser_words "--help --version -h -V" ;;
    :*) _eraser_words "replay explain print merge demo help" ;;
    replay:-?*) _eraser_words "--analysis --suppress --write-rules --unused-rules --max-races --explain --by-site --format --source --strict --until-fault --part --progress --hints --workers --shards --byte-limit --help -h" ;;
    replay:*) _eraser_files ;;
    explain:-?*) _eraser_words "--byte-limit --help -h" ;;
    explain:*) _eraser_files ;;
    print:-?*) _eraser_words "--help -h" ;;
    print:*) _eraser_files ;;
    merge:-?*) _eraser_words "--trace --suppress --explain --by-site --format --source --byte-limit --help -h" ;;
    merge:*) _eraser_files ;;
    demo:-*) _eraser_words "--help -h" ;;
    demo:*) _eraser_words "locked-counter racy-counter init-then-read rw-table reuse-pool ignored-stats" ;;
    help:*) _eraser_words "replay explain print merge demo help" ;;
    esac
}

# Those of the words that begin as the word at the cursor.
_eraser_words() {
    mapfile -t COMPREPLY < <(compgen -W "$1" -- "$word")
}

_eraser_files() {
    compopt -o filenames 2>/dev/null
    mapfile -t COMPREPLY < <(compgen -f -- "$word")
}

_eraser_folders() {
    compopt -o filenames 2>/dev/null
    mapfile -t COMPREPLY < <(compgen -d -- "$word")
}

complete -F _eraser eraser
