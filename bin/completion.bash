# Completion for bash of the words of `lottery` (also as bin/lottery) and of bin/page. It is sourced, at best from
# ~/.bashrc: `. bin/completion.bash`. It offers the commands, then the names of files where a command asks one, and
# nothing where it asks a number or a name of a party.

# What each command asks, in order.
declare -A _lottery_words=(
    [pick]='file ticket' [draw]='file seed' [solve]='file file' [sets]='file file' [table]='file file'
    [decompose]='file file' [sides]='file file' [decompose-free]='file file' [audit]='file file file' [audit-matrix]='file file file' [report]='file'
    [envy]='file file file' [solve-guarded]='file file' [audit-guarded]='file file file'
    [generate]='seed agents objects' [pact-commit]='name contribution' [pact-draw]='file file'
)

# _lottery_files PREFIX: offers the names of files and folders.
_lottery_files() {
    compopt -o filenames 2>/dev/null
    mapfile -t COMPREPLY < <(compgen -f -- "$1")
}

_lottery() {
    local current=${COMP_WORDS[COMP_CWORD]}
    local -a asked
    COMPREPLY=()
    if [ "$COMP_CWORD" -eq 1 ]; then
        mapfile -t COMPREPLY < <(compgen -W "${!_lottery_words[*]}" -- "$current")
        return
    fi
    read -ra asked <<<"${_lottery_words[${COMP_WORDS[1]:-none}]:-}"
    [ "${asked[COMP_CWORD - 2]:-}" != file ] || _lottery_files "$current"
}

_lottery_page() {
    local current=${COMP_WORDS[COMP_CWORD]} before=${COMP_WORDS[COMP_CWORD - 1]}
    local options='--prefs --matrix --quotas --table --seed --title --out --assignments --help'
    COMPREPLY=()
    case $before in
        --seed | --title) return ;;
    esac
    if [[ $current == -* ]]; then
        mapfile -t COMPREPLY < <(compgen -W "$options" -- "$current")
    else
        _lottery_files "$current"
    fi
}

complete -F _lottery lottery
complete -F _lottery_page page
