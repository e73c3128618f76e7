# Completion of netbound's words for bash: source this file, or link it into ~/.local/share/bash-completion/completions/netbound.

_netbound() {
    local current=${COMP_WORDS[COMP_CWORD]} before=${COMP_WORDS[COMP_CWORD-1]}
    COMPREPLY=()
    if [[ $before == --overhead ]]; then
        return
    fi
    if [[ $current == -* ]]; then
        local flags="--overhead --json"
        [[ $COMP_CWORD -eq 1 ]] && flags="$flags --help --version --program --build"
        mapfile -t COMPREPLY < <(compgen -W "$flags" -- "$current")
        return
    fi
    compopt -o filenames 2>/dev/null
    mapfile -t COMPREPLY < <(compgen -f -X '!*.csv' -- "$current"; compgen -d -- "$current")
}

complete -F _netbound netbound ./netbound
