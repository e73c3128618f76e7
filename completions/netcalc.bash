# Completion of netcalc's words for bash: source this file, or link it into ~/.local/share/bash-completion/completions/netcalc.

_netcalc() {
    local current=${COMP_WORDS[COMP_CWORD]} place=$COMP_CWORD at
    COMPREPLY=()
    if [[ ${COMP_WORDS[1]} == report && ${COMP_WORDS[COMP_CWORD-1]} != report && $current == -* ]]; then
        mapfile -t COMPREPLY < <(compgen -W "--deadlines --html --csv" -- "$current")
        return
    fi
    if [[ ${COMP_WORDS[1]} == what-if && $place -gt 2 && $current == -* ]]; then
        mapfile -t COMPREPLY < <(compgen -W "--deadlines --write --csv --greatest-load" -- "$current")
        return
    fi
    if [[ ${COMP_WORDS[1]} == explain && $place -gt 1 ]]; then
        COMP_WORDS=("${COMP_WORDS[0]}" "${COMP_WORDS[@]:2}")
        COMP_CWORD=$((COMP_CWORD - 1))
        _netcalc
        return
    fi
    if [[ $current == -* && ${COMP_WORDS[1]} == @(analyse|edit) && " ${COMP_WORDS[*]} " != *" --json "* ]]; then
        COMPREPLY=(--json)
        return
    fi
    # A file's place does not count the flag.
    for ((at = 2; at < COMP_CWORD; at++)); do
        [[ ${COMP_WORDS[at]} == --json ]] && ((place--))
    done
    case $place:${COMP_WORDS[1]} in
        1:*) mapfile -t COMPREPLY < <(compgen -W "analyse edit simulate exercise check measure curve import lint report explain round sweep plot what-if --help --version" -- "$current") ;;
        2:analyse|2:edit|2:simulate|2:check|2:measure|2:lint|2:report|2:round|2:what-if)
            compopt -o filenames 2>/dev/null
            mapfile -t COMPREPLY < <(compgen -f -X '!*.toml' -- "$current"; compgen -d -- "$current")
            ;;
        2:plot)
            mapfile -t COMPREPLY < <(compgen -W "bounds curves run" -- "$current")
            ;;
        *:import|*:sweep|*:plot|*:report|*:what-if|2:curve|3:edit|3:simulate|3:check|3:measure)
            compopt -o filenames 2>/dev/null
            mapfile -t COMPREPLY < <(compgen -f -- "$current")
            ;;
    esac
}

complete -F _netcalc netcalc ./netcalc
