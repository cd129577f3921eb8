# Completion of ctxbound's command words for bash.
_ctxbound() {
    local word=${COMP_WORDS[COMP_CWORD]} before=${COMP_WORDS[COMP_CWORD - 1]}
    local commands='explore unbounded replay explain check suite verify prefixes join help'
    local command=${COMP_WORDS[1]} words= files=0 at
    if ((COMP_CWORD == 1)); then
        mapfile -t COMPREPLY < <(compgen -W "$commands --help --version" -- "$word")
        return
    fi
    case $command in
    explore) words='--bound --workers --limit --quick --symmetry --trace --progress --under --help' ;;
    unbounded) words='--workers --limit --quick --symmetry --trace --progress --under --help' ;;
    replay) words='--help' ;;
    explain) words='--bound --workers --limit --quick --progress --unbounded --steps --all --width --html --json --help' ;;
    check) words='--strict --short --json --deep --remarks --limit --help' ;;
    suite) words='--bound --workers --limit --progress --json --help' ;;
    verify) words='--workers --limit --progress --help' ;;
    prefixes) words='--at-least --unbounded --help' ;;
    join) words='--bound --unbounded --help' ;;
    help)
        mapfile -t COMPREPLY < <(compgen -W "$commands" -- "$word")
        return
        ;;
    esac
    # how many words that are no options come before
    for ((at = 2; at < COMP_CWORD; at++)); do
        case ${COMP_WORDS[at - 1]} in
        --bound | --workers | --limit | --steps | --width | --at-least | --under) continue ;;
        esac
        [[ ${COMP_WORDS[at]} == -?* ]] || ((files += 1))
    done
    case $before in
    --bound | --workers | --limit | --steps | --width | --at-least | --under) COMPREPLY=() ;;
    *)
        if [[ $word == -* ]]; then
            mapfile -t COMPREPLY < <(compgen -W "$words" -- "$word")
        elif ((files > 0)) && [[ $command == join ]]; then
            mapfile -t COMPREPLY < <(compgen -d -S / -- "$word"; compgen -f -- "$word")
        elif ((files > 0)) && [[ $command != suite && $command != check ]]; then
            # a schedule, or nothing
            COMPREPLY=()
        else
            mapfile -t COMPREPLY < <(compgen -d -S / -- "$word"; compgen -f -X '!*.guest' -- "$word")
        fi
        ;;
    esac
}
complete -o nospace -F _ctxbound ctxbound
