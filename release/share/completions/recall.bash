# Completions of recall for bash.
_recall() {
    local now=${COMP_WORDS[COMP_CWORD]} before=${COMP_WORDS[COMP_CWORD-1]} command=${COMP_WORDS[1]:-}
    COMPREPLY=()
    if [ "$COMP_CWORD" = 1 ]; then
        COMPREPLY=($(compgen -W 'run drive feeds draw journal status trim why load diff --help --version' -- "$now"))
        return
    fi
    case "$command $before" in
    'run --log') COMPREPLY=($(compgen -f -- "$now")) && return ;;
    'run --journal') COMPREPLY=($(compgen -f -- "$now")) && return ;;
    'run --from') return ;;
    'run --cores') return ;;
    'run --snapshot') return ;;
    'run --report') return ;;
    'drive --journal') COMPREPLY=($(compgen -f -- "$now")) && return ;;
    'drive --from') return ;;
    'drive --cores') return ;;
    'drive --snapshot') return ;;
    'drive --report') return ;;
    'draw --tenant') return ;;
    'draw --to') COMPREPLY=($(compgen -f -- "$now")) && return ;;
    'draw --from') return ;;
    'draw --last') return ;;
    'status --journal') COMPREPLY=($(compgen -f -- "$now")) && return ;;
    'why --tenant') return ;;
    'why --unit') return ;;
    'why --journal') COMPREPLY=($(compgen -f -- "$now")) && return ;;
    'load --tenant') return ;;
    'load --unit') return ;;
    'load --number') return ;;
    'diff --journal') COMPREPLY=($(compgen -f -- "$now")) && return ;;
    'diff --with') COMPREPLY=($(compgen -f -- "$now")) && return ;;
    esac
    case "$command" in
    run) COMPREPLY=($(compgen -W '--log --journal --from --cores --snapshot --adopt --accept-upgrade --explain --strict --report --programs --audit -q --quiet -v --verbose -h --help' -- "$now")) ;;
    drive) COMPREPLY=($(compgen -W '--journal --from --cores --snapshot --adopt --accept-upgrade --explain --strict --report --programs --audit -q --quiet -v --verbose -h --help' -- "$now")) ;;
    feeds) COMPREPLY=($(compgen -W '--programs --audit -q --quiet -v --verbose -h --help' -- "$now") $(compgen -f -- "$now")) ;;
    draw) COMPREPLY=($(compgen -W '--tenant --to --html --from --last --programs -h --help' -- "$now")) ;;
    journal) COMPREPLY=($(compgen -W '--json -h --help' -- "$now") $(compgen -f -- "$now")) ;;
    status) COMPREPLY=($(compgen -W '--journal --drive --json --programs -h --help' -- "$now")) ;;
    trim) COMPREPLY=($(compgen -W '--drive --programs -h --help' -- "$now") $(compgen -f -- "$now")) ;;
    why) COMPREPLY=($(compgen -W '--tenant --unit --journal --drive --json --programs -h --help' -- "$now")) ;;
    load) COMPREPLY=($(compgen -W '--tenant --unit --number -h --help' -- "$now") $(compgen -f -- "$now")) ;;
    diff) COMPREPLY=($(compgen -W '--journal --with --drive --programs -h --help' -- "$now")) ;;
    esac
}
complete -o filenames -F _recall recall
