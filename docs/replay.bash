# Completion of `replay` for bash: . docs/replay.bash
_replay() {
    local word=${COMP_WORDS[COMP_CWORD]}
    case $COMP_CWORD-${COMP_WORDS[1]} in
        1-*) COMPREPLY=($(compgen -W 'run gen check mrt' -- "$word")) ;;
        *-run | *-gen) COMPREPLY=($(compgen -W '--quiet' -- "$word")) ;;
        *-mrt) COMPREPLY=($(compgen -W '--as4' -- "$word")) ;;
        *) COMPREPLY=() ;;
    esac
}
complete -F _replay replay
