# Completion of flow's commands, options and files, for bash.

# The commands, and the options of each. These lines are written by tools/manual.py from docs/FORMATS.md.
# begin options
_flow_commands='run profile judge check upgrade generate count'
_flow_options() {
    case $1 in
        run) echo '--limit --workers --times --until --journal' ;;
        profile) echo '--limit --workers --times --until' ;;
        judge) echo '--limit' ;;
        generate) echo '--workers' ;;
        count) echo '--grain --workers' ;;
    esac
}
# end options

_flow() {
    local word=${COMP_WORDS[COMP_CWORD]} before=${COMP_WORDS[COMP_CWORD - 1]} command=${COMP_WORDS[1]}
    COMPREPLY=()
    if ((COMP_CWORD == 1)); then
        mapfile -t COMPREPLY < <(compgen -W "$_flow_commands" -- "$word")
        return
    fi
    case $before in
        --workers) mapfile -t COMPREPLY < <(compgen -W '1 2 4 8 16' -- "$word") && return ;;
        --journal) ;;
        --*) return ;;
    esac
    if [[ $word == -* ]]; then
        mapfile -t COMPREPLY < <(compgen -W "$(_flow_options "$command")" -- "$word")
    elif [[ $command != generate ]]; then
        compopt -o filenames
        mapfile -t COMPREPLY < <(compgen -f -- "$word")
    fi
}
complete -F _flow flow
