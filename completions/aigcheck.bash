# Completion of aigcheck's words for Bash.

_aigcheck() {
    local word=${COMP_WORDS[COMP_CWORD]} before=${COMP_WORDS[COMP_CWORD - 1]} options
    COMPREPLY=()
    if [ "$COMP_CWORD" -eq 1 ]; then
        mapfile -t COMPREPLY < <(compgen -W 'safe run all explain --help -h --version -V' -- "$word")
        return
    fi
    case $before in
    -p | --property) return ;;
    esac
    case ${COMP_WORDS[1]} in
    safe | run) options='-p --property --verbose -v --help -h' ;;
    all) options='--json --verbose -v --help -h' ;;
    *) options='--verbose -v --help -h' ;;
    esac
    case $word in
    -*) mapfile -t COMPREPLY < <(compgen -W "$options" -- "$word") ;;
    *) mapfile -t COMPREPLY < <(compgen -f -- "$word") ;;
    esac
}

complete -o filenames -F _aigcheck aigcheck
