# Completion of aigmc's words for Bash.

_aigmc() {
    local word=${COMP_WORDS[COMP_CWORD]} before=${COMP_WORDS[COMP_CWORD - 1]} options
    COMPREPLY=()
    if [ "$COMP_CWORD" -eq 1 ]; then
        mapfile -t COMPREPLY < <(compgen -W 'check all equal cover certify recertify to-witness adopt-witness convert to-safety extract witness sim trace explain --help -h --version -V' -- "$word")
        return
    fi
    case $before in
    --engine)
        mapfile -t COMPREPLY < <(compgen -W 'all bmc ic3 corr kind rounds random' -- "$word")
        return
        ;;
    -p | --depth | --rounds | --budget | --seed | --timeout) return ;;
    --out)
        mapfile -t COMPREPLY < <(compgen -d -- "$word")
        return
        ;;
    esac
    case ${COMP_WORDS[1]} in
    check) options='-p --cert --witness --out --engine --depth --budget --seed --timeout --quiet --json --verbose -v --help -h' ;;
    cover) options='--depth --budget --timeout --verbose -v --help -h' ;;
    certify) options='-p --invariant --extension --cert --budget --strengthen --timeout --verbose -v --help -h' ;;
    adopt-witness) options='-p --budget --verbose -v --help -h' ;;
    recertify) options='--budget --verbose -v --help -h' ;;
    to-safety) options='-p --rounds --verbose -v --help -h' ;;
    extract) options='-p --verbose -v --help -h' ;;
    witness) options='-p --clear --verbose -v --help -h' ;;
    all) options='--out --engine --depth --budget --seed --timeout --quiet --json --verbose -v --help -h' ;;
    equal) options='--out --map --engine --depth --budget --seed --timeout --quiet --json --verbose -v --help -h' ;;
    convert) options='--ascii --binary --verbose -v --help -h' ;;
    trace) options='--all --vcd --verbose -v --help -h' ;;
    *) options='--verbose -v --help -h' ;;
    esac
    case $word in
    -*) mapfile -t COMPREPLY < <(compgen -W "$options" -- "$word") ;;
    *) mapfile -t COMPREPLY < <(compgen -f -- "$word") ;;
    esac
}

complete -o filenames -F _aigmc aigmc
