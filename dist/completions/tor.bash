# Completion of the words of tor (BitTorrent metainfo files), for bash. docs/options makes what is between its marks.

# The options of a command, or of tor itself where there is none.
_tor_options() {
    case $1 in
        # docs/options: options
        '') echo '-h --help -V --version' ;;
        make) echo '--name --piece-length --kind --announce --private --tail --attrs --files-from --how --workers --span --check-after --out --plan --part --explain -h --help' ;;
        plan) echo '--name --piece-length --kind --announce --private --tail --attrs --files-from --span --out --explain -h --help' ;;
        join) echo '--out --explain -h --help' ;;
        scan) echo '--files-from --null --json --explain -h --help' ;;
        check) echo '--null --json --roots --explain -h --help' ;;
        magnet) echo '--name --trackers --explain -h --help' ;;
        edit) echo '--announce --no-announce --out --explain -h --help' ;;
        prove) echo '--explain -h --help' ;;
        verify) echo '--explain -h --help' ;;
        recheck) echo '--files --bad --null --json --workers --keep-going --no-links --brief --part --extra --explain -h --help' ;;
        # docs/options: end
        *) echo '-h --help' ;;
    esac
}

# What an option of a command has for a value: words, `files`, or `any`. Nothing where it has none.
_tor_value() {
    case $2$1 in
        # docs/options: values
        make--name | make--announce | make--span | make--part) echo 'any' ;;
        make--piece-length | make--workers) echo 'auto' ;;
        make--kind) echo 'v1 v2 hybrid' ;;
        make--attrs | make--files-from | make--out | make--plan) echo 'files' ;;
        make--how) echo 'one halves board streams' ;;
        plan--name | plan--announce | plan--span) echo 'any' ;;
        plan--piece-length) echo 'auto' ;;
        plan--kind) echo 'v1 v2 hybrid' ;;
        plan--attrs | plan--files-from | plan--out) echo 'files' ;;
        join--out) echo 'files' ;;
        scan--files-from) echo 'files' ;;
        edit--announce) echo 'any' ;;
        edit--out) echo 'files' ;;
        recheck--workers) echo 'auto' ;;
        recheck--part) echo 'any' ;;
        # docs/options: end
    esac
}

# Whether a file goes to this place, from 1, behind a command.
_tor_takes_file() {
    case $1-$2 in
        # docs/options: places
        make-1 | plan-1 | join-1 | join-* | scan-1 | check-1 | magnet-1 | edit-1 | prove-1 | verify-4 | verify-5 | recheck-1 | recheck-2) return 0 ;;
        # docs/options: end
        *) return 1 ;;
    esac
}

_tor_files() {
    compopt -o filenames 2>/dev/null
    mapfile -t COMPREPLY < <(compgen -f -- "$1")
}

_tor_words() {
    mapfile -t COMPREPLY < <(compgen -W "$1" -- "$2")
}

_tor() {
    # docs/options: commands
    local commands='make plan join scan check magnet edit prove verify recheck help'
    # docs/options: end
    local word=${COMP_WORDS[COMP_CWORD]} option='' command='' count=0 i
    # bash takes the = of --kind=v2 for a word of its own.
    for ((i = 1; i < COMP_CWORD; i++)); do
        local before=${COMP_WORDS[i]}
        if [[ $before == '=' && -n $option ]]; then
            continue
        elif [[ -n $option ]]; then
            option=''
        elif [[ -n $command && -n $(_tor_value "$before" "$command") ]]; then
            option=$before
        elif [[ $before == -* ]]; then
            continue
        elif [[ -z $command ]]; then
            command=$before
        else
            count=$((count + 1))
        fi
    done
    if [[ $word == '=' && -n $option ]]; then
        word=''
    fi
    COMPREPLY=()
    if [[ -n $option ]]; then
        case $(_tor_value "$option" "$command") in
            files) _tor_files "$word" ;;
            any) ;;
            *) _tor_words "$(_tor_value "$option" "$command")" "$word" ;;
        esac
    elif [[ $word == -* ]]; then
        _tor_words "$(_tor_options "$command")" "$word"
    elif [[ -z $command || $command == help ]]; then
        ((count > 0)) || _tor_words "$commands" "$word"
    elif _tor_takes_file "$command" $((count + 1)); then
        _tor_files "$word"
    fi
}

complete -F _tor tor
