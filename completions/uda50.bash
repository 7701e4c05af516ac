# Completions of uda50 for bash. tools/completions.py writes them from what `uda50 VERB --help` prints.

_uda50() {
    local word=${COMP_WORDS[COMP_CWORD]} options=
    COMPREPLY=()
    case ${COMP_WORDS[COMP_CWORD - 1]} in
        --drive)
            COMPREPLY=($(compgen -W 'RX50 RX33 RD51 RD31 RD52 RD53 RA80 RD54 RA60 RA70 RA81 RA82 RRD40 RA71 RA72 RA90 RA92' -- "${word^^}"))
            return ;;
        --blocks | --map | --device) return ;;
    esac
    if [ "$COMP_CWORD" = 1 ]; then
        options='run copy info dump create decode trace help -h --help -V --version'
    else
        case ${COMP_WORDS[1]} in
            run) options='--names -q --quiet --check -h --help' ;;
            copy) options='--blocks --verify --continue --map --resume --no-sparse --without-record --force --device -h --help' ;;
            info) options='--json -h --help' ;;
            dump) options='-v --all -o --octal -r --raw --force -h --help' ;;
            create) options='--drive --blocks --force -h --help' ;;
            decode) options='-h --help' ;;
            trace) options='-h --help' ;;
            help) options='run copy info dump create decode trace script' ;;
        esac
    fi
    # (without a match, the names of files are completed)
    if [ "$COMP_CWORD" = 1 ] || [ "${COMP_WORDS[1]}" = help ] || [[ $word == -* ]]; then
        COMPREPLY=($(compgen -W "$options" -- "$word"))
    fi
}

complete -o default -F _uda50 uda50
