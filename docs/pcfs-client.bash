# Completion of the words of pcfs-client for bash: source it, or put it where bash-completion finds it, under the name pcfs-client.
_pcfs_client() {
    local word=${COMP_WORDS[COMP_CWORD]} before=${COMP_WORDS[COMP_CWORD - 1]} command='' at options='--help --home --key --server --timeout'
    for ((at = 1; at < COMP_CWORD; at++)); do
        case ${COMP_WORDS[at]} in
        --home | --key | --server | --timeout) at=$((at + 1)) ;;
        -*) ;;
        *)
            command=${COMP_WORDS[at]}
            break
            ;;
        esac
    done
    case $before in
    --home) COMPREPLY=($(compgen -d -- "$word")) && return ;;
    --file | --key | --secrets | --signer | --statements) COMPREPLY=($(compgen -f -- "$word")) && return ;;
    --at | --attr | --drop | --line | --server | --timeout | --until) return ;;
    esac
    case $command in
    '') options='--version '$options' attr cat chown get login ls mkdir mv procaps prove put register rm show sign stat statements withdraw' ;;
    attr) options+=' --delete' ;;
    login) options+=' --statements' ;;
    ls) options+=' --all --long' ;;
    procaps) options+=' --clear' ;;
    prove)
        options+=' --at --line --until'
        [ "$before" != prove ] || options+=' execute govern identity read write'
        ;;
    put) options+=' --attr --in-place' ;;
    register) options+=' --file --signer' ;;
    show) options+=' --secrets' ;;
    sign) options+=' login statement withdrawal' ;;
    statements) options+=' --drop' ;;
    withdraw) options+=' --signer' ;;
    esac
    COMPREPLY=($(compgen -W "$options" -- "$word"))
    case $command:$before:$word in
    put:put:* | put:--in-place:* | statements:statements:*) COMPREPLY+=($(compgen -f -- "$word")) ;;
    esac
}
complete -F _pcfs_client pcfs-client
