# Completion of the commands of pcfs for bash: source it, or put it where bash-completion finds it, under the name pcfs.
_pcfs() {
    local word=${COMP_WORDS[COMP_CWORD]}
    case $COMP_CWORD in
    1) COMPREPLY=($(compgen -W 'audit check checkpoint export follow init load modes rootsign script serve serve9' -- "$word")) ;;
    2)
        case ${COMP_WORDS[1]} in
        script) COMPREPLY=($(compgen -W '--stored' -- "$word")) ;;
        audit) COMPREPLY=($(compgen -W '--pieces' -- "$word")) ;;
        esac
        ;;
    esac
}
complete -F _pcfs pcfs
