# Completion of the words of pcfs-prove for bash: source it, or put it where bash-completion finds it, under the name pcfs-prove.
_pcfs_prove() {
    local word=${COMP_WORDS[COMP_CWORD]} before=${COMP_WORDS[COMP_CWORD - 1]}
    case $before in
    --facts) COMPREPLY=($(compgen -f -- "$word")) ;;
    --at | --until | --steps) ;;
    *)
        case $COMP_CWORD:$word in
        *:-*) COMPREPLY=($(compgen -W '--any --at --facts --help --known --steps --until --version' -- "$word")) ;;
        1:*) COMPREPLY=($(compgen -f -- "$word")) ;;
        4:*) COMPREPLY=($(compgen -W 'execute govern identity read write' -- "$word")) ;;
        esac
        ;;
    esac
}
complete -F _pcfs_prove pcfs-prove
