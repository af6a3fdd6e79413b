# Completion of the words of pcfs-history for bash: source it, or put it where bash-completion finds it, under the name pcfs-history.
_pcfs_history() {
    local word=${COMP_WORDS[COMP_CWORD]} before=${COMP_WORDS[COMP_CWORD - 1]}
    local earlier=
    [ "$COMP_CWORD" -lt 2 ] || earlier=${COMP_WORDS[COMP_CWORD - 2]}
    case $earlier:$before:$word in
    --who-may:*) COMPREPLY=($(compgen -W 'execute govern identity read write' -- "$word")) ;;
    *:--secrets:*) COMPREPLY=($(compgen -f -- "$word")) ;;
    *:--at:* | *:--file:* | *:--from:* | *:--rests-on:* | *:--to:* | *:--who:* | *:--who-may:*) ;;
    *:-*) COMPREPLY=($(compgen -W '--at --file --from --help --json --rests-on --secrets --to --version --who --who-may' -- "$word")) ;;
    *) COMPREPLY=($(compgen -f -- "$word")) ;;
    esac
}
complete -F _pcfs_history pcfs-history
