# Completion of hx for bash: to be read with `source`, or copied to ~/.local/share/bash-completion/completions/hx.

_hx() {
    local word=${COMP_WORDS[COMP_CWORD]} options='' given place
    COMPREPLY=()
    if [ "$COMP_CWORD" = 1 ]; then
        COMPREPLY=($(compgen -W 'solve check play htp demo template survey' -- "$word"))
        return
    fi
    # The word after one of these is its number.
    case ${COMP_WORDS[COMP_CWORD - 1]} in
    --workers | --budget | --proofs | =) return ;;
    esac
    case ${COMP_WORDS[1]} in
    solve) options=' --plain-tree --workers --budget --proofs ' ;;
    htp) options=' --workers --budget --proofs ' ;;
    demo) [ "$COMP_CWORD" = 2 ] || options=' --workers --budget --proofs ' ;;
    survey) [ "$COMP_CWORD" -le 3 ] || options=' --workers --budget --proofs ' ;;
    esac
    # Each option is given once.
    for ((place = 2; place < ${#COMP_WORDS[@]}; place++)); do
        given=${COMP_WORDS[place]%%=*}
        [ "$place" = "$COMP_CWORD" ] || options=${options/ $given / }
    done
    COMPREPLY=($(compgen -W "$options" -- "$word"))
}

complete -o default -F _hx hx
