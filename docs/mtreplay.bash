# Completion of mtreplay's words for bash: source docs/mtreplay.bash
_mtreplay() {
    local words=${COMP_WORDS[*]:1:COMP_CWORD-1}
    case $words in
        "") mapfile -t COMPREPLY < <(compgen -W 'replay make trial verify image show bulk ids' -- "$2") ;;
        replay | verify | image) mapfile -t COMPREPLY < <(compgen -W '--rows' -- "$2") ;;
        *) COMPREPLY=() ;;
    esac
}
complete -F _mtreplay mtreplay ./mtreplay
