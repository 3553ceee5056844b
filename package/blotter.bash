# Completion of blotter's words for bash.
_blotter() {
    local word=${COMP_WORDS[COMP_CWORD]} before=${COMP_WORDS[COMP_CWORD - 1]} words
    case $before in
        --capture | --journal | --operators) mapfile -t COMPREPLY < <(compgen -f -- "$word"); return ;;
        --day) mapfile -t COMPREPLY < <(compgen -W "$(date +%Y%m%d)" -- "$word"); return ;;
        --own | --port | --name | --lanes | --sessions | --rounds) COMPREPLY=(); return ;;
    esac
    case ${COMP_CWORD}:${COMP_WORDS[1]} in
        1:*) words='replay desk audit serve ask help -h --help -V --version' ;;
        *:replay) words='--own --day -h --help' ;;
        *:desk) words='--own --capture --journal -h --help' ;;
        *:audit) words='--own --journal -h --help' ;;
        *:serve) words='--own --day --port --lanes --journal --operators --sessions --rounds -h --help' ;;
        *:ask)
            words='--name -h --help'
            [[ $word == [!-]* ]] && { mapfile -t COMPREPLY < <(compgen -f -- "$word"); return; }
            ;;
        *:help) words='replay desk audit serve ask' ;;
        *) words='' ;;
    esac
    mapfile -t COMPREPLY < <(compgen -W "$words" -- "$word")
}
complete -F _blotter blotter
