# Completion of jcard's words for bash.
_jcard() {
    local word=${COMP_WORDS[COMP_CWORD]} before=${COMP_WORDS[COMP_CWORD - 1]} words=""
    case $before in
    --words | --journal | --transient | --apdu | --line | --lines | --recovery | --part | --instructions | --model | --accept | --twice) return ;;
    --table | --probe | --junit | --map | --cover | --against) ;;
    *)
        if [ "$COMP_CWORD" -eq 1 ]; then
            words="new run dump try tear attack test --help --version --program --reader"
        elif [[ $word == -* ]]; then
            case ${COMP_WORDS[1]} in
            new) words="--words --table --journal --transient --apdu --help" ;;
            run) words="--why --trace --lines --map --break --cover --instructions --expect --help" ;;
            dump) words="--objects --all --secrets --against --map --help" ;;
            try) words="--words --table --journal --transient --apdu --instructions --help" ;;
            tear) words="--probe --line --each --recovery --part --join --objects --why --map --instructions --help" ;;
            attack) words="--model --accept --twice --probe --line --each --part --join --objects --map --instructions --help" ;;
            test) words="--junit --table --words --journal --transient --apdu --instructions --help" ;;
            --reader) words="--port --atr --log --instructions --globalplatform --help" ;;
            esac
        fi
        ;;
    esac
    if [ -n "$words" ]; then
        mapfile -t COMPREPLY < <(compgen -W "$words" -- "$word")
    else
        compopt -o filenames
        mapfile -t COMPREPLY < <(compgen -f -- "$word")
    fi
}
complete -F _jcard jcard
