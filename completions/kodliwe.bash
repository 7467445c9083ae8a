# bash completion for kodliwe
_kodliwe() {
    local word=${COMP_WORDS[COMP_CWORD]} before=${COMP_WORDS[COMP_CWORD-1]} option="" i
    COMPREPLY=()
    # After <, >, >> and their kin comes a file, whatever is before them.
    if [[ $word =~ ^[0-9]*[\<\>\&\|]+$ ]]; then
        before=$word word=
    fi
    if [[ $before =~ ^[0-9]*[\<\>\&\|]+$ ]]; then
        compopt -o filenames 2>/dev/null
        mapfile -t COMPREPLY < <(compgen -f -- "$word")
        return
    fi
    for ((i = 1; i < COMP_CWORD; i++)); do
        if [[ ${COMP_WORDS[i]} == -- ]]; then
            return
        fi
    done
    # Where = ends a word, as bash has it, --input=F is the three words --input, = and F.
    if [[ $word == = ]]; then
        word=
    elif [[ $before == = ]] && ((COMP_CWORD >= 2)); then
        before=${COMP_WORDS[COMP_CWORD-2]}
    elif [[ $word == --*=* ]]; then
        before=${word%%=*} option=${word%%=*}= word=${word#*=}
    fi
    case $before in
        -i | --input | -o | --output)
            compopt -o filenames 2>/dev/null
            mapfile -t COMPREPLY < <(compgen -P "$option" -f -- "$word")
            return
            ;;
    esac
    if [[ $before == -l || $before == --limit ]]; then
        return
    fi
    if [[ $before == --completions ]]; then
        mapfile -t COMPREPLY < <(compgen -P "$option" -W 'bash zsh fish' -- "$word")
        return
    fi
    if [[ $word == -* ]]; then
        mapfile -t COMPREPLY < <(compgen -W '-i --input -o --output --hash -f --fold -l --limit --man --completions -h --help -V --version' -- "$word")
    fi
}
complete -F _kodliwe kodliwe
