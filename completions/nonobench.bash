# Completion of nonobench's words in bash: source this file, or install it as ./install does.
# tests/program/test_completions.py compares what it offers with the program's --help.

_nonobench() {
    local word=${COMP_WORDS[COMP_CWORD]} before=${COMP_WORDS[COMP_CWORD - 1]} command='' files=0 i
    COMPREPLY=()
    # The command is the first word that is no option.
    for ((i = 1; i < COMP_CWORD; i++)); do
        if [[ ${COMP_WORDS[i]} != -* ]]; then
            command=${COMP_WORDS[i]}
            break
        fi
    done
    case $before in
        --format)
            local formats='ppm non'
            [[ $command = prove ]] && formats='1 2'
            mapfile -t COMPREPLY < <(compgen -W "$formats" -- "$word")
            return
            ;;
        --givens | --certificate)
            compopt -o filenames 2>/dev/null
            mapfile -t COMPREPLY < <(compgen -f -- "$word")
            return
            ;;
        --background | --history | --allow) return ;;
    esac
    local offered
    case $command in
        '') offered='work check prove assess help --help --version' ;;
        work) offered='--format --background --history --help' files=1 ;;
        check) offered='--givens --background --help' files=1 ;;
        prove) offered='--background --givens --complete --format --help' files=1 ;;
        assess) offered='--format --background --allow --givens --certificate --help' files=1 ;;
        help) offered='work check prove assess help' ;;
        *) return ;;
    esac
    if [[ $files = 1 && $word != -* ]]; then
        compopt -o filenames 2>/dev/null
        mapfile -t COMPREPLY < <(compgen -f -- "$word")
    else
        mapfile -t COMPREPLY < <(compgen -W "$offered" -- "$word")
    fi
}

complete -F _nonobench nonobench
