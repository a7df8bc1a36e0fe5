# Completion of nonobench-audit's words in bash: source this file, or install it as ./install does.
# tests/program/test_completions.py compares what it offers with the command's --help.

_nonobench_audit() {
    local word=${COMP_WORDS[COMP_CWORD]} before=${COMP_WORDS[COMP_CWORD - 1]} offered=''
    COMPREPLY=()
    case $before in
        --files-from | --jsonl | --csv | --html | --sqlite) ;;
        --beside | --certify | --ppm)
            compopt -o filenames 2>/dev/null
            mapfile -t COMPREPLY < <(compgen -d -- "$word")
            return
            ;;
        --background) offered='auto white' ;;
        --allow-flaw) offered='blank background given alike any' ;;
        --title | --seconds | --memory | --max-guesses | --jobs | --scheduler) return ;;
        *)
            [[ $word = -* ]] && offered='--help --version --files-from --beside --untrusted
                --background --certified --allow-flaw --jsonl --csv --html --title --sqlite --resume
                --certify --ppm --quiet --seconds --memory --max-guesses --jobs --scheduler'
            ;;
    esac
    if [[ -n $offered ]]; then
        mapfile -t COMPREPLY < <(compgen -W "$offered" -- "$word")
        return
    fi
    compopt -o filenames 2>/dev/null
    mapfile -t COMPREPLY < <(compgen -f -- "$word")
    ((COMP_CWORD > 1)) || mapfile -t -O ${#COMPREPLY[@]} COMPREPLY < <(compgen -W unpack -- "$word")
}

complete -F _nonobench_audit nonobench-audit
