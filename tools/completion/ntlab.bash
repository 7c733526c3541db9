# Completion of the forms of ntlab for bash: source it, or copy it into /usr/share/bash-completion/completions.

# the options that a form takes
_ntlab_options() {
    case $1 in
        ask | witness) echo "--states" ;;
        draw) echo "--from --to --text" ;;
        run) echo "--order --seed --schedule --go-on --turns" ;;
    esac
}

# the values that an option takes, where they are few
_ntlab_values() {
    case $1 in
        --order) echo "robin random" ;;
        --states) echo "1000 100000 1000000 10000000 50000000" ;;
    esac
}

_ntlab() {
    local forms="ask witness tidy why left draw run --help --version"
    local word=${COMP_WORDS[COMP_CWORD]} before="" form="" i
    COMPREPLY=()
    if ((COMP_CWORD > 0)); then
        before=${COMP_WORDS[COMP_CWORD - 1]}
    fi
    # bash parts --states=N into three words
    if [[ $word == "=" ]]; then
        word=""
    elif [[ $before == "=" ]]; then
        before=${COMP_WORDS[COMP_CWORD - 2]}
    fi
    for ((i = 1; i < COMP_CWORD; i++)); do
        if [[ " $forms " == *" ${COMP_WORDS[i]} "* ]]; then
            form=${COMP_WORDS[i]}
            break
        fi
    done
    case $before in
        --order | --states)
            mapfile -t COMPREPLY < <(compgen -W "$(_ntlab_values "$before")" -- "$word")
            return
            ;;
        --seed | --turns | --from | --to)
            return
            ;;
        why)
            mapfile -t COMPREPLY < <(compgen -W "dpc apc thread timer int" -- "$word")
            return
            ;;
    esac
    if [[ -z $form ]]; then
        mapfile -t COMPREPLY < <(compgen -W "$forms" -- "$word")
    elif [[ $word == -* ]]; then
        mapfile -t COMPREPLY < <(compgen -W "$(_ntlab_options "$form")" -- "$word")
    elif [[ $form != --* ]]; then
        mapfile -t COMPREPLY < <(compgen -f -- "$word")
    fi
}

complete -o filenames -F _ntlab ntlab
