# Completion of the forms of ntrun for bash: source it, or copy it into /usr/share/bash-completion/completions.

# the options that a form takes
_ntrun_options() {
    case $1 in
        run | live) echo "--turns" ;;
        load) echo "--seed --turns" ;;
        shrink) echo "--goal" ;;
        audit) echo "--turns --workers" ;;
    esac
}

_ntrun() {
    local forms="run live replay check load migrate verify shrink audit"
    local word=${COMP_WORDS[COMP_CWORD]} before="" form="" i
    COMPREPLY=()
    if ((COMP_CWORD > 0)); then
        before=${COMP_WORDS[COMP_CWORD - 1]}
    fi
    for ((i = 1; i < COMP_CWORD; i++)); do
        if [[ " $forms " == *" ${COMP_WORDS[i]} "* ]]; then
            form=${COMP_WORDS[i]}
            break
        fi
    done
    case $before in
        --turns | --seed | --goal | --workers) return ;;
    esac
    if [[ -z $form ]]; then
        mapfile -t COMPREPLY < <(compgen -W "$forms" -- "$word")
    else
        # no form takes a file: the input comes from standard input
        mapfile -t COMPREPLY < <(compgen -W "$(_ntrun_options "$form")" -- "$word")
    fi
}

complete -F _ntrun ntrun
