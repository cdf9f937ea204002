# Completions of `bus` for bash: source this file.

_bus() {
    local word="${COMP_WORDS[COMP_CWORD]}" before="${COMP_WORDS[COMP_CWORD - 1]}"
    local command="" names="" i
    for ((i = 1; i < COMP_CWORD; i++)); do
        if [[ "${COMP_WORDS[i]}" != -* ]]; then
            command="${COMP_WORDS[i]}"
            break
        fi
    done
    # Of --senders=3 the sign is a word of its own.
    if [[ "$word" == = ]]; then
        word=""
    elif [[ "$before" == = ]]; then
        before="${COMP_WORDS[COMP_CWORD - 2]}"
    fi
    COMPREPLY=()
    case "$command $before" in
    *" <" | *" >")
        compopt -o default
        return
        ;;
    "run --senders" | "run --receivers") names="1 2 3 4 5 6 7 8" ;;
    "log --senders" | "log --batch" | *" --messages" | *" --seed") ;;
    " "*) names="ratify replay trace run log journal" ;;
    esac
    if [[ "$word" == -* ]]; then
        case "$command" in
        "")
            names="-h --help -V --version"
            # The script at the top of the repository takes this word first.
            if [[ "${COMP_WORDS[0]}" == */* && "$COMP_CWORD" -eq 1 ]]; then names+=" --unproved"; fi
            ;;
        ratify | replay) names="-h --help" ;;
        trace) names="--svg --html --play -h --help" ;;
        run) names="--senders --receivers --messages --seed --log --journal -h --help" ;;
        log) names="--senders --batch -h --help" ;;
        journal) names="--repair -h --help" ;;
        esac
    fi
    mapfile -t COMPREPLY < <(compgen -W "$names" -- "$word")
}

complete -F _bus bus
