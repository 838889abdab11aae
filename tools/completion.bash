# Completion of lstore's commands, options and files, for bash. `./lstore --install` puts it where bash looks; or: source tools/completion.bash
_lstore() {
    local word=${COMP_WORDS[COMP_CWORD]} before="" command="" at options names
    [ "$COMP_CWORD" -gt 0 ] && before=${COMP_WORDS[COMP_CWORD-1]}
    COMPREPLY=()
    # A file behind a redirection.
    case $before in
        '<' | '>' | '>>' | '2>') mapfile -t COMPREPLY < <(compgen -f -- "$word"); return ;;
    esac
    for ((at = 1; at < COMP_CWORD; at++)); do
        case ${COMP_WORDS[at]} in '<' | '>' | '>>' | '2>') at=$((at + 1)) ;; *) command=${COMP_WORDS[at]}; break ;; esac
    done
    names="run work check migrate asof crash import dump load"
    # The start script of the repository has words of its own.
    [ -d "${COMP_WORDS[0]%/*}/crates" ] && names+=" --build --install --help --version"
    options="--columns --ranges --tails --sessions --txns --spare --index"
    case $command in
        "") mapfile -t COMPREPLY < <(compgen -W "$names" -- "$word"); return ;;
        run | migrate | dump) ;;
        work | check) options+=" --level" ;;
        asof) options+=" --time" ;;
        crash) options+=" --stop --torn --bytes" ;;
        import) options="--columns" ;;
        load) options="--seed --keys --sessions" ;;
        --install) mapfile -t COMPREPLY < <(compgen -d -- "$word"); return ;;
        *) return ;;
    esac
    # The number of an option: those of few values.
    case $before in
        --level) options="1 2" ;;
        --torn) options="0 1" ;;
        --columns) options="1 2 3 4 5 6 7 8" ;;
        --*) return ;;
        *)
            # None stands twice.
            for ((at = 1; at < COMP_CWORD; at++)); do
                options=" $options "
                options=${options/ ${COMP_WORDS[at]%%=*} / }
            done
            ;;
    esac
    mapfile -t COMPREPLY < <(compgen -W "$options" -- "$word")
}
complete -o filenames -F _lstore lstore
