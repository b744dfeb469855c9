# Completions of kuifje for bash: commands, options, gains and files.
_kuifje() {
    # words: written by .ci/tables
    local commands='hyper traces leak attack reach lines blame quiet trail refine covers check channel capacity cascade parallel choice make'
    local with_gain='leak attack lines'
    local with_json='refine'
    local gains='bayes tries: guessing table:'
    local certificates='check/0'
    local programs='hyper/0 traces/0 leak/0 attack/0 reach/0 lines/0 blame/0 quiet/0 trail/0 refine/0 refine/1 covers/0 covers/1 check/1 check/2 channel/0 capacity/0 cascade/0 cascade/1 parallel/0 parallel/1 choice/0 choice/1'
    # to here
    local words word before command='' values=0 place

    # Words are parted by blanks here: bash parts them at : and = too, and table:FILE is one word.
    read -ra words <<<"${COMP_LINE:0:COMP_POINT}"
    [[ ${COMP_LINE:0:COMP_POINT} == *[[:space:]] ]] && words+=('')
    word=${words[-1]} before=${words[-2]-}

    # The command is the first word that is neither an option nor an option's value; the others are its files and numbers.
    for ((place = 1; place < ${#words[@]} - 1; place++)); do
        case ${words[place]} in
            --gain | --turns) place=$((place + 1)) ;;
            --*) ;;
            *) if [ -z "$command" ]; then command=${words[place]}; else values=$((values + 1)); fi ;;
        esac
    done

    COMPREPLY=()
    case $before/$word in
        --turns/*) ;;
        --gain/table:*)
            compopt -o filenames 2>/dev/null
            _kuifje_files json "${word#table:}"
            # Without colons in COMP_WORDBREAKS the whole word is replaced, else what stands after the colon.
            [[ $COMP_WORDBREAKS == *:* ]] || COMPREPLY=("${COMPREPLY[@]/#/table:}")
            ;;
        --gain/*)
            compopt -o nospace 2>/dev/null
            mapfile -t COMPREPLY < <(compgen -W "$gains" -- "$word")
            ;;
        */-*)
            local options='--turns'
            [[ " $with_gain " == *" ${command:-leak} "* ]] && options+=' --gain'
            [[ " $with_json " == *" ${command:-refine} "* ]] && options+=' --json'
            mapfile -t COMPREPLY < <(compgen -W "$options" -- "$word")
            ;;
        *)
            if [ -z "$command" ]; then
                mapfile -t COMPREPLY < <(compgen -W "$commands" -- "$word")
                return
            fi
            compopt -o filenames 2>/dev/null
            if [[ " $certificates " == *" $command/$values "* ]]; then
                _kuifje_files json "$word"
            elif [[ " $programs " == *" $command/$values "* ]]; then
                _kuifje_files kf "$word"
            fi
            ;;
    esac
}

# Folders, and the files whose names end in . and the first argument.
_kuifje_files() {
    mapfile -t COMPREPLY < <(compgen -d -- "$2"; compgen -f -X "!*.$1" -- "$2")
}

complete -F _kuifje kuifje
