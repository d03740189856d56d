# Completion of the words of osc in bash. Written by tools/write-editors.
_osc() {
    local word=${COMP_WORDS[COMP_CWORD]} before=${COMP_WORDS[COMP_CWORD-1]} options= source= place=0 at
    if [ "$COMP_CWORD" -eq 1 ]; then
        COMPREPLY=($(compgen -W "generate check export verify flat make migrate explain help --help --version" -- "$word"))
        return
    fi
    case ${COMP_WORDS[1]} in
        generate) options="--ticks --lanes --road --tick --seed --cuts --tries --help" ;;
        check) options="--ticks --lanes --road --tick --help" ;;
        export) options="--ticks --lanes --road --tick --as --ego --lane-width --help" ;;
        verify) options="--ticks --lanes --road --tick --help" ;;
        flat) options="--ticks --lanes --road --tick --help" ;;
        make) COMPREPLY=($(compgen -W "1 2 3 4 5 6 7 8 9 10 11 12 13 14 15 16 --help" -- "$word")); return ;;
        migrate) COMPREPLY=($(compgen -f -- "$word"; compgen -W "--help" -- "$word")); return ;;
        explain) COMPREPLY=($(compgen -W "101 102 103 104 105 106 107 201 202 301 302 311 312 313 314 315 316 317 318 319 320 321 322 323 324 325 326 327 4 5 6 7 8 9" -- "$word")); return ;;
        help) COMPREPLY=($(compgen -W "generate check export verify flat make migrate explain" -- "$word")); return ;;
    esac
    for ((at = 2; at < COMP_CWORD; at++)); do
        case ${COMP_WORDS[at]} in
            --ticks|--lanes|--road|--tick|--seed|--cuts|--tries|--as|--ego|--lane-width) [ "${COMP_WORDS[at+1]}" = "=" ] && at=$((at+1)); at=$((at+1)) ;;
            -*) ;;
            *) [ $place -eq 0 ] && source=${COMP_WORDS[at]}; place=$((place+1)) ;;
        esac
    done
    case $before in
        --as) COMPREPLY=($(compgen -W "csv xosc xodr html" -- "$word")); return ;;
        --ticks|--lanes|--road|--tick|--seed|--cuts|--tries|--as|--ego|--lane-width|=) COMPREPLY=(); return ;;
    esac
    case $word in
        -*) COMPREPLY=($(compgen -W "$options" -- "$word")); return ;;
    esac
    case $place in
        0) COMPREPLY=($(compgen -f -X "!*.osc" -- "$word"; compgen -d -- "$word")) ;;
        1) COMPREPLY=($(compgen -W "$(sed -n 's/^scenario \{1,\}\([A-Za-z_][A-Za-z0-9_.]*\).*/\1/p' "$source" 2>/dev/null)" -- "$word")) ;;
        *) COMPREPLY=($(compgen -f -- "$word")) ;;
    esac
}
complete -o filenames -F _osc osc
