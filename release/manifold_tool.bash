# Completion of the words of manifold_tool for bash: commands, the option, files, and digits.
_manifold_tool() {
    local cur=${COMP_WORDS[COMP_CWORD]} prev=${COMP_WORDS[COMP_CWORD - 1]} word command= operands=0 k
    for ((k = 1; k < COMP_CWORD; k++)); do
        word=${COMP_WORDS[k]}
        case $word in
        copy | inside | run) [ -z "$command" ] && command=$word || operands=$((operands + 1)) ;;
        --digits | = | -- | [0-6]) ;;
        *) operands=$((operands + 1)) ;;
        esac
    done
    COMPREPLY=()
    if [ -z "$command" ]; then
        COMPREPLY=($(compgen -W 'copy inside run' -- "$cur"))
    elif [ "$prev" = --digits ] || { [ "$prev" = = ] && [ "${COMP_WORDS[COMP_CWORD - 2]}" = --digits ]; }; then
        COMPREPLY=($(compgen -W '0 1 2 3 4 5 6' -- "$cur"))
    elif [[ $cur == -* ]]; then
        COMPREPLY=($(compgen -W '--digits --' -- "$cur"))
    else
        _manifold_tool_files "$command" "$operands" "$cur"
    fi
}

# The files that may stand here, and the folders on the way to them.
_manifold_tool_files() {
    local pattern name
    case $1.$2 in
    copy.[01] | inside.0) pattern='.*\.([oO][bB][jJ]|[sS][tT][lL])$' ;;
    run.0) pattern='.' ;;
    *) return ;;
    esac
    compopt -o filenames 2>/dev/null
    while IFS= read -r name; do
        if [ -d "$name" ] || [[ $name =~ $pattern ]]; then
            COMPREPLY+=("$name")
        fi
    done < <(compgen -f -- "$3")
}

complete -F _manifold_tool manifold_tool
