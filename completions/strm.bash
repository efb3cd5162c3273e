# Completion of strm(1) and of the tools beside it, for bash: options, and files wherever no option can be.

# Whether the word before the current one asks for a file, as `<` does.
_strm_is_redirected() {
    [[ ${COMP_WORDS[COMP_CWORD - 1]} == *[\<\>]* ]]
}

_strm() {
    local word=${COMP_WORDS[COMP_CWORD]}
    COMPREPLY=()
    if _strm_is_redirected; then
        return
    elif [ "${COMP_WORDS[COMP_CWORD - 1]}" = --max ]; then
        # A number is for the user to say, so no file is offered.
        compopt +o default 2>/dev/null
    else
        mapfile -t COMPREPLY < <(compgen -W '--serial --max --help --version' -- "$word")
    fi
}

# A tool's own help has its options.
_strm_tool() {
    local word=${COMP_WORDS[COMP_CWORD]}
    COMPREPLY=()
    if ! _strm_is_redirected && [[ $word == -* ]]; then
        mapfile -t COMPREPLY < <(compgen -W "$("$1" --help 2>/dev/null | grep -oE -e '--[a-z][a-z-]*' | sort -u)" -- "$word")
    fi
}

complete -o default -F _strm strm
complete -o default -F _strm_tool strm-check strm-judge strm-list strm-play strm-record strm-trace strm-view
