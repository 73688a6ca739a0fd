# bash completion of aprsbook-table, installed as
# $(PREFIX)/share/bash-completion/completions/aprsbook-table
# made by `make options` of completions/programs.txt: change that, and not this
_aprsbook_table() {
    # bash parts words at colons: they are put together again where no blank stands between
    local line=$COMP_LINE piece
    local -a typed=()
    for piece in "${COMP_WORDS[@]:0:COMP_CWORD + 1}"; do
        if [[ ${#typed[@]} -eq 0 || $line == [[:blank:]]* ]]; then
            typed+=("$piece")
        else
            typed[-1]+=$piece
        fi
        line=${line#"${line%%[![:blank:]]*}"}
        line=${line#"$piece"}
    done
    # the commands and forms behind which the word stands
    local count=${#typed[@]}
    local word=${typed[-1]} before=${typed[count - 2]} path=' '
    ((count < 3)) || path+="${typed[1]} "
    ((count < 4)) || path+="${typed[2]} "
    # what may stand here beside options: words, and files or none
    local words='' options='' files=1
    COMPREPLY=()
    case $path in
    ' rows '*) options='--gap --message-gap --help' ;;
    ' messages '*) options='--gap --message-gap --help' ;;
    ' stations '*) options='--gap --message-gap --help' ;;
    ' things '*) options='--gap --message-gap --help' ;;
    ' ') words='rows messages stations things' options='--gap --message-gap --help --version' ;;
    ' '*) options='--gap --message-gap --help --version' ;;
    esac
    case $before in
    --gap | --message-gap) files= ;;
    *) if [[ $word == -* ]]; then words=$options files=; fi ;;
    esac
    if [[ -n $files ]]; then
        compopt -o filenames 2> /dev/null
        mapfile -t COMPREPLY < <(compgen -f -- "${word//\\/}")
    fi
    if [[ -n $words ]]; then
        mapfile -t -O "${#COMPREPLY[@]}" COMPREPLY < <(compgen -W "$words" -- "$word")
    fi
    # what stands before the last colon is there already
    if [[ $COMP_WORDBREAKS == *:* && $word == *:* && $word != *'\:'* ]]; then
        COMPREPLY=("${COMPREPLY[@]#"${word%"${word##*:}"}"}")
    fi
}
complete -F _aprsbook_table aprsbook-table
