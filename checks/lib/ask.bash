# Prints what bash completes. Arguments: the completions, and a file of beginnings of commands.
source "$1"
completer=$(complete -p tfmset | sed 's/.*-F \([^ ]*\) .*/\1/')
compopt() { case $* in '-o default') plain=yes ;; '-o filenames') named=yes ;; esac; }
while IFS= read -r line; do
    echo "? $line"
    spaced=${line//=/ = }
    read -ra COMP_WORDS <<< "$spaced"
    [[ $line != *' ' ]] || COMP_WORDS+=('')
    COMP_CWORD=$((${#COMP_WORDS[@]} - 1)) COMP_LINE=$line COMP_POINT=${#line} COMPREPLY=() plain= named=
    "$completer" tfmset "${COMP_WORDS[COMP_CWORD]}" > /dev/null
    [ -z "$plain" ] || mapfile -t COMPREPLY < <(compgen -f -- "${COMP_WORDS[COMP_CWORD]}")
    # Mutant of the completions: a space follows the name of a directory.
    [[ -n $plain$named || ${COMPREPLY[*]} != *.tfm* ]] || echo "names of files without compopt"
    [ ${#COMPREPLY[@]} -eq 0 ] || printf '%s\n' "${COMPREPLY[@]}"
done < "$2"
