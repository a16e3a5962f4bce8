# Completion of tfmset for bash: subcommands, options, the values of options that have only a few, and file names.
# scripts/command_pages writes a part of this file. checks/packaging.py tests the completions in bash.

# begin generated: table, from scripts/commands.toml
_tfmset_commands='counts list pairs check set each stream help'

# Sets `options` to the options of a subcommand, or to those of the program if there is none.
_tfmset_options() {
    case $1 in
        '') options='-h --help -V --version' ;;
        counts) options='-v --verbose -h --help' ;;
        list) options='--size --unit --format --all -v --verbose -h --help' ;;
        pairs) options='--size --unit --format --encoding -v --verbose -h --help' ;;
        check) options='--strict --quiet --summary --format --files-from --null -v --verbose -h --help' ;;
        set) options='--size --limit --missing --crlf --encoding --workers --capacity --block --record --unit -v --verbose -h --help' ;;
        each) options='--size --missing --crlf --encoding --workers --capacity --block --record --unit -v --verbose -h --help' ;;
        stream) options='--size --limit --missing --crlf --encoding --workers --capacity --block --record --unit -v --verbose -h --help' ;;
        help) options='' ;;
        *) options='' ;;
    esac
}

# Sets `values` to the values of an option if it has only a few, and `files` to the pattern of files that its
# value can be. Fails if the option has no value.
_tfmset_values() {
    values='' files=''
    case $1 in
        --size) values='' ;;
        --unit) values='sp pt bp mm cm in pc' ;;
        --format) values='text csv json' ;;
        --limit) values='' ;;
        --missing) values='refuse skip' ;;
        --encoding) values='bytes ot1 t1 ly1 latin1' files='*.enc' ;;
        --workers) values='1 2 3 4 5 6 7 8 9 10 11 12 13 14 15 16' ;;
        --capacity) values='' ;;
        --block) values='1 2 3 4 5 6 7 8' ;;
        --record) values='1 2 json box' ;;
        --files-from) values='' files='*' ;;
        *) return 1 ;;
    esac
}
# end generated

# Completes a font: the name of a file that ends in .tfm, or of a directory. If there are none, any file name.
_tfmset_font() {
    mapfile -t COMPREPLY < <(compgen -f -X '!*.tfm' -- "$1"; compgen -d -- "$1")
    if ((${#COMPREPLY[@]})); then compopt -o filenames; else compopt -o default; fi
}

# Adds the files of the pattern in `files`, and directories. If nothing completes the value, any file name does.
_tfmset_value_file() {
    local found
    mapfile -t found < <(compgen -f -X "!$files" -- "$1"; compgen -d -- "$1")
    COMPREPLY+=("${found[@]}")
    if ((${#COMPREPLY[@]})); then compopt -o filenames; else compopt -o default; fi
}

# Completes a file name in the default way of the shell.
_tfmset_file() {
    compopt -o default
}

_tfmset() {
    local word=${COMP_WORDS[COMP_CWORD]} before=${COMP_WORDS[COMP_CWORD - 1]} options values files count=0 ended='' i
    COMPREPLY=()

    if ((COMP_CWORD == 1)); then
        case $word in
            -*) _tfmset_options '' && mapfile -t COMPREPLY < <(compgen -W "$options" -- "$word") ;;
            *) mapfile -t COMPREPLY < <(compgen -W "$_tfmset_commands" -- "$word") ;;
        esac
        return
    fi

    _tfmset_options "${COMP_WORDS[1]}"
    if [[ ${COMP_WORDS[1]} == help ]]; then
        ((COMP_CWORD > 2)) || mapfile -t COMPREPLY < <(compgen -W "$_tfmset_commands" -- "$word")
        return
    elif [[ ! $options ]]; then
        return
    fi

    # Counts the arguments after the subcommand that are neither options nor their values. Bash splits words at `=`.
    for ((i = 2; i < COMP_CWORD; i++)); do
        if [[ ! $ended && ${COMP_WORDS[i]} == -- ]]; then
            ended=yes
        elif [[ ! $ended && ${COMP_WORDS[i]} == --?* ]]; then
            if _tfmset_values "${COMP_WORDS[i]}"; then i=$((i + 1)); fi
            [[ ${COMP_WORDS[i]} != = ]] || i=$((i + 1))
        elif [[ $ended || ${COMP_WORDS[i]} != -?* ]]; then
            count=$((count + 1))
        fi
    done

    if [[ ! $ended ]]; then
        if [[ $word == = ]]; then
            word=''
        elif [[ $before == = ]]; then
            before=${COMP_WORDS[COMP_CWORD - 2]}
        fi
        if _tfmset_values "$before"; then
            [[ ! $values ]] || mapfile -t COMPREPLY < <(compgen -W "$values" -- "$word")
            [[ ! $files ]] || _tfmset_value_file "$word"
            return
        fi
        if [[ $word == -* ]]; then
            mapfile -t COMPREPLY < <(compgen -W "$options" -- "$word")
            return
        fi
    fi

    case ${COMP_WORDS[1]} in
        counts | list | pairs) ((count > 0)) || _tfmset_font "$word" ;;
        check) _tfmset_font "$word" ;;
        set | stream) if ((count == 0)); then _tfmset_font "$word"; else _tfmset_file; fi ;;
        each)
            case $((count % 3)) in
                0) _tfmset_font "$word" ;;
                1) mapfile -t COMPREPLY < <(compgen -W 1048576 -- "$word") ;;
                2) _tfmset_file ;;
            esac
            ;;
    esac
}

complete -F _tfmset tfmset
