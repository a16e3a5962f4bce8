# Completion of tfmset for fish: subcommands, options, the values of options that have only a few, and file names.
# scripts/command_pages writes a part of this file. checks/packaging.py tests the completions in fish.

# Succeeds if there is no subcommand yet.
function __tfmset_none
    test (count (commandline -opc)) -eq 1
end

# Succeeds if the subcommand has one of the given names.
function __tfmset_is
    set -l words (commandline -opc)
    test (count $words) -gt 1; and contains -- $words[2] $argv
end

# Prints how many arguments after the subcommand are neither options nor their values.
function __tfmset_count
    set -l words (commandline -opc)
    set -l count 0
    set -l value no
    set -l ended no
    for word in $words[3..-1]
        if test $ended = yes
            set count (math $count + 1)
        else if test $value = yes
            set value no
        else
            switch $word
                case --
                    set ended yes
                case (__tfmset_flags) '--*=*'
                case '--*'
                    set value yes
                case '*'
                    set count (math $count + 1)
            end
        end
    end
    echo $count
end

# Succeeds if the next argument is of the given kind: font, limit or file.
function __tfmset_wants
    set -l count (__tfmset_count)
    if __tfmset_is each
        set -l triple font limit file
        test $argv[1] = $triple[(math $count % 3 + 1)]
    else if __tfmset_is check
        test $argv[1] = font
    else if test $count -eq 0
        test $argv[1] = font; and __tfmset_is counts list pairs set stream
    else
        test $argv[1] = file; and __tfmset_is set stream
    end
end

complete -c tfmset -f
# begin generated: table, from scripts/commands.toml
complete -c tfmset -n __tfmset_none -s h -l help -d 'Print help'
complete -c tfmset -n __tfmset_none -s V -l version -d 'Print the version'
complete -c tfmset -n __tfmset_none -a counts -d 'Print the twelve counts and the design size of a font'
complete -c tfmset -n __tfmset_none -a list -d 'Print the contents of a font'
complete -c tfmset -n __tfmset_none -a pairs -d 'Print the pairs of a font that have a kern or a ligature'
complete -c tfmset -n __tfmset_none -a check -d 'Check whether fonts are accepted'
complete -c tfmset -n __tfmset_none -a set -d 'Set the lines of files with a font'
complete -c tfmset -n __tfmset_none -a each -d 'Set the lines of files, each with its own font and step limit'
complete -c tfmset -n __tfmset_none -a stream -d 'Set lines, and print each record as soon as it is ready'
complete -c tfmset -n __tfmset_none -a help -d 'Print help'
complete -c tfmset -n '__tfmset_is list' -l all -d 'Also print the counts, the extensible recipes and all words'
complete -c tfmset -n '__tfmset_is list pairs set each stream' -l size -x -d 'Font size, such as 12pt, or in scaled points, 1 to 134217727'
complete -c tfmset -n '__tfmset_is list pairs set each stream' -l unit -x -a 'sp pt bp mm cm in pc' -d 'Unit of dimensions'
complete -c tfmset -n '__tfmset_is list pairs check' -l format -x -a 'text csv json' -d 'Output format'
complete -c tfmset -n '__tfmset_is set stream' -l limit -x -d 'Maximum steps per line, 1 to 16777216'
complete -c tfmset -n '__tfmset_is set each stream' -l missing -x -a 'refuse skip' -d 'On a missing character'
complete -c tfmset -n '__tfmset_is set each stream' -l crlf -d 'Leave out one carriage return before each line feed'
complete -c tfmset -n '__tfmset_is pairs set each stream' -l encoding -rF -a 'bytes ot1 t1 ly1 latin1' -d 'Encoding of the font, for text in UTF-8'
complete -c tfmset -n '__tfmset_is set each stream' -l workers -x -a '(seq 1 16)' -d 'Maximum threads that set lines'
complete -c tfmset -n '__tfmset_is set each stream' -l capacity -x -d 'Slots per queue between threads, 1 to 65536'
complete -c tfmset -n '__tfmset_is set each stream' -l block -x -a '(seq 1 8)' -d 'Lines per message; leave it out with stream, use 8 with set and each'
complete -c tfmset -n '__tfmset_is set each stream' -l record -x -a '1 2 json box' -d 'Record format'
complete -c tfmset -n '__tfmset_is check' -l strict -d 'Also print what TeX and TFtoPL report about accepted fonts'
complete -c tfmset -n '__tfmset_is check' -l quiet -d 'Leave out the lines of accepted fonts'
complete -c tfmset -n '__tfmset_is check' -l summary -d 'Print a last line with the numbers of fonts'
complete -c tfmset -n '__tfmset_is check' -l files-from -rF -d 'File with the names of further fonts'
complete -c tfmset -n '__tfmset_is check' -l null -d 'Names in this file end with a zero byte'
complete -c tfmset -n '__tfmset_is counts list pairs check set each stream' -s v -l verbose -d 'Print causes of errors on standard error'
complete -c tfmset -n '__tfmset_is counts list pairs check set each stream' -s h -l help -d 'Print help'
complete -c tfmset -n '__tfmset_is help; and test (__tfmset_count) -eq 0' -a 'counts list pairs check set each stream help'

# Prints the options that have no value.
function __tfmset_flags
    string split ' ' -- '--all --crlf --strict --quiet --summary --null -v --verbose -h --help -V --version'
end
# end generated

complete -c tfmset -n '__tfmset_wants font' -a '(__fish_complete_suffix .tfm)'
complete -c tfmset -n '__tfmset_wants limit' -a 1048576
complete -c tfmset -n '__tfmset_wants file' -F
