# Prints what fish completes. Arguments: the completions, and a file of beginnings of commands.
source $argv[1]
while read -l line
    echo "? $line"
    complete -C $line | string replace -r '\t.*' '' | string replace -r '^--\w+=' ''
end < $argv[2]
