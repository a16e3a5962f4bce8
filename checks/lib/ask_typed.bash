# For an interactive bash. Control-N writes the line that was typed, and completed by the Tab key, to the file $ANSWERS.
source "$COMPLETIONS/tfmset.bash"
PS1=
bind 'set bell-style none'
note() { printf '%s\n' "> $READLINE_LINE" . >> "$ANSWERS"; }
bind -x '"\C-n": note'
echo . >> "$ANSWERS"
