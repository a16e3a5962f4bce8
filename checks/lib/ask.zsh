# Writes what zsh completes to the file $ANSWERS. $COMPLETIONS is the directory of the completions. Control-T asks for
# the completions of the line, and Control-N for the line itself.
fpath=($COMPLETIONS $fpath)
unsetopt beep
PROMPT= RPROMPT=
zstyle ':completion:*' completer _complete
autoload -Uz compinit && compinit -u -D
autoload -Uz +X _tfmset
compadd() {
  if [[ ${@[1,(i)(-|--)]} == *-(O|A|D)\ * ]]; then builtin compadd "$@"; return; fi
  local -a hits
  builtin compadd -O hits "$@"
  (( $#hits == 0 )) || print -rl -- "${hits[@]}" >> $ANSWERS
  builtin compadd "$@"
}
capture() {
  print -r -- "? $BUFFER" >> $ANSWERS
  _main_complete
  compstate[insert]= compstate[list]=
  print -r -- "." >> $ANSWERS
}
note() { print -rl -- "> $BUFFER" . >> $ANSWERS }
zle -N note
zle -C capture list-choices capture
bindkey '^T' capture
bindkey '^N' note
bindkey '^U' kill-whole-line
print -r -- . >> $ANSWERS
