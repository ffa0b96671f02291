#!/usr/bin/env zsh
# offers.zsh COMPLETIONS LINE: prints what zsh offers for the end of a line, each on a line, by a shell of its own on a
# terminal of its own.
zmodload zsh/zpty
folder=$(mktemp -d)
trap 'rm -rf "$folder"' EXIT
cp $1 $folder/_pulsefarm
cat > $folder/setup <<'END'
PROMPT=
fpath=($1 $fpath)
autoload -U compinit
compinit -u -d $1/dump
bindkey '^I' complete-word
zstyle ':completion:*' insert-tab false
between() { print -r -- $'\0' }
compprefuncs=(between)
comppostfuncs=(between exit)
compadd() {
  if [[ ${@[1,(i)(-|--)]} == *-(O|A|D)\ * ]]; then
    builtin compadd "$@"
    return
  fi
  local -a hits
  builtin compadd -A hits "$@"
  (($#hits)) && print -rl -- $hits
  builtin compadd "$@"
}
print ready
END
zpty shell zsh -f -i
zpty -w shell "source $folder/setup $folder"
while zpty -r shell line && [[ $line != *ready* ]]; do :; done
zpty -w -n shell "$2"$'\t'
told=
for i in {1..50}; do
  zpty -r shell line $'*\0*' || break
  told+=$line
  ((${#${told//[^$'\0']}} >= 2)) && break
done
print -r -- ${${told#*$'\0'}%%$'\0'*} | tr -d '\r' | sed '/^$/d' | sort -u
