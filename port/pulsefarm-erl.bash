# Completions of pulsefarm-erl for bash: `. port/pulsefarm-erl.bash`, or a copy in the folder that bash-completion reads.

# The words of the command $1.
_pulsefarm_erl_words() {
  all='-I -D --root --never --patience --calls --lax'
  case $1 in
    translate) echo "$all -o" ;;
    check) echo "$all --explain --format" ;;
    run) echo "$all --property --limit --seed --schedule --strategy --weights --edition --verbose --explain --one-node --format" ;;
    hunt) echo "$all --property --limit --seeds --for --strategy --weights --edition --workers --shrink --all --leaks --all-roots --fail-fast --one-node --verbose --format" ;;
    explore) echo "$all --property --limit --budget --for --deviations --edition --verbose --format" ;;
    shrink) echo "$all --property --limit --schedule --runs --edition --verbose --format" ;;
    chart) echo "$all --property --limit --seed --schedule --strategy --weights --edition --page --compact --verbose" ;;
    eunit) echo "$all --property --limit --seeds --for --strategy --weights --edition --workers --test --one-node --junit" ;;
    prop) echo "$all --limit --seeds --tests --seed --strategy --weights --edition --workers --shrink" ;;
    *) echo 'translate check run hunt explore shrink chart eunit prop --help --version' ;;
  esac
}

_pulsefarm_erl() {
  local word=${COMP_WORDS[COMP_CWORD]} before=${COMP_WORDS[COMP_CWORD-1]} command=
  [ "$COMP_CWORD" -gt 1 ] && command=${COMP_WORDS[1]}
  case $before in
    --property) mapfile -t COMPREPLY < <(compgen -W 'sound supervised returns true nocrash nodeadlock withinlimit never:' -- "$word") ;;
    --format) mapfile -t COMPREPLY < <(compgen -W 'text json' -- "$word") ;;
    --strategy) mapfile -t COMPREPLY < <(compgen -W 'pos uniform' -- "$word") ;;
    -I) mapfile -t COMPREPLY < <(compgen -d -- "$word") ;;
    *)
      case $command:$word in
        :* | *:-*) mapfile -t COMPREPLY < <(compgen -W "$(_pulsefarm_erl_words "$command")" -- "$word") ;;
        *) mapfile -t COMPREPLY < <(compgen -f -- "$word") ;;
      esac
      ;;
  esac
}

complete -o filenames -F _pulsefarm_erl pulsefarm-erl
