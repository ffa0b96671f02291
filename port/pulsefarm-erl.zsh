#compdef pulsefarm-erl
# Completions of pulsefarm-erl for zsh: as `_pulsefarm-erl` in a folder of $fpath.

_pulsefarm_erl() {
  local -a commands all own
  commands=(translate check run hunt explore shrink chart eunit prop)
  all=(-I -D --root --never --patience --calls --lax)
  if (( CURRENT == 2 )); then
    compadd -a commands
    compadd -- --help --version
    return
  fi
  case ${words[CURRENT-1]} in
    --property) compadd sound supervised returns true nocrash nodeadlock withinlimit; compadd -S '' never:; return ;;
    --format) compadd text json; return ;;
    --strategy) compadd pos uniform; return ;;
    --patience) compadd early mixed 0; return ;;
    -I) _files -/; return ;;
  esac
  case ${words[2]} in
    translate) own=(-o) ;;
    check) own=(--explain --format) ;;
    run) own=(--property --limit --seed --schedule --strategy --weights --edition --verbose --explain --one-node --format) ;;
    hunt) own=(--property --limit --seeds --for --strategy --weights --edition --workers --shrink --all --leaks --all-roots --fail-fast --one-node --verbose --format) ;;
    explore) own=(--property --limit --budget --for --deviations --edition --verbose --format) ;;
    shrink) own=(--property --limit --schedule --runs --edition --verbose --format) ;;
    chart) own=(--property --limit --seed --schedule --strategy --weights --edition --page --compact --verbose) ;;
    eunit) own=(--property --limit --seeds --for --strategy --weights --edition --workers --test --one-node --junit) ;;
    prop) own=(--limit --seeds --tests --seed --strategy --weights --edition --workers --shrink) ;;
  esac
  if [[ $PREFIX == -* ]]; then compadd -a all own; else _files; fi
}

_pulsefarm_erl
