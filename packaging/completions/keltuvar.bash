# Completes the command line of keltuvar in bash.

# Offers those of the words that begin with the one at the cursor.
_keltuvar_offer() {
  mapfile -t COMPREPLY < <(compgen -W "$1" -- "$cur")
}

_keltuvar_offer_files() {
  # Outside of a completion, as in a test, there is nothing to set.
  compopt -o filenames 2>/dev/null
  mapfile -t COMPREPLY < <(compgen -f -- "$cur")
}

_keltuvar() {
  local cur=${COMP_WORDS[COMP_CWORD]} option=${COMP_WORDS[COMP_CWORD - 1]}
  COMPREPLY=()
  # An option, an equals sign and a value are three words to bash.
  if [[ $cur == = ]]; then
    cur=
  elif [[ $option == = ]]; then
    option=${COMP_WORDS[COMP_CWORD - 2]}
  fi
  if ((COMP_CWORD == 1)); then
    _keltuvar_offer 'run race audit serve --help --version'
    return
  fi
  local command=${COMP_WORDS[1]}
  case $command:$option in
    race:--history | race:--svg | serve:--history | serve:--client) _keltuvar_offer_files && return ;;
    race:--workers | race:--verify-us | serve:--salt | serve:--names) return ;;
    *:--signatures) _keltuvar_offer 'trial checked ed25519' && return ;;
  esac
  case $command:$cur in
    run:-* | audit:-*) _keltuvar_offer '--explain --signatures --help' ;;
    race:-*) _keltuvar_offer '--workers --history --svg --verify-us --explain --signatures --help' ;;
    serve:*)
      if ((COMP_CWORD > 2)) && [[ ${COMP_WORDS[COMP_CWORD - 2]} == --client ]]; then
        _keltuvar_offer_files
      else
        _keltuvar_offer '--signatures --salt --names --history --client --help'
      fi
      ;;
    run:* | race:* | audit:*) _keltuvar_offer_files ;;
  esac
}

complete -F _keltuvar keltuvar
