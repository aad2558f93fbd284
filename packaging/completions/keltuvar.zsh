#compdef keltuvar
# Completes the command line of keltuvar in zsh.

_keltuvar() {
  local curcontext=$curcontext state line ret=1
  local -a commands explain signatures
  local -A opt_args
  commands=(
    'run:run a scenario and write its answers'
    'race:deal a scenario to workers that race for one pool, and audit the history'
    'audit:report whether a history is legal'
    'serve:hold a conversation with a pool'
  )
  explain=(
    '--explain[report what is wrong with a bad line]'
    '(- *)'{-h,--help}'[write help]'
  )
  signatures='--signatures=[which signatures to accept]:signatures:(trial checked ed25519)'
  _arguments -C \
    '(- *)'{-h,--help}'[write help]' \
    '(- *)'{-V,--version}'[write the version]' \
    '1:command:->command' \
    '*::argument:->argument' && ret=0
  case $state in
    (command) _describe -t commands command commands && ret=0 ;;
    (argument)
      curcontext=${curcontext%:*:*}:keltuvar-$words[1]:
      case $words[1] in
        (run) _arguments $explain $signatures '1:scenario:_files' && ret=0 ;;
        (race)
          _arguments $explain $signatures \
            '--workers=[how many workers race]:number from 1 to 64: ' \
            '--history=[also write the history of the race]:file:_files' \
            '--svg=[also write a picture of the race]:file:_files' \
            '--verify-us=[how long each check of a signature takes]:microseconds: ' \
            '1:scenario:_files' && ret=0
          ;;
        (audit) _arguments $explain $signatures '1:scenario or history:_files' '2:history:_files' && ret=0 ;;
        (serve)
          _arguments '(- *)'{-h,--help}'[write help]' $signatures \
            "--salt=[a number that salts the pool's tables]:number: " \
            '--names=[how many names a conversation may declare]:number: ' \
            '--history=[also write each change of the pool, for audit]:file:_files' \
            '*--client[also answer the lines of a file in another file]:lines:_files:answers:_files' && ret=0
          ;;
      esac
      ;;
  esac
  return ret
}

# A file that is loaded by its name completes at once; one that is sourced only makes itself known.
if [[ $funcstack[1] == _keltuvar ]]; then
  _keltuvar "$@"
else
  compdef _keltuvar keltuvar
fi
