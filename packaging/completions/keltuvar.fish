# Completes the command line of keltuvar in fish.

set -l commands run race audit serve

complete -c keltuvar -f
complete -c keltuvar -s h -l help -d 'Write help'
complete -c keltuvar -n "not __fish_seen_subcommand_from $commands" -s V -l version -d 'Write the version'
complete -c keltuvar -n "not __fish_seen_subcommand_from $commands" -a run -d 'Run a scenario and write its answers'
complete -c keltuvar -n "not __fish_seen_subcommand_from $commands" -a race -d 'Deal a scenario to workers that race for one pool'
complete -c keltuvar -n "not __fish_seen_subcommand_from $commands" -a audit -d 'Report whether a history is legal'
complete -c keltuvar -n "not __fish_seen_subcommand_from $commands" -a serve -d 'Hold a conversation with a pool'

complete -c keltuvar -n '__fish_seen_subcommand_from run race audit' -F
complete -c keltuvar -n '__fish_seen_subcommand_from run race audit' -l explain -d 'Report what is wrong with a bad line'

complete -c keltuvar -n '__fish_seen_subcommand_from race' -l workers -x -d 'How many workers race, from 1 to 64'
complete -c keltuvar -n '__fish_seen_subcommand_from race' -l history -r -F -d 'Also write the history of the race'
complete -c keltuvar -n '__fish_seen_subcommand_from race' -l svg -r -F -d 'Also write a picture of the race'
complete -c keltuvar -n '__fish_seen_subcommand_from race' -l verify-us -x -d 'How many microseconds each check of a signature takes'

complete -c keltuvar -n "__fish_seen_subcommand_from $commands" -l signatures -x -a 'trial checked ed25519' -d 'Which signatures to accept'
complete -c keltuvar -n '__fish_seen_subcommand_from serve' -l salt -x -d "A number that salts the pool's tables"
complete -c keltuvar -n '__fish_seen_subcommand_from serve' -l names -x -d 'How many names a conversation may declare'
complete -c keltuvar -n '__fish_seen_subcommand_from serve' -l history -r -F -d 'Also write each change of the pool, for audit'
complete -c keltuvar -n '__fish_seen_subcommand_from serve' -l client -r -F -d 'Also answer the lines of a file in another file'
