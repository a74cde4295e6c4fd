# Completions of cmh for fish. Put this file into ~/.config/fish/completions.

complete -c cmh -f
complete -c cmh -n __fish_use_subcommand -a analyse -d 'Say which idle processes of a dump are deadlocked'
complete -c cmh -n __fish_use_subcommand -a trace -d 'Print the queries and replies of one process'
complete -c cmh -n __fish_use_subcommand -s V -l version -d 'Print the version'
complete -c cmh -s h -l help -d 'Print help'
complete -c cmh -n '__fish_seen_subcommand_from analyse' -l workers -x -a '1 2 4 8 16 32 64' \
    -d 'How many workers share the idle processes'
complete -c cmh -n '__fish_seen_subcommand_from analyse' -l cuts -x -d 'How many idle processes each chunk takes'
complete -c cmh -n '__fish_seen_subcommand_from analyse trace' -l choices -x -d 'The place of each next delivery'
