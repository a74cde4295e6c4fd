# Completions of cmh-dump for fish. Put this file into ~/.config/fish/completions.

complete -c cmh-dump -n __fish_use_subcommand -f -a 'linux erlang go jvm mariadb mpi postgres python rabbitmq sketch both join check'
complete -c cmh-dump -l facts -r -F -d 'Facts, which no state shows'
complete -c cmh-dump -s o -l output -r -F -d 'The dump to write'
complete -c cmh-dump -l pid -x -a '(__fish_complete_pids)' -d 'Processes of this machine to read'
complete -c cmh-dump -l seconds -x -d 'The time between the two readings'
complete -c cmh-dump -l stacks -d 'Add the stacks of those at a futex'
complete -c cmh-dump -l save -r -F -d 'Keep the state that is read'
complete -c cmh-dump -l version -d 'Print the version'
complete -c cmh-dump -s h -l help -d 'Print help'
