# Completion of speedlight's words for fish.
complete -c speedlight -f
complete -c speedlight -n __fish_use_subcommand -a step -d 'run an input on one thread'
complete -c speedlight -n __fish_use_subcommand -a run -d 'run an input with a thread for each actor'
complete -c speedlight -n __fish_use_subcommand -a routes -d 'print the routes of an input'
complete -c speedlight -n __fish_use_subcommand -a sample -d 'run a sample input'
complete -c speedlight -n __fish_use_subcommand -a check -d 'check what a run is claimed to have printed'
complete -c speedlight -n __fish_use_subcommand -a balance -d 'show how evenly cables are used at consistent cuts'
complete -c speedlight -n __fish_use_subcommand -a poll -d 'show what reading one unit after the other would show, from S turns on, one each G'
complete -c speedlight -n __fish_use_subcommand -a values -d 'print what units counted, without channel state'
complete -c speedlight -n '__fish_seen_subcommand_from step run; and not contains -- -- (commandline -opc)' -l trace -d 'print the turns after the report'
complete -c speedlight -n '__fish_seen_subcommand_from sample; and not contains -- -- (commandline -opc)' -l input -d 'print the text of the input'
complete -c speedlight -n '__fish_seen_subcommand_from sample' -a '(seq 1 64)'
