# Completion of ufsim in fish.
complete -c ufsim -f
complete -c ufsim -n __fish_use_subcommand -a run -d 'Run a script'
complete -c ufsim -n __fish_use_subcommand -a check -d 'Try a stop at each program and erase'
complete -c ufsim -n __fish_use_subcommand -a image -d 'Keep the dies in a file, or run a script over them'
complete -c ufsim -n __fish_use_subcommand -a stress -d 'Have threads at work on one device'
complete -c ufsim -n '__fish_seen_subcommand_from run check' -F
complete -c ufsim -n '__fish_seen_subcommand_from image; and not __fish_seen_subcommand_from save load check' -a 'save load check'
complete -c ufsim -n '__fish_seen_subcommand_from save load' -F
complete -c ufsim -n '__fish_seen_subcommand_from stress' -l dies -x -a '1 2 3 4 5 6 7 8' -d 'How many dies'
complete -c ufsim -n '__fish_seen_subcommand_from stress' -l hosts -x -a '1 2 3 4 5 6 7 8' -d 'How many hosts'
