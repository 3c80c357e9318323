# What fish completes after khe-talk: options and files.
complete -c khe-talk -l demands -d 'Keep what deficit asks for'
complete -c khe-talk -n __fish_use_subcommand -l help -d 'How to use it'
complete -c khe-talk -n __fish_use_subcommand -l version -d 'Which program this is'
