# What fish completes after khe-page: options and files.
complete -c khe-page -l solutions -x -d 'How many solutions are shown'
complete -c khe-page -l solution -x -d 'A solution that is shown'
complete -c khe-page -l workers -x -d 'How many threads judge'
complete -c khe-page -n __fish_use_subcommand -l help -d 'How to use it'
complete -c khe-page -n __fish_use_subcommand -l version -d 'Which program this is'
