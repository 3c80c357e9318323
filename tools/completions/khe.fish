# What fish completes after khe: commands, options and files.
function __khe_command
    set -l words (commandline -opc)
    test (count $words) -gt 1; and contains -- $words[2] $argv
end
complete -c khe -n '__khe_command make' -f
complete -c khe -n __fish_use_subcommand -f -a evaluate -d 'What the solutions of an archive cost'
complete -c khe -n __fish_use_subcommand -f -a script -d 'The answers to a script on a solution'
complete -c khe -n __fish_use_subcommand -f -a tied -d 'The same, where its lines may tie meets to others'
complete -c khe -n __fish_use_subcommand -f -a check -d 'An archive in its canonical spelling'
complete -c khe -n __fish_use_subcommand -f -a repair -d 'The same with one of its solutions repaired'
complete -c khe -n __fish_use_subcommand -f -a solve -d 'The least result of many repairs'
complete -c khe -n __fish_use_subcommand -f -a construct -d 'A timetable of an instance from nothing'
complete -c khe -n __fish_use_subcommand -f -a match -d 'The tasks of one time with the resources of one type anew'
complete -c khe -n __fish_use_subcommand -f -a make -d 'An archive that is drawn from a seed'
complete -c khe -n __fish_use_subcommand -f -a help -d 'How to use it'
complete -c khe -n __fish_use_subcommand -l help -d 'How to use it'
complete -c khe -n __fish_use_subcommand -l version -d 'Which program this is'
complete -c khe -n '__khe_command evaluate' -l all -d 'Lines of monitors without a deviation too'
complete -c khe -n '__khe_command evaluate solve' -l workers -x -d 'How many threads'
complete -c khe -n '__khe_command repair solve construct' -l depth -x -a '1 2 3 4' -d 'How long a chain may be'
complete -c khe -n '__khe_command repair solve construct' -l budget -x -d 'How many moves may be tried'
complete -c khe -n '__khe_command solve' -l jobs -x -d 'How many repairs'
complete -c khe -n '__khe_command make' -l run -d 'A run of edits on it'
