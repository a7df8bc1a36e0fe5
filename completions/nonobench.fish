# Completion of nonobench's words in fish. tests/program/test_completions.py compares what it offers with the program's --help.

set -l name nonobench
set -l commands work check prove assess help
set -l first "not __fish_seen_subcommand_from $commands"
complete -c $name -n $first -fa "$commands"
complete -c $name -n "$first; or not __fish_seen_subcommand_from help" -s h -l help -d 'print help'
complete -c $name -n $first -s V -l version -d 'print the version'
complete -c $name -n '__fish_seen_subcommand_from help' -fa "$commands"
complete -c $name -n '__fish_seen_subcommand_from work assess' -l format -xa 'ppm non' -d 'the format of FILE'
complete -c $name -n '__fish_seen_subcommand_from prove' -l format -xa '1 2' -d 'the format of a certificate with lemmas'
complete -c $name -n '__fish_seen_subcommand_from work check prove assess' -l background -x -d 'the colour of the background in a P3 text, as R,G,B'
complete -c $name -n '__fish_seen_subcommand_from check prove assess' -l givens -rF -d 'the givens that are published'
complete -c $name -n '__fish_seen_subcommand_from work' -l history -x -d 'how many edits can be undone, 1 to 1000'
complete -c $name -n '__fish_seen_subcommand_from prove' -l complete -d 'search without bounds'
complete -c $name -n '__fish_seen_subcommand_from assess' -l allow -x -d 'how many splits the search of a part may make, 0 to 99999'
complete -c $name -n '__fish_seen_subcommand_from assess' -l certificate -rF -d 'a certificate to take in place of a search'
