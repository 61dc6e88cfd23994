# Completions of eraser for fish. tests/shell_tests.py keeps them equal to what --help says.

complete -c eraser -f

complete -c eraser -n __fish_use_subcommand -s h -l help -d 'Print help'
complete -c eraser -n __fish_use_subcommand -s V -l version -d 'Print version'
complete -c eraser -n __fish_use_subcommand -a replay -d 'Replay a trace and report its races'
complete -c eraser -n __fish_use_subcommand -a explain -d 'Say why one step is a race or not, by the story of its word'
complete -c eraser -n __fish_use_subcommand -a print -d 'Write the text of a trace, also of a binary one'
complete -c eraser -n __fish_use_subcommand -a merge -d 'Make one report of the reports of a trace\'s parts'
complete -c eraser -n __fish_use_subcommand -a demo -d 'Run threads that call the detector, and print how many steps and races they made'
complete -c eraser -n __fish_use_subcommand -a help -d 'Print this message or the help of the given subcommand(s)'

complete -c eraser -n '__fish_seen_subcommand_from replay' -l analysis -x -a 'lockset happens-before both' -d 'Report accesses that no lock protects, accesses and reuses that were not ordered in this run, or both'
complete -c eraser -n '__fish_seen_subcommand_from replay' -l suppress -r -F -d 'Count the races that this file\'s rules take, and leave their lines out'
complete -c eraser -n '__fish_seen_subcommand_from replay' -l write-rules -r -F -d 'Write rules to this file that take each race of the report'
complete -c eraser -n '__fish_seen_subcommand_from replay' -l unused-rules -d 'Name each rule that took no race, on standard error'
complete -c eraser -n '__fish_seen_subcommand_from replay' -l max-races -x -d 'Write the lines of the first races alone, and how many were left out'
complete -c eraser -n '__fish_seen_subcommand_from replay' -l explain -d 'Name the accesses that make each race'
complete -c eraser -n '__fish_seen_subcommand_from replay' -l by-site -d 'Write a table of the sites with races, most words first, and explain a race of each'
complete -c eraser -n '__fish_seen_subcommand_from replay' -l format -x -a 'text json sarif html' -d 'How the report is written: as text for scripts, as JSON for programs, as SARIF for code hosts, or as one page of HTML for people'
complete -c eraser -n '__fish_seen_subcommand_from replay' -l source -x -a '(__fish_complete_directories)' -d 'With --format html, show the lines around each site, from the files below this folder'
complete -c eraser -n '__fish_seen_subcommand_from replay' -l strict -d 'End with 2 if the trace is damaged, and write no report'
complete -c eraser -n '__fish_seen_subcommand_from replay' -l until-fault -d 'Report the steps before the first faulty line of the trace, and then its fault'
complete -c eraser -n '__fish_seen_subcommand_from replay' -l part -x -d 'Replay part I of N alone, as 2/8, with at most 4096 parts; merge makes one report of those of all parts'
complete -c eraser -n '__fish_seen_subcommand_from replay' -l progress -d 'Show on standard error, about twice a second, how far the replay has come'
complete -c eraser -n '__fish_seen_subcommand_from replay' -l hints -d 'Write on standard error, as on a terminal, what helps people behind the line of a fault'
complete -c eraser -n '__fish_seen_subcommand_from replay' -l workers -x -a '(seq 16)' -d 'How many threads replay the trace, 1 to 16'
complete -c eraser -n '__fish_seen_subcommand_from replay' -l shards -x -a '1 2 4 8 16 32 64' -d 'Into how many parts several workers cut the words, 1 to 64'
complete -c eraser -n '__fish_seen_subcommand_from replay' -l byte-limit -x -d 'The most bytes that a text may have, 1 to 4611686018427387904'
complete -c eraser -n '__fish_seen_subcommand_from replay' -s h -l help -d 'Print help'
complete -c eraser -n '__fish_seen_subcommand_from replay' -F

complete -c eraser -n '__fish_seen_subcommand_from explain' -l byte-limit -x -d 'The most bytes that a text may have, 1 to 4611686018427387904'
complete -c eraser -n '__fish_seen_subcommand_from explain' -s h -l help -d 'Print help'
complete -c eraser -n '__fish_seen_subcommand_from explain' -F

complete -c eraser -n '__fish_seen_subcommand_from print' -s h -l help -d 'Print help'
complete -c eraser -n '__fish_seen_subcommand_from print' -F

complete -c eraser -n '__fish_seen_subcommand_from merge' -l trace -r -F -d 'The trace that the reports are of; each option below needs it'
complete -c eraser -n '__fish_seen_subcommand_from merge' -l suppress -r -F -d 'Count the races that this file\'s rules take, and leave their lines out'
complete -c eraser -n '__fish_seen_subcommand_from merge' -l explain -d 'Name the accesses that make each race'
complete -c eraser -n '__fish_seen_subcommand_from merge' -l by-site -d 'Write a table of the sites with races, most words first, and explain a race of each'
complete -c eraser -n '__fish_seen_subcommand_from merge' -l format -x -a 'text json sarif html' -d 'How the report is written: as text for scripts, as JSON for programs, as SARIF for code hosts, or as one page of HTML for people'
complete -c eraser -n '__fish_seen_subcommand_from merge' -l source -x -a '(__fish_complete_directories)' -d 'With --format html, show the lines around each site, from the files below this folder'
complete -c eraser -n '__fish_seen_subcommand_from merge' -l byte-limit -x -d 'The most bytes that a text may have, 1 to 4611686018427387904'
complete -c eraser -n '__fish_seen_subcommand_from merge' -s h -l help -d 'Print help'
complete -c eraser -n '__fish_seen_subcommand_from merge' -F

complete -c eraser -n '__fish_seen_subcommand_from demo' -s h -l help -d 'Print help'
complete -c eraser -n '__fish_seen_subcommand_from demo' -a 'locked-counter racy-counter init-then-read rw-table reuse-pool ignored-stats'

complete -c eraser -n '__fish_seen_subcommand_from help' -a 'replay explain print demo help'
