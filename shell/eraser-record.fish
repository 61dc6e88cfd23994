# Completions of eraser-record for fish. tests/shell_tests.py keeps them equal to what --help says.

# Whether the words up to the cursor are options, some with a value in the next word.
function __eraser_record_before_program
    set -l words (commandline -opc)
    set -e words[1]
    while set -q words[1]
        switch $words[1]
            case --output -o --report --workers --suppress --analysis --format --exit-status --runs --trace --limit --root
                set -e words[1]
            case '-*'
            case '*'
                return 1
        end
        set -e words[1]
    end
    return 0
end

complete -c eraser-record -x -a '(__fish_complete_subcommand -- --output -o --report --workers --suppress --analysis --format --exit-status --runs --trace --limit --root)'

complete -c eraser-record -n __eraser_record_before_program -s o -l output -r -F -d 'Keep the trace in FILE, and replay nothing; a folder takes that of each program'
complete -c eraser-record -n __eraser_record_before_program -l replay -d 'With -o: replay as well'
complete -c eraser-record -n __eraser_record_before_program -l report -r -F -d 'Write the report to FILE instead of standard error; - is standard output; a folder takes that of each program'
complete -c eraser-record -n __eraser_record_before_program -l workers -x -d 'Replay by N threads, 1 to 16. The default is 2 on 4 processors or more, and else 1'
complete -c eraser-record -n __eraser_record_before_program -l suppress -r -F -d 'Leave out the races that these rules take'
complete -c eraser-record -n __eraser_record_before_program -l analysis -x -a 'lockset happens-before both' -d 'Report by lockset (the default), happens-before or both; the last two record with --order'
complete -c eraser-record -n __eraser_record_before_program -l explain -d 'Name the accesses that make each race'
complete -c eraser-record -n __eraser_record_before_program -l by-site -d 'Report the races by their sites, most words first'
complete -c eraser-record -n __eraser_record_before_program -l format -x -a 'text json sarif html' -d 'Write the report as text (the default), json, sarif or html'
complete -c eraser-record -n __eraser_record_before_program -l strict -d 'End the replay with 2 if the trace is damaged, and write no report'
complete -c eraser-record -n __eraser_record_before_program -l until-fault -d 'Report the steps before the first faulty line of the trace, and then its fault'
complete -c eraser-record -n __eraser_record_before_program -l exit-status -x -a 'program report' -d 'End with the status of the program (the default) or of the report'
complete -c eraser-record -n __eraser_record_before_program -l online -d 'Watch the program while it runs, without a trace: a race is reported when it happens'
complete -c eraser-record -n __eraser_record_before_program -l stop-at-race -d 'With --online: a thread whose race is reported gets SIGTRAP right after that, for a debugger'
complete -c eraser-record -n __eraser_record_before_program -l shake -d 'Let threads wait for short random times before they acquire, signal or start, so that more of them meet; --shake=SEED repeats them'
complete -c eraser-record -n __eraser_record_before_program -l runs -x -d 'Run the program N times, and report of each site in how many of the runs it was reported'
complete -c eraser-record -n __eraser_record_before_program -l order -d 'Record what orders threads as well: starts and joins, semaphores, atomic operations ..'
complete -c eraser-record -n __eraser_record_before_program -l trace -x -a '3 4' -d 'Write the trace as text 3 (the default of one that -o keeps, without --stacks and --flow), or in the binary form 4 (that of others), which is shorter; eraser print shows it as text'
complete -c eraser-record -n __eraser_record_before_program -l stacks -d 'Record in a trace 4 the calls in which each event is made, their functions and where blocks of memory were got, and report accesses in system headers at the line that called them'
complete -c eraser-record -n __eraser_record_before_program -l flow -d 'Record in a trace 4 what threads learn from each other without an order: relaxed atomics, and tries of locks that fail; records with --order'
complete -c eraser-record -n __eraser_record_before_program -l thin -d 'Leave out accesses that a thread repeats: the reports have the same races and fewer steps. The default without -o; --thin=no keeps them'
complete -c eraser-record -n __eraser_record_before_program -l limit -x -d 'Of a trace that is kept: keep at most BYTES of it; 0: no limit. With -o the default is 268435456'
complete -c eraser-record -n __eraser_record_before_program -l root -x -a '(__fish_complete_directories)' -d 'Name sites by their paths below DIR. The default is the folder that has all sources of the program'
complete -c eraser-record -n __eraser_record_before_program -l paths -d 'Name sites by their paths as the compiler has them'
complete -c eraser-record -n __eraser_record_before_program -s q -l quiet -d 'Say nothing on standard error beside the report, unless something went wrong'
complete -c eraser-record -n __eraser_record_before_program -s h -l help -d 'Print this help'
complete -c eraser-record -n __eraser_record_before_program -s V -l version -d 'Print the version'
