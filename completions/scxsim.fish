# Completion of scxsim, made of its help by tools/completions.

# True if the argument at this place is completed, after one of these commands.
function __scxsim_at
    set -l words (commandline -opc)
    test (count $words) -eq $argv[1]; and contains -- $words[2] $argv[2..]
end

function __scxsim_after
    set -l words (commandline -opc)
    test (count $words) -ge 2; and contains -- $words[2] $argv
end

# Files with an ending, and folders.
function __scxsim_files
    set -l current (commandline -ct)
    for path in $current*.$argv[1] $current*/
        echo $path
    end
end

# The tasks of the workload at a place.
function __scxsim_tasks
    set -l words (commandline -opc)
    awk '/^[ \t]*\[/ { is_task = /^[ \t]*\[\[[ \t]*task[ \t]*\]\]/ }
is_task && /^[ \t]*name[ \t]*=/ { sub(/^[^=]*=[ \t]*/, ""); print substr($0, 2, index(substr($0, 2), substr($0, 1, 1)) - 1) }' $words[$argv[1]] 2> /dev/null
end

complete -c scxsim -f
complete -c scxsim -n 'test (count (commandline -opc)) -eq 1' -a help -d 'Explain the arguments and the output of a command'
complete -c scxsim -n 'test (count (commandline -opc)) -eq 1' -a '--help --version'
complete -c scxsim -n '__scxsim_at 2 help' -a 'verify verify-json explain explain-one run report check stats stats-csv why why-all why-json story step maps timeline timeline-part picture picture-part view view-part gantt gantt-part replay replay-csv explore explore-few exec asm dis cases'
complete -c scxsim -n 'test (count (commandline -opc)) -eq 1' -a verify -d 'Check each callback of a policy, and name the first fault'
complete -c scxsim -n 'test (count (commandline -opc)) -eq 1' -a verify-json -d 'Check each callback of a policy, and print a JSON object a line'
complete -c scxsim -n 'test (count (commandline -opc)) -eq 1' -a explain -d 'Show what the verifier knows before each instruction, and why one is refused'
complete -c scxsim -n 'test (count (commandline -opc)) -eq 1' -a explain-one -d 'Show what the verifier knows before each instruction of one callback'
complete -c scxsim -n 'test (count (commandline -opc)) -eq 1' -a run -d 'Run a workload under a policy, and print a line for each event'
complete -c scxsim -n 'test (count (commandline -opc)) -eq 1' -a report -d 'Run a workload, and print how long each task ran'
complete -c scxsim -n 'test (count (commandline -opc)) -eq 1' -a check -d 'Run a workload, and print one line on how the policy ended; the status is 1 if it was ejected'
complete -c scxsim -n 'test (count (commandline -opc)) -eq 1' -a stats -d 'Run a workload, and print tables of run times, waits, CPUs, groups and quotas'
complete -c scxsim -n 'test (count (commandline -opc)) -eq 1' -a stats-csv -d 'Run a workload, and print the metrics of tasks, CPUs and groups as CSV'
complete -c scxsim -n 'test (count (commandline -opc)) -eq 1' -a why -d 'Run a workload, and explain how the run ended, who waited longest and why'
complete -c scxsim -n 'test (count (commandline -opc)) -eq 1' -a why-all -d 'Run a workload, and explain how the run ended, who waited longest and why, in full'
complete -c scxsim -n 'test (count (commandline -opc)) -eq 1' -a why-json -d 'Run a workload, and explain how the run ended, who waited and why, as a JSON object a line'
complete -c scxsim -n 'test (count (commandline -opc)) -eq 1' -a story -d 'Run a workload, and tell what happened to one task, with reasons'
complete -c scxsim -n 'test (count (commandline -opc)) -eq 1' -a step -d 'Run a workload, and show one millisecond, instruction by instruction'
complete -c scxsim -n 'test (count (commandline -opc)) -eq 1' -a maps -d 'Run a workload, and print what the policy\'s maps hold at the end'
complete -c scxsim -n 'test (count (commandline -opc)) -eq 1' -a timeline -d 'Run a workload, and write a trace for Perfetto (Chrome trace format)'
complete -c scxsim -n 'test (count (commandline -opc)) -eq 1' -a timeline-part -d 'Run a workload, and write a trace of a part of the run for Perfetto'
complete -c scxsim -n 'test (count (commandline -opc)) -eq 1' -a picture -d 'Run a workload, and draw the run as an SVG picture'
complete -c scxsim -n 'test (count (commandline -opc)) -eq 1' -a picture-part -d 'Run a workload, and draw a part of the run as an SVG picture'
complete -c scxsim -n 'test (count (commandline -opc)) -eq 1' -a view -d 'Run a workload, and write an HTML page of the run to zoom and search in'
complete -c scxsim -n 'test (count (commandline -opc)) -eq 1' -a view-part -d 'Run a workload, and write an HTML page of a part of the run'
complete -c scxsim -n 'test (count (commandline -opc)) -eq 1' -a gantt -d 'Run a workload, and draw the run as a chart of plain characters'
complete -c scxsim -n 'test (count (commandline -opc)) -eq 1' -a gantt-part -d 'Run a workload, and draw a part of the run as a chart of plain characters'
complete -c scxsim -n 'test (count (commandline -opc)) -eq 1' -a replay -d 'Run a file of events under a policy, and print the trace'
complete -c scxsim -n 'test (count (commandline -opc)) -eq 1' -a replay-csv -d 'Run a file of events under a policy, and print the metrics of its tasks, CPUs and groups as CSV'
complete -c scxsim -n 'test (count (commandline -opc)) -eq 1' -a explore -d 'Try every sequence of events under a policy, and print the shortest one for each problem'
complete -c scxsim -n 'test (count (commandline -opc)) -eq 1' -a explore-few -d 'Try every sequence of events with at most K wakes and sleeps, and print the shortest one for each problem'
complete -c scxsim -n 'test (count (commandline -opc)) -eq 1' -a exec -d 'Run raw BPF instructions as a program without arguments, and print its answer'
complete -c scxsim -n 'test (count (commandline -opc)) -eq 1' -a asm -d 'Assemble text into raw BPF instructions'
complete -c scxsim -n 'test (count (commandline -opc)) -eq 1' -a dis -d 'Disassemble raw BPF instructions into text'
complete -c scxsim -n 'test (count (commandline -opc)) -eq 1' -a cases -d 'Run the commands in files of cases, and compare their output with the expected one'
complete -c scxsim -n '__scxsim_at 2 verify' -a '(__scxsim_files toml)'
complete -c scxsim -n '__scxsim_at 2 verify-json' -a '(__scxsim_files toml)'
complete -c scxsim -n '__scxsim_at 2 explain' -a '(__scxsim_files toml)'
complete -c scxsim -n '__scxsim_at 2 explain-one' -a '(__scxsim_files toml)'
complete -c scxsim -n '__scxsim_at 2 run' -a '(__scxsim_files toml)'
complete -c scxsim -n '__scxsim_at 3 run' -a '(__scxsim_files toml)'
complete -c scxsim -n '__scxsim_at 2 report' -a '(__scxsim_files toml)'
complete -c scxsim -n '__scxsim_at 3 report' -a '(__scxsim_files toml)'
complete -c scxsim -n '__scxsim_at 2 check' -a '(__scxsim_files toml)'
complete -c scxsim -n '__scxsim_at 3 check' -a '(__scxsim_files toml)'
complete -c scxsim -n '__scxsim_at 2 stats' -a '(__scxsim_files toml)'
complete -c scxsim -n '__scxsim_at 3 stats' -a '(__scxsim_files toml)'
complete -c scxsim -n '__scxsim_at 2 stats-csv' -a '(__scxsim_files toml)'
complete -c scxsim -n '__scxsim_at 3 stats-csv' -a '(__scxsim_files toml)'
complete -c scxsim -n '__scxsim_at 2 why' -a '(__scxsim_files toml)'
complete -c scxsim -n '__scxsim_at 3 why' -a '(__scxsim_files toml)'
complete -c scxsim -n '__scxsim_at 2 why-all' -a '(__scxsim_files toml)'
complete -c scxsim -n '__scxsim_at 3 why-all' -a '(__scxsim_files toml)'
complete -c scxsim -n '__scxsim_at 2 why-json' -a '(__scxsim_files toml)'
complete -c scxsim -n '__scxsim_at 3 why-json' -a '(__scxsim_files toml)'
complete -c scxsim -n '__scxsim_at 2 story' -a '(__scxsim_files toml)'
complete -c scxsim -n '__scxsim_at 3 story' -a '(__scxsim_files toml)'
complete -c scxsim -n '__scxsim_at 4 story' -a '(__scxsim_tasks 4)'
complete -c scxsim -n '__scxsim_at 2 step' -a '(__scxsim_files toml)'
complete -c scxsim -n '__scxsim_at 3 step' -a '(__scxsim_files toml)'
complete -c scxsim -n '__scxsim_at 2 maps' -a '(__scxsim_files toml)'
complete -c scxsim -n '__scxsim_at 3 maps' -a '(__scxsim_files toml)'
complete -c scxsim -n '__scxsim_at 2 timeline' -a '(__scxsim_files toml)'
complete -c scxsim -n '__scxsim_at 3 timeline' -a '(__scxsim_files toml)'
complete -c scxsim -n '__scxsim_at 2 timeline-part' -a '(__scxsim_files toml)'
complete -c scxsim -n '__scxsim_at 3 timeline-part' -a '(__scxsim_files toml)'
complete -c scxsim -n '__scxsim_at 2 picture' -a '(__scxsim_files toml)'
complete -c scxsim -n '__scxsim_at 3 picture' -a '(__scxsim_files toml)'
complete -c scxsim -n '__scxsim_at 2 picture-part' -a '(__scxsim_files toml)'
complete -c scxsim -n '__scxsim_at 3 picture-part' -a '(__scxsim_files toml)'
complete -c scxsim -n '__scxsim_at 2 view' -a '(__scxsim_files toml)'
complete -c scxsim -n '__scxsim_at 3 view' -a '(__scxsim_files toml)'
complete -c scxsim -n '__scxsim_at 2 view-part' -a '(__scxsim_files toml)'
complete -c scxsim -n '__scxsim_at 3 view-part' -a '(__scxsim_files toml)'
complete -c scxsim -n '__scxsim_at 2 gantt' -a '(__scxsim_files toml)'
complete -c scxsim -n '__scxsim_at 3 gantt' -a '(__scxsim_files toml)'
complete -c scxsim -n '__scxsim_at 2 gantt-part' -a '(__scxsim_files toml)'
complete -c scxsim -n '__scxsim_at 3 gantt-part' -a '(__scxsim_files toml)'
complete -c scxsim -n '__scxsim_at 2 replay' -a '(__scxsim_files toml)'
complete -c scxsim -n '__scxsim_at 3 replay' -a '(__scxsim_files toml)'
complete -c scxsim -n '__scxsim_at 2 replay-csv' -a '(__scxsim_files toml)'
complete -c scxsim -n '__scxsim_at 3 replay-csv' -a '(__scxsim_files toml)'
complete -c scxsim -n '__scxsim_at 2 explore' -a '(__scxsim_files toml)'
complete -c scxsim -n '__scxsim_at 3 explore' -a '(__scxsim_files toml)'
complete -c scxsim -n '__scxsim_at 4 explore' -a 'events ms workloads'
complete -c scxsim -n '__scxsim_at 2 explore-few' -a '(__scxsim_files toml)'
complete -c scxsim -n '__scxsim_at 3 explore-few' -a '(__scxsim_files toml)'
complete -c scxsim -n '__scxsim_at 4 explore-few' -a 'events ms workloads'
complete -c scxsim -n '__scxsim_at 2 exec' -a '(__scxsim_files bin)'
complete -c scxsim -n '__scxsim_at 2 asm' -a '(__scxsim_files asm)'
complete -c scxsim -n '__scxsim_at 2 dis' -a '(__scxsim_files bin)'
complete -c scxsim -n '__scxsim_after cases' -a '(__scxsim_files txt)'
