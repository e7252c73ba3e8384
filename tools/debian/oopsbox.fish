# Completion of oopsbox for fish: a file, a command, its parameters.
set -l commands list extract erase layout run blank make move shared-run salvage rescue blk-run
set -l keys mem_size= record_size= console_size= ftrace_size= pmsg_size= ecc= cpus= ftrace_sig= block_size= \
    ecc_dump= ecc_console= ecc_ftrace= ecc_pmsg= order= byte_order=
set -l blk_keys total_size= kmsg_size= console_size= pmsg_size=

complete -c oopsbox -n "test (count (commandline -opc)) -ge 2" -f
complete -c oopsbox -n "test (count (commandline -opc)) -eq 2" -a "$commands"
complete -c oopsbox -n "test (count (commandline -opc)) -ge 3; and not contains blk-run (commandline -opc)[3]" -a "$keys"
complete -c oopsbox -n "test (count (commandline -opc)) -ge 3; and contains move (commandline -opc)[3]" -a to
complete -c oopsbox -n "test (count (commandline -opc)) -ge 3; and contains blk-run (commandline -opc)[3]" -a "$blk_keys"
