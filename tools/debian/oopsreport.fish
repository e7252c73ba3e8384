# Completion of oopsreport for fish: its options and what they take, and files.
set -l keys mem_size= record_size= console_size= ftrace_size= pmsg_size= ecc= cpus= ftrace_sig= block_size= \
    ecc_dump= ecc_console= ecc_ftrace= ecc_pmsg= order= byte_order=

set -l more ftrace_entry= pstore_blk.kmsg_size= pstore_blk.pmsg_size= pstore_blk.console_size= \
    pstore_blk.ftrace_size= pstore_blk.cpus=

complete -c oopsreport -l param -x -a "$keys $more" -d "A parameter of the layout"
complete -c oopsreport -l cmdline -x -d "A kernel's command line"
complete -c oopsreport -l cmdline-file -r -F -d "A file with a kernel's command line"
complete -c oopsreport -l kernel -x -d "The version of the kernel that wrote the ftrace zones"
complete -c oopsreport -l dtb -r -F -d "A board's flattened device tree"
complete -c oopsreport -l node -x -d "The ramoops node of the device tree"
complete -c oopsreport -l mem-as-given -d "Do not round mem_size down to a power of two"
complete -c oopsreport -l region -d "Take each image as a region, also a text log"
complete -c oopsreport -l log -d "Take each image as a text log"
complete -c oopsreport -l memory -d "Each image is a copy of all memory"
complete -c oopsreport -l at -x -d "The region at this place of the memory"
complete -c oopsreport -l memory-at -x -d "The physical address of the memory's first byte"
complete -c oopsreport -l symbols -r -F -d "A System.map, for the functions of ftrace"
complete -c oopsreport -s r -l recursive -d "Of a folder also the files in each folder below"
complete -c oopsreport -l lines -x -d "Last lines of the newest dump"
complete -c oopsreport -l color -x -a "auto always never" -d "Colours of a text"
complete -c oopsreport -l format -x -a "text json html brief" -d "What a report is made as"
complete -c oopsreport -l json -d "As --format json"
complete -c oopsreport -l html -d "As --format html"
complete -c oopsreport -l brief -d "As --format brief"
complete -c oopsreport -l save -x -a "(__fish_complete_directories)" -d "A folder for the records"
complete -c oopsreport -l help -d "Print the options"
complete -c oopsreport -l version -d "Print the version"
