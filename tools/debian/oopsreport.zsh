#compdef oopsreport
# Completion of oopsreport for zsh: its options and what they take, and files.
local -a keys=(mem_size= record_size= console_size= ftrace_size= pmsg_size= ecc= cpus= ftrace_sig= block_size=
    ecc_dump= ecc_console= ecc_ftrace= ecc_pmsg= order= byte_order=)
local -a more=(ftrace_entry= pstore_blk.kmsg_size= pstore_blk.pmsg_size= pstore_blk.console_size=
    pstore_blk.ftrace_size= pstore_blk.cpus=)
_arguments \
    "*--param[a parameter of the layout]:parameter:compadd -S '' $keys $more" \
    '--cmdline[a command line of a kernel]:words:' \
    '--cmdline-file[a file with a command line of a kernel]:file:_files' \
    '--kernel[the version of the kernel that wrote the ftrace zones]:version:' \
    '--dtb[a flattened device tree of a board]:file:_files' \
    '--node[the ramoops node of the device tree]:path:' \
    '--mem-as-given[do not round mem_size down to a power of two]' \
    '--region[take each image as a region, also a text log]' \
    '--log[take each image as a text log]' \
    '--memory[each image is a copy of all memory]' \
    '--at[the region at this place of the memory]:place:' \
    '--memory-at[the physical address of the first byte of the memory]:address:' \
    '--symbols[a System.map, for the functions of ftrace]:file:_files' \
    '(-r --recursive)'{-r,--recursive}'[of a folder also the files in each folder below]' \
    '--lines[last lines of the newest dump]:number:' \
    '--color[colours of a text]:when:(auto always never)' \
    '--format[what a report is made as]:format:(text json html brief)' \
    '--json[as --format json]' \
    '--html[as --format html]' \
    '--brief[as --format brief]' \
    '--save[a folder for the records]:folder:_files -/' \
    '--help[print the options]' \
    '--version[print the version]' \
    '*:image:_files'
