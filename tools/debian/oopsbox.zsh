#compdef oopsbox
# Completion of oopsbox for zsh: a file, a command, its parameters.
local -a keys=(mem_size= record_size= console_size= ftrace_size= pmsg_size= ecc= cpus= ftrace_sig= block_size=
    ecc_dump= ecc_console= ecc_ftrace= ecc_pmsg= order= byte_order=)
case $CURRENT in
    2) _files ;;
    3) compadd list extract erase layout run blank make move shared-run salvage rescue blk-run ;;
    *)
        case $words[3] in
            move) keys+=(to) ;;
            blk-run) keys=(total_size= kmsg_size= console_size= pmsg_size=) ;;
        esac
        compadd -S '' -a keys ;;
esac
