# Completion of oopsbox for bash: a file, a command, its parameters.
_oopsbox()
{
    local word=${COMP_WORDS[COMP_CWORD]}
    local keys="mem_size= record_size= console_size= ftrace_size= pmsg_size= ecc= cpus= ftrace_sig= block_size=
        ecc_dump= ecc_console= ecc_ftrace= ecc_pmsg= order= byte_order="
    if [ "$COMP_CWORD" -eq 1 ]; then
        mapfile -t COMPREPLY < <(compgen -f -- "$word")
        compopt -o filenames
    elif [ "$COMP_CWORD" -eq 2 ]; then
        mapfile -t COMPREPLY < <(compgen -W "list extract erase layout run blank make move shared-run salvage rescue
            blk-run" -- "$word")
    else
        case ${COMP_WORDS[2]} in
            move) keys="$keys to" ;;
            blk-run) keys="total_size= kmsg_size= console_size= pmsg_size=" ;;
        esac
        mapfile -t COMPREPLY < <(compgen -W "$keys" -- "$word")
        compopt -o nospace
    fi
}
complete -F _oopsbox oopsbox
