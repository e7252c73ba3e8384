# Completion of oopsreport for bash: its options and what they take, and files.
_oopsreport()
{
    local word=${COMP_WORDS[COMP_CWORD]}
    local keys="mem_size= record_size= console_size= ftrace_size= pmsg_size= ecc= cpus= ftrace_sig= block_size=
        ecc_dump= ecc_console= ecc_ftrace= ecc_pmsg= order= byte_order="
    local more="ftrace_entry= pstore_blk.kmsg_size= pstore_blk.pmsg_size= pstore_blk.console_size=
        pstore_blk.ftrace_size= pstore_blk.cpus="
    case ${COMP_WORDS[COMP_CWORD - 1]} in
        --param)
            mapfile -t COMPREPLY < <(compgen -W "$keys $more" -- "$word")
            compopt -o nospace ;;
        --color) mapfile -t COMPREPLY < <(compgen -W "auto always never" -- "$word") ;;
        --format) mapfile -t COMPREPLY < <(compgen -W "text json html brief" -- "$word") ;;
        --cmdline | --kernel | --node | --lines | --at | --memory-at) COMPREPLY=() ;;
        --save)
            mapfile -t COMPREPLY < <(compgen -d -- "$word")
            compopt -o filenames ;;
        *)
            if [[ $word == -* ]]; then
                mapfile -t COMPREPLY < <(compgen -W "--param --cmdline --cmdline-file --kernel --dtb --node
                    --mem-as-given --region --log --memory --at --memory-at --symbols -r --recursive --lines
                    --color --format --json --html --brief --save --help --version" -- "$word")
            else
                mapfile -t COMPREPLY < <(compgen -f -- "$word")
                compopt -o filenames
            fi ;;
    esac
}
complete -F _oopsreport oopsreport
