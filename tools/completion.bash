# Completion of the words of ./capriccio and ./report for bash: `source tools/completion.bash`, or put that line with the folder's path into ~/.bashrc.
_capriccio() {
    local word=${COMP_WORDS[COMP_CWORD]} before=${COMP_WORDS[COMP_CWORD - 1]} command=${COMP_WORDS[1]}
    local placement="--chunk --max-path" policy="--chunks --extra --extra-size --fuel --backlog --caps --high --low --rule --tickets --knee" options=""
    if [ "$COMP_CWORD" -eq 1 ] || [ "$command" = help ]; then
        mapfile -t COMPREPLY < <(compgen -W "serve run build check graph demo audit budget help --help --version" -- "$word")
        return
    fi
    case $before in
        --chunk) options="64 128 256 512 1024 2048 4096 8192 16384 32768 65536" ;;
        --extra-size) options="32 48 64 80 96 112 128 192 256 512 1024" ;;
        --rule) options="graph stride" ;;
        --*) return ;; # a value that only the caller knows
    esac
    case $command:$word in
        *:[0-9]* | *:graph | *:stride) ;;
        serve:-*) options="$placement $policy" ;;
        run:-*) options="$policy" ;;
        audit:-*) options="--chunks --extra --fuel --backlog --caps --high --low --knee --steps" ;;
        build:-* | graph:-*) options="$placement" ;;
    esac
    if [ -n "$options" ]; then
        mapfile -t COMPREPLY < <(compgen -W "$options" -- "$word")
    elif [ "$command" != demo ]; then
        compopt -o filenames 2>/dev/null
        mapfile -t COMPREPLY < <(compgen -f -- "$word")
    fi
}
complete -F _capriccio capriccio ./capriccio

# The report's own options stand before the words of the run.
_capriccio_report() {
    local place=1
    while [ "$place" -lt "$COMP_CWORD" ]; do
        case ${COMP_WORDS[place]} in
            --why | --json | --all) place=$((place + 1)) ;;
            --timeline | --graph | --html | --trace | --folded | --requests | --coverage | --by | --expect | --unit | --request | --answers | --from | --to | --log) place=$((place + 2)) ;;
            *) break ;;
        esac
    done
    if [ "$place" -gt "$COMP_CWORD" ]; then
        compopt -o filenames 2>/dev/null
        mapfile -t COMPREPLY < <(compgen -f -- "${COMP_WORDS[COMP_CWORD]}")
    elif [ "$place" -eq "$COMP_CWORD" ]; then
        mapfile -t COMPREPLY < <(compgen -W "--timeline --graph --html --trace --folded --requests --coverage --json --all --by --expect --unit --why --request --answers --from --to --log serve run graph budget" -- "${COMP_WORDS[COMP_CWORD]}")
    else
        # The rest is as behind ./capriccio.
        COMP_WORDS=("${COMP_WORDS[0]}" "${COMP_WORDS[@]:place}")
        COMP_CWORD=$((COMP_CWORD - place + 1))
        _capriccio
    fi
}
complete -F _capriccio_report report ./report capriccio-report
