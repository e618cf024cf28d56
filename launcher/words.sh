# Which words ask for what, as the program reads them. Part of `iolmaster`.

# The program takes words of UTF-8 alone, and says so before anything else.
are_text() {
    printf '%s\n' "$@" | iconv -f UTF-8 -t UTF-8 >/dev/null 2>&1
}

# Whether the words are those of a run or a check of one script; `asked` is then the command with its option, and `script` the
# path.
ask_for_script() {
    case ${1-} in run | check) asked=$1 ;; *) return 1 ;; esac
    shift
    options=yes paths=0
    while [ $# -gt 0 ]; do
        case $options,$asked,$1 in
            yes,*,--) options=no ;;
            yes,run,--explain) asked="run --explain" ;;
            yes,*,-?*) return 1 ;;
            *) script=$1 paths=$((paths + 1)) ;;
        esac
        shift
    done
    [ "$paths" -eq 1 ]
}

# Whether a word is a number as the program reads them, 0 to 65,535.
is_number() {
    digits=${1#+}
    case $digits in '' | *[!0-9]*) return 1 ;; esac
    [ "$digits" -le 65535 ] 2>/dev/null
}

# Whether the words are a whole `serve`, which works on a file too. Whether its drivers can be read is judged by the program.
ask_to_serve() {
    [ "${1-}" = serve ] || return 1
    shift
    options=yes paths=0
    while [ $# -gt 0 ]; do
        case $options,$1 in
            yes,--) options=no ;;
            yes,--json | yes,--port=* | yes,--devices=* | yes,--silence=*) ;;
            yes,--port | yes,--devices | yes,--silence) [ $# -gt 1 ] && shift || return 1 ;;
            yes,-?*) return 1 ;;
            *) paths=$((paths + 1)) ;;
        esac
        shift
    done
    [ "$paths" -eq 1 ]
}

# Whether the words are a whole `draw`, `format`, `show`, `map`, `live` or `serve`, which works on a file and so wants the proved program.
ask_for_file() {
    ! ask_to_serve "$@" || return 0
    case ${1-} in draw | format | show | map | live) command=$1 ;; *) return 1 ;; esac
    shift
    options=yes paths=0 ports=0 slots=0 forces=0 receipts=0 jsons=0
    while [ $# -gt 0 ]; do
        case $options,$command,$1 in
            yes,*,--) options=no ;;
            yes,format,--force) forces=$((forces + 1)) ;;
            yes,live,--receipts) receipts=$((receipts + 1)) ;;
            yes,show,--json) jsons=$((jsons + 1)) ;;
            yes,format,--ports) is_number "${2-}" && shift && ports=$((ports + 1)) || return 1 ;;
            yes,format,--slots) is_number "${2-}" && shift && slots=$((slots + 1)) || return 1 ;;
            yes,format,--ports=*) is_number "${1#*=}" && ports=$((ports + 1)) || return 1 ;;
            yes,format,--slots=*) is_number "${1#*=}" && slots=$((slots + 1)) || return 1 ;;
            yes,*,-?*) return 1 ;;
            *) paths=$((paths + 1)) ;;
        esac
        shift
    done
    case $command,$paths,$ports,$slots,$forces,$receipts,$jsons in
        show,1,0,0,0,0,[01] | map,[12],0,0,0,0,0 | draw,2,0,0,0,0,0 | format,1,1,1,[01],0,0 | live,2,0,0,0,[01],0) ;;
        *) return 1 ;;
    esac
}
