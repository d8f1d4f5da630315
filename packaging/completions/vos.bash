# Completion of vos for bash. Written by packaging/completions/make; do not edit.
_cavygold_vos() {
    local current=${COMP_WORDS[COMP_CWORD]} operation= words= at
    COMPREPLY=()
    for ((at = 1; at < COMP_CWORD; at++)); do
        case ${COMP_WORDS[at]} in
        -hosts) ((at++)) ;;
        *) operation=${COMP_WORDS[at]}; break ;;
        esac
    done
    case $operation in
        '') words='addentry listvldb lock unlock unlockvldb delentry addsite remsite changeloc listaddrs changeaddr help apropos source -hosts --help --version' ;;
        help) words='addentry listvldb lock unlock unlockvldb delentry addsite remsite changeloc listaddrs changeaddr' ;;
        source) COMPREPLY=($(compgen -f -- "$current")); return ;;
        addentry) words='-name -server -partition -id -noauth -localauth -help' ;;
        listvldb) words='-name -server -partition -locked -quiet -nosort -noauth -localauth -help' ;;
        lock) words='-id -noauth -localauth -help' ;;
        unlock) words='-id -noauth -localauth -help' ;;
        unlockvldb) words='-server -partition -noauth -localauth -help' ;;
        delentry) words='-id -noauth -localauth -help' ;;
        addsite) words='-server -partition -id -noauth -localauth -help' ;;
        remsite) words='-server -partition -id -noauth -localauth -help' ;;
        changeloc) words='-server -partition -id -noauth -localauth -help' ;;
        listaddrs) words='-noauth -localauth -help' ;;
        changeaddr) words='-oldaddr -newaddr -remove -noauth -localauth -help' ;;
    esac
    case $operation in
        '' | help) ;;
        *) [[ $current == -* ]] || return ;;
    esac
    COMPREPLY=($(compgen -W "$words" -- "$current"))
}
complete -F _cavygold_vos vos
