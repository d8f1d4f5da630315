# Completion of pts for bash. Written by packaging/completions/make; do not edit.
_cavygold_pts() {
    local current=${COMP_WORDS[COMP_CWORD]} operation= words= at
    COMPREPLY=()
    for ((at = 1; at < COMP_CWORD; at++)); do
        case ${COMP_WORDS[at]} in
        -hosts) ((at++)) ;;
        *) operation=${COMP_WORDS[at]}; break ;;
        esac
    done
    case $operation in
        '') words='createuser creategroup delete rename chown adduser removeuser membership examine listowned listentries listmax setmax setfields help apropos source -hosts --help --version' ;;
        help) words='createuser creategroup delete rename chown adduser removeuser membership examine listowned listentries listmax setmax setfields' ;;
        source) COMPREPLY=($(compgen -f -- "$current")); return ;;
        createuser) words='-name -id -noauth -localauth -help' ;;
        creategroup) words='-name -owner -id -noauth -localauth -help' ;;
        delete) words='-nameorid -noauth -localauth -help' ;;
        rename) words='-oldname -newname -noauth -localauth -help' ;;
        chown) words='-name -owner -noauth -localauth -help' ;;
        adduser) words='-user -group -noauth -localauth -help' ;;
        removeuser) words='-user -group -noauth -localauth -help' ;;
        membership) words='-nameorid -noauth -localauth -help' ;;
        examine) words='-nameorid -noauth -localauth -help' ;;
        listowned) words='-nameorid -noauth -localauth -help' ;;
        listentries) words='-users -groups -noauth -localauth -help' ;;
        listmax) words='-noauth -localauth -help' ;;
        setmax) words='-group -user -noauth -localauth -help' ;;
        setfields) words='-nameorid -access -groupquota -noauth -localauth -help' ;;
    esac
    case $operation in
        '' | help) ;;
        *) [[ $current == -* ]] || return ;;
    esac
    COMPREPLY=($(compgen -W "$words" -- "$current"))
}
complete -F _cavygold_pts pts
