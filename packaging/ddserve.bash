# Completion of ddserve for bash.

# The names of tags that the list lacks so far, behind what stands of it.
_ddserve_tags() {
    local list=${1%"${1##*,}"} left='' name
    for name in DoubleDummyTricks OptimumScore ParContract OptimumResultTable; do
        [[ ,$list == *,$name,* ]] || left+=" $name"
    done
    # A comma may follow.
    compopt -o nospace 2> /dev/null
    mapfile -t COMPREPLY < <(compgen -P "$list" -W "$left" -- "${1##*,}")
}

_ddserve() {
    local cur=${COMP_WORDS[COMP_CWORD]} words='solve serve pbn help --help --version'
    if [ "$COMP_CWORD" -gt 1 ]; then
        # The shell takes `--tags=NAME` for three words.
        local before=${COMP_WORDS[COMP_CWORD - 1]}
        [ "$before" != = ] || before=${COMP_WORDS[COMP_CWORD - 2]}
        [ "$cur" != = ] || cur=''
        case ${COMP_WORDS[1]},$before in
        pbn,--tags) _ddserve_tags "$cur" && return ;;
        solve,*) words='--budget --entries --workers --explain --help' ;;
        serve,*) words='--listen --websocket --workers --shards --entries --budget --events --idle --allow-stop --explain --help' ;;
        pbn,*) words='--tags --budget --entries --workers --help' ;;
        help,*) words='solve serve pbn' ;;
        *) words='' ;;
        esac
    fi
    mapfile -t COMPREPLY < <(compgen -W "$words" -- "$cur")
}
complete -F _ddserve ddserve
