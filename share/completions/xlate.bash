# bash and zsh (by bashcompinit): the words of xlate; a file follows --config, --script and --trace.
_xlate() {
    local word=${COMP_WORDS[COMP_CWORD]} before=${COMP_WORDS[COMP_CWORD - 1]} words
    case ${COMP_WORDS[1]} in
        curve) words='--sets --config --script --trace --help' ;;
        nested | harts) words='--script --trace --answers --help' ;;
        *) words='--config --script --trace --make --answers --image --json --proved --help --version' ;;
    esac
    [ "$COMP_CWORD" = 1 ] && words="curve nested harts $words"
    COMPREPLY=()
    case $before in
        --config) compopt -o filenames 2> /dev/null; mapfile -t COMPREPLY < <(compgen -f -X '!*.toml' -- "$word"; compgen -d -- "$word") ;;
        --script | --trace) compopt -o filenames 2> /dev/null; mapfile -t COMPREPLY < <(compgen -f -- "$word") ;;
        --make | --sets) ;;
        *) mapfile -t COMPREPLY < <(compgen -W "$words" -- "$word") ;;
    esac
}
complete -F _xlate xlate ./xlate
