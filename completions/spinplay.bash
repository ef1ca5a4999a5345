# what bash completes for spinplay: its options behind a '-', else files; made by tools/completions
_spinplay() {
    COMPREPLY=()
    case ${COMP_WORDS[COMP_CWORD]} in
    -*) mapfile -t COMPREPLY < <(compgen -W '-p -g -l -m -u --choices --record --convert --check --explain --prepare -D -I --no-cpp --name --source --lines -i -T -h --help -V --version' -- "${COMP_WORDS[COMP_CWORD]}") ;;
    *) mapfile -t COMPREPLY < <(compgen -f -- "${COMP_WORDS[COMP_CWORD]}") ;;
    esac
}
complete -o filenames -F _spinplay spinplay
