# what bash completes for spinview: its options behind a '-', else files; made by tools/completions
_spinview() {
    COMPREPLY=()
    case ${COMP_WORDS[COMP_CWORD]} in
    -*) mapfile -t COMPREPLY < <(compgen -W '--choices --trail --record --random --json --ask --from --serve --chart --page -m -u --explain --prepare -D -I --no-cpp --name --source --lines -h --help -V --version' -- "${COMP_WORDS[COMP_CWORD]}") ;;
    *) mapfile -t COMPREPLY < <(compgen -f -- "${COMP_WORDS[COMP_CWORD]}") ;;
    esac
}
complete -o filenames -F _spinview spinview
