# what bash completes for spinprep: its options behind a '-', else files; made by tools/completions
_spinprep() {
    COMPREPLY=()
    case ${COMP_WORDS[COMP_CWORD]} in
    -*) mapfile -t COMPREPLY < <(compgen -W '-D -U -I --no-cpp --expand --strict --play --view --help --version' -- "${COMP_WORDS[COMP_CWORD]}") ;;
    *) mapfile -t COMPREPLY < <(compgen -f -- "${COMP_WORDS[COMP_CWORD]}") ;;
    esac
}
complete -o filenames -F _spinprep spinprep
