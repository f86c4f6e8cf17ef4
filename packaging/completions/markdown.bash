# Completion of @PROGRAM@ for bash.
_provedown() {
    local word=${COMP_WORDS[COMP_CWORD]} before=${COMP_WORDS[COMP_CWORD - 1]} words= files= kept=
    case $before in
    -t | --to) words='html events outline toc links broken' ;;
    -e | --extension)
        # (of a list the part after the last comma is completed, and in it the name after no-)
        words='@EXTENSIONS@' kept=${word%"${word##*,}"}
        word=${word#"$kept"}
        if [[ $word == no-* ]]; then
            kept+=no- word=${word#no-}
        fi
        ;;
    --images) words='shown links text' ;;
    -o | --output) files=yes ;;
    --id-prefix | --nesting | --title | --css | --lang | --limit) ;;
    *)
        case $word in
        -*) words='-t --to -e --extension -a --all-extensions --gfm --safe --images --id-prefix --no-rel --nesting -f --full-page --title --css --lang --toc --positions --lossy --limit -o --output -h --help -V --version' ;;
        *) files=yes ;;
        esac
        ;;
    esac
    COMPREPLY=()
    if [ -n "$words" ]; then
        mapfile -t COMPREPLY < <(compgen -P "$kept" -W "$words" -- "$word")
    elif [ -n "$files" ]; then
        mapfile -t COMPREPLY < <(compgen -f -- "$word")
    fi
}
complete -o filenames -F _provedown @PROGRAM@
