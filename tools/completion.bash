# Completion of ./distantarm for bash: '. tools/completion.bash', from any folder, or in ~/.bashrc with the whole name.
# The first word is a command. The others go by what the command's opening comment says that it takes: for CAPTURE files .mbt, for SCRIPT
# files .script, for FOLDER folders, for NAME programs, for CRATE crates, for OURS files of any name, and words in small letters as they are.

_distantarm_root=$(dirname -- "$(readlink -f -- "${BASH_SOURCE[0]}")")/..

_distantarm_add() { # COMPGEN-OPTIONS..: names that begin with the word
    local name
    while IFS= read -r name; do COMPREPLY+=("$name"); done < <(compgen "$@" -- "$_distantarm_word")
}

_distantarm_files() { # [PATTERN]: folders, and files of that name
    compopt -o filenames 2>/dev/null
    _distantarm_add -d
    [ $# -eq 0 ] || _distantarm_add -f -X "!$1"
}

_distantarm_crates() { # FILE: the crates that have such a file
    local file
    for file in "$_distantarm_root"/crates/*/src/$1.rt; do
        file=${file%/src/*}
        echo "${file##*/}"
    done
}

_distantarm_arguments() { # COMMAND
    local taken argument script=$1
    [ "$script" != run ] || script=mmurun
    read -ra taken < <(sed -n '2s/^# [^ :]*\([^:]*\):.*/\1/p' "$_distantarm_root/tools/$script" 2>/dev/null | tr -d '[]|.')
    for argument in "${taken[@]}"; do
        case $argument in
        CAPTURE) _distantarm_files '*.mbt' ;;
        SCRIPT) _distantarm_files '*.script' ;;
        OURS) _distantarm_files '*' ;;
        FOLDER) _distantarm_files ;;
        NAME) _distantarm_add -W "$(_distantarm_crates main)" ;;
        CRATE) _distantarm_add -W "$(_distantarm_crates '*')" ;;
        -? | [a-z]*) _distantarm_add -W "$argument" ;;
        esac
    done
}

_distantarm() {
    local _distantarm_word=${COMP_WORDS[COMP_CWORD]}
    COMPREPLY=()
    if [ "$COMP_CWORD" -eq 1 ]; then
        _distantarm_add -W "$(sh "$_distantarm_root/distantarm" help --names) help"
    elif [ "${COMP_WORDS[1]}" = help ]; then
        [ "$COMP_CWORD" -ne 2 ] || _distantarm_add -W "$(sh "$_distantarm_root/distantarm" help --names)"
    else
        _distantarm_arguments "${COMP_WORDS[1]}"
    fi
}
complete -F _distantarm distantarm
