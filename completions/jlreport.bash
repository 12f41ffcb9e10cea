# Completes the words of jlreport in bash: its options, and the name of a file for FILE.

_jlreport() {
    local options=' --columns --query --workers --piece --max-refused --explain --partial --join --progress --help --version '
    local current=${COMP_WORDS[COMP_CWORD]} word awaits='' has_file='' has_end=''
    COMPREPLY=()

    # What stands before. Bash parts the words at : and =, so that what stands behind these is no word of its own.
    for word in "${COMP_WORDS[@]:1:COMP_CWORD-1}"; do
        if [[ $word == [:=]* ]]; then
            awaits=${awaits:-rest}
        elif [[ $awaits ]]; then
            awaits=''
        elif [[ $has_end || $word != -* ]]; then
            has_file=yes
        elif [[ $word == -- ]]; then
            has_end=yes
        else
            options=${options/ "$word" / }
            [[ $word == --@(columns|query|workers|piece|max-refused) ]] && awaits=value
        fi
    done

    if [[ $awaits || $current == [:=]* ]]; then
        return
    elif [[ $current == -* && ! $has_end || $has_file && ! $has_end ]]; then
        mapfile -t COMPREPLY < <(compgen -W "$options" -- "$current")
    elif [[ ! $has_file ]]; then
        compopt -o filenames -o default 2>/dev/null
        mapfile -t COMPREPLY < <(compgen -f -- "$current")
    fi
}

complete -F _jlreport jlreport
