# Completion of mdrender's and mdpreview's words for bash: each option once but --extension, one kind of line breaks and of entities, a file behind
# --entities and --prelude, the words that --to and --extension may have, nothing behind a number, and one file to read.

# The files that begin as the word does, folders among them. One whose name begins with a hyphen would be taken for an option, but for its folder.
_mdrender_files() {
    local name
    compopt -o filenames 2> /dev/null
    while IFS= read -r name; do
        COMPREPLY+=("${name/#-/./-}")
    done < <(compgen -f -- "$1")
}

# The options that may still be given to a program after those in $given.
_mdrender_options() {
    local option
    [ "${1##*/}" != mdpreview ] || [[ $given == *" --lines "* ]] || echo --lines
    for option in --unsafe --hardbreaks --nobreaks --github-pre-lang --full-info-string --table-prefer-style-attributes --entities --html-entities \
        --strikethrough-double-tilde --prelude --max-containers --max-spans --explain --to --extension --validate-utf8 --width --help --version; do
        case "$option $given" in
            --extension*) echo "$option" ;;
            *" $option "*) ;;
            --hardbreaks*" --nobreaks "* | --nobreaks*" --hardbreaks "*) ;;
            --entities*" --html-entities "* | --html-entities*" --entities "*) ;;
            *) echo "$option" ;;
        esac
    done
}

_mdrender() {
    local current=${COMP_WORDS[COMP_CWORD]} given=' ' ended='' named='' value='' word at
    COMPREPLY=()
    for ((at = 1; at < COMP_CWORD; at++)); do
        word=${COMP_WORDS[at]}
        if [ -n "$value" ]; then
            # The readers of bash's words cut `--entities=FILE` before and behind the sign.
            [ "$word" = "=" ] || value=
        elif [ -n "$ended" ]; then
            named=1
        else
            case $word in
                --) ended=1 ;;
                --entities | --prelude) given+="$word " value=file ;;
                --max-containers | --max-spans | --width) given+="$word " value=number ;;
                --to | -t) given+="--to " value=html ;;
                --extension | -e) value='table strikethrough tasklist' ;;
                -?*) given+="$word " ;;
                *) named=1 ;;
            esac
        fi
    done
    if [ "$value" = number ]; then
        return
    elif [ "$value" = file ]; then
        _mdrender_files "${current#=}"
    elif [ -n "$value" ]; then
        while IFS= read -r word; do
            COMPREPLY+=("$word")
        done < <(compgen -W "$value" -- "${current#=}")
    elif [ -z "$ended" ] && [[ $current == -* ]]; then
        while IFS= read -r word; do
            COMPREPLY+=("$word")
        done < <(compgen -W "$(_mdrender_options "${COMP_WORDS[0]}")" -- "$current")
    elif [ -z "$named" ]; then
        _mdrender_files "$current"
    fi
}

complete -F _mdrender mdrender mdpreview
