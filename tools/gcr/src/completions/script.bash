# Completions of gcr for bash, made by: gcr completions bash

# _gcr_words WORD WORDS: those that begin so, in large or small letters.
_gcr_words() {
    local each
    for each in $2; do
        [[ ${each,,} != "${1,,}"* ]] || COMPREPLY+=("$each")
    done
}

_gcr_files() {
    compopt -o filenames 2>/dev/null
    mapfile -t COMPREPLY < <(compgen -f -- "$1")
}

# _gcr_value WORD COMMAND OPTION PLACE: a word at this place after an option; fails where the option has none there.
_gcr_value() {
    case "$2 $3 $4" in
@VALUES@
        *) return 1 ;;
    esac
}

_gcr_option() {
    case $2 in
@OPTIONS@
    esac
}

_gcr_operand() {
    case $2 in
@OPERANDS@
    esac
}

_gcr() {
    local word=${COMP_WORDS[COMP_CWORD]} each place words=()
    COMPREPLY=()
    # --model=Causal is three words here, of which the second says nothing
    [[ $word != = ]] || word=
    for each in "${COMP_WORDS[@]:0:COMP_CWORD}"; do
        [[ $each == = ]] || words+=("$each")
    done
    if ((${#words[@]} == 1)); then
        _gcr_words "$word" '@COMMANDS@'
        return
    fi
    for ((place = 1; place <= @PLACES@ && ${#words[@]} - place > 1; place++)); do
        _gcr_value "$word" "${words[1]}" "${words[-place]}" "$place" && return
    done
    if [[ $word == -* && " ${words[*]} " != *' -- '* ]]; then
        _gcr_option "$word" "${words[1]}"
    else
        _gcr_operand "$word" "${words[1]}"
    fi
}

complete -F _gcr gcr
