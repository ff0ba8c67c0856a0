#compdef gcr
# Completions of gcr for zsh, made by: gcr completions zsh

# Names, for letters that may be large or small.
_gcr_names() {
    compadd -M 'm:{[:lower:]}={[:upper:]}' "$@"
}

_gcr() {
    local -a commands
    commands=(
@COMMANDS@
    )
    if ((CURRENT == 2)); then
        _describe command commands
        return
    fi
    shift words
    ((CURRENT--))
    case $words[1] in
@ARGUMENTS@
    esac
}

# where zsh has loaded this as a function it is to complete already, else it is told of it
if [[ $funcstack[1] == _gcr ]]; then
    _gcr "$@"
else
    compdef _gcr gcr
fi
