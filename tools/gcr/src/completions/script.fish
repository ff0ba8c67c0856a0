# Completions of gcr for fish, made by: gcr completions fish

# Whether this command was named.
function __gcr_is
    set -l words (commandline -opc)
    test (count $words) -gt 1; and test "$words[2]" = "$argv[1]"
end

function __gcr_has_no_command
    test (count (commandline -opc)) -eq 1
end

complete -c gcr -f
@COMMANDS@
@OPTIONS@
