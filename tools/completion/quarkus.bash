# Completion of quarkus and of the tools beside it, for bash: source this file.
# What has no form yet isn't offered.

_quarkus() {
    local word=${COMP_WORDS[COMP_CWORD]} before=${COMP_WORDS[COMP_CWORD - 1]} command=${COMP_WORDS[1]:-}
    COMPREPLY=()
    if [ "$COMP_CWORD" -eq 1 ]; then
        mapfile -t COMPREPLY < <(compgen -W "plan build dump" -- "$word")
        return
    fi
    if [ "$before" = --workers ]; then
        mapfile -t COMPREPLY < <(compgen -W "1 2 4 8 16 32 64" -- "$word")
        return
    fi
    case $command in
        plan | build)
            if [ "$command" = build ] && [[ $word == -* ]]; then
                mapfile -t COMPREPLY < <(compgen -W "--workers" -- "$word")
            else
                mapfile -t COMPREPLY < <(compgen -f -X '!*.toml' -- "$word"; compgen -d -- "$word")
            fi
            ;;
        dump) mapfile -t COMPREPLY < <(compgen -f -X '!*.class' -- "$word"; compgen -d -- "$word") ;;
    esac
}

# The steps and items of a project file, and its extensions' steps by their full names.
_quarkus_names() {
    sed -n 's/.*name *= *"\([A-Za-z][A-Za-z0-9_]*\)".*/\1/p' "$1" 2>/dev/null | sort -u
}

_quarkus_tools() {
    local word=${COMP_WORDS[COMP_CWORD]} tool=${COMP_WORDS[0]##*/}
    COMPREPLY=()
    if [ "$tool" = why ] && [ "$COMP_CWORD" -eq 2 ]; then
        mapfile -t COMPREPLY < <(compgen -W "$(_quarkus_names "${COMP_WORDS[1]}")" -- "$word")
    elif [ "$tool" = explain ] && [ "$COMP_CWORD" -gt 1 ]; then
        mapfile -t COMPREPLY < <(compgen -W "-- plan build dump --workers" -- "$word"; compgen -d -- "$word")
    elif [ "$tool" = graph ] && [[ $word == -* ]]; then
        mapfile -t COMPREPLY < <(compgen -W "--svg --dot" -- "$word")
    elif [ "$tool" = history ] && [[ $word == -* ]]; then
        mapfile -t COMPREPLY < <(compgen -W "--json --html" -- "$word")
    else
        mapfile -t COMPREPLY < <(compgen -f -X '!*.toml' -- "$word"; compgen -d -- "$word")
    fi
}

complete -o filenames -F _quarkus quarkus ./quarkus
complete -o filenames -F _quarkus_tools tools/explain tools/why tools/lint tools/graph tools/history tools/watch
