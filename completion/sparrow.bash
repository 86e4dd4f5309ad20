# Completion of the words of sparrow for bash: commands, options, folders, and files of C.
# shellcheck shell=bash

# The targets of the compile_commands.json among the words: folders NAME.dir or NAME.p of outputs.
_sparrow_targets() {
    local at file
    for ((at = 2; at < COMP_CWORD; at++)); do
        [ "${COMP_WORDS[at]}" = --compile-commands ] || continue
        file=${COMP_WORDS[at + 1]}
        [ "$file" != = ] || file=${COMP_WORDS[at + 2]}
        grep -oE '[^/" ]+\.(dir|p)/' "$file" 2>/dev/null | sed 's,\.[a-z]*/$,,' | sort -u
    done
}

_sparrow() {
    local word=${COMP_WORDS[COMP_CWORD]} before=${COMP_WORDS[COMP_CWORD - 1]} options=--values
    COMPREPLY=()
    # A = is a word of its own.
    if [ "$word" = = ]; then
        word=''
    elif [ "$before" = = ] && [ "$COMP_CWORD" -gt 2 ]; then
        before=${COMP_WORDS[COMP_CWORD - 2]}
    fi
    if [ "$COMP_CWORD" -eq 1 ]; then
        mapfile -t COMPREPLY < <(
            compgen -W 'source analyse dense calls help --help --version --program' -- "$word")
        return
    fi
    case ${COMP_WORDS[1]} in
        source) options+=' --sharp --plain --strict --keep --compile-commands --target -D -I -U -idirafter -imacros -include -iquote -isystem --contexts= --no-contexts --no-models --format --output --progress --color --baseline --update-baseline --fail-on --why' ;;
        analyse | dense) options+=' --nodes --sharp' ;;
        calls) options='' ;;
        *) return ;;
    esac
    case ${COMP_WORDS[1]}:$before in
        source:--compile-commands)
            compopt -o filenames 2>/dev/null
            mapfile -t COMPREPLY < <(compgen -d -- "$word"; compgen -f -X '!*.json' -- "$word")
            return
            ;;
        source:--target) options=$(_sparrow_targets) ;;
        source:--format) options='text plain json sarif html' ;;
        source:--color) options='auto always never' ;;
        source:--fail-on) options='any new' ;;
        *) false ;;
    esac && mapfile -t COMPREPLY < <(compgen -W "$options" -- "$word") && return
    if [[ $word == -* ]]; then
        mapfile -t COMPREPLY < <(compgen -W "$options" -- "$word")
        # A number goes right behind.
        [[ ${COMPREPLY[*]} != *= ]] || compopt -o nospace 2>/dev/null
    else
        # Names with blanks are quoted; outside of a completion there is nothing to set.
        compopt -o filenames 2>/dev/null
        mapfile -t COMPREPLY < <(compgen -d -- "$word"; compgen -f -X '!*.[chi]' -- "$word")
    fi
}

complete -F _sparrow sparrow
