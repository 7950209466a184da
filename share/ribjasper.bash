# Completion for bash. Written by tools/write/commands.py from docs/FORMATS.md.
_ribjasper() {
    local word=${COMP_WORDS[COMP_CWORD]} before=${COMP_WORDS[COMP_CWORD-1]} options=
    case " ${COMP_WORDS[*]:1:COMP_CWORD-1} " in
        *' -- '*)
            local IFS=$'\n'
            compopt -o filenames 2>/dev/null
            COMPREPLY=($(compgen -f -- "$word"))
            return ;;
    esac
    if [ "$COMP_CWORD" -eq 1 ]; then
        COMPREPLY=($(compgen -W 'convert screen state check q text author press merge thin save resume planar raw gen scratch trial' -- "$word"))
        return
    fi
    case ${COMP_WORDS[1]}$before in
        convert--lead-in) COMPREPLY=($(compgen -W '' -- "$word")); return ;;
        convert--form) COMPREPLY=($(compgen -W 'raw sector cooked' -- "$word")); return ;;
        screen--lead-in) COMPREPLY=($(compgen -W '' -- "$word")); return ;;
        screen--form) COMPREPLY=($(compgen -W 'raw sector cooked' -- "$word")); return ;;
        screen--at) COMPREPLY=($(compgen -W '' -- "$word")); return ;;
        state--lead-in) COMPREPLY=($(compgen -W '' -- "$word")); return ;;
        state--form) COMPREPLY=($(compgen -W 'raw sector cooked' -- "$word")); return ;;
        state--at) COMPREPLY=($(compgen -W '' -- "$word")); return ;;
        check--lead-in) COMPREPLY=($(compgen -W '' -- "$word")); return ;;
        check--form) COMPREPLY=($(compgen -W 'raw sector cooked' -- "$word")); return ;;
        q--lead-in) COMPREPLY=($(compgen -W '' -- "$word")); return ;;
        q--form) COMPREPLY=($(compgen -W 'raw sector' -- "$word")); return ;;
        text--lead-in) COMPREPLY=($(compgen -W '' -- "$word")); return ;;
        text--form) COMPREPLY=($(compgen -W 'raw sector' -- "$word")); return ;;
        author--lead-in) COMPREPLY=($(compgen -W '' -- "$word")); return ;;
        author--length) COMPREPLY=($(compgen -W '' -- "$word")); return ;;
        press--lead-in) COMPREPLY=($(compgen -W '' -- "$word")); return ;;
        press--length) COMPREPLY=($(compgen -W '' -- "$word")); return ;;
        merge--lead-in) COMPREPLY=($(compgen -W '' -- "$word")); return ;;
        save--lead-in) COMPREPLY=($(compgen -W '' -- "$word")); return ;;
        resume--at) COMPREPLY=($(compgen -W '' -- "$word")); return ;;
        gen--seed) COMPREPLY=($(compgen -W '' -- "$word")); return ;;
        gen--pictures) COMPREPLY=($(compgen -W '' -- "$word")); return ;;
        scratch--lead-in) COMPREPLY=($(compgen -W '' -- "$word")); return ;;
        scratch--seed) COMPREPLY=($(compgen -W '' -- "$word")); return ;;
        trial--seed) COMPREPLY=($(compgen -W '' -- "$word")); return ;;
        trial--pictures) COMPREPLY=($(compgen -W '' -- "$word")); return ;;
    esac
    case ${COMP_WORDS[1]} in
        convert) options='--lead-in --form --' ;;
        screen) options='--lead-in --form --at --' ;;
        state) options='--lead-in --form --at --' ;;
        check) options='--lead-in --form --' ;;
        q) options='--lead-in --form --' ;;
        text) options='--lead-in --form --' ;;
        author) options='--lead-in --length --' ;;
        press) options='--lead-in --length --' ;;
        merge) options='--lead-in --' ;;
        thin) options='--' ;;
        save) options='--lead-in --' ;;
        resume) options='--at --' ;;
        planar) options='--' ;;
        raw) options='--' ;;
        gen) options='--seed --pictures --' ;;
        scratch) options='--lead-in --seed --' ;;
        trial) options='--seed --pictures --' ;;
    esac
    COMPREPLY=($(compgen -W "$options" -- "$word"))
}
complete -F _ribjasper ribjasper
