# Completion of radar-archive for bash: source this file, or save it as
# ~/.local/share/bash-completion/completions/radar-archive.

_radar_archive() {
    local commands="check info list cell rank position count box expand make set change shorter diff best manifest completion man help"
    local word=${COMP_WORDS[COMP_CWORD]}
    local before=${COMP_WORDS[COMP_CWORD - 1]}
    local options=
    COMPREPLY=()

    if [ "$COMP_CWORD" -eq 1 ]; then
        COMPREPLY=($(compgen -W "$commands --help --version" -- "$word"))
        return
    fi

    # bash takes --name=value for three words.
    if [ "$word" = "=" ]; then
        word=
    elif [ "$before" = "=" ]; then
        before=${COMP_WORDS[COMP_CWORD - 2]}
    fi

    case $before in
        --kind)
            COMPREPLY=($(compgen -W "runs positions base-offset jumps paged-runs pointed-jumps" -- "$word"))
            return
            ;;
        --width)
            COMPREPLY=($(compgen -W "1 2" -- "$word"))
            return
            ;;
        --at | --low | --high | --from | --to | --rank | --dims | --empty | --step | --max-length | --name | --jobs | -j)
            # A number, a place or a pattern: no file names here.
            compopt +o default 2>/dev/null
            return
            ;;
        --word)
            COMPREPLY=($(compgen -W "empty" -- "$word"))
            compopt +o default 2>/dev/null
            return
            ;;
        -o | --output | --list | --files0-from | -m | --manifest)
            return
            ;;
    esac

    case ${COMP_WORDS[1]} in
        check) options="--json --quiet -q --all --name --files0-from --jobs -j --no-progress" ;;
        info) options="--json" ;;
        list) options="" ;;
        cell) options="--at --hex --json" ;;
        rank) options="--at --json" ;;
        position) options="--rank --json" ;;
        count) options="--from --to --json" ;;
        box) options="--low --high --hex --json --output -o --force -f" ;;
        expand) options="--output -o --force -f" ;;
        make) options="--list --dims --empty --kind --width --step --output -o --force -f --max-length" ;;
        set) options="--at --word --output -o --force -f --max-length" ;;
        change) options="--kind --width --step --output -o --force -f --max-length --name --all --quiet -q" ;;
        shorter) options="--json" ;;
        diff) options="--hex --json --quiet -q" ;;
        best) options="--output -o --force -f --max-length --name --all --quiet -q" ;;
        manifest) options="--output -o --force -f --manifest -m --quiet -q --json --all --no-progress" ;;
        completion)
            COMPREPLY=($(compgen -W "bash zsh fish --help" -- "$word"))
            return
            ;;
        help)
            COMPREPLY=($(compgen -W "$commands --help" -- "$word"))
            return
            ;;
    esac
    case $word in
        -*) COMPREPLY=($(compgen -W "$options --help -h" -- "$word")) ;;
        *)
            if [ "${COMP_WORDS[1]} $COMP_CWORD" = "manifest 2" ]; then
                COMPREPLY=($(compgen -W "write verify" -- "$word"))
            fi
            ;;
    esac
}

# Without an answer of its own, bash completes file names.
complete -o bashdefault -o default -F _radar_archive radar-archive
