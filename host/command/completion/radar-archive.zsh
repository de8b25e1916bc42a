#compdef radar-archive
# Completion of radar-archive for zsh: save this file as _radar-archive in a folder of fpath, or source it after compinit.

# Offers the commands.
_radar-archive_commands() {
    local -a commands=(
        'check:which files are accepted, and what is wrong with the others'
        'info:what a file holds, and how long it would be in each kind'
        'list:all stored cells\: rank, position and word'
        'cell:the word at a place, or at each of many'
        'rank:the rank of the cell at a place, or at each of many'
        'position:the position of a rank'
        'count:the number of stored cells from one place to another'
        'box:the words of a box'
        'expand:all words, raw'
        'make:the file of raw words, or of what list prints'
        'set:a file with one cell written, or many'
        'change:a file, or each of a folder, in another kind, width or step'
        'shorter:the shorter of two files of one picture'
        'diff:the cells in which two pictures differ'
        'best:a file, or each of a folder, in the kind, width and step that make it shortest'
        'manifest:the sums of the files of a folder, written and compared'
        'completion:the completion script of a shell'
        'man:the man page'
        'help:the help of a command'
    )
    _describe -t commands command commands
}

# Offers the options of these names, and then the operands that the other words specify.
_radar-archive_command() { # NAMES -- OPERANDS
    local -A option=(
        -h         '(- *)-h[show the help]'
        --help     '(- *)--help[show the help]'
        --json     '--json[put JSON]'
        -q         '(-q --quiet)-q[tell only what is not accepted, not unchanged, or failed; of diff nothing]'
        --quiet    '(-q --quiet)--quiet[tell only what is not accepted, not unchanged, or failed; of diff nothing]'
        --all      '--all[take names that begin with a dot, too]'
        --name     '--name=[take only files of folders whose names match]:pattern: '
        --files0-from '(*)--files0-from=[check the names in a file, each ended by a zero byte]:file:_files'
        -j         '(-j --jobs)-j+[check so many files at a time]:number, 0 for the processors: '
        --jobs     '(-j --jobs)--jobs=[check so many files at a time]:number, 0 for the processors: '
        --no-progress '--no-progress[draw no progress bar]'
        --hex      '--hex[words in hexadecimal]'
        -f         '(-f --force)-f[replace an existing file]'
        --force    '(-f --force)--force[replace an existing file]'
        -o         '(-o --output)-o+[the file or folder to write]:file:_files'
        --output   '(-o --output)--output=[the file or folder to write]:file:_files'
        -m         '(-m --manifest)-m+[the manifest to compare with]:file:_files'
        --manifest '(-m --manifest)--manifest=[the manifest to compare with]:file:_files'
        --at       '--at=[the place]:place, as 3,17,200 or @3163336: '
        --low      '--low=[the low corner]:place, as 3,17,200 or @3163336: '
        --high     '--high=[the high corner, which belongs to the box]:place, as 3,17,200 or @3163336: '
        --from     '--from=[the first cell that counts]:place, as 3,17,200 or @3163336: '
        --to       '--to=[the last cell that counts]:place, as 3,17,200 or @3163336: '
        --rank     '--rank=[the rank]:rank: '
        --word     '--word=[the word]:word:(empty)'
        --list     '--list=[the text that list prints]:file:_files'
        --dims     '--dims=[the extents]:extents, as 16x1024x1024: '
        --empty    '--empty=[the empty word]:word: '
        --kind     '--kind=[the kind]:kind:(runs positions base-offset jumps paged-runs pointed-jumps)'
        --width    '--width=[bytes of an offset or difference]:bytes:(1 2)'
        --step     '--step=[the step of kinds 3, 5 and 6]:step: '
        --max-length '--max-length=[refuse a longer file]:bytes: '
    )
    local -a specifications
    while [[ $1 != -- ]]; do
        specifications+=("$option[$1]")
        shift
    done
    shift
    _arguments -s "$specifications[@]" "$option[-h]" "$option[--help]" "$@"
}

_radar-archive() {
    local context state state_descr line
    local -A opt_args
    local -a options=() operands=('1:file:_files')
    _arguments -C \
        '(- *)'{-h,--help}'[show the help]' \
        '(- *)'{-V,--version}'[show the version, and what the program was built from]' \
        '1:command:_radar-archive_commands' \
        '*::words:->command' && return
    [[ $state == command ]] || return

    case $words[1] in
        check) options=(--json -q --quiet --all --name --files0-from -j --jobs --no-progress) operands=('*:file or folder:_files') ;;
        info) options=(--json) ;;
        list) options=() ;;
        cell) options=(--at --hex --json) ;;
        rank) options=(--at --json) ;;
        position) options=(--rank --json) ;;
        count) options=(--from --to --json) ;;
        box) options=(--low --high --hex --json -o --output -f --force) ;;
        expand) options=(-o --output -f --force) ;;
        make) options=(--list --dims --empty --kind --width --step -o --output -f --force --max-length) ;;
        set) options=(--at --word -o --output -f --force --max-length) ;;
        change) options=(--kind --width --step -o --output -f --force --max-length --name --all -q --quiet) operands=('1:file or folder:_files') ;;
        shorter) options=(--json) operands=('1:file:_files' '2:file:_files') ;;
        diff) options=(--hex --json -q --quiet) operands=('1:file:_files' '2:file:_files') ;;
        best) options=(-o --output -f --force --max-length --name --all -q --quiet) operands=('1:file or folder:_files') ;;
        manifest) options=(-o --output -f --force -m --manifest -q --quiet --json --all --no-progress) operands=('1:what to do:(write verify)' '2:folder:_files -/') ;;
        completion) operands=('1:shell:(bash zsh fish)') ;;
        man) operands=() ;;
        help) operands=('1:command:_radar-archive_commands') ;;
        *) return 1 ;;
    esac
    _radar-archive_command "$options[@]" -- "$operands[@]"
}

# Loaded by its name this file is the function itself; sourced, it binds it.
if [[ $funcstack[1] == _radar-archive ]]; then
    _radar-archive "$@"
else
    compdef _radar-archive radar-archive
fi
