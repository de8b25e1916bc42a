# Completion of radar-archive for fish: source this file, or save it as
# ~/.config/fish/completions/radar-archive.fish.

# Whether no command is given yet.
function __radar_archive_no_command
    test (count (commandline -opc)) -eq 1
end

# Whether the command is one of these.
function __radar_archive_command
    set -l words (commandline -opc)
    test (count $words) -ge 2; and contains -- $words[2] $argv
end

# Offers something for these commands.
function __radar_archive_offer -a commands
    complete -c radar-archive -n "__radar_archive_command $commands" $argv[2..]
end

complete -c radar-archive -f

# The commands.
complete -c radar-archive -n __radar_archive_no_command -s h -l help -d 'show the help'
complete -c radar-archive -n __radar_archive_no_command -s V -l version -d 'show the version, and what the program was built from'
complete -c radar-archive -n __radar_archive_no_command -a check -d 'which files are accepted, and what is wrong with the others'
complete -c radar-archive -n __radar_archive_no_command -a info -d 'what a file holds, and how long it would be in each kind'
complete -c radar-archive -n __radar_archive_no_command -a list -d 'all stored cells: rank, position and word'
complete -c radar-archive -n __radar_archive_no_command -a cell -d 'the word at a place, or at each of many'
complete -c radar-archive -n __radar_archive_no_command -a rank -d 'the rank of the cell at a place, or at each of many'
complete -c radar-archive -n __radar_archive_no_command -a position -d 'the position of a rank'
complete -c radar-archive -n __radar_archive_no_command -a count -d 'the number of stored cells from one place to another'
complete -c radar-archive -n __radar_archive_no_command -a box -d 'the words of a box'
complete -c radar-archive -n __radar_archive_no_command -a expand -d 'all words, raw'
complete -c radar-archive -n __radar_archive_no_command -a make -d 'the file of raw words, or of what list prints'
complete -c radar-archive -n __radar_archive_no_command -a set -d 'a file with one cell written, or many'
complete -c radar-archive -n __radar_archive_no_command -a change -d 'a file, or each of a folder, in another kind, width or step'
complete -c radar-archive -n __radar_archive_no_command -a shorter -d 'the shorter of two files of one picture'
complete -c radar-archive -n __radar_archive_no_command -a diff -d 'the cells in which two pictures differ'
complete -c radar-archive -n __radar_archive_no_command -a best -d 'a file, or each of a folder, in the kind, width and step that make it shortest'
complete -c radar-archive -n __radar_archive_no_command -a manifest -d 'the sums of the files of a folder, written and compared'
complete -c radar-archive -n __radar_archive_no_command -a completion -d 'the completion script of a shell'
complete -c radar-archive -n __radar_archive_no_command -a man -d 'the man page'
complete -c radar-archive -n __radar_archive_no_command -a help -d 'the help of a command'

# The operands.
__radar_archive_offer 'check info list cell rank position count box expand make set change shorter diff best' -F
__radar_archive_offer manifest -a '(__fish_complete_directories)'
complete -c radar-archive -n '__radar_archive_command manifest; and test (count (commandline -opc)) -eq 2' -a 'write verify'
__radar_archive_offer completion -a 'bash zsh fish'
__radar_archive_offer help -a 'check info list cell rank position count box expand make set change shorter diff best manifest completion man help'

# The options.
__radar_archive_offer 'check info list cell rank position count box expand make set change shorter diff best manifest completion man help' -s h -l help -d 'show the help'
__radar_archive_offer 'check info cell rank position count box shorter diff manifest' -l json -d 'put JSON'
__radar_archive_offer 'check change best manifest' -s q -l quiet -d 'tell only what is not accepted, not unchanged, or failed'
__radar_archive_offer diff -s q -l quiet -d 'print nothing'
__radar_archive_offer 'check change best manifest' -l all -d 'take names that begin with a dot, too'
__radar_archive_offer 'check change best' -x -l name -d 'take only files of folders whose names match'
__radar_archive_offer check -r -F -l files0-from -d 'check the names in a file, each ended by a zero byte'
__radar_archive_offer check -x -s j -l jobs -d 'check so many files at a time'
__radar_archive_offer 'check manifest' -l no-progress -d 'draw no progress bar'
__radar_archive_offer 'cell box diff' -l hex -d 'words in hexadecimal'
__radar_archive_offer 'cell rank set' -x -l at -d 'the place, as 3,17,200 or @3163336'
__radar_archive_offer box -x -l low -d 'the low corner, as 3,16,198'
__radar_archive_offer box -x -l high -d 'the high corner, which belongs to the box'
__radar_archive_offer count -x -l from -d 'the first cell that counts, as 350,0'
__radar_archive_offer count -x -l to -d 'the last cell that counts, as 359,511'
__radar_archive_offer position -x -l rank -d 'the rank'
__radar_archive_offer set -x -l word -a empty -d 'the word'
__radar_archive_offer make -r -F -l list -d 'the text that list prints'
__radar_archive_offer make -x -l dims -d 'the extents, as 16x1024x1024'
__radar_archive_offer make -x -l empty -d 'the empty word'
__radar_archive_offer 'make change' -x -l kind -a 'runs positions base-offset jumps paged-runs pointed-jumps' -d 'the kind'
__radar_archive_offer 'make change' -x -l width -a '1 2' -d 'bytes of an offset or difference'
__radar_archive_offer 'make change' -x -l step -d 'the step of kinds 3, 5 and 6'
__radar_archive_offer 'make set change best' -x -l max-length -d 'refuse a longer file'
__radar_archive_offer 'box expand make set change best manifest' -r -F -s o -l output -d 'the file or folder to write'
__radar_archive_offer 'box expand make set change best manifest' -s f -l force -d 'replace an existing file'
__radar_archive_offer manifest -r -F -s m -l manifest -d 'the manifest to compare with'

functions -e __radar_archive_offer
