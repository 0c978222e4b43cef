# Completion of the words of tor (BitTorrent metainfo files), for fish. docs/options makes what is between its marks.

# Whether the command is the first of these words, and as many words as the others say stand before the present one.
function __tor_at
    set -l words (commandline -opc)
    test (count $words) -ge 2; and test $words[2] = $argv[1]; and contains -- (count $words) $argv[2..]
end

complete -c tor -f
# docs/options: commands
complete -c tor -n __fish_use_subcommand -s V -l version -d 'Print version'
complete -c tor -n 'not __fish_seen_subcommand_from help' -s h -l help -d 'Print help'
complete -c tor -n __fish_use_subcommand -a make -d 'Make a torrent of a file, a folder or standard input'
complete -c tor -n __fish_use_subcommand -a plan -d 'Write a plan by which many machines hash one torrent'
complete -c tor -n __fish_use_subcommand -a join -d 'Write the torrent of a plan and all its parts'
complete -c tor -n __fish_use_subcommand -a scan -d 'List the files that make would take, and what it would refuse'
complete -c tor -n __fish_use_subcommand -a check -d 'Validate a torrent and show what it contains'
complete -c tor -n __fish_use_subcommand -a magnet -d 'Print the magnet link of a torrent'
complete -c tor -n __fish_use_subcommand -a edit -d 'Write a torrent with another tracker, or with none'
complete -c tor -n __fish_use_subcommand -a prove -d 'Prove that a piece belongs to a file of a torrent'
complete -c tor -n __fish_use_subcommand -a verify -d 'Verify a proof of a piece'
complete -c tor -n __fish_use_subcommand -a recheck -d 'Check files on disk against a torrent'
complete -c tor -n __fish_use_subcommand -a help -d 'Print help'
complete -c tor -n '__tor_at help 2' -a 'make plan join scan check magnet edit prove verify recheck help'
# docs/options: end

# docs/options: words
complete -c tor -n '__fish_seen_subcommand_from make' -l name -x -d 'Name of the torrent, and of a single file'
complete -c tor -n '__fish_seen_subcommand_from make' -l piece-length -x -a auto -d 'Bytes in a piece'
complete -c tor -n '__fish_seen_subcommand_from make' -l kind -x -a 'v1 v2 hybrid' -d 'Which clients can use the torrent'
complete -c tor -n '__fish_seen_subcommand_from make' -l announce -x -d 'URL of the tracker'
complete -c tor -n '__fish_seen_subcommand_from make' -l private -d 'Allow peers from the tracker only'
complete -c tor -n '__fish_seen_subcommand_from make' -l tail -d 'Pad the last file too, in a hybrid of a folder'
complete -c tor -n '__fish_seen_subcommand_from make' -l attrs -r -F -d 'Mark files as executable or hidden'
complete -c tor -n '__fish_seen_subcommand_from make' -l files-from -r -F -d 'Take only the files that FILE lists'
complete -c tor -n '__fish_seen_subcommand_from make' -l how -x -a 'one halves board streams' -d 'Who hashes'
complete -c tor -n '__fish_seen_subcommand_from make' -l workers -x -a auto -d 'Number of workers for halves, board and streams'
complete -c tor -n '__fish_seen_subcommand_from make' -l span -x -d 'Pieces that a worker takes at a time'
complete -c tor -n '__fish_seen_subcommand_from make' -l check-after -d 'Read PATH again, and write the torrent only if every piece still matches'
complete -c tor -n '__fish_seen_subcommand_from make' -l out -r -F -d 'Write to FILE instead of standard output'
complete -c tor -n '__fish_seen_subcommand_from make' -l plan -r -F -d 'Hash a part of the plan in PLAN'
complete -c tor -n '__fish_seen_subcommand_from make' -l part -x -d 'Hash part K of N'
complete -c tor -n '__fish_seen_subcommand_from make' -l explain -d 'If the command fails, print where and why on a second line'
complete -c tor -n '__fish_seen_subcommand_from make' -F
complete -c tor -n '__fish_seen_subcommand_from plan' -l name -x -d 'Name of the torrent, and of a single file'
complete -c tor -n '__fish_seen_subcommand_from plan' -l piece-length -x -a auto -d 'Bytes in a piece'
complete -c tor -n '__fish_seen_subcommand_from plan' -l kind -x -a 'v1 v2 hybrid' -d 'Which clients can use the torrent'
complete -c tor -n '__fish_seen_subcommand_from plan' -l announce -x -d 'URL of the tracker'
complete -c tor -n '__fish_seen_subcommand_from plan' -l private -d 'Allow peers from the tracker only'
complete -c tor -n '__fish_seen_subcommand_from plan' -l tail -d 'Pad the last file too, in a hybrid of a folder'
complete -c tor -n '__fish_seen_subcommand_from plan' -l attrs -r -F -d 'Mark files as executable or hidden'
complete -c tor -n '__fish_seen_subcommand_from plan' -l files-from -r -F -d 'Take only the files that FILE lists'
complete -c tor -n '__fish_seen_subcommand_from plan' -l span -x -d 'Pieces that a worker takes at a time'
complete -c tor -n '__fish_seen_subcommand_from plan' -l out -r -F -d 'Write to FILE instead of standard output'
complete -c tor -n '__fish_seen_subcommand_from plan' -l explain -d 'If the command fails, print where and why on a second line'
complete -c tor -n '__fish_seen_subcommand_from plan' -F
complete -c tor -n '__fish_seen_subcommand_from join' -l out -r -F -d 'Write to FILE instead of standard output'
complete -c tor -n '__fish_seen_subcommand_from join' -l explain -d 'If the command fails, print where and why on a second line'
complete -c tor -n '__fish_seen_subcommand_from join' -F
complete -c tor -n '__fish_seen_subcommand_from scan' -l files-from -r -F -d 'Look only for the files that FILE lists'
complete -c tor -n '__fish_seen_subcommand_from scan' -l null -d 'Print only the paths of the files to take, each ended by a zero byte'
complete -c tor -n '__fish_seen_subcommand_from scan' -l json -d 'Print one JSON object instead of lines'
complete -c tor -n '__fish_seen_subcommand_from scan' -l explain -d 'If the command fails, print where and why on a second line'
complete -c tor -n '__fish_seen_subcommand_from scan' -F
complete -c tor -n '__fish_seen_subcommand_from check' -l null -d 'Print only the paths of the files, each ended by a zero byte'
complete -c tor -n '__fish_seen_subcommand_from check' -l json -d 'Print one JSON object instead of lines'
complete -c tor -n '__fish_seen_subcommand_from check' -l roots -d 'Also print the root of each file, the hash of its Merkle tree'
complete -c tor -n '__fish_seen_subcommand_from check' -l explain -d 'If the command fails, print where and why on a second line'
complete -c tor -n '__fish_seen_subcommand_from check' -F
complete -c tor -n '__fish_seen_subcommand_from magnet' -l name -d 'Add the torrent\'s name, which clients show until they know its files'
complete -c tor -n '__fish_seen_subcommand_from magnet' -l trackers -d 'Add the URL of the torrent\'s tracker, if it has one'
complete -c tor -n '__fish_seen_subcommand_from magnet' -l explain -d 'If the command fails, print where and why on a second line'
complete -c tor -n '__fish_seen_subcommand_from magnet' -F
complete -c tor -n '__fish_seen_subcommand_from edit' -l announce -x -d 'URL of the tracker, in place of all that the torrent has'
complete -c tor -n '__fish_seen_subcommand_from edit' -l no-announce -d 'Remove all trackers'
complete -c tor -n '__fish_seen_subcommand_from edit' -l out -r -F -d 'Write to FILE instead of standard output'
complete -c tor -n '__fish_seen_subcommand_from edit' -l explain -d 'If the command fails, print where and why on a second line'
complete -c tor -n '__fish_seen_subcommand_from edit' -F
complete -c tor -n '__fish_seen_subcommand_from prove' -l explain -d 'If the command fails, print where and why on a second line'
complete -c tor -n '__tor_at prove 2' -F
complete -c tor -n '__fish_seen_subcommand_from verify' -l explain -d 'If the command fails, print where and why on a second line'
complete -c tor -n '__tor_at verify 5 6' -F
complete -c tor -n '__fish_seen_subcommand_from recheck' -l files -d 'Also print a line for each file'
complete -c tor -n '__fish_seen_subcommand_from recheck' -l bad -d 'Also print a line for each file that is not whole'
complete -c tor -n '__fish_seen_subcommand_from recheck' -l null -d 'Print only the paths of these files, each ended by a zero byte'
complete -c tor -n '__fish_seen_subcommand_from recheck' -l json -d 'Print one JSON object instead of lines'
complete -c tor -n '__fish_seen_subcommand_from recheck' -l workers -x -a auto -d 'Number of workers'
complete -c tor -n '__fish_seen_subcommand_from recheck' -l keep-going -d 'Go on past what cannot be read, as if it were missing'
complete -c tor -n '__fish_seen_subcommand_from recheck' -l no-links -d 'Do not follow links below PATH'
complete -c tor -n '__fish_seen_subcommand_from recheck' -l brief -d 'Do not print the line of bits'
complete -c tor -n '__fish_seen_subcommand_from recheck' -l part -x -d 'Check only part K of N'
complete -c tor -n '__fish_seen_subcommand_from recheck' -l extra -d 'List the files in PATH that are not in the torrent, and check no piece'
complete -c tor -n '__fish_seen_subcommand_from recheck' -l explain -d 'If the command fails, print where and why on a second line'
complete -c tor -n '__fish_seen_subcommand_from recheck' -F
# docs/options: end
