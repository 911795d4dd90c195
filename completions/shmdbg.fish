# What fish offers behind the word shmdbg. To use it: put this file into ~/.config/fish/completions

complete -c shmdbg -f
complete -c shmdbg -n __fish_use_subcommand -a replay -d 'Replay a script, of a file or of standard input'
complete -c shmdbg -n __fish_use_subcommand -a run -d 'Run the workload on standard input on sites in threads, and audit it'
complete -c shmdbg -n __fish_use_subcommand -a simulate -d 'Run the workload on standard input over and over, and count its outcomes'
complete -c shmdbg -n __fish_use_subcommand -a prompt -d 'Answer each line as it is typed'
complete -c shmdbg -n __fish_use_subcommand -a draw -d 'Draw the run that a script leaves, of a file or of standard input'
complete -c shmdbg -n __fish_use_subcommand -a site -d 'Run one site of a cluster on the lines of standard input'
complete -c shmdbg -n __fish_use_subcommand -a audit -d 'Audit the journals of all sites of a cluster'
complete -c shmdbg -n __fish_use_subcommand -a journal -d "Tell what a site's journal has"
complete -c shmdbg -n __fish_use_subcommand -a shorten -d "Make a site's journal shorter"
complete -c shmdbg -n __fish_use_subcommand -a help -d 'Print help'
complete -c shmdbg -n __fish_use_subcommand -s h -l help -d 'Print help'
complete -c shmdbg -n __fish_use_subcommand -s V -l version -d 'Print the version'
complete -c shmdbg -n '__fish_seen_subcommand_from replay' -F
complete -c shmdbg -n '__fish_seen_subcommand_from replay' -s h -l help -d 'Print help'
complete -c shmdbg -n '__fish_seen_subcommand_from run' -l sites -x -a '(seq 16)' -d 'How many sites, 1 to 16'
complete -c shmdbg -n '__fish_seen_subcommand_from run' -l seed -x -d 'The seed of the losses and repeats'
complete -c shmdbg -n '__fish_seen_subcommand_from run' -l summary -d 'Add how much was done, and how long it took'
complete -c shmdbg -n '__fish_seen_subcommand_from run' -l log -r -a '(__fish_complete_directories)' -d "Leave each site's log in this folder, which exists"
complete -c shmdbg -n '__fish_seen_subcommand_from run' -s h -l help -d 'Print help'
complete -c shmdbg -n '__fish_seen_subcommand_from simulate' -l sites -x -a '(seq 16)' -d 'How many sites, 1 to 16'
complete -c shmdbg -n '__fish_seen_subcommand_from simulate' -l seed -x -d 'The seed of the first run; each further run has the next'
complete -c shmdbg -n '__fish_seen_subcommand_from simulate' -l runs -x -d 'How many runs, from 1 on'
complete -c shmdbg -n '__fish_seen_subcommand_from simulate' -l lose -x -d 'Of 100 messages that would arrive, so many are lost'
complete -c shmdbg -n '__fish_seen_subcommand_from simulate' -l repeat -x -d 'Of 100 messages that arrive, so many do once more'
complete -c shmdbg -n '__fish_seen_subcommand_from simulate' -l restart -x -d 'Of 100 events so many are restarts of a site'
complete -c shmdbg -n '__fish_seen_subcommand_from simulate' -l keep -r -a '(__fish_complete_directories)' -d 'Leave a script of each outcome in this folder, which exists'
complete -c shmdbg -n '__fish_seen_subcommand_from simulate' -s h -l help -d 'Print help'
complete -c shmdbg -n '__fish_seen_subcommand_from prompt' -s h -l help -d 'Print help'
complete -c shmdbg -n '__fish_seen_subcommand_from draw' -F
complete -c shmdbg -n '__fish_seen_subcommand_from draw' -l page -x -d 'The page to show, by its segment and its index'
complete -c shmdbg -n '__fish_seen_subcommand_from draw' -l steps -d 'Write a page for a browser, with the picture and the tables of each step'
complete -c shmdbg -n '__fish_seen_subcommand_from draw' -l notes -r -F -d 'Add the captions that this file has for rows'
complete -c shmdbg -n '__fish_seen_subcommand_from draw' -s h -l help -d 'Print help'
complete -c shmdbg -n '__fish_seen_subcommand_from site' -l sites -x -a '(seq 16)' -d 'How many sites, 1 to 16'
complete -c shmdbg -n '__fish_seen_subcommand_from site' -l me -x -a '(seq 0 15)' -d 'Which site this is, 0 to N-1'
complete -c shmdbg -n '__fish_seen_subcommand_from site' -l preset -x -d 'How many pages segment 0 has, 1 to 256'
complete -c shmdbg -n '__fish_seen_subcommand_from site' -l journal -r -F -d "Keep the site's journal in this file, and begin as it says"
complete -c shmdbg -n '__fish_seen_subcommand_from site' -l new -d "Begin the journal, which doesn't exist yet"
complete -c shmdbg -n '__fish_seen_subcommand_from site' -l shorten-at -x -d 'Make the journal shorter when it has so many bytes, 0 for never'
complete -c shmdbg -n '__fish_seen_subcommand_from site' -l forget -d 'Keep no whole journal when it is made shorter'
complete -c shmdbg -n '__fish_seen_subcommand_from site' -l cluster -x -d "The cluster's name, which stands behind each of its lines"
complete -c shmdbg -n '__fish_seen_subcommand_from site' -l key -r -F -d "The file of the cluster's key, under which each line has a digest"
complete -c shmdbg -n '__fish_seen_subcommand_from site' -s h -l help -d 'Print help'
complete -c shmdbg -n '__fish_seen_subcommand_from audit' -F
complete -c shmdbg -n '__fish_seen_subcommand_from audit' -l sites -x -a '(seq 16)' -d 'How many sites, 1 to 16'
complete -c shmdbg -n '__fish_seen_subcommand_from audit' -s h -l help -d 'Print help'
complete -c shmdbg -n '__fish_seen_subcommand_from journal' -F
complete -c shmdbg -n '__fish_seen_subcommand_from journal' -s h -l help -d 'Print help'
complete -c shmdbg -n '__fish_seen_subcommand_from shorten' -F
complete -c shmdbg -n '__fish_seen_subcommand_from shorten' -s h -l help -d 'Print help'
complete -c shmdbg -n '__fish_seen_subcommand_from help' -a 'replay run simulate prompt draw site audit journal shorten help'
