# fish completion of aprsbook-table, installed as
# $(PREFIX)/share/fish/vendor_completions.d/aprsbook-table.fish
# made by `make options` of completions/programs.txt: change that, and not this

# whether these words stand right behind the program, and with _end nothing else
function _aprsbook_table_at
    set -l words (commandline -opc)
    set -l last (math (count $argv) + 1)
    test (count $argv) -eq 0
    or begin
        test (count $words) -ge $last
        and test "$words[2..$last]" = "$argv"
    end
end
function _aprsbook_table_end
    test (count (commandline -opc)) -eq (math (count $argv) + 1)
    and _aprsbook_table_at $argv
end

complete -c aprsbook-table -n '_aprsbook_table_end' -a rows -d 'A line for each transmission'
complete -c aprsbook-table -n '_aprsbook_table_end' -a messages -d 'A line for each time that a message was sent'
complete -c aprsbook-table -n '_aprsbook_table_end' -a stations -d 'A line for each station, with what is last known'
complete -c aprsbook-table -n '_aprsbook_table_end' -a things -d 'A line for each object and item'
complete -c aprsbook-table -l gap -x -d 'Seconds within which copies are one, 1 to 3600'
complete -c aprsbook-table -l message-gap -x -d 'Seconds within which a message is repeated, 0 to 3600'
complete -c aprsbook-table -n '_aprsbook_table_at rows' -l gap -x -d 'Seconds within which copies are one, 1 to 3600'
complete -c aprsbook-table -n '_aprsbook_table_at rows' -l message-gap -x -d 'Seconds within which a message is repeated, 0 to 3600'
complete -c aprsbook-table -n '_aprsbook_table_at messages' -l gap -x -d 'Seconds within which copies are one, 1 to 3600'
complete -c aprsbook-table -n '_aprsbook_table_at messages' -l message-gap -x -d 'Seconds within which a message is repeated, 0 to 3600'
complete -c aprsbook-table -n '_aprsbook_table_at stations' -l gap -x -d 'Seconds within which copies are one, 1 to 3600'
complete -c aprsbook-table -n '_aprsbook_table_at stations' -l message-gap -x -d 'Seconds within which a message is repeated, 0 to 3600'
complete -c aprsbook-table -n '_aprsbook_table_at things' -l gap -x -d 'Seconds within which copies are one, 1 to 3600'
complete -c aprsbook-table -n '_aprsbook_table_at things' -l message-gap -x -d 'Seconds within which a message is repeated, 0 to 3600'
complete -c aprsbook-table -s h -l help -d 'Write help'
complete -c aprsbook-table -s V -l version -d 'Write the version'
