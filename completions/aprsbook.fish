# fish completion of aprsbook, installed as
# $(PREFIX)/share/fish/vendor_completions.d/aprsbook.fish
# made by `make options` of completions/programs.txt: change that, and not this

# whether these words stand right behind the program, and with _end nothing else
function _aprsbook_at
    set -l words (commandline -opc)
    set -l last (math (count $argv) + 1)
    test (count $argv) -eq 0
    or begin
        test (count $words) -ge $last
        and test "$words[2..$last]" = "$argv"
    end
end
function _aprsbook_end
    test (count (commandline -opc)) -eq (math (count $argv) + 1)
    and _aprsbook_at $argv
end

complete -c aprsbook -n '_aprsbook_end' -f -a check -d 'Tell which lines hold no frame, and why'
complete -c aprsbook -n '_aprsbook_end' -f -a convert -d 'Write the frames of a log in another form'
complete -c aprsbook -n '_aprsbook_end' -f -a merge -d 'Write the book of all inputs'
complete -c aprsbook -n '_aprsbook_end' -f -a widen -d 'Write the book of an input under a wider gap'
complete -c aprsbook -n '_aprsbook_end' -f -a show -d 'List what is last known of the stations'
complete -c aprsbook -n '_aprsbook_end' -f -a help -d 'Write help on a command'
complete -c aprsbook -n '_aprsbook_end convert' -f -a text -d 'Each frame as a monitor prints it'
complete -c aprsbook -n '_aprsbook_end convert' -f -a kind -d 'The same, with the kind of report before it'
complete -c aprsbook -n '_aprsbook_end convert' -f -a kiss -d 'The frames as a KISS stream'
complete -c aprsbook -n '_aprsbook_end convert' -f -a log -d 'The log again, in its one spelling'
complete -c aprsbook -n '_aprsbook_end convert' -f -a capture -d 'A log of a KISS stream'
complete -c aprsbook -n '_aprsbook_at convert capture' -l receiver -x -d 'The name of the receiver'
complete -c aprsbook -n '_aprsbook_at convert capture' -l moment -x -a '(date -u +%Y-%m-%dT%H:%M:%SZ)' -d 'When it was heard'
complete -c aprsbook -n '_aprsbook_at merge' -l gap -x -d 'Seconds within which copies are one, 1 to 3600'
complete -c aprsbook -n '_aprsbook_end widen' -f
complete -c aprsbook -n '_aprsbook_at show' -l gap -x -d 'Seconds within which copies are one, 1 to 3600'
complete -c aprsbook -n '_aprsbook_end help' -f -a 'check convert merge widen show help'
complete -c aprsbook -s h -l help -d 'Write help'
complete -c aprsbook -n '_aprsbook_end' -s V -l version -d 'Write the version'
