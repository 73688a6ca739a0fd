# fish completion of aprsbook-history, installed as
# $(PREFIX)/share/fish/vendor_completions.d/aprsbook-history.fish
# made by `make options` of completions/programs.txt: change that, and not this

# whether these words stand right behind the program, and with _end nothing else
function _aprsbook_history_at
    set -l words (commandline -opc)
    set -l last (math (count $argv) + 1)
    test (count $argv) -eq 0
    or begin
        test (count $words) -ge $last
        and test "$words[2..$last]" = "$argv"
    end
end
function _aprsbook_history_end
    test (count (commandline -opc)) -eq (math (count $argv) + 1)
    and _aprsbook_history_at $argv
end

complete -c aprsbook-history -l gap -x -d 'Seconds within which copies are one, 1 to 3600'
complete -c aprsbook-history -s h -l help -d 'Write help'
complete -c aprsbook-history -s V -l version -d 'Write the version'
