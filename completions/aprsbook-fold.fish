# fish completion of aprsbook-fold, installed as
# $(PREFIX)/share/fish/vendor_completions.d/aprsbook-fold.fish
# made by `make options` of completions/programs.txt: change that, and not this

# whether these words stand right behind the program, and with _end nothing else
function _aprsbook_fold_at
    set -l words (commandline -opc)
    set -l last (math (count $argv) + 1)
    test (count $argv) -eq 0
    or begin
        test (count $words) -ge $last
        and test "$words[2..$last]" = "$argv"
    end
end
function _aprsbook_fold_end
    test (count (commandline -opc)) -eq (math (count $argv) + 1)
    and _aprsbook_fold_at $argv
end

complete -c aprsbook-fold -l gap -x -d 'Seconds within which copies are one, 1 to 3600'
complete -c aprsbook-fold -l from -x -d 'The source to begin with'
complete -c aprsbook-fold -l until -x -d 'The source to end before'
complete -c aprsbook-fold -l new-to -r -d 'The book whose rows are left out'
complete -c aprsbook-fold -l check -d 'Only check the books'
complete -c aprsbook-fold -s h -l help -d 'Write help'
complete -c aprsbook-fold -s V -l version -d 'Write the version'
