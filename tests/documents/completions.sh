#!/usr/bin/env bash
# Tries what the completions of bash, and of fish where it is there, offer for words that end where the
# cursor stands.
set -euo pipefail
export LC_ALL=C
cd "$(dirname "$0")/../.."
repository=$PWD
for it in completions/*.bash; do
    # shellcheck disable=SC1090
    source "$it"
done
# bash knows this only while it completes, and the completions call it
# shellcheck disable=SC2317
compopt() { :; }
scratch=$(mktemp -d)
trap 'rm -rf "$scratch"' EXIT
cd "$scratch"
mkdir 'di:r'
touch '2024-05-01T12:00.log' rx1.log 'a b.log' 'di:r/x.log'
failed=0
# offers LINE WORD..: these words alone are offered, in any order
offers() {
    COMP_LINE=$1 COMP_POINT=${#1} COMP_WORDBREAKS=$' \t\n"\'><=;|&(:'
    local rest=$1
    shift
    # as bash parts a line: at blanks, and before and after colons
    COMP_WORDS=()
    while [[ $rest =~ ^[[:blank:]]*((\\.|[^[:blank:]:\\])+|:+)(.*)$ ]]; do
        COMP_WORDS+=("${BASH_REMATCH[1]}")
        rest=${BASH_REMATCH[3]}
    done
    if [[ -n $rest ]]; then COMP_WORDS+=(''); fi
    COMP_CWORD=$((${#COMP_WORDS[@]} - 1))
    "_${COMP_WORDS[0]//-/_}"
    if [[ $(printf '%s\n' "$@" | sort) != $(printf '%s\n' "${COMPREPLY[@]}" | sort) ]]; then
        echo "tests/documents/completions.sh: after '$COMP_LINE': ${COMPREPLY[*]@Q}, not ${*@Q}" >&2
        failed=1
    fi
}
offers 'aprsbook ' check convert merge widen show help --help --version
offers 'aprsbook  wi' widen
offers 'aprsbook help m' merge
offers 'aprsbook convert ' text kind kiss log capture --help
# nothing that isn't a number
offers 'aprsbook widen '
offers 'aprsbook widen 6'
offers 'aprsbook widen -' --help
offers 'aprsbook widen 60 r' rx1.log
offers 'aprsbook merge --gap '
offers 'aprsbook merge --gap 60 -' --gap --help
offers 'aprsbook merge rx1.log ' 2024-05-01T12:00.log rx1.log 'a b.log' 'di:r'
# names with a colon: what stands before the last colon is there already
offers 'aprsbook check 20' 2024-05-01T12:00.log
offers 'aprsbook check 2024-05-01T12:' 00.log
offers 'aprsbook check 2024-05-01T12:0' 00.log
offers 'aprsbook check 2024-05-01T12\:0' 2024-05-01T12:00.log
offers 'aprsbook show rx1.log 2024-05-01T12:0' 00.log
offers 'aprsbook check di:r/' r/x.log
offers 'aprsbook check a\ ' 'a b.log'
offers 'aprsbook convert capture --moment 2024-05-01T12:00:00Z --receiver RX1 r' rx1.log
offers 'aprsbook convert capture --moment 2024-05-01T12:00:00Z --re' --receiver
offers 'aprsbook-history -' --gap --help --version
offers 'aprsbook-history --gap '
offers 'aprsbook-history --gap 60 r' rx1.log
offers 'aprsbook-history rx1.log ' 2024-05-01T12:00.log rx1.log 'a b.log' 'di:r'
offers 'aprsbook-history 2024-05-01T12:' 00.log
offers 'aprsbook-history 2024-05-01T12:0' 00.log
offers 'aprsbook-history rx1.log di:r/' r/x.log
offers 'aprsbook-table ' rows messages stations things 2024-05-01T12:00.log rx1.log 'a b.log' 'di:r'
offers 'aprsbook-table r' rows rx1.log
offers 'aprsbook-table rows r' rx1.log
offers 'aprsbook-table -' --gap --message-gap --help --version
offers 'aprsbook-table --gap '
offers 'aprsbook-table rows --gap 60 r' rx1.log
offers 'aprsbook-table 2024-05-01T12:' 00.log
# ---- fish, where it is there ----

# fish_offers LINE WORD..: these words alone are offered
fish_offers() {
    local line=$1 offered
    shift
    offered=$(fish -c "for it in $repository/completions/*.fish; source \$it; end; complete -C'$line'" |
        cut -f 1)
    if [[ $(printf '%s\n' "$@" | sort) != $(printf '%s\n' "$offered" | sort) ]]; then
        echo "tests/documents/completions.sh: fish after '$line': ${offered//$'\n'/ }, not $*" >&2
        failed=1
    fi
}
if command -v fish > /dev/null; then
    fish_offers 'aprsbook ' check convert merge widen show help
    fish_offers 'aprsbook convert ' text kind kiss log capture
    fish_offers 'aprsbook convert capture --' --receiver --moment --help
    fish_offers 'aprsbook help m' merge
    fish_offers 'aprsbook widen ' ''
    fish_offers 'aprsbook widen 60 rx' rx1.log
    fish_offers 'aprsbook merge --' --gap --help
    fish_offers 'aprsbook --' --help --version
    fish_offers 'aprsbook-history --' --gap --help --version
    fish_offers 'aprsbook-table ro' rows
fi
[ $failed = 0 ] && echo 'the completions of bash and fish offer what they have to'
exit $failed
