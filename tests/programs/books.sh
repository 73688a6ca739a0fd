#!/bin/sh
# Tries what happens to books: merge-driver, aprs-net sqlite, and the line of the cookbook for a crontab.
# Needs a POSIX system and mktemp, and says what it leaves out because a tool isn't there.
# usage: tests/programs/books.sh PROGRAM
. "$(dirname "$0")/program.sh"
cp "$repository"/examples/evening/*.log "$scratch"
cd "$scratch"
for gap in 5 30 60; do
    for name in hill coast north; do aprsbook merge --gap $gap $name.log > $name.$gap; done
    aprsbook merge --gap $gap ./*.log > all.$gap
done
head -c 2000 north.30 > cut.30
: > empty
# of versions that this program doesn't have, the first as long as one that it has
sed '1s/.*/APRSBOOK 4 60/' north.30 > later.30
sed '1s/.*/APRSBOOK 10/' north.30 > much_later.30

# ---- merge-driver ----

if has merge-driver git; then
    export HOME="$scratch" XDG_CONFIG_HOME="$scratch"
    git config --global user.name club
    git config --global user.email club@example.org
    git config --global merge.aprsbook.driver 'merge-driver %O %A %B'
    # commit BOOK: the file is this book
    commit() {
        cp "$1" 'repo/a net.book'
        git -C repo add -A && git -C repo commit -q -m "$1"
    }
    # both BASE OURS THEIRS: git merges two branches with these books of a file; BASE may be none
    both() {
        rm -rf repo
        git init -q repo
        echo '*.book merge=aprsbook -text' > repo/.gitattributes
        git -C repo add -A && git -C repo commit -q -m base
        if [ -n "$1" ]; then commit "$1"; fi
        git -C repo checkout -q -b other && commit "$3"
        git -C repo checkout -q - && commit "$2"
        git -C repo merge -q -m both other >&2
    }
    # drive BASE OURS THEIRS: the driver, with copies of these books
    drive() {
        rm -rf driven && mkdir driven
        cp "$1" driven/base && cp "$2" driven/ours && cp "$3" driven/theirs
        merge-driver driven/base driven/ours driven/theirs
    }
    for gap in 5 30 60; do
        aprsbook merge --gap $gap hill.log coast.log > ours.$gap
        aprsbook merge --gap $gap hill.log north.log > theirs.$gap
        makes all.$gap 'repo/a net.book' both hill.$gap ours.$gap theirs.$gap
    done
    # one branch has a wider gap, or both; without a base
    makes all.60 'repo/a net.book' both hill.30 ours.30 theirs.60
    makes all.60 'repo/a net.book' both hill.30 ours.60 theirs.60
    makes all.5 'repo/a net.book' both '' ours.5 theirs.5
    # an empty book and one that was cut short are conflicts, and nothing is left behind
    for book in empty cut.30; do refused CONFLICT both hill.30 ours.30 $book; done
    # so is one of a version that isn't known, which is said before anything is changed
    for book in later.30 much_later.30; do
        version=$(sed -n 1p $book)
        refused "base begins with '$version'" drive $book ours.30 theirs.30
        same ours.30 driven/ours
        refused "ours begins with '$version'" drive hill.30 $book theirs.30
        same $book driven/ours
        refused "theirs begins with '$version'" drive hill.30 ours.30 $book
        same ours.30 driven/ours
        refused CONFLICT both hill.30 ours.30 $book
    done
    makes all.30 driven/ours drive hill.30 ours.30 theirs.30
    # a system whose lines of text end otherwise has the same book
    git config --global core.autocrlf true
    makes all.30 'repo/a net.book' both hill.30 ours.30 theirs.30
    git -C repo rm -q --cached 'a net.book' && rm 'repo/a net.book'
    git -C repo reset -q --hard
    same all.30 'repo/a net.book'
    refused CONFLICT both hill.30 ours.30 empty
    find repo/* repo/.merge* > left 2> said || true
    [ "$(cat left)" = 'repo/a net.book' ] || fail "left behind: $(cat left)"
fi

# ---- aprs-net sqlite ----

if has 'aprs-net sqlite' python3 sqlite3 aprsbook-table; then
    # counts: the rows of the tables
    counts() {
        for it in transmissions messages; do
            sqlite3 net.db "select count(*) from $it"
        done | tr '\n' ' '
    }
    aprsbook show all.30 > listing
    # heads WORDS FILE: so many lines begin so
    heads() { grep -Ec "^($1) " "$2"; }
    expected="$(heads T all.30) $(heads message listing) "
    for book in all.30 all.30 all.60; do
        aprs-net sqlite net.db $book
        [ "$(counts)" = "$expected" ] || [ $book = all.60 ] || fail "rows: $(counts), not $expected"
    done
    # one is faulty: what was there stays
    before=$(counts)
    refused 'line [0-9]*: Ending' aprs-net sqlite net.db cut.30
    cp empty empty.book
    refused 'empty.book is empty' aprs-net sqlite net.db empty.book
    [ "$(counts)" = "$before" ] || fail 'a faulty book changed the database'
    printf 'APRSBOOK 3 30\nEND 0\n' > nothing
    aprs-net sqlite net.db nothing
    [ "$(counts)" = '0 0 ' ] || fail "rows of nothing: $(counts)"
fi

# ---- the line of the cookbook for a crontab ----

if has 'the line for a crontab' python3; then
    mkdir -p net/logs/2024-06-21
    cp ./*.log net/logs/2024-06-21
    path=$(sed -n 's/^PATH=//p' "$repository/docs/cookbook.md")
    line=$(sed -n 's/^10 0 \* \* \* //p' "$repository/docs/cookbook.md")
    [ "$path" = /usr/local/bin:/usr/bin:/bin ] || fail "PATH of the crontab is '$path'"
    # with cron's environment, and the programs where they were installed
    env -i PATH="$scratch/bin:$repository/tools/bin:/usr/bin:/bin" HOME=/ \
        /bin/sh -c "$(printf '%s\n' "$line" | sed "s,/var/lib/aprs,$scratch/net,")" ||
        fail 'the line of the crontab fails'
    same net/net.book all.30
fi
echo 'books survive what happens to them'
