#!/bin/sh
# Tries the units of systemd: that they are in order, and what they run, with what their instance's
# name and /etc/default/aprsbook say. Needs a POSIX system and mktemp, and says what it leaves out
# because a tool isn't there.
# usage: tests/packages/units.sh PROGRAM
. "$(dirname "$0")/../programs/program.sh"
units=$repository/tools/units
cd "$scratch"
cp "$repository/examples/evening/hill.log" .

for unit in "$units"/*.service; do
    # it finds the program, can be told things, waits for the clock, and runs as a user whom it says
    # how to make
    for line in Environment=PATH=/usr/local/bin:/usr/bin:/bin 'EnvironmentFile=-/etc/default/aprsbook$' \
        'After=.*time-sync.target' 'User=aprs$' '# .*useradd .* aprs$'; do says "^$line" "$unit"; done
done
if has 'systemd-analyze verify' systemd-analyze; then
    for unit in "$units"/*.service "$units"/*.timer; do
        systemd-analyze verify --man=no "$unit" > said 2>&1 || echo "$unit: status $?" >> said
        silent
    done
fi

# what a unit may do is little: 9.2 is nothing forbidden, and 30 is 3.0
if has 'systemd-analyze security' systemd-analyze &&
    systemd-analyze --help | grep -q -e --offline; then
    for unit in "$units"/*.service; do
        systemd-analyze security --offline=true --threshold=30 --no-pager "$unit" > said 2>&1 ||
            fail "$unit: $(tail -n 1 said)"
    done
fi

# command_of UNIT: what the unit gives to the shell, once systemd has read $$ and %%
command_of() { sed -n "s/^ExecStart=.*-c '\(.*\)'.*/\1/p" "$units/$1" | sed 's/\$\$/$/g; s/%%/%/g'; }
# settings UNIT: what the unit and the file below /etc set, as the shell reads it
settings() {
    sed -n 's/^Environment=PATH=[^ ]* //p' "$units/$1" | tr -d '"' | sed 's/\([A-Z_]*=--.*\)/"\1"/'
}

# ---- receivers: names, ports and options ----

# a stand-in that says how it was called
mkdir stand-in
printf '#!/bin/sh\necho "$*"\n' > stand-in/aprs-net
chmod +x stand-in/aprs-net
# calls UNIT INSTANCE LINE [OPTION..]: so the unit calls aprs-net
calls() {
    unit=$1 instance=$2 line=$3
    shift 3
    # shellcheck disable=SC2046 # one setting a word
    called=$(env PATH="$scratch/stand-in:$PATH" $(settings "$unit") \
        sh -c "$(command_of "$unit")" "$instance" "$@")
    [ "$called" = "$line" ] || fail "$unit of $instance calls: $called"
}
calls aprs-log@.service RX1 'log --connect localhost:8001 RX1 logs'
calls aprs-log@.service RX-2:8002 'log --connect localhost:8002 --ports RX-2 logs' --ports
calls aprs-serial@.service ttyUSB0 'log --serial /dev/ttyUSB0 --baud 9600 ttyUSB0 logs'
calls aprs-serial@.service usb-FTDI_A6008-if00-port0:RX1 \
    'log --serial /dev/serial/by-id/usb-FTDI_A6008-if00-port0 --baud 9600 RX1 logs'
calls aprs-serial@.service ttyUSB0:RX1 'log --serial /dev/ttyUSB0 --baud 9600 RX1 logs'
export CALL=Q0CALL FILTER='-t/o r/54.5/-3.5/50'
calls aprs-is@.service FEED \
    'log --aprs-is localhost:14580 --call Q0CALL --filter=-t/o r/54.5/-3.5/50 FEED logs'
calls aprs-book.service '' 'book --days days net.book logs'
calls aprs-net-serve.service aprs-net 'serve --listen 127.0.0.1:8443 --tokens tokens logs' \
    --listen 127.0.0.1:8443 --tokens tokens
# the file below /etc says what the units say where it isn't there
for unit in "$units"/*.service; do
    settings "${unit##*/}" | tr ' ' '\n' | sed -n 's/^"*\([A-Z_]*=[^"]*\).*/\1/p' |
        while read -r setting; do
            grep -q "^$setting" "$units/aprsbook.default" || fail "$unit: $setting isn't the file's"
        done
done

# ---- the gap, which both units take that make books ----

export APRS_NET_GAP=60
calls aprs-book.service '' 'book --gap 60 --days days net.book logs'
mkdir -p logs/2024-06-21
cp hill.log logs/2024-06-21/HILL.log
aprsbook merge --gap 60 hill.log > hill.60
if has 'what aprs-book.service runs' python3; then
    sh -c "$(command_of aprs-book.service)" || fail 'aprs-book.service makes no book'
    same hill.60 net.book
    same hill.60 days/2024-06-21.book
fi
if has 'what net-page.service runs' python3 aprsbook-table; then
    APRS_NET_DAYS=2024-06-21 sh -c "$(command_of net-page.service)" aprs-net --title 'Tuesday net' --live 60 ||
        fail 'net-page.service makes no page'
    cmp hill.60 page/net.book || fail 'the book of the page is another'
    grep -q '<title>Tuesday net' page/index.html || fail 'the page has another title'
fi
echo 'the units run what they should'
