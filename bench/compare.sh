#!/usr/bin/env bash
# Prints each run's time as a ratio to that of a yardstick, beside the ratio that is wanted. First it
# compares the outputs of both, byte for byte.
# usage: bench/compare.sh PROGRAM, in a folder that run.sh has made (RUNS as there)
# shellcheck disable=SC2119,SC2120 # a run is called with words to stand before its command, or with none
set -euo pipefail
program=$1
. "$(dirname "$0")/timing.sh"
receiver=RX1
moment=2024-05-01T12:00:00Z

# The runs, and what they are measured by.
check() { "$@" "$program" check heard.log; }
text() { "$@" "$program" convert text heard.log; }
kind() { "$@" "$program" convert kind heard.log; }
kiss() { "$@" "$program" convert kiss heard.log; }
log() { "$@" "$program" convert log heard.log; }
capture() { "$@" "$program" convert capture --receiver "$receiver" --moment "$moment" heard.kiss; }
plain_hexonly() { "$@" plain/hexonly < heard.log; }
plain_text() { "$@" plain/text < heard.log; }
plain_log() { "$@" plain/log < heard.log; }
plain_capture() { "$@" plain/capture "$receiver" "$moment" < heard.kiss; }

all_heard() { echo "heard $lines passed 0"; }
all_read() { plain_hexonly | grep -q "^$lines lines, .* 0 faulty$" && echo "heard $lines passed 0"; }
kinds_before_text() { text | paste -d ' ' heard.kinds -; }
stream() { cat heard.kiss; }

lines=$(wc -l < heard.log)
# ratio WHAT GOAL RUN YARDSTICK
ratio() {
    take_turns "$3" "$4"
    time_row "$1" "$lines" "$2" "$3" "$4"
}

same 'the lines, which are all heard, and those of check' all_heard check
same 'the lines, which are all heard, and those of hexonly' all_heard all_read
same 'convert text and plain text' text plain_text
same 'convert kind, and the kinds before convert text' kind kinds_before_text
same 'convert kiss and xxd -r -p' kiss stream
same 'convert log and plain log' log plain_log
same 'convert capture and plain capture' capture plain_capture
echo 'all outputs are those of the plain programs, byte for byte'
echo
ratio_head
ratio 'check / C that only decodes the hexadecimal' 1.8 check plain_hexonly
ratio 'convert text / C' 0.75 text plain_text
ratio 'convert kind / convert text' 1.2 kind text
ratio 'convert log / C' 0.6 log plain_log
ratio 'convert kiss / check' 1.2 kiss check
ratio 'convert capture / C' 0.7 capture plain_capture
