#!/usr/bin/env bash
# A tour of the program on the samples in examples/: two filters, a recording of two feeds with a
# change of one filter on the way, and what is read of it. Each command is shown ahead of its output.
set -euo pipefail

usage='usage: dev/build/demo.sh

Shows a recording of the samples in examples/, from two filters to extracted frames; each command is
shown ahead of its output. It needs bin/bpfrec (make build), and leaves its files in bin/.'

if [[ $# == 1 && ( $1 == -h || $1 == --help ) ]]; then
    echo "$usage"
    exit 0
elif [[ $# != 0 ]]; then
    echo "$usage" >&2
    exit 2
fi
cd "$(dirname "$0")/../.." || exit 3
program=bin/bpfrec
if [[ ${UNPROVED:-} ]]; then
    program=bin/bpfrec-unproved
    echo "# $program: compiled with checks, and nothing of it is proved"
fi
if [[ ! -x $program ]]; then
    echo "$program is missing: make build makes bin/bpfrec, and dev/build/unproved.py bin/bpfrec-unproved" >&2
    exit 2
fi

show() {
    local words=${1//bin\/bpfrec/$program}
    echo "\$ $words"
    eval "$words"
}

show 'bin/bpfrec asm examples/filters/udp_port.bpf > bin/udp_port.txt'
show 'bin/bpfrec asm examples/filters/arp.bpf > bin/arp.txt'
show 'bin/bpfrec verify bin/udp_port.txt'
show 'bin/bpfrec dis bin/arp.txt'
show 'bin/bpfrec run bin/arp.txt ffffffffffff0200000000010806'
show 'bin/bpfrec verify examples/jump_out.txt || true'
echo "# two channels: the frames of the second one come in live, through a pipe"
show "sed 's|examples/feeds/two.feed|bin/live.feed|' examples/feeds.toml > bin/demo.toml"
show 'rm -f bin/live.feed bin/lines bin/demo.ch11 && mkfifo bin/live.feed bin/lines'
show 'bin/bpfrec record bin/demo.toml bin/demo.ch11 < bin/lines > bin/report 2> bin/answers &'
show 'exec 3> bin/lines 4> bin/live.feed'
echo "# the first frame, then another filter, then the other frames"
show 'head -c 434 examples/feeds/two.feed >&4'
show 'until bin/bpfrec list bin/demo.ch11 2> /dev/null | grep -q "program 2"; do sleep 0.1; done'
show 'echo "set 2 bin/udp_port.txt" >&3'
show 'until test -s bin/answers; do sleep 0.1; done; cat bin/answers'
show 'tail -c +435 examples/feeds/two.feed >&4'
show 'exec 3>&- 4>&-; wait; cat bin/report'
show 'bin/bpfrec list bin/demo.ch11'
show 'bin/bpfrec audit bin/demo.ch11'
show 'bin/bpfrec extract bin/demo.ch11 2 bin/kept.feed'
