#!/bin/sh
# What a capture says of each unit's book, and what the claim is made of: the sums of the capture,
# of the program and of its text, the exit status, the packets, and each unit's last status.
#
#     examples/desk/report.sh PROGRAM CAPTURE [PORT]
#
# PROGRAM is the built program, crates/pitch/out/pitch. Of the script ./pitch the sum would be the
# script's, so it is refused.
set -eu
fail() {
    echo "report.sh: $1" >&2
    exit "$2"
}
[ $# -ge 2 ] || fail "usage: report.sh PROGRAM CAPTURE [PORT]" 2
program=$1
capture=$2
[ -f "$program" ] && [ -x "$program" ] || fail "$program is no program" 2
[ -f "$capture" ] && [ -r "$capture" ] || fail "$capture is no file that can be read" 2
case $(head -c 2 -- "$program" | tr -d '\0') in
    '#!') fail "$program is a script: name the built program, crates/pitch/out/pitch" 2 ;;
esac
work=$(mktemp -d)
trap 'rm -rf "$work"' EXIT
sum() { sha256sum < "$1" | cut -c1-64; }

status=0
"$program" follow --pcap ${3:+--port "$3"} < "$capture" > "$work/text" 2> "$work/err" || status=$?
echo "input   $(sum "$capture"), $(wc -c < "$capture") bytes"
echo "program $(sum "$program")"
echo "text    $(sum "$work/text"), status $status $(cat "$work/err")"
grep '^packets' "$work/text" || echo "no last line, so there are no books either"
awk '
    $1 == "block" {
        unit = $4
        blocks[unit]++
        if (/ overflow; /) overflows[unit]++
        sub(/.*; /, "")
        last[unit] = $0
        if ($1 == "behind") behind[unit]++
    }
    END {
        for (unit = 0; unit < 256; unit++)
            if (unit in last)
                printf "unit %d blocks %d, at the end %s; behind after %d blocks, overflows %d\n",
                    unit, blocks[unit], last[unit], behind[unit], overflows[unit]
    }' "$work/text"
