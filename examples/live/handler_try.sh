#!/usr/bin/env bash
# ./pitch_live serves a unit, a handler drops every third datagram and asks for it, and is audited.
cd "$(dirname -- "$(readlink -f -- "$0")")/../.." || exit 1
pitch=${1-./pitch} live=${2-./pitch_live}
folder=$(mktemp -d) || exit 1
trap 'kill $(jobs -p) 2> /dev/null; rm -rf -- "$folder"' EXIT

a=127.0.0.1:33501 b=127.0.0.1:34501 gap=127.0.0.1:35501 grp=127.0.0.1:33601
grep -v '^#' examples/live/commands > "$folder/commands"
(sleep 1; while read -r line; do echo "1 $line"; sleep 0.1; done < "$folder/commands"; sleep 4) \
    | "$live" serve --a 1@$a --b 1@$b --gap 1@$gap --grp 1@$grp \
    --sub 0001 --user FEED --password PITCH --after 0 &
sleep 0.5
examples/live/handler.py --unit 1 --a $a --b $b --gap $gap --grp $grp --drop 3 --seconds 5 \
    > "$folder/report" || exit 1

"$pitch" pack --unit 1 < "$folder/commands" > "$folder/feed" || exit 1
head -1 "$folder/report"
examples/audit/make_input.py "$folder/feed" "$folder/report" | "$pitch" audit
