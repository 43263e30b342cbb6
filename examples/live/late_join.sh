#!/usr/bin/env bash
# A client joins in the middle of a day, and takes an image; its book is that of the venue's report.
#
#     examples/live/late_join.sh [PITCH_LIVE]
cd "$(dirname -- "$(readlink -f -- "$0")")/../.." || exit 1
live=${1-./pitch_live}
folder=$(mktemp -d) || exit 1
trap 'kill $(jobs -p) 2> /dev/null; rm -rf -- "$folder"' EXIT

places="--a 1@127.0.0.1:36501 --b 1@127.0.0.1:37501 --gap 1@127.0.0.1:38501
    --grp 1@127.0.0.1:36601 --spin 1@127.0.0.1:36701"
account='--sub 0001 --user FEED --password PITCH'
# The venue has sent its 2,000 messages within two seconds, and stays for some eight more.
"$live" serve $places $account --plan 4 --count 2000 --rate 2000 --kept 100 --after 8 \
    --report "$folder/report" &
venue=$!
sleep 3
"$live" listen --a 127.0.0.1:36501 --b 127.0.0.1:37501 --gap 127.0.0.1:38501 \
    --grp 1@127.0.0.1:36601 --spin 1@127.0.0.1:36701 $account --seconds 4 \
    > "$folder/out" 2> "$folder/said" || { cat "$folder/said"; exit 1; }
wait "$venue" || exit 1

grep -m 1 '^unit 1 image' "$folder/out"
sed -n '/^book/,$p' "$folder/out" | cmp - "$folder/report" &&
    echo "the book is that of the venue's report"
