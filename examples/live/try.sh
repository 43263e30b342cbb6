#!/usr/bin/env bash
# A venue sends 2,000 messages, a relay loses and cuts, and ./pitch_live asks for what was lost.
#
#     examples/live/try.sh [LOST [SECONDS]]
#
# Of a hundred datagrams of each line LOST (20) are lost. After SECONDS (15) the client is ended,
# and its book is compared with that of the whole feed.
cd "$(dirname -- "$(readlink -f -- "$0")")/../.." || exit 1
lost=${1-20} seconds=${2-15}
folder=$(mktemp -d) || exit 1
trap 'kill $(jobs -p) 2> /dev/null; rm -rf -- "$folder"' EXIT

for i in $(seq 2000); do echo "add $i B 100 IBM 10.$((1000 + i))"; done > "$folder/commands"
./pitch pack --unit 1 < "$folder/commands" > "$folder/feed" || exit 1
./pitch follow < "$folder/feed" | sed -n '/^book/,$p' > "$folder/wanted"

examples/live/relay.py --lost "$lost" --repeated 20 --swapped 20 --spoiled 5 --cut 3 \
    --udp 20501:30501 --udp 21501:31501 --udp 22501:32501 --tcp 30601:20601 --tcp 30701:20701 &
relay=$!
examples/live/venue.py ./pitch "$folder/feed" --a 127.0.0.1:20501 --b 127.0.0.1:21501 \
    --gap 127.0.0.1:22501 --grp 1@127.0.0.1:20601 --spin 1@127.0.0.1:20701 --rate 10 &
./pitch_live listen --setup examples/live/setup --seconds "$seconds" > "$folder/out" || exit 1

kill "$relay" && wait "$relay"
grep -c '; behind' "$folder/out" | sed 's/$/ lines said behind; the last line is/'
sed '/^book/,$d' "$folder/out" | tail -1
sed -n '/^book/,$p' "$folder/out" | cmp - "$folder/wanted" &&
    echo "the book is that of the whole feed"
