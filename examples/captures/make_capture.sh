#!/bin/sh
# Writes sample.pcap, beside this file, from the blocks of ../sample.pitch. It needs text2pcap and
# mergecap, which come with Wireshark (Debian: wireshark-common). The times of the packets are those
# of the run.
set -eu
cd "$(dirname "$0")"
work=$(mktemp -d)
trap 'rm -rf "$work"' EXIT

# The bytes at a place of the sample.
part() { tail -c +$(($1 + 1)) ../sample.pitch | head -c "$2"; }
# Bytes as a packet that text2pcap reads.
packet() { od -Ax -tx1 -v; }

{
    part 0 104 | packet                          # blocks 1 and 2 in one datagram
    part 104 34 | packet                         # block 3
    part 138 11 | packet                         # block 4
    part 149 8 | packet                          # block 5
    part 157 34 | packet                         # block 6
    { part 191 11; printf '\0\0'; } | packet     # block 7, and two bytes that are none
} > "$work/feed.txt"
printf 'hello' | packet > "$work/other.txt"

text2pcap -q -F pcap -4 10.0.0.1,233.218.133.80 -u 5000,30501 "$work/feed.txt" "$work/feed.pcap"
text2pcap -q -F pcap -4 10.0.0.1,10.0.0.2 -u 5000,40000 "$work/other.txt" "$work/other.pcap"
mergecap -a -F pcap -w sample.pcap "$work/feed.pcap" "$work/other.pcap"
