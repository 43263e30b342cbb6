#!/usr/bin/env bash
# Makes the root filesystem of a container of a folder that dist.sh wrote: its programs, the C
# library of this machine and its loader, and the documents and examples; no shell.
#
#     packages/container.sh FOLDER FILE.tar
#
# `docker import` or `podman import` makes an image of it (docs/INSTALL.md).
set -eu
fail() {
    echo "container.sh: $1" >&2
    exit "${2:-1}"
}
[ $# = 2 ] || fail "usage: container.sh FOLDER FILE.tar" 2
[ -r "$1/ABOUT" ] && [ -x "$1/pitch" ] || fail "$1 is no folder of dist.sh"
work=$(mktemp -d)
trap 'rm -rf "$work"' EXIT
chmod 755 "$work"
mkdir -p "$work/usr/share/doc/pitch-feed" "$work/data"
for name in pitch pitch_live; do
    if [ -x "$1/$name" ]; then install -m 755 "$1/$name" "$work/$name"; fi
done
cp -r "$1/README.md" "$1/ABOUT" "$1/docs" "$1/examples" "$work/usr/share/doc/pitch-feed/"
# The libraries that they ask for, at the paths where they look for them.
find "$work" -maxdepth 1 -type f -exec ldd {} \; | grep -o '/[^ ]*' | sort -u |
    while read -r library; do
        install -D -m 755 "$(readlink -f "$library")" "$work$library"
    done
tar -c --sort=name --owner=0 --group=0 --numeric-owner --mtime=@0 -C "$work" -f "$2" .
echo "$2"
