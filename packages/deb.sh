#!/usr/bin/env bash
# Makes a Debian package of a folder that dist.sh wrote.
#
#     packages/deb.sh FOLDER [FILE.deb]
#
# The programs go to /usr/bin, man pages and completions to their places, and the rest to
# /usr/share/doc/pitch-feed. FILE.deb is pitch-feed_VERSION_amd64.deb where it is not given.
set -eu
fail() {
    echo "deb.sh: $1" >&2
    exit "${2:-1}"
}
[ $# = 1 ] || [ $# = 2 ] || fail "usage: deb.sh FOLDER [FILE.deb]" 2
about=$1/ABOUT
[ -r "$about" ] && [ -x "$1/pitch" ] || fail "$1 is no folder of dist.sh"
command -v dpkg-deb > /dev/null || fail "dpkg-deb is not there"
version=0~$(sed -n 's/^version //p' "$about" | tr '-' '.')
glibc=$(sed -n 's/^runs on .* glibc \([0-9.]*\) .*/\1/p' "$about")
work=$(mktemp -d)
trap 'rm -rf "$work"' EXIT
chmod 755 "$work"

docs=$work/usr/share/doc/pitch-feed
mkdir -p "$docs" "$work/DEBIAN"
for name in pitch pitch_live; do
    [ -x "$1/$name" ] || continue
    install -D -m 755 "$1/$name" "$work/usr/bin/$name"
    install -D -m 644 "$1/$name.1" "$work/usr/share/man/man1/$name.1"
    gzip -9n "$work/usr/share/man/man1/$name.1"
    install -D -m 644 "$1/$name.bash" "$work/usr/share/bash-completion/completions/$name"
    # The documents call ./pitch.
    ln -s "/usr/bin/$name" "$docs/$name"
done
cp -r "$1/README.md" "$1/ABOUT" "$1/docs" "$1/examples" "$docs/"
chmod -R u+rwX,go+rX,go-w "$work"
cat > "$work/DEBIAN/control" <<END
Package: pitch-feed
Version: $version
Architecture: amd64
Maintainer: whoever built it <root@localhost>
Depends: libc6 (>= $glibc)
Recommends: python3
Suggests: gnuplot-nox, tcpdump, tshark
Section: misc
Priority: optional
Installed-Size: $(du -sk "$work/usr" | cut -f1)
Description: order books from the Cboe US Equities Multicast PITCH feed
 Rebuilds order books from lines A and B or a capture of them. Whatever was lost, repeated or
 reordered, the book that it prints is that of the venue's first n messages: that is proved.
END
out=${2:-pitch-feed_${version}_amd64.deb}
dpkg-deb --root-owner-group --build "$work" "$out" > /dev/null
echo "$out"
