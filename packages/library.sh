#!/usr/bin/env bash
# Writes a folder with the library for C and all that a program over it wants: headers, the library
# as an archive and as a shared object, a file for pkg-config, the wrappers for Rust and Python.
#
#     packages/library.sh [FOLDER] [--library FILE]
#
# FOLDER must not stand yet; it is pitch-library-VERSION where it is not given. The library is the
# crates/pitch_c/out/libpitch_c.a of this tree, which `rt lib` proves and makes there, or FILE, and
# ABOUT then says that nobody looked of what it was built. A C compiler, ar and nm are wanted.
set -eu
fail() {
    echo "library.sh: $1" >&2
    exit "${2:-1}"
}
root=$(CDPATH='' cd -P -- "$(dirname -- "$(readlink -f -- "$0")")/.." && pwd)
usage="usage: library.sh [FOLDER] [--library FILE]"
folder=
library=
while [ $# -gt 0 ]; do
    case $1 in
        --library) [ $# -ge 2 ] || fail "$usage" 2; library=$2; shift ;;
        -*) fail "$usage" 2 ;;
        *) [ -z "$folder" ] || fail "$usage" 2; folder=$1 ;;
    esac
    shift
done
source="given by name; nobody looked whether it is of the commit"
if [ -z "$library" ]; then
    library=$root/crates/pitch_c/out/libpitch_c.a
    [ -f "$library" ] ||
        fail "the library is not built: rt lib in crates/pitch_c proves and makes it"
    newer=$(find "$root/crates.txt" "$root/crates" -type f -not -path '*/out/*' \
        \( -name '*.rt' -o -name '*.antt' -o -name crates.txt \) \
        -newer "$(readlink -f -- "$library")" -print -quit)
    [ -z "$newer" ] ||
        fail "$newer is newer than the library: rt lib in crates/pitch_c makes it anew"
    source="of the commit"
fi
[ -f "$library" ] || fail "$library is no file"
cc=${CC:-cc}
for it in "$cc" ar nm; do command -v "$it" > /dev/null || fail "$it is not there"; done
nm "$library" 2> /dev/null | grep -q ' T pitch_c_abi$' || fail "$library is no library of this tree"

in_git() { git -C "$root" "$@" 2> /dev/null || echo unknown; }
commit=$(in_git describe --always --dirty --abbrev=40 --exclude '*')
version=$(in_git show -s --format=%cd --date=format:%Y%m%d HEAD).$(echo "$commit" | cut -c1-8)
case $commit in *-dirty) version=$version-dirty ;; esac
abi=$(sed -n 's/^#define PITCH_ABI //p' "$root/examples/c/pitch_client.h")

folder=${folder:-pitch-library-$version}
[ ! -e "$folder" ] || fail "$folder stands already"
# It is there once all of it is.
whole=$folder
folder=$whole.part
rm -rf -- "$folder"
for it in include lib/pkgconfig rust python examples; do mkdir -p -- "$folder/$it"; done
trap 'rm -rf -- "$folder"' EXIT
given=$root/examples/c
cp -- "$given"/pitch_client.h "$given"/pitch_end.h "$given"/pitch_client.hpp "$folder/include/"
cp -- "$given"/pitch_client.rs "$folder/rust/"
cp -- "$given"/pitch_client.py "$folder/python/"
for it in follow.c follow.cpp bests.c recover.c heap.c; do
    cp -- "$given/$it" "$folder/examples/"
done

# The archive has the memory by malloc in it, and the shared object exports the library alone.
heap=$folder/heap.o
"$cc" -std=c11 -O2 -fPIC -c "$given/heap.c" -o "$heap" || fail "heap.c does not build"
cp -- "$library" "$folder/lib/libpitch.a"
ar rs "$folder/lib/libpitch.a" "$heap" 2> /dev/null || fail "no archive"
"$cc" -shared "$heap" -Wl,--whole-archive "$library" -Wl,--no-whole-archive \
    -Wl,--version-script="$given/libpitch.map" -Wl,-soname,"libpitch.so.$abi" \
    -o "$folder/lib/libpitch.so.$abi" || fail "no shared object"
ln -s "libpitch.so.$abi" "$folder/lib/libpitch.so"
rm -- "$heap"
cat > "$folder/lib/pkgconfig/pitch.pc" <<'END'
prefix=${pcfiledir}/../..
Name: pitch
Description: the clients of a Multicast PITCH feed
Cflags: -I${prefix}/include
Libs: -L${prefix}/lib -lpitch
END
echo "Version: $version" >> "$folder/lib/pkgconfig/pitch.pc"
cat > "$folder/ABOUT" <<END
version $version
commit  $commit
library $(sha256sum < "$library" | cut -c1-64), $source
abi     $abi
END
mv -- "$folder" "$whole"
cat -- "$whole/ABOUT"
echo "folder  $whole"
