#!/usr/bin/env bash
# Writes a folder with the built program and what can be used of it without the kit: documents,
# examples, man pages, completions of bash; what it was built of, and the sums of all.
#
#     packages/dist.sh [FOLDER] [--program FILE [--live FILE]]
#
# FOLDER must not stand yet; it is pitch-VERSION where it is not given. The program is that of this
# tree: ./pitch proves and builds it first where it is not built. FILE is another one, and ABOUT
# then says that nobody looked of what it was built. The folder has pitch_live too, where that was
# built in this tree (where a source is newer it is built anew), or is the FILE of --live.
set -eu
fail() {
    echo "dist.sh: $1" >&2
    exit "${2:-1}"
}
root=$(CDPATH='' cd -P -- "$(dirname -- "$(readlink -f -- "$0")")/.." && pwd)
usage="usage: dist.sh [FOLDER] [--program FILE [--live FILE]]"
folder=
program=
live=
while [ $# -gt 0 ]; do
    case $1 in
        --program) [ $# -ge 2 ] || fail "$usage" 2; program=$2; shift ;;
        --live) [ $# -ge 2 ] || fail "$usage" 2; live=$2; shift ;;
        -*) fail "$usage" 2 ;;
        *) [ -z "$folder" ] || fail "$usage" 2; folder=$1 ;;
    esac
    shift
done

[ -z "$live" ] || [ -n "$program" ] || fail "$usage" 2
source="of the commit"
if [ -n "$program" ]; then
    for it in "$program" ${live:+"$live"}; do
        [ -f "$it" ] && [ -x "$it" ] || fail "$it is no program"
    done
    source="given by name; nobody looked whether it is of the commit"
else
    "$root/pitch" follow < /dev/null > /dev/null || fail "the program is not built"
    program=$root/crates/pitch/out/pitch
    if [ -x "$root/crates/pitch_live/out/pitch_live" ]; then
        live=$("$root/pitch" --program pitch_live listen --a 127.0.0.1:0 --seconds 0) ||
            fail "pitch_live is not built"
    fi
fi
programs=("$program" ${live:+"$live"})

# What they run on, by their own heads and the versions of symbols that they ask of the C library.
for it in "${programs[@]}"; do
    [ "$(od -An -tx1 -j4 -N1 "$it")$(od -An -tx1 -j18 -N2 "$it")" = " 02 3e 00" ] ||
        fail "$it is no program of x86-64"
done
glibc=$(LC_ALL=C grep -aoh 'GLIBC_[0-9][0-9.]*' "${programs[@]}" | cut -d_ -f2 | sort -uV |
    tail -n 1)
in_git() { git -C "$root" "$@" 2> /dev/null || echo unknown; }
commit=$(in_git describe --always --dirty --abbrev=40 --exclude '*')
version=$(in_git show -s --format=%cd --date=format:%Y%m%d HEAD).$(echo "$commit" | cut -c1-8)
case $commit in *-dirty) version=$version-dirty ;; esac
kit=$(rt version 2> /dev/null) ||
    kit=$(head -n 1 "$root/crates/pitch/out/build.of" 2> /dev/null) || kit=unknown

folder=${folder:-pitch-$version}
[ ! -e "$folder" ] || fail "$folder stands already"
# It is there once all of it is.
whole=$folder
folder=$whole.part
rm -rf -- "$folder"
mkdir -p -- "$folder/docs"
trap 'rm -rf -- "$folder"' EXIT
folder=$(CDPATH='' cd -P -- "$folder" && pwd)
install -m 755 -- "$program" "$folder/pitch"
[ -z "$live" ] || install -m 755 -- "$live" "$folder/pitch_live"
cp -- "$root/README.md" "$folder/"
for page in CAPTURES FEED INCIDENTS INSTALL LIMITS LIVE; do
    cp -- "$root/docs/$page.md" "$folder/docs/"
done
cp -- "$root/docs/quotes.png" "$folder/docs/"
# Of the examples those in C want a library, which the kit builds.
(cd -- "$root" &&
    find examples -name __pycache__ -prune -o -path examples/c -prune -o -type f -print0 |
    tar -c --null -T -) | tar -x -C "$folder"
"$root/packages/texts.py" man > "$folder/pitch.1"
"$root/packages/texts.py" completion > "$folder/pitch.bash"
if [ -n "$live" ]; then
    "$root/packages/texts.py" man pitch_live > "$folder/pitch_live.1"
    "$root/packages/texts.py" completion pitch_live > "$folder/pitch_live.bash"
fi
"$root/packages/texts.py" links "$folder"
sum() { sha256sum < "$1" | cut -c1-64; }
cat > "$folder/ABOUT" <<END
version $version
commit  $commit
program $(sum "$program"), $source${live:+
live    $(sum "$live"), $source}
kit     $kit
runs on Linux, x86-64, glibc $glibc or later; nothing else is wanted
END
(cd -- "$folder" && find . -type f ! -name SHA256SUMS -print0 | LC_ALL=C sort -z |
    xargs -0 sha256sum) > "$folder/SHA256SUMS"
mv -- "$folder" "$whole"
cat -- "$whole/ABOUT"
echo "folder  $whole"
