#!/usr/bin/env bash
# Compares the declarations here with the library's exports, and where this machine can, builds the
# examples over crates/pitch_c/out/libpitch_c.a and runs them.
#
#     examples/c/check.sh [LIBRARY]
#
# Each line says what was done or why not; the exit status is 0 where nothing was wrong. `rt lib` in
# crates/pitch_c proves and makes the library.
here=$(cd "$(dirname "$0")" && pwd) || exit 1
own=$here/../../crates/own_client
library=${1:-$here/../../crates/pitch_c/out/libpitch_c.a}
cd "$here" || exit 1
python3 check_header.py || exit 1
said="examples/c: declarations compared"
[ -f "$library" ] || { echo "$said; no library to run them with"; exit 0; }
cc=$(command -v "${CC:-cc}") || { echo "$said; no C compiler to run them with"; exit 0; }
made=$(mktemp -d) || exit 1
trap 'rm -rf "$made"' EXIT

fail() { echo "examples/c: $1"; exit 1; }

# An example's output on the input of own_client, which is known.
same() { "$@" < "$own/stdin" | cmp -s - "$own/stdout" || fail "$* writes something else"; }

"$cc" -std=c11 -O2 -Wall -Wextra -Werror -c heap.c -o "$made/heap.o" || fail "heap.c"
for name in follow bests hostile; do
    "$cc" -std=c11 -O2 -Wall -Wextra -Werror "$name.c" "$library" "$made/heap.o" -o "$made/$name" ||
        fail "$name.c does not build"
done
for piece in 1 7 65536; do same "$made/follow" "$piece"; done
"$made/bests" < "$own/stdin" | tail -n "$(wc -l < "$own/stdout")" | cmp -s - "$own/stdout" ||
    fail "bests ends with something else"
"$made/hostile" > "$made/said" || fail "hostile ends with $?"
for name in recover hostile_end; do
    "$cc" -std=c11 -O2 -Wall -Wextra -Werror "$name.c" "$library" "$made/heap.o" -o "$made/$name" ||
        fail "$name.c does not build"
done
"$made/hostile_end" || fail "hostile_end ends with $?"
"$made/recover" | cmp -s - recover.wanted || fail "recover writes something else"
said="$said; C ran"
if command -v "${CXX:-c++}" > "$made/said"; then
    "${CXX:-c++}" -std=c++17 -O2 -Wall -Wextra -Werror follow.cpp "$library" "$made/heap.o" \
        -o "$made/follow_cpp" || fail "follow.cpp does not build"
    same "$made/follow_cpp"
    said="$said, C++ ran"
fi
if command -v rustc > "$made/said" && rustc --version > "$made/said" 2>&1; then
    rustc -O -A dead_code follow.rs -o "$made/follow_rs" -C link-arg="$library" \
        -C link-arg="$made/heap.o" || fail "follow.rs does not build"
    same "$made/follow_rs"
    said="$said, Rust ran"
fi
"$cc" -O2 -fPIC -shared heap.c -Wl,--whole-archive "$library" -Wl,--no-whole-archive \
    -Wl,--version-script=libpitch.map -Wl,-soname,libpitch.so.4 -o "$made/libpitch.so" ||
    fail "no shared object"
others=$(nm -D --defined-only "$made/libpitch.so" | awk '$3 !~ /^(pitch_c_|PITCH_4)/')
[ -z "$others" ] || fail "the shared object exports $others"
same python3 pitch_client.py "$made/libpitch.so"
python3 recover.py "$made/libpitch.so" | cmp -s - recover.wanted ||
    fail "recover.py writes something else"
echo "$said, Python ran"
