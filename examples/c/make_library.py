#!/usr/bin/env python3
"""Makes crates/pitch_c/out/libpitch_c.a after a gate in this folder.

    examples/c/make_library.py

The gate proves pitch_c and leaves no library of it, and `rt lib` begins with the crates below, none
of which it takes from a gate. This proves pitch_c once more over what the gate built of them, and
has the kit's `rattle` compile what that proof says is proved: the two steps by which the gate makes
a program. Its one line says what was made, or why nothing was: the status is then 3, and nothing is
wrong with the tree.
"""
import os
import shutil
import sys
import tempfile

TOP = os.path.dirname(os.path.dirname(os.path.dirname(os.path.realpath(__file__))))
LIBRARY = "out/libpitch_c.a"

sys.dont_write_bytecode = True
sys.path.append(os.path.join(TOP, "bench"))
from the_kit import crates_of, the_kit


class Nothing(Exception):
    """Why no library was made."""


def without(words, flags):
    """The words without these flags, and what follows each."""
    for flag in flags:
        at = words.index(flag)
        words = [*words[:at], *words[at + 2:]]
    return words


def make(rt):
    """Proves the crate, and compiles it."""
    os.chdir(TOP)
    rt.rtlib.guarded()
    crate = next(it for it in crates_of(rt, TOP) if it.name == "pitch_c")
    if not all(os.path.isfile(f"{it.rlib}/format") for it in crate.below()):
        raise Nothing("no gate has built the crates below here")
    words = crate.words(["--jobs", os.environ.get("RT_JOBS", "1")], keeps=False)
    os.makedirs(f"{crate.folder}/out", exist_ok=True)
    with tempfile.TemporaryDirectory() as room, open(f"{room}/said", "w+") as crate.out:
        status = crate.call(rt.rtlib.RATTLE, "check", *words, "-o", f"{room}/checked")
        words = without(words, ("--logic-built", "--jobs"))
        words += ["--crate-checked", f"{room}/checked", "--toolchain", f"{rt.KIT}/toolchain"]
        words += ["--backend", "llvm", "-o", LIBRARY]
        if status or crate.call(rt.rtlib.RATTLE, "build", *words):
            crate.out.seek(0)
            raise Nothing("".join(crate.out.readlines()[-4:]).strip())


def main():
    if not shutil.which(os.environ.get("CC", "cc")):
        raise Nothing("there is no C compiler")
    made = os.path.join(TOP, "crates/pitch_c", LIBRARY)
    if os.path.exists(made):
        os.remove(made)
    make(the_kit())
    print("examples/c: made libpitch_c.a of what the gate built")


# Whatever goes wrong between this file and the kit is that the kit is another.
try:
    main()
except (Exception, SystemExit) as error:
    print(f"examples/c: no library was made, so nothing of it was run: {error or type(error)}")
    sys.exit(3)
