#!/usr/bin/env python3
"""Runs the examples and the recipes of the documents.

    docs/check_examples.py PROGRAM [--kit]

An example is a line `    $ COMMAND` of README.md or of a page in docs/, examples/ or a crate, with
further lines while one ends in a backslash, and below it all that is written. A line `..` stands
for any lines. A recipe is a command there without the `$`, or one in backticks that has a pipe, a
redirection or `-w -`: it has to end with status 0, with small files in the place of those that it
names.

Each runs in bash in a copy of the tree, in which ./pitch is PROGRAM, the path of the built program;
those of a page run in one copy, in their order. Recipes that listen at a card or go on until Ctrl-C
are run by docs/check_card.py, and those that change a machine by docs/check_root.py; both want
root. What builds the program where it isn't built is run by the script ./pitch itself, in a copy of
a tree in which it is built. With --kit those are run too, in this tree, that call the kit: minutes,
and the proofs of what isn't proved yet.

A line says of what is not run why it is not. The last line is `N passed, M failed`, and the status
is 0 only where none failed.
"""

import os
import re
import shutil
import struct
import subprocess
import sys
import tempfile
from pathlib import Path

TOP = Path(__file__).resolve().parent.parent
PAGES = ("README.md", "docs/*.md", "examples/**/*.md", "crates/*/README.md")
SECONDS = 600
# How a command begins that is no example.
COMMAND = re.compile(
    r"\(?(\./pitch(_live)? |examples/|docs/|packages/)"
    r"|(TZ=|tcpdump|tcpreplay|tshark|editcap|mergecap|dumpcap|tail|pv|python3|install|sudo|docker|\. <)"
    r"|\(cd |cc |rustc |\./follow "
)
INLINE = re.compile(r"(?<!`)`((?:\./pitch|tcpdump|tshark|editcap|mergecap) [^`]*(?: [|<] | -w - )[^`]*)`")
TOOLS = ("tcpdump", "tshark", "editcap", "mergecap", "dumpcap", "pv", "xxd", "gnuplot", "dpkg-deb")
# The scripts that run what this one doesn't, by what stands in it.
OTHERS = {
    "docs/check_card.py": re.compile(r"\beth1\b|10\.0\.0\.5|-f growing"),
    "docs/check_root.py": re.compile(r"\bsudo\b|/usr/local|\bdocker\b"),
}
# What the script ./pitch does of its own, and what calls the kit.
BUILDS = re.compile(r"# proves and builds it")
KIT = re.compile(r"\brt \w|--unproved")
# What the kit makes, by what a recipe that needs it has in it.
MADE = {
    "crates/pitch_c/out/libpitch_c.a": re.compile(r"libpitch_c\.a|libpitch\.so|\./follow |pitch-library"),
    "crates/own_client/out/own_client": re.compile(r"own_client/out/"),
    "crates/pitch_live/out/pitch_live": re.compile(r"\./pitch_live "),
}
# The small files in the place of those that recipes name.
CAPTURES = ("feed", "day", "all", "incident", "cut", "piece1", "piece2", "feed-0930", "feed-0940")
COMMANDS = """time 34200
add 1 B 100 IBM 10.00
add 2 S 100 IBM 10.05
add 3 B 100 MSFT 20.00
add 4 S 100 MSFT 20.05
"""


class Command:
    """A command of a page; of an example, also what is wanted of it."""

    def __init__(self, place, text, is_example):
        self.place, self.lines, self.is_example, self.wanted = place, [text], is_example, []

    def text(self):
        return "\n".join(self.lines)

    def goes_on(self):
        if self.lines[-1].endswith("\\"):
            return True
        words = ["bash", "-n", "-c", self.text()]
        return not self.is_example and subprocess.run(words, capture_output=True).returncode != 0


def commands_in(path):
    """The examples and the recipes of a page, those in backticks last."""
    found, after_blank, inside = [], True, False
    page = path.read_text(encoding="utf-8")
    for number, line in enumerate(page.splitlines(), 1):
        # A list may go in by two columns more.
        text = re.sub(r"^ {4}( {2}(?=\S))?", "", line)
        inside = line.startswith("    ") and (after_blank or inside)
        after_blank = not line.strip()
        place = f"{path.relative_to(TOP)}:{number}"
        if not inside:
            current = None
        elif text.startswith("$ "):
            found.append(current := Command(place, text[2:], True))
        elif current and not current.wanted and current.goes_on():
            current.lines.append(line[4:])
        elif current and current.is_example:
            current.wanted.append(line[4:])
        elif COMMAND.match(text):
            found.append(current := Command(place, text, False))
    for it in INLINE.finditer(page):
        place = f"{path.relative_to(TOP)}:{page.count(chr(10), 0, it.start()) + 1}"
        found.append(Command(place, " ".join(it[1].split()), False))
    return found


def is_wanted(text, wanted):
    """Whether the lines of a text are these, where `..` is any."""
    parts = [".*" if it == ".." else re.escape(it) for it in wanted]
    return re.fullmatch("".join(it + "\n" for it in parts), text, re.DOTALL) is not None


def copy_tree(program, into):
    """A copy of what examples name, with the program in the place of the script."""
    left_out = shutil.ignore_patterns("out", "__pycache__", ".git", "crates")
    shutil.copytree(TOP, into, ignore=left_out, symlinks=True)
    # ./pitch_live asks ./pitch for its program.
    live = into / "crates/pitch_live/out/pitch_live"
    words = f'#!/bin/sh\n[ "$1" = --program ] && echo {live} && exit\nexec {program} "$@"\n'
    (into / "pitch").write_text(words, encoding="utf-8")
    (into / "crates/pitch/out").mkdir(parents=True)
    (into / "crates/pitch/out/pitch").symlink_to(program)
    (into / "crates/own_client").mkdir()
    shutil.copy(TOP / "crates/own_client/stdin", into / "crates/own_client")
    for name in MADE:
        if (TOP / name).exists():
            (into / name).parent.mkdir(parents=True, exist_ok=True)
            (into / name).symlink_to(TOP / name)


def packet(data):
    """A record of a capture: a datagram to port 30501."""
    udp = struct.pack(">HHHH", 5000, 30501, 8 + len(data), 0) + data
    ip = struct.pack(">BBHHHBBH", 0x45, 0, 20 + len(udp), 0, 0, 16, 17, 0)
    frame = bytes.fromhex("01005e5a85500200000000010800") + ip + bytes((10, 0, 0, 1, 233, 218, 133, 80)) + udp
    return struct.pack("<IIII", 1764255600, 0, len(frame), len(frame)) + frame


def put_files(folder):
    """The files that recipes name."""
    pack = ["./pitch", "pack", "--unit", "1"]
    feed = subprocess.run(pack, cwd=folder, input=COMMANDS.encode(), capture_output=True, check=True).stdout
    head = struct.pack("<IHHIIII", 0xA1B2C3D4, 2, 4, 0, 0, 65535, 1)
    for name in [f"{it}.pcap" for it in CAPTURES] + ["FILE"]:
        (folder / name).write_bytes(head + packet(feed))
    for name in ("FEED", "feed.pitch", "day.pitch", "merged"):
        (folder / name).write_bytes(feed)
    sample = "examples/sample.pitch"
    made = f"./pitch follow < {sample} > report && examples/audit/make_input.py {sample} report > input"
    run(f"{made}; rm report; packages/dist.sh pitch-VERSION", folder)
    if shutil.which("editcap"):
        run("editcap -F pcapng incident.pcap incident.pcapng", folder)


def copy_built(into):
    """A copy of this tree that keeps the times of its files, with a kit that proves nothing."""
    for name in ("pitch", "crates.txt", "examples"):
        copy = shutil.copytree if (TOP / name).is_dir() else shutil.copy2
        into.mkdir(exist_ok=True)
        copy(TOP / name, into / name)
    out = shutil.ignore_patterns("out", "must-fail")
    shutil.copytree(TOP / "crates", into / "crates", ignore=out)
    built = into / "crates/pitch/out"
    built.mkdir()
    for name in ("pitch", "build.of"):
        shutil.copy2(TOP / "crates/pitch/out" / name, built / name)
    kit = into / "kit"
    (kit / "bin").mkdir(parents=True)
    (kit / "KIT-ID").write_text((built / "build.of").read_text().splitlines()[0] + "\n")
    (kit / "bin/rt").write_text("#!/bin/sh\nexit 1\n")
    (kit / "bin/rt").chmod(0o755)
    return kit / "bin"


def run(command, folder):
    try:
        done = subprocess.run(
            ["bash", "-c", command],
            cwd=folder,
            stdin=subprocess.DEVNULL,
            stdout=subprocess.PIPE,
            stderr=subprocess.STDOUT,
            timeout=SECONDS,
        )
        return done.returncode, done.stdout.decode(errors="replace")
    except subprocess.TimeoutExpired:
        return 1, f"(nothing within {SECONDS} seconds)\n"


def lacking(command):
    """What a command wants that is not here."""
    text = command.text()
    missing = [it for it, words in MADE.items() if words.search(text) and not (TOP / it).exists()]
    needs = [it for it in TOOLS if re.search(rf"(?<![\w-]){it}(?![\w-])", text)]
    needs += ["gnuplot"] * bool(re.search(r"plot(_day)?\.sh", text))
    needs += ["dpkg-deb"] * ("deb.sh" in text)
    return missing + [it for it in needs if not shutil.which(it)]


def fault_of(command, folder):
    """What is wrong with a command; an empty text where nothing is."""
    text = command.text()
    if command.is_example:
        written = run(text, folder)[1]
        wanted = "\n".join(command.wanted)
        return "" if is_wanted(written, command.wanted) else f"wanted\n{wanted}\nbut it wrote\n{written}"
    status, written = run("set -o pipefail; " + text, folder)
    return f"it ended with status {status}\n{written}" if status else ""


class Counts:
    """What passed and what failed, and which recipes other scripts are to run."""

    def __init__(self, program, with_kit):
        self.program, self.with_kit, self.passed, self.failed = program, with_kit, 0, 0
        self.others = {script: [] for script in OTHERS}

    def take(self, command, fault):
        self.passed, self.failed = self.passed + (not fault), self.failed + bool(fault)
        if fault:
            print(f"{command.place}: {fault}")

    def try_build(self, command):
        """By the script ./pitch itself, which finds the program built."""
        built = TOP / "crates/pitch/out/pitch"
        if self.program != built.resolve() or not built.with_name("build.of").exists():
            print(f"{command.place}: not run, since PROGRAM is not what ./pitch built in this tree")
            return
        with tempfile.TemporaryDirectory() as kept:
            folder = Path(kept, "tree")
            kit = copy_built(folder)
            self.take(command, fault_of(command, folder) if run(f"PATH={kit}:$PATH; ./pitch show", folder)[0] == 0
                      else "this tree is not built, or was edited since")

    def try_kit(self, command, page):
        """In this tree, since the kit works beside its sources."""
        if self.with_kit:
            self.take(command, fault_of(command, page.parent if page.parts[-3] == "examples" else TOP))
        else:
            print(f"{command.place}: not run without --kit, which proves")

    def try_one(self, command, page, folder):
        text = command.text()
        other = [script for script, words in OTHERS.items() if words.search(text)]
        if other and not command.is_example:
            self.others[other[0]].append(command)
        elif BUILDS.search(text):
            self.try_build(command)
        elif KIT.search(text):
            self.try_kit(command, page)
        elif why := lacking(command):
            print(f"{command.place}: not run, for want of {', '.join(why)}")
        else:
            self.take(command, fault_of(command, folder))

    def try_others(self):
        """Each other script says what was wrong, and counts; or, with status 3, why it can't."""
        for script, commands in self.others.items():
            if not commands:
                continue
            done = subprocess.run([TOP / script, self.program], capture_output=True, text=True)
            lines = (done.stdout + done.stderr).splitlines() or [""]
            found = re.fullmatch(r"(\d+) passed, (\d+) failed", lines[-1])
            if done.returncode == 3:
                lines = [f"{it.place}: {lines[0]} ({script})" for it in commands]
            elif found:
                self.passed, self.failed = self.passed + int(found[1]), self.failed + int(found[2])
                lines.pop()
            else:
                self.failed += 1
            print("".join(it + "\n" for it in lines), end="")


def main():
    words = sys.argv[1:]
    with_kit = "--kit" in words
    words = [it for it in words if it != "--kit"]
    if len(words) != 1 or words[0].startswith("-"):
        print("usage: check_examples.py PROGRAM [--kit]", file=sys.stderr)
        return 2
    if not os.path.isfile(words[0]) or not os.access(words[0], os.X_OK):
        print(f"check_examples.py: {words[0]} is no program", file=sys.stderr)
        return 2
    program = Path(words[0]).resolve()
    counts = Counts(program, with_kit)
    for page in (it for glob in PAGES for it in sorted(TOP.glob(glob))):
        commands = commands_in(page)
        with tempfile.TemporaryDirectory() as kept:
            folder = Path(kept, "tree")
            if commands:
                copy_tree(program, folder)
                put_files(folder)
            # The recipes for C stand beside its sources, as its page does.
            at = folder / "examples/c" if page.parent.name == "c" else folder
            for command in commands:
                counts.try_one(command, page, at)
    counts.try_others()
    print(f"{counts.passed} passed, {counts.failed} failed")
    return 1 if counts.failed else 0


if __name__ == "__main__":
    try:
        sys.exit(main())
    except (OSError, subprocess.SubprocessError) as error:
        sys.exit(f"check_examples.py: {error}")
