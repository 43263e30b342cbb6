#!/usr/bin/env python3
"""Runs the recipes of the documents that change a machine: those of a package, of /usr/local and of
a container.

    docs/check_root.py PROGRAM

PROGRAM is the path of the built program. It wants Linux, root and `unshare`. What is changed is an
overlay over this machine's root, in namespaces of its own: nothing of it is left when the script
ends. There `sudo` runs its words, since it is root. A container's recipes want `docker` and
`dockerd` on the path; the engine is started on a socket of its own, with no network. It need not be
installed: `apt-get download docker.io containerd runc tini`, and `dpkg -x` of each into a folder
whose usr/bin and usr/sbin stand on the path. What is installed, or runs in a container, has to
write of a feed what PROGRAM writes, and a removed package has to leave nothing.

A line says so of each recipe that can't be run. The last line is `N passed, M failed`; the status
is 0 only where none failed, and 3 where none can be tried on this machine.
"""
import os
import re
import shutil
import signal
import subprocess
import sys
import tempfile
import time
from pathlib import Path

sys.dont_write_bytecode = True
from check_examples import OTHERS, PAGES, TOP, commands_in, copy_tree, put_files

# What the recipes of this script have in them.
ROOT = OTHERS["docs/check_root.py"]
SECONDS = 120
# The last line that `follow` writes of the sample.
LAST = "order 7 S 1000 ZVZZT+P 10.5000 hidden mpid=ABCD"
SUDO = '#!/bin/sh\nexec "$@"\n'


class Fault(Exception):
    """What is wrong, with a recipe or with the program."""


class Machine:
    """This machine's root with an overlay on it, and a copy of the tree in it. Nothing is unmounted
    or removed here: who started the namespaces does that when they have ended."""

    def __init__(self, program, kept):
        layers, self.root, self.engine = Path(kept, "layers"), Path(kept, "root"), None
        self.kept, self.tree = Path(kept), Path(kept, "tree")
        layers.mkdir()
        self.root.mkdir()
        call("mount", "--make-rprivate", "/")
        call("mount", "-t", "tmpfs", "layers", str(layers))
        (layers / "upper").mkdir()
        (layers / "work").mkdir()
        options = f"lowerdir=/,upperdir={layers}/upper,workdir={layers}/work"
        call("mount", "-t", "overlay", "overlay", "-o", options, str(self.root))
        for name in ("proc", "sys", "dev"):
            call("mount", "--rbind", f"/{name}", f"{self.root}/{name}")
            call("mount", "-o", "remount,bind,ro", f"{self.root}/{name}")
        copy_tree(program, self.tree)
        # The program itself, and no link to a place outside.
        for name in ("pitch", "crates/pitch/out/pitch"):
            (self.tree / name).unlink()
            shutil.copy(program, self.tree / name)
        put_files(self.tree)
        inside = self.root / str(self.tree).lstrip("/")
        inside.mkdir(parents=True, exist_ok=True)
        call("mount", "--bind", kept, f"{self.root}{kept}")
        sudo = self.root / "usr/local/sbin/sudo"
        sudo.parent.mkdir(parents=True, exist_ok=True)
        sudo.write_text(SUDO, encoding="ascii")
        sudo.chmod(0o755)
        self.env = {**os.environ, "PATH": "/usr/local/sbin:" + os.environ["PATH"], "LC_ALL": "C.UTF-8"}
        self.env["DOCKER_HOST"] = f"unix://{self.kept}/engine.sock"
        if self.run("./pitch follow < examples/sample.pitch").splitlines()[-1:] != [LAST]:
            raise Fault("PROGRAM follows no feed")

    def run(self, text):
        """Runs a text of bash there, in the tree; answers what it wrote."""
        words = ["chroot", str(self.root), "bash", "-c", f"cd {self.tree}; set -o pipefail\n{text}"]
        done = subprocess.run(words, env=self.env, stdin=subprocess.DEVNULL, stdout=subprocess.PIPE,
                              stderr=subprocess.PIPE, timeout=SECONDS)
        if done.returncode:
            said = (done.stdout + done.stderr).decode(errors="replace")
            raise Fault(f"{text}: it ended with status {done.returncode}\n{said[-2000:]}")
        return done.stdout.decode(errors="replace")

    def start_engine(self):
        """Starts Docker's engine, outside the overlay and with all that it keeps in the folder."""
        if self.engine:
            return
        words = ["dockerd", "--data-root", f"{self.kept}/data", "--exec-root", f"{self.kept}/exec",
                 "-p", f"{self.kept}/engine.pid", "-H", self.env["DOCKER_HOST"], "--storage-driver", "vfs",
                 "--bridge=none", "--iptables=false", "--ip-forward=false", "--ip-masq=false"]
        with open(self.kept / "engine.log", "wb") as log:
            self.engine = subprocess.Popen(words, stdin=subprocess.DEVNULL, stdout=log, stderr=log)
        until = time.monotonic() + SECONDS
        while subprocess.run(["docker", "version"], env=self.env, capture_output=True).returncode:
            if self.engine.poll() is not None or time.monotonic() > until:
                lines = (self.kept / "engine.log").read_text(encoding="utf-8").splitlines()
                raise Fault(f"dockerd did not start: {lines[-1:]}")
            time.sleep(0.2)

    def stop_engine(self):
        if self.engine:
            self.engine.send_signal(signal.SIGTERM)
            self.engine.wait()


def call(*words):
    done = subprocess.run(words, capture_output=True, text=True)
    if done.returncode:
        raise Fault(f"{' '.join(words)}: {done.stderr.strip()}")


# ---- What has to hold behind a recipe
def hold(what, got, wanted):
    if got != wanted:
        raise Fault(f"{what}: {got!r}, and not {wanted!r}")


def hold_man(machine, path):
    """That man finds the page at this place, where there is a man."""
    if shutil.which("man"):
        hold("what man finds", machine.run('readlink -f "$(man -w pitch)"'), path + "\n")


def after_package(machine, text):
    """The package runs as installed, its files are as packed, and it goes without a rest."""
    feed = "examples/sample.pitch"
    hold("what /usr/bin/pitch writes", machine.run(f"cd /; pitch follow < {machine.tree}/{feed}"),
         machine.run(f"./pitch follow < {feed}"))
    hold("its files", machine.run("dpkg -V pitch-feed"), "")
    listed = machine.run("dpkg -L pitch-feed").splitlines()
    for path in ("/usr/bin/pitch", "/usr/share/doc/pitch-feed/README.md"):
        hold(f"{path} is listed", path in listed, True)
    hold_man(machine, "/usr/share/man/man1/pitch.1.gz")
    machine.run("sudo dpkg -r pitch-feed")
    hold("a rest", machine.run("ls -d /usr/bin/pitch /usr/share/doc/pitch-feed 2> /dev/null || true"), "")


def after_install(machine, text):
    hold("what it writes", machine.run(f"cd /; pitch follow < {machine.tree}/examples/sample.pitch"),
         machine.run("./pitch follow < examples/sample.pitch"))


def after_man(machine, text):
    hold("the page", machine.run("zcat /usr/local/share/man/man1/pitch.1.gz"), machine.run("packages/texts.py man"))
    hold_man(machine, "/usr/local/share/man/man1/pitch.1.gz")


def after_import(machine, text):
    hold("the image", len(machine.run("docker image ls -q pitch").split()), 1)


def after_run(machine, text):
    right = machine.run("./pitch follow < feed.pitch")
    for words in (text, text.replace("--rm", "--rm --network none")):
        hold("what the container writes", machine.run(words), right)
    hold("a container that is left", machine.run("docker ps -aq"), "")


# How a recipe begins, and what is asked behind it.
AFTER = (("sudo dpkg -i", after_package), ("install ", after_install), ("packages/texts.py man", after_man),
         ("docker import", after_import), ("docker run", after_run))


def try_one(machine, recipe):
    text = recipe.text()
    check = next((it for words, it in AFTER if text.startswith(words)), None)
    if not check:
        raise Fault("no way to try it is known")
    if "docker" in text:
        machine.start_engine()
    machine.run(text)
    check(machine, text)


# ---- All of them
def lacking_of(recipe):
    needs = [it for it in ("docker", "dpkg") if re.search(rf"\b{it}\b", recipe.text())]
    needs += ["dockerd"] * ("docker" in needs)
    return [it for it in needs if not shutil.which(it)]


def recipes():
    """The recipes, and those before them in their page that make what they take."""
    for page in (it for glob in PAGES for it in sorted(TOP.glob(glob))):
        commands = [it for it in commands_in(page) if not it.is_example]
        if any(ROOT.search(it.text()) for it in commands):
            yield from commands


def try_all(program, kept):
    passed = failed = 0
    machine = Machine(program, kept)
    for recipe in recipes():
        text, missing = recipe.text(), lacking_of(recipe)
        if missing:
            print(f"{recipe.place}: not run, for want of {', '.join(missing)}")
            continue
        try:
            if ROOT.search(text):
                try_one(machine, recipe)
                passed += 1
            elif text.startswith("packages/") and "dist.sh" not in text:
                machine.run(text)
        except (Fault, OSError, subprocess.TimeoutExpired) as fault:
            failed += 1
            print(f"{recipe.place}: {fault}", flush=True)
    machine.stop_engine()
    print(f"{passed} passed, {failed} failed")
    return 1 if failed else 0


def lacking():
    """What this machine has not, of what the script wants."""
    if os.geteuid() != 0:
        return "root"
    if not shutil.which("unshare"):
        return "unshare"
    if subprocess.run(["unshare", "-m", "-n", "true"], capture_output=True).returncode:
        return "the right to make a mount namespace"
    if "overlay" not in Path("/proc/filesystems").read_text(encoding="ascii"):
        return "overlay"
    return ""


def start(program):
    """Starts this script in namespaces of its own. All processes and mounts in them end with it, and
    the folder has no mount when it is removed, here."""
    with tempfile.TemporaryDirectory() as kept:
        words = ["unshare", "-m", "-n", "-p", "--fork", "--kill-child", "--mount-proc", sys.executable]
        words += [os.path.abspath(__file__), "--inside", program, kept]
        return subprocess.run(words).returncode


def main():
    words = sys.argv[1:]
    if words[:1] == ["--inside"]:
        return try_all(Path(words[1]), words[2])
    if len(words) != 1 or words[0].startswith("-"):
        print("usage: check_root.py PROGRAM", file=sys.stderr)
        return 2
    if not os.path.isfile(words[0]) or not os.access(words[0], os.X_OK):
        print(f"check_root.py: {words[0]} is no program", file=sys.stderr)
        return 2
    if missing := lacking():
        print(f"not tried, for want of {missing}")
        return 3
    return start(os.path.realpath(words[0]))


if __name__ == "__main__":
    try:
        sys.exit(main())
    except (Fault, OSError, subprocess.SubprocessError) as error:
        sys.exit(f"check_root.py: {error}")
    except KeyboardInterrupt:
        sys.exit(130)
