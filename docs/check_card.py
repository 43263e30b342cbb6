#!/usr/bin/env python3
"""Runs the recipes of the documents that listen at a card, or that go on until Ctrl-C.

    docs/check_card.py PROGRAM

PROGRAM is the path of the built program. It wants Linux, root, `ip` (iproute2), `unshare` and
`nsenter`. In a network namespace of its own it has a card eth1 with the address 10.0.0.5, which is
one end of a cable (a veth pair); from the other end, in another namespace, a feed of two units is
sent by multicast, on lines A and B of which each loses what the other has. Each recipe is run as it
stands in its page, in a terminal of its own, into which Ctrl-C is typed once everything was heard.
The books that it writes have to be those that PROGRAM follows of the whole feed. All of it is gone
when the script ends.

The last line is `N passed, M failed`; the status is 0 only where none failed, and 3 where none of
it can be tried on this machine.
"""
import fcntl
import os
import pty
import re
import select
import shutil
import signal
import socket
import subprocess
import sys
import tempfile
import termios
import time
from pathlib import Path

sys.dont_write_bytecode = True
from check_examples import OTHERS, PAGES, TOP, commands_in, copy_tree
from check_examples import lacking as wanting

sys.path.insert(0, str(TOP / "examples/desk"))
import desk
from storm_feed import command

# What the recipes of this script have in them.
CARD = OTHERS["docs/check_card.py"]
SECONDS, QUIET_SECONDS = 30, 3
STEPS = 2000
LINE_A, LINE_B = ("233.218.133.80", 30501), ("233.218.133.208", 30501)
CTRL_C = b"\x03"


class Fault(Exception):
    """What is wrong, with a recipe or with the program."""


# ---- The cards
def send_all():
    """The far end of the cable: sends each datagram that a line of standard input tells."""
    one = socket.socket(socket.AF_INET, socket.SOCK_DGRAM)
    print("ready", flush=True)
    for line in sys.stdin:
        group, port, data = line.rstrip("\n").split(" ")
        one.setsockopt(socket.IPPROTO_IP, socket.IP_MULTICAST_IF, socket.inet_aton("10.0.0.2"))
        one.sendto(bytes.fromhex(data), (group, int(port)))
        time.sleep(0.002)


def call(*words):
    done = subprocess.run(words, capture_output=True, text=True)
    if done.returncode:
        raise Fault(f"{' '.join(words)}: {done.stderr.strip().splitlines()[-1:]}")


def lay_cable():
    """The process at the far end, once both cards are up."""
    words = ["unshare", "-n", sys.executable, os.path.abspath(__file__), "--far"]
    far = subprocess.Popen(words, stdin=subprocess.PIPE, stdout=subprocess.PIPE, text=True)
    if far.stdout.readline() != "ready\n":
        raise Fault("no second network namespace")
    there = ["nsenter", "-t", str(far.pid), "-n"]
    call("ip", "link", "set", "lo", "up")
    call("ip", "link", "add", "eth1", "type", "veth", "peer", "name", "eth2", "netns", str(far.pid))
    call("ip", "addr", "add", "10.0.0.5/24", "dev", "eth1")
    call("ip", "link", "set", "eth1", "up")
    call(*there, "ip", "addr", "add", "10.0.0.2/24", "dev", "eth2")
    call(*there, "ip", "link", "set", "eth2", "up")
    return far


# ---- The feed
def pack(program, unit):
    text = "".join(command(1, unit, i) + "\n" for i in range(1, STEPS + 1))
    words = [program, "pack", "--unit", str(unit)]
    return subprocess.run(words, input=text.encode(), stdout=subprocess.PIPE, check=True).stdout


class Feed:
    """The datagrams of two units, and the books that are right."""

    def __init__(self, program):
        units = [list(desk.blocks_of(pack(program, unit))) for unit in (1, 2)]
        self.blocks = [block for pair in zip(*units) for block in pair]
        whole = subprocess.run([program, "follow"], input=b"".join(self.blocks), stdout=subprocess.PIPE, check=True)
        self.books = of_books(whole.stdout.decode())
        if len(self.books) < STEPS // 4:
            raise Fault("PROGRAM follows no feed")

    def on_two_lines(self):
        """Line A without every third, and line B, four blocks later, without every third of the rest."""
        for i in range(len(self.blocks) + 4):
            if i < len(self.blocks) and i % 3 != 0:
                yield LINE_A, self.blocks[i]
            if i >= 4 and (i - 4) % 3 != 1:
                yield LINE_B, self.blocks[i - 4]

    def on_one_line(self):
        return ((LINE_A, block) for block in self.blocks)


def of_books(text):
    return [it for it in text.splitlines() if re.match(r"(book|order|status) ", it)]


# ---- A recipe in its terminal
class Terminal:
    """A recipe that runs in a terminal, and all that stands in it."""

    def __init__(self, text, folder):
        self.text, self.ended = "", None
        self.pid, self.end = pty.fork()
        if self.pid == 0:
            os.chdir(folder)
            os.execvp("bash", ["bash", "-c", text])
        mode = termios.tcgetattr(self.end)
        mode[1] &= ~termios.OPOST
        termios.tcsetattr(self.end, termios.TCSANOW, mode)
        fcntl.fcntl(self.end, fcntl.F_SETFL, os.O_NONBLOCK)

    def read(self, seconds=0.1):
        """Reads for so long at most; answers whether the recipe goes on."""
        if not select.select([self.end], [], [], seconds)[0]:
            return True
        try:
            more = os.read(self.end, 65536)
        except OSError:
            more = b""
        self.text += more.decode(errors="replace")
        return more != b""

    def wait_until(self, what, is_so):
        until = time.monotonic() + SECONDS
        while not is_so():
            if not self.read() or time.monotonic() > until:
                raise Fault(f"{what} did not come; it wrote\n{self.text[-2000:]}")

    def close(self, typed):
        """Types this, and takes what is written until the recipe ends."""
        os.write(self.end, typed)
        until = time.monotonic() + SECONDS
        while self.read():
            if time.monotonic() > until:
                raise Fault(f"it did not end; it wrote\n{self.text[-2000:]}")
        self.ended = os.waitstatus_to_exitcode(os.waitpid(self.pid, 0)[1])
        self.text = self.text.replace("^C", "")

    def kill(self):
        if self.ended is None:
            os.killpg(self.pid, signal.SIGKILL)
            os.waitpid(self.pid, 0)
        os.close(self.end)


class Try:
    """One recipe: how it is heard to listen, what is sent to it, and how it ends."""

    def __init__(self, recipe, folder, feed, far):
        self.recipe, self.folder, self.feed, self.far = recipe.text(), folder, feed, far
        self.terminal = None

    def send(self, datagrams):
        """Sends them, each with one block, and answers how many they are."""
        count = 0
        for (group, port), data in datagrams:
            print(group, port, data.hex(), file=self.far.stdin, flush=True)
            count += 1
        return count

    def wait_for_lines(self, count):
        self.terminal.wait_until("a line for each block", self.has_said(r"block \d+ unit .*\n", count))

    def has_joined(self):
        """Whether each group that the recipe names is joined at the card."""
        joined = Path("/proc/net/igmp").read_text(encoding="ascii")
        groups = re.findall(r"233\.218\.133\.\d+", self.recipe)
        return all(socket.inet_aton(it)[::-1].hex().upper() in joined for it in groups)

    def has_said(self, words, count=1):
        return lambda: len(re.findall(words, self.terminal.text)) >= count

    def hold(self, what, got, wanted):
        if got != wanted:
            raise Fault(f"{what}: {got}\nand not {wanted}\n{self.terminal.text[-2000:]}")

    def hold_books(self, text, packets=None):
        self.hold("books", of_books(text), self.feed.books)
        if packets:
            counts = [it for it in text.splitlines() if it.startswith("packets ")]
            self.hold("counts", counts, [f"packets {packets} used {packets} faulty 0"])

    def live_capture(self):
        """tcpdump at the card, by a pipe."""
        self.terminal.wait_until("the card", self.has_said("listening on eth1"))
        count = self.send(self.feed.on_two_lines())
        self.wait_for_lines(count)
        self.terminal.close(CTRL_C)
        self.hold("status", self.terminal.ended, 0)
        self.hold_books(self.terminal.text, count)

    def captured_file(self):
        """dumpcap at the card, into a file, which is followed when it has ended."""
        self.terminal.wait_until("the card", self.has_said("File: "))
        count = self.send(self.feed.on_two_lines())
        # It writes the file when it likes, so nothing tells that it has them all.
        until = time.monotonic() + QUIET_SECONDS
        while self.terminal.read() and time.monotonic() < until:
            pass
        self.terminal.close(CTRL_C)
        self.hold("status", self.terminal.ended, 0)
        words = "set -o pipefail; tcpdump -r incident.pcap -w - udp 2> said | ./pitch follow --pcap"
        done = subprocess.run(["bash", "-c", words], cwd=self.folder, capture_output=True, text=True)
        self.hold_books(done.stdout, count)

    def growing_file(self):
        """A file that tcpdump writes meanwhile."""
        words = ["tcpdump", "-i", "eth1", "-U", "-w", "growing.pcap", "udp"]
        writer = subprocess.Popen(words, cwd=self.folder, stderr=subprocess.PIPE, text=True)
        try:
            writer.stderr.readline()
            count = self.send(self.feed.on_two_lines())
            self.wait_for_lines(count)
            self.terminal.close(CTRL_C)
        finally:
            writer.terminate()
            writer.communicate()
        self.hold("status", self.terminal.ended, 0)
        self.hold_books(self.terminal.text, count)

    def joined_groups(self):
        """A script that joins the groups."""
        self.terminal.wait_until("the groups", self.has_joined)
        self.wait_for_lines(self.send(self.feed.on_two_lines()))
        self.terminal.close(CTRL_C)
        self.hold("status", self.terminal.ended, 0)
        self.hold_books(self.terminal.text)

    def live_lines(self):
        """Two lines at addresses of this machine, at the live program."""
        bound = lambda: "0500000A:7725" in Path("/proc/net/udp").read_text(encoding="ascii")
        self.terminal.wait_until("the line", bound)
        at = {LINE_A: ("10.0.0.5", 30501), LINE_B: ("10.0.0.5", 31501)}
        self.wait_for_lines(self.send((at[line], data) for line, data in self.feed.on_two_lines()))
        self.terminal.close(CTRL_C)
        self.hold("status", self.terminal.ended, 0)
        self.hold_books(self.terminal.text)

    def live_group(self):
        """A group that a script joins, at the live program."""
        self.terminal.wait_until("the group", self.has_joined)
        self.wait_for_lines(self.send(self.feed.on_one_line()))
        self.terminal.close(CTRL_C)
        self.hold("status", self.terminal.ended, 0)
        self.hold_books(self.terminal.text)

    def socket_as_input(self):
        """One line at the program itself, which an empty datagram ends."""
        self.terminal.wait_until("the group", self.has_joined)
        self.wait_for_lines(self.send(self.feed.on_one_line()))
        self.send([(LINE_A, b"")])
        self.terminal.close(b"")
        self.hold("status", self.terminal.ended, 0)
        self.hold_books(self.terminal.text)

    def replayed_capture(self):
        """tcpreplay of a storm at the card, and listen.py at the far end."""
        make = "examples/desk/storm_feed.py ./pitch 1 1 2000 --filled --pcap > storm.pcap"
        subprocess.run(["bash", "-c", make], cwd=self.folder, check=True)
        with open(self.folder / "storm.pcap", "rb") as capture:
            wanted = [data for _, _, _, data in desk.datagrams_of(capture)]
        words = ["nsenter", "-t", str(self.far.pid), "-n", "examples/desk/listen.py", "10.0.0.2"]
        words += [f"233.218.133.{host}:{port}" for host, port in ((80, 30501), (96, 31501), (112, 32501))]
        with open(self.folder / "heard", "wb") as heard:
            listener = subprocess.Popen(words, cwd=self.folder, stdout=heard, stderr=subprocess.DEVNULL)
        try:
            there = f"/proc/{listener.pid}/net/igmp"
            self.terminal.wait_until("the groups", lambda: "7085DAE9" in Path(there).read_text(encoding="ascii"))
            os.write(self.terminal.end, b"go\n")
            self.terminal.close(b"")
            time.sleep(QUIET_SECONDS)
        finally:
            listener.terminate()
            listener.wait()
        self.hold("status", self.terminal.ended, 0)
        # Of three sockets the order is not that of the capture.
        heard = desk.blocks_of((self.folder / "heard").read_bytes())
        self.hold("all was heard", sorted(heard) == sorted(wanted), True)
        words = "cmp <(./pitch follow < heard | grep -v ^block)" \
            " <(./pitch follow --pcap < storm.pcap | grep -v -e ^block -e ^packets)"
        self.hold("books", subprocess.run(["bash", "-c", words], cwd=self.folder).returncode, 0)

    def run(self):
        ways = {"tcpdump": self.live_capture, "dumpcap": self.captured_file, "tail": self.growing_file}
        ways["examples/desk/listen.py"] = self.joined_groups
        ways["python3"] = self.socket_as_input
        ways["tcpreplay"] = self.replayed_capture
        ways["./pitch_live"] = self.live_lines
        ways["examples/live/join.py"] = self.live_group
        way = ways.get(self.recipe.split()[0])
        if not way:
            raise Fault("no way to try it is known")
        if way == self.growing_file:
            (self.folder / "growing.pcap").touch()
        # A recipe that sends waits for a line, until who is to hear it listens.
        held = "read -r line; " if way == self.replayed_capture else ""
        self.terminal = Terminal(held + self.recipe, self.folder)
        try:
            way()
        finally:
            self.terminal.kill()


# ---- All of them
def recipes():
    pages = [it for glob in PAGES for it in sorted(TOP.glob(glob))]
    return [it for page in pages for it in commands_in(page) if not it.is_example and CARD.search(it.text())]


def try_all(program):
    passed = failed = 0
    feed, far = Feed(program), lay_cable()
    for recipe in recipes():
        if why := wanting(recipe):
            print(f"{recipe.place}: not run, for want of {', '.join(why)}", flush=True)
            continue
        with tempfile.TemporaryDirectory() as kept:
            folder = Path(kept, "tree")
            copy_tree(Path(program), folder)
            # tcpdump gives up being root, and then writes its file.
            os.chmod(kept, 0o755)
            os.chmod(folder, 0o777)
            try:
                Try(recipe, folder, feed, far).run()
                passed += 1
            except (Fault, OSError) as fault:
                failed += 1
                print(f"{recipe.place}: {fault}", flush=True)
    far.stdin.close()
    far.wait()
    print(f"{passed} passed, {failed} failed")
    return 1 if failed else 0


def lacking():
    """What this machine has not, of what the script wants."""
    if os.geteuid() != 0:
        return "root"
    for name in ("ip", "unshare", "nsenter", "tcpdump", "dumpcap", "tcpreplay"):
        if not shutil.which(name):
            return name
    if subprocess.run(["unshare", "-m", "-n", "true"], capture_output=True).returncode:
        return "the right to make a network namespace"
    return ""


def main():
    words = sys.argv[1:]
    if words == ["--far"]:
        return send_all()
    inside, words = words[:1] == ["--inside"], words[words[:1] == ["--inside"]:]
    if len(words) != 1 or words[0].startswith("-"):
        print("usage: check_card.py PROGRAM", file=sys.stderr)
        return 2
    if not os.path.isfile(words[0]) or not os.access(words[0], os.X_OK):
        print(f"check_card.py: {words[0]} is no program", file=sys.stderr)
        return 2
    if missing := lacking():
        print(f"not tried, for want of {missing}")
        return 3
    program = os.path.abspath(words[0])
    if inside:
        return try_all(program)
    again = ["unshare", "-m", "-n", "-p", "--fork", "--kill-child", "--mount-proc", sys.executable]
    os.execvp("unshare", again + [os.path.abspath(__file__), "--inside", program])


if __name__ == "__main__":
    try:
        sys.exit(main())
    except (Fault, OSError, subprocess.CalledProcessError) as error:
        sys.exit(f"check_card.py: {error}")
    except KeyboardInterrupt:
        sys.exit(130)
