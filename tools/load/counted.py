"""Servers under valgrind or strace, and lines that come to them in rounds: a server stands still while a round is sent, and its clock always.

So what is counted doesn't hang on how busy the machine is; the random keys of hashed tables are left. Where a stack begins makes up to
one part in 200, as copies to it cost more or less by then: `room` shifts it by so many bytes.
"""

import collections
import contextlib
import os
import pathlib
import re
import signal
import socket
import subprocess
import tempfile
import time

PATIENCE = 120

# The server's second never changes: what it does in each would count with what is asked for.
STILL = """
#include <sys/syscall.h>
#include <time.h>
#include <unistd.h>
int clock_gettime(clockid_t clock, struct timespec *now) {
    if (clock != CLOCK_REALTIME) return syscall(SYS_clock_gettime, clock, now);
    now->tv_sec = 1800000000;
    now->tv_nsec = 0;
    return 0;
}
"""

CONFIGURATION = """ServerId T2TEST
PassCode 8385
Listen "Full feed" fullfeed tcp 127.0.0.1 {full}
Listen "Client port" igate tcp 127.0.0.1 {igate}
MaxClients 10000
"""

# How many clients get the lines, how many send them, and how many lines come at once.
Load = collections.namedtuple("Load", "clients senders batch")


def still_library(folder):
    """A library that stops the clock of who loads it before the system's."""
    library = f"{folder}/still.so"
    command = ["cc", "-O2", "-shared", "-fPIC", "-x", "c", "-", "-o", library]
    subprocess.run(command, input=STILL, text=True, check=True)
    return library


def free_ports(count):
    with contextlib.ExitStack() as stack:
        sockets = [stack.enter_context(socket.socket()) for _ in range(count)]
        for one in sockets:
            one.bind(("127.0.0.1", 0))
        return [one.getsockname()[1] for one in sockets]


def passcode(call):
    code = 0x73E2
    for place, byte in enumerate(call.encode()):
        code ^= byte << (0 if place % 2 else 8)
    return code & 0x7FFF


class Link:
    """A client, and how many packets it got."""

    def __init__(self, port, call):
        self.socket = socket.create_connection(("127.0.0.1", port), timeout=PATIENCE)
        self.socket.setsockopt(socket.IPPROTO_TCP, socket.TCP_NODELAY, 1)
        self.socket.sendall(f"user {call} pass {passcode(call)} vers t 1\r\n".encode())
        self.call, self.rest, self.got = call, b"", 0

    def read(self):
        """The whole lines that come next."""
        piece = self.socket.recv(1 << 20)
        if not piece:
            raise EOFError(f"{self.call} was closed")
        *lines, self.rest = (self.rest + piece).split(b"\n")
        return lines

    def await_login(self):
        while not any(line.startswith(b"# logresp") for line in self.read()):
            pass

    def await_packets(self, count):
        """Reads until it got so many in all."""
        while self.got < count:
            self.got += sum(not line.startswith(b"#") for line in self.read())


def surroundings(room, **more):
    return os.environ | {"ROOM": "x" * room} | more


class Server:
    """A server at work, by a function that gives its command for its port of the full feed; perhaps with words before it."""

    def __init__(self, folder, command, still, before=(), room=0):
        self.folder = pathlib.Path(folder)
        self.full, self.igate = free_ports(2)
        (self.folder / "aprsc.conf").write_text(CONFIGURATION.format(full=self.full, igate=self.igate))
        quiet = {"stdout": subprocess.DEVNULL, "stderr": subprocess.DEVNULL}
        made = surroundings(room, LD_PRELOAD=still)
        self.process = subprocess.Popen([*before, *command(self.full)], cwd=folder, env=made, **quiet)

    def __enter__(self):
        while self.process.poll() is None:
            with contextlib.suppress(OSError), socket.create_connection(("127.0.0.1", self.full)):
                return self
            time.sleep(0.02)
        raise OSError(f"{self.process.args}: status {self.process.returncode}")

    def __exit__(self, *_):
        self.process.terminate()
        self.process.wait()

    def await_idle(self):
        """Waits until it waits itself."""
        while pathlib.Path(f"/proc/{self.process.pid}/stat").read_text().rsplit(")", 1)[1].split()[0] != "S":
            time.sleep(0.0005)

    @contextlib.contextmanager
    def halted(self):
        """What is done meanwhile comes to the server at once."""
        self.await_idle()
        self.process.send_signal(signal.SIGSTOP)
        try:
            yield
        finally:
            self.process.send_signal(signal.SIGCONT)

    def open_links(self, letter, count, port):
        links = [Link(port, f"{letter}{number:05}") for number in range(count)]
        for link in links:
            link.await_login()
        return links

    def ends(self):
        """How many links have ended, as its journal says."""
        return (self.folder / "aprsc.log").read_bytes().count(b" end ")


class Feed:
    """The links of a load, and how many lines they got."""

    def __init__(self, server, load):
        self.server, self.load, self.got = server, load, 0
        self.senders = server.open_links("S", load.senders, server.full)
        self.links = [*self.senders, *server.open_links("C", load.clients, server.full)]

    def send(self, lines):
        """The senders send the lines in rounds, each an equal share, once all links got those of the round before."""
        for begin in range(0, len(lines), self.load.batch):
            due = lines[begin : begin + self.load.batch]
            self.got += len(due)
            with self.server.halted():
                for place, sender in enumerate(self.senders):
                    share = due[place :: self.load.senders]
                    sender.socket.sendall("".join(f"{line}\r\n" for line in share).encode())
                    sender.got += len(share)
            for link in self.links:
                link.await_packets(self.got)
        self.server.await_idle()


def callgrind(out, *words):
    return ["valgrind", "--tool=callgrind", f"--callgrind-out-file={out}", *words]


def instructions(out):
    """How many a file of callgrind's has."""
    return int(re.search(r"^(?:summary|totals): (\d+)", pathlib.Path(out).read_text(), re.MULTILINE)[1])


def of_feed(room, command, still, load, lines, kept=None):
    """The instructions of a server from its start to the last line; callgrind's file is kept where it is said."""
    with tempfile.TemporaryDirectory() as folder:
        out = kept or f"{folder}/callgrind"
        with Server(folder, command, still, callgrind(out), room) as server:
            feed = Feed(server, load)
            feed.send(lines)
        return instructions(out)


def of_words(room, words, kept=None):
    """The instructions of a program that ends by itself."""
    with tempfile.TemporaryDirectory() as folder:
        out = kept or f"{folder}/callgrind"
        subprocess.run([*callgrind(out), *words], check=True, capture_output=True, env=surroundings(room))
        return instructions(out)


def of_ends(room, command, still, count, kept=None):
    """The instructions from before the first of so many links ends to after the last. All end at once, the oldest first."""
    with tempfile.TemporaryDirectory() as folder:
        out = kept or f"{folder}/callgrind"
        with Server(folder, command, still, callgrind(out, "--instr-atstart=no"), room) as server:
            links = server.open_links("C", count, server.igate)
            subprocess.run(["callgrind_control", "-i", "on", str(server.process.pid)], check=True, capture_output=True)
            with server.halted():
                for link in links:
                    link.socket.close()
            while server.ends() < count:
                time.sleep(0.1)
            server.await_idle()
        return instructions(out)


def calls_of_feed(command, still, load, lines):
    """How many system calls of each kind a server makes while the lines come; the first round is left out."""
    with tempfile.TemporaryDirectory() as folder:
        out = f"{folder}/strace"
        with Server(folder, command, still) as server:
            feed = Feed(server, load)
            feed.send(lines[: load.batch])
            traced = subprocess.Popen(["strace", "-f", "-c", "-o", out, "-p", str(server.process.pid)], stderr=subprocess.DEVNULL)
            while f"TracerPid:\t{traced.pid}\n" not in pathlib.Path(f"/proc/{server.process.pid}/status").read_text():
                time.sleep(0.01)
            feed.send(lines[load.batch :])
            traced.send_signal(signal.SIGINT)
            traced.wait()
        rows = re.findall(r"^ *[\d.]+ +[\d.]+ +\d+ +(\d+) +(?:\d+ +)?(\w+)$", pathlib.Path(out).read_text(), re.MULTILINE)
        return {name: int(count) for count, name in rows if name != "total"}
