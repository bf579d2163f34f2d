#!/usr/bin/env python3
"""Sends packets of 50 stations to a server, and prints what it costs and keeps by the way.

    days.py PROGRAM PACKETS [days]     PROGRAM -c FILE is the server

They are sent as fast as they go, and all in a few seconds; or with `days` they are spread over three days of the server's clock, which
stands still (by libfaketime) while a packet of each station is sent and has come back to another client, and then is moved on. The first 500
come at once, so that rounds larger than all later ones are among them.
Each line of what is printed: packets sent, processor seconds, kilobytes of the process's own memory that it has asked for and that it has used,
most kilobytes of all that it has used so far, packets that the other client has got. That client
says a comment for each such line, or it would end as a silent one after two of the days. Without `days`, where it got them all, the last line has the
processor seconds of a tenth of the packets after the first 10,000, of a tenth before the last 10,000, and how many times the first the last are.
"""

import os
import socket
import subprocess
import sys
import tempfile
import time

LIBRARY = "/usr/lib/x86_64-linux-gnu/faketime/libfaketime.so.1"
PORT, STATIONS, DAYS, MARGIN, AT_ONCE = 15010, 50, 3, 10_000, 500

CONFIGURATION = f"""ServerId T2TEST
PassCode 8385
MyAdmin "Jane Doe, K1ABC"
MyEmail k1abc@example.org
Listen "Full feed" fullfeed tcp 127.0.0.1 {PORT}
"""


class Clock:
    """The server's clock, which stands still where it is put."""

    def __init__(self, folder):
        self.path = f"{folder}/clock"
        self.begins = int(time.time())
        self.put(0)

    def put(self, seconds):
        """So many seconds after the beginning."""
        with open(f"{self.path}.new", "w", encoding="ascii") as file:
            file.write(time.strftime("%Y-%m-%d %H:%M:%S", time.localtime(self.begins + seconds)))
        os.rename(f"{self.path}.new", self.path)

    def surroundings(self):
        """What a process needs in its surroundings to have this clock."""
        return {"LD_PRELOAD": LIBRARY, "FAKETIME_TIMESTAMP_FILE": self.path, "FAKETIME_NO_CACHE": "1", "FAKETIME_DONT_FAKE_MONOTONIC": "1"}


def start(program, folder, surroundings):
    with open(f"{folder}/aprsc.conf", "w", encoding="ascii") as file:
        file.write(CONFIGURATION)
    command = [os.path.abspath(program), "-c", "aprsc.conf"]
    server = subprocess.Popen(command, cwd=folder, env=os.environ | surroundings, stderr=subprocess.DEVNULL)
    time.sleep(0.5)
    return server


def log_in(call, code):
    client = socket.create_connection(("127.0.0.1", PORT))
    client.sendall(f"user {call} pass {code} vers days 1\r\n".encode())
    text = b""
    while b"# logresp" not in text:
        text += client.recv(1 << 20)
    return client


def cost(server):
    """Processor seconds of a process, whose clock has the number that clock_getcpuclockid gives. Kilobytes of its own memory, without those of its
    files: what it has asked the system for, and the pages of it that it has touched. The most that it ever had, with those of its files."""
    seconds = time.clock_gettime(~server.pid << 3 | 2)
    with open(f"/proc/{server.pid}/status", encoding="ascii") as file:
        sizes = dict(line.split()[:2] for line in file if line.startswith(("VmData", "RssAnon", "VmHWM")))
    return round(seconds, 3), sizes["VmData:"], sizes["RssAnon:"], sizes["VmHWM:"]


def packets(first):
    """One packet of each station: positions and statuses in turn."""
    bodies = (b"!49%02d.50N/07201.75W-%d" % (n, first) if n % 2 == 0 else b">k %d" % (first + n) for n in range(STATIONS))
    return b"".join(b"ST%d>APRS,WIDE1-1:%s\r\n" % (n, body) for n, body in enumerate(bodies))


def lines_in(client):
    """How many line ends have come since."""
    count = 0
    while True:
        try:
            piece = client.recv(1 << 20, socket.MSG_DONTWAIT)
        except BlockingIOError:
            return count
        if not piece:
            return count
        count += piece.count(b"\n")


def await_packets(client, count):
    """Waits until so many packets have come."""
    text = b""
    while text.count(b",qA") < count:
        text += client.recv(1 << 20)


class Marks:
    """Processor seconds at the numbers of packets between which the first tenth and the last lie."""

    def __init__(self, count):
        first, last = MARGIN, count - MARGIN
        self.left = [first, first + count // 10, last - count // 10, last]
        self.seconds = []

    def pass_by(self, got, server):
        while self.left and got >= self.left[0]:
            self.left.pop(0)
            self.seconds.append(cost(server)[0])

    def print_ratio(self):
        if not self.left:
            first, last = self.seconds[1] - self.seconds[0], self.seconds[3] - self.seconds[2]
            print(f"first tenth {first:.3f} s, last tenth {last:.3f} s, ratio {last / first:.2f}")


def tell(server, sent, count, reader, got):
    """Prints a line, where one is due after so many packets."""
    if sent == MARGIN or sent == count or sent % (count // 20) == 0:
        reader.sendall(b"# here\r\n")
        print(sent, *cost(server), got, flush=True)


def send_fast(server, count, sender, reader):
    """Sends the packets as fast as they go."""
    got, marks = 0, Marks(count)
    for sent in range(0, count, STATIONS):
        sender.sendall(packets(sent))
        got += lines_in(reader)
        marks.pass_by(got, server)
        tell(server, sent + STATIONS, count, reader, got)
    ended = time.monotonic()
    while marks.left and time.monotonic() < ended + 5:
        time.sleep(0.01)
        got += lines_in(reader)
        marks.pass_by(got, server)
    marks.print_ratio()


def send_for_days(server, count, sender, reader, clock):
    """Sends a packet of each station after another over the days."""
    sender.sendall(b"".join(packets(sent) for sent in range(0, AT_ONCE, STATIONS)))
    await_packets(reader, AT_ONCE)
    for sent in range(AT_ONCE, count, STATIONS):
        clock.put(DAYS * 86_400 * sent // count)
        sender.sendall(packets(sent))
        await_packets(reader, STATIONS)
        lines_in(sender)
        tell(server, sent + STATIONS, count, reader, sent + STATIONS)


def main():
    program, count, for_days = sys.argv[1], int(sys.argv[2]), sys.argv[3:] == ["days"]
    with tempfile.TemporaryDirectory() as folder:
        clock = Clock(folder) if for_days else None
        server = start(program, folder, clock.surroundings() if clock else {})
        try:
            sender, reader = log_in("N0CALL", 13023), log_in("K1ABC", 14993)
            if clock:
                send_for_days(server, count, sender, reader, clock)
            else:
                send_fast(server, count, sender, reader)
        finally:
            server.terminate()


main()
