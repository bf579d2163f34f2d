#!/usr/bin/env python3
"""What a server keeps of each packet, source and hearing, in bytes of its memory.

    held.py PROGRAM [COUNT]        the default is 100,000

One client sends COUNT lines, each different, to a fresh server, and another with the full feed takes them. What the
process's pages grow by between the first tenth and the last, divided by the lines between, is a row's figure. Tables
double their room when they are full, so another COUNT gives others. The rows differ by what is kept: of statuses of one
source the packets of the last seconds alone; of statuses of a source each also that the link heard it; of positions of a
source each also where it was last seen; and of positions that a gate each brought the gate, too.
"""

import pathlib
import socket
import subprocess
import sys
import tempfile
import threading

CONF = "ServerId T2TEST\nPassCode 8385\nListen full fullfeed tcp 127.0.0.1 {port}\nDupeWindow 300s\n"
ROWS = {
    "a packet": "N0CALL>APRS:>{n:06}",
    "a packet, and its source as heard": "S{n:06}>APRS:>{n:06}",
    "the same, and the place of its source": "S{n:06}>APRS:!5000.00N/02000.00E-{n:06}",
    "the same, and its gate": "S{n:06}>APRS,qAR,G{n:06}:!5000.00N/02000.00E-{n:06}",
}
BATCH = 100


def free_port():
    with socket.socket() as tried:
        tried.bind(("127.0.0.1", 0))
        return tried.getsockname()[1]


def pages(process):
    """The bytes of the process's own memory that it has touched."""
    for line in pathlib.Path(f"/proc/{process.pid}/smaps_rollup").read_text().splitlines():
        if line.startswith("Private_Dirty:"):
            return int(line.split()[1]) * 1024
    raise OSError("no Private_Dirty")


def log_in(port, call, code):
    for _ in range(100):
        try:
            link = socket.create_connection(("127.0.0.1", port))
            break
        except ConnectionRefusedError:
            threading.Event().wait(0.05)
    link.sendall(f"user {call} pass {code}\r\n".encode())
    lines = link.makefile("rb")
    while not lines.readline().startswith(b"# logresp"):
        pass
    return link, lines


def grown(program, count, form):
    """What a line adds, in bytes."""
    port = free_port()
    with tempfile.TemporaryDirectory() as folder:
        (pathlib.Path(folder) / "conf").write_text(CONF.format(port=port))
        server = subprocess.Popen([program, "-c", "conf"], cwd=folder, stderr=subprocess.DEVNULL)
        try:
            sender, _ = log_in(port, "N0CALL", 13023)
            receiver, lines = log_in(port, "K1ABC", 14993)
            marks, done = [], 0
            while done < count:
                text = "".join(form.format(n=done + n) + "\r\n" for n in range(BATCH))
                sender.sendall(text.encode())
                heard = 0
                while heard < BATCH:
                    heard += not lines.readline().startswith(b"#")
                done += BATCH
                if done in (count // 10, count):
                    marks.append(pages(server))
            receiver.close()
            return (marks[1] - marks[0]) / (count - count // 10)
        finally:
            server.kill()
            server.wait()


def main(program, count="100000"):
    for name, form in ROWS.items():
        print(f"{grown(program, int(count), form):6.0f}  {name}")


if __name__ == "__main__":
    if len(sys.argv) not in (2, 3):
        sys.exit(__doc__)
    main(*sys.argv[1:])
