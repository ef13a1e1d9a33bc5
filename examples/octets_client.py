#!/usr/bin/python3
"""A client of `apctl live --octets`, to take for a test bench, a simulator or a radio of your own.

Usage: octets_client.py CONFIG TRACE [PROGRAM]. It gives the program the lines of a trace one by one, and prints each
frame that the networks send, behind the number of the line that brought it, and the tables at the end. A client with a
radio calls `tick` each `interval` of the configuration, and not where a trace has a line T. A record is a kind, a
BSSID, a length of two octets, the low one first, and so many octets (docs/FORMATS.md, "Lines as they come").
"""
import queue
import subprocess
import sys
import threading

NOBODY = bytes(6)
HEAD = 9  # the octets of a record before those that its length counts


class Ended(Exception):
    """The program has ended; its standard error says why."""


class AccessPoint:
    """The program, as it runs. `sent(is_wired, bssid, frame)` is called for each frame, by the thread that reads."""

    def __init__(self, config, sent, program="apctl"):
        self.process = subprocess.Popen([program, "live", "--octets", config], stdin=subprocess.PIPE,
                                        stdout=subprocess.PIPE)
        self.sent, self.told, self.writing = sent, queue.Queue(), threading.Lock()
        if (opened := self.record()) is None:
            raise Ended(f"status {self.process.wait()}")
        self.networks = opened[1][5]
        # The program reads nothing while nobody takes what it writes, so a thread of its own reads.
        threading.Thread(target=self.read, daemon=True).start()

    def record(self):
        """The next record that the program writes: its kind, its BSSID and its octets; None at the end."""
        head = self.process.stdout.read(HEAD)
        if len(head) < HEAD:
            return None
        return head[:1], head[1:7], self.process.stdout.read(int.from_bytes(head[7:], "little"))

    def read(self):
        """Hands on what the program writes, up to its end."""
        while (record := self.record()) is not None:
            kind, bssid, octets = record
            if kind == b"N":
                self.told.put(octets.decode().rstrip("\n"))
            else:
                self.sent(kind == b"W", bssid, octets)
        self.told.put(None)

    def write(self, kind, bssid=NOBODY, octets=b""):
        """Writes one record, whole."""
        with self.writing:
            try:
                self.process.stdin.write(kind + bssid + len(octets).to_bytes(2, "little") + octets)
                self.process.stdin.flush()
            except BrokenPipeError:
                raise Ended(f"status {self.process.wait()}") from None

    def hear(self, frame):
        """A frame was on the air, without its check sequence."""
        self.write(b"A", octets=frame)

    def come(self, bssid, frame):
        """An Ethernet frame came over the wire of a network."""
        self.write(b"W", bssid, frame)

    def tick(self):
        """A beacon interval begins."""
        self.write(b"T")

    def tables(self):
        """The tables, and faults before them, as lines. Each frame that was sent before has been handed on then."""
        self.write(b"I")
        return self.lines()

    def close(self):
        """Ends the program, and gives its last tables."""
        self.process.stdin.close()
        return self.lines(), self.process.wait()

    def lines(self):
        """Lines that the program tells, up to the end of the last network's table."""
        found = []
        while found.count("end") < self.networks:
            if (line := self.told.get()) is None:
                raise Ended(f"status {self.process.wait()}")
            found.append(line)
        return found


def play(config, trace, program="apctl"):
    """Gives the program the lines of a trace, and answers its status."""
    at, words = [0], ("air", "wire")
    point = AccessPoint(config, lambda is_wired, bssid, frame: print(
        at[0], words[is_wired], bssid.hex(":"), frame.hex()), program)
    with open(trace, encoding="ascii") as lines:
        for at[0], line in enumerate(lines, 1):
            word, *rest = line.split() or ["#"]
            if word == "A":
                point.hear(bytes.fromhex("".join(rest)))
            elif word == "W":
                point.come(bytes.fromhex(rest[0].replace(":", "")), bytes.fromhex("".join(rest[1:])))
            elif word == "T":
                point.tick()
            for fault in filter(lambda told: told.startswith("fault"), point.tables()):
                print(at[0], fault)
    last, status = point.close()
    print(*last, sep="\n")
    return status


if __name__ == "__main__":
    if len(sys.argv) not in (3, 4):
        sys.exit(__doc__)
    try:
        sys.exit(play(*sys.argv[1:]))
    except Ended as ended:
        sys.exit(f"the program has ended: {ended}")
