"""One start of the bridge among simulated stations: what is recorded beside it, and what has to agree in the end."""
import copy
import itertools
import os
import re
import shutil
import signal
import struct
import subprocess
import time
from collections import Counter, defaultdict
from collections.abc import Callable
from dataclasses import dataclass, field

from paths import TOP
from frames import (BEACON, DATA, DEAUTHENTICATION, DISASSOCIATION, MANAGEMENT, NULL, PROBE_RESPONSE, Frame,
                    address_of, address_text, is_group, number)
from radiotap import captured
from stations import Failed, Program, Radio, kill_each, read, run, wait_for, write

PCAP_HEADER, PCAP_RECORD = 24, struct.Struct("<IIII")
RADIO_TEXT = "version = {version}\nchannel = 6\ninterval = 100\nqueue = 64\n"
NETWORK_TEXT = """
[[network]]
bssid = "{bssid}"
ssid = "{ssid}"
rates = "{rates}"
dtim = {dtim}
max_stations = 64
max_known = 128
quota = 200
max_events = 1000000
{more}"""
# Between the bridge and the program: what the program writes while it is live is kept, as it comes, of each start in a
# file of its own. Without lines it is only asked whether it knows a word.
KEEPING = """#!/bin/bash
set -o pipefail
[ "$1" = live ] && [ "$(readlink /proc/self/fd/0)" != /dev/null ] || exec {program} "$@"
answers={answers} number=0
while [ -e "$answers" ]; do
    number=$((number + 1))
    answers={answers}.$number
done
{program} "$@" | tee "$answers"
"""
READY, TIMEOUT = "networks are on channel", 30
# Where BY names the interfaces that networks have (tools/live, `--by`), each start gets it.
BY = ("--by", os.environ["BY"]) if "BY" in os.environ else ()
LONGEST_PACKET = "4096"
SECONDS_TO_END = 60
COMPILED = os.path.join(TOP, "build", "bridge", "release", "bridge")
RECORD_HEADER = struct.Struct("<c6sH")  # of a record of octets: its kind, a BSSID, how many octets follow
KINDS = {b"A": "air", b"W": "wire"}
BRIDGES_REASONS = (3, 4)  # leaving, and inactivity
# Between these comments of a record stands what a new program was told of stations that joined before.
RESTORED_FROM, RESTORED_TO = "# restored: of the lines", "# restored: up to here"
# And between these units of stations that doze, which went back to the program.
HANDED_BACK_FROM, HANDED_BACK_TO = "# handed back: the lines", "# handed back: up to here"
SNAP, LEAST_TYPE = bytes.fromhex("aaaa03000000"), 0x0600
DURATION, RECEIVER, RETRY, TIMESTAMP = slice(2, 4), slice(4, 10), 0x08, slice(24, 32)


@dataclass(frozen=True)
class Net:
    """A network of the configuration, with the interface of its wire."""

    bssid: str
    ssid: str
    port: str
    dtim: int = 1
    more: str = ""
    rates: str = "82840b16"
    quota: int = 200
    max_known: int = 128


@dataclass
class Section:
    """What was written of one network."""

    air: list[str] = field(default_factory=list)
    wire: list[str] = field(default_factory=list)
    table: list[str] = field(default_factory=list)


def text_of(answers: bytes) -> str:
    """The records that the program wrote, as lines of text (docs/FORMATS.md); a record that was cut is left out."""
    lines, place = [], 0
    while place + RECORD_HEADER.size <= len(answers):
        kind, bssid, length = RECORD_HEADER.unpack_from(answers, place)
        octets = answers[place + RECORD_HEADER.size:place + RECORD_HEADER.size + length]
        place += RECORD_HEADER.size + length
        if place > len(answers):
            break
        if kind in KINDS:
            lines.append(f"{KINDS[kind]} {address_text(bssid)} {octets.hex()}\n")
        else:
            lines.append(octets.decode("ascii") if kind == b"N" else f"ok {bssid[5]}\n")
    return "".join(lines)


def read_answers(text: str) -> dict[str, Section]:
    """What the program wrote while it was live, by network, each with its last table; a last line that was cut, as
    where it was killed, is left out."""
    sections: dict[str, Section] = defaultdict(Section)
    network = ""
    for line in text[:text.rfind("\n") + 1].splitlines():
        word, _, rest = line.partition(" ")
        if word in ("air", "wire"):
            bssid, octets = rest.split(" ")
            getattr(sections[bssid], word).append(octets)
        elif word == "network":
            network = rest.split(" ")[0]
            sections[network].table = [line]
        elif word in ("events", "station"):
            sections[network].table.append(line)
    return sections


def read_report(text: str) -> dict[str, Section]:
    """A report, by network."""
    sections: dict[str, Section] = defaultdict(Section)
    network = ""
    for line in text.splitlines():
        word, _, rest = line.partition(" ")
        if word == "network":
            network = rest.split(" ")[0]
        if word in ("air", "wire"):
            getattr(sections[network], word).append(rest)
        elif word != "end":
            sections[network].table.append(line)
    return sections


def timed_packets(path: str) -> list[tuple[int, bytes]]:
    """The packets of a capture that tcpdump wrote on this machine, each with its time in nanoseconds."""
    with open(path, "rb") as file:
        octets = file.read()
    found, place = [], PCAP_HEADER
    while place + PCAP_RECORD.size <= len(octets):
        seconds, microseconds, length, _ = PCAP_RECORD.unpack_from(octets, place)
        place += PCAP_RECORD.size
        found.append((seconds * 10 ** 9 + microseconds * 1000, octets[place:place + length]))
        place += length
    return found


def seconds_idle() -> float:
    """How long the guest's processor has had nothing to do, as the kernel measures it."""
    with open("/proc/stat", encoding="ascii") as file:
        return sum(map(int, file.readline().split()[4:6])) / os.sysconf("SC_CLK_TCK")


def stamped_by_radio(release: str) -> tuple[int, ...]:
    """The management frames whose timestamp the simulated radio of a kernel writes: from Linux 7 on beacons too, before
    only probe responses (mac80211_hwsim.c)."""
    return (PROBE_RESPONSE, BEACON) if int(release.partition(".")[0]) >= 7 else (PROBE_RESPONSE,)


STAMPED = stamped_by_radio(os.uname().release)


def comparable(octets: bytes, stamped: tuple[int, ...] = STAMPED) -> bytes:
    """A frame without what the kernel or the radio writes into it: Duration, Retry, and the timestamp of some."""
    text = bytearray(octets)
    text[1] &= ~RETRY
    text[DURATION] = bytes(2)
    if any(Frame(octets).is_management(subtype) for subtype in stamped):
        text[TIMESTAMP] = bytes(8)
    return bytes(text)


def kind_and_receiver(octets: bytes) -> tuple[bool, bytes]:
    """Whether a frame is a beacon, and its address 1."""
    return Frame(octets).is_management(BEACON), octets[RECEIVER]


def beacons_before(frames: list[bytes]) -> list[int]:
    """Of each frame for a group, by receiver, how many beacons stand before it; beacons themselves are left out."""
    beacons = itertools.accumulate(Frame(octets).is_management(BEACON) for octets in frames)
    found = [(octets[RECEIVER], count) for octets, count in zip(frames, beacons)
             if is_group(octets[RECEIVER]) and not Frame(octets).is_management(BEACON)]
    return [count for _, count in sorted(found, key=lambda pair: pair[0])]


def same_on_air(what: str, heard: list[bytes], wrote: list[bytes]) -> None:
    """Failed where other frames were heard than were written, or in another order: a beacon may overtake frames for a
    group that were written before it, and nothing may overtake a beacon (docs/BRIDGE.md)."""
    same(what, sorted(heard, key=kind_and_receiver), sorted(wrote, key=kind_and_receiver))
    early = sum(found < wanted for found, wanted in zip(beacons_before(heard), beacons_before(wrote)))
    if early:
        raise Failed(f"{what}: {early} frames for a group went before a beacon that was written before them")


def handed_back(lines: list[str]) -> Counter[tuple[str, bytes]]:
    """The units of a record that went back to the program: their networks, and the frames of a wire that they are."""
    found: Counter[tuple[str, bytes]] = Counter()
    is_between = False
    for line in lines:
        if line.startswith((HANDED_BACK_FROM, HANDED_BACK_TO)):
            is_between = line.startswith(HANDED_BACK_FROM)
        elif is_between and line.startswith("W "):
            _, bssid, octets = line.split(" ")
            found[bssid, bytes.fromhex(octets)] += 1
    return found


def wired_form(octets: bytes) -> bytes:
    """A unit that a network sends to a station, as a frame of Ethernet (docs/PROTOCOL.md, "The wire")."""
    body = octets[24:]
    is_typed = body.startswith(SNAP) and number(body[len(SNAP):len(SNAP) + 2][::-1]) >= LEAST_TYPE
    return octets[RECEIVER] + octets[16:22] + (body[len(SNAP):] if is_typed else struct.pack(">H", len(body)) + body)


def without_unsent(bssid: str, wrote: list[bytes], heard: list[bytes],
                   back: Counter[tuple[str, bytes]]) -> list[bytes]:
    """What the program wrote for a network, but for units that weren't heard and went back to it."""
    left, unsent, sent = Counter(heard), Counter(back), []
    for octets in wrote:
        if left[octets] > 0:
            left[octets] -= 1
        elif unsent[bssid, wired_form(octets)] > 0:
            unsent[bssid, wired_form(octets)] -= 1
            continue
        sent.append(octets)
    return sent


class NotSeen(Failed):
    """A capture lost packets: it shows nothing of what was sent."""


def same(what: str, found: list, wanted: list) -> None:
    """Failed where two lists differ, with where they begin to."""
    if found != wanted:
        place = next((n for n, (a, b) in enumerate(zip(found, wanted)) if a != b), min(len(found), len(wanted)))
        raise Failed(f"{what}: {len(found)} and {len(wanted)}, of which number {place} differs: "
                     f"{str(found[place:place + 1])[:200]} and {str(wanted[place:place + 1])[:200]}")


class Tcpdump:
    """A capture of an interface."""

    def __init__(self, interface: str, path: str, words: tuple[str, ...] = ()) -> None:
        self.path = path
        self.log = open(path + ".log", "wb")
        # Each packet takes a place in the buffer as long as the longest that is asked for: a frame and its header.
        self.process = subprocess.Popen([*words, "tcpdump", "-i", interface, "-w", path, "-s", LONGEST_PACKET, "-B",
                                         "16384", "-U", "-Z", "root", "--immediate-mode"], stdin=subprocess.DEVNULL,
                                        stdout=self.log, stderr=self.log)
        wait_for(f"tcpdump of {interface}", 20, lambda: os.path.exists(path) and os.path.getsize(path) >= PCAP_HEADER)

    def end(self) -> None:
        """Ends it, where it hasn't ended."""
        if self.process.poll() is None:
            time.sleep(0.5)
            self.process.send_signal(signal.SIGINT)
            self.process.wait()
            self.log.close()

    def packets_so_far(self) -> list[bytes]:
        """What it captured so far."""
        return [packet for _, packet in timed_packets(self.path)]

    def packets(self) -> list[bytes]:
        """Ends it, and gives what it captured."""
        self.end()
        dropped = re.search(r"(\d+) packets? dropped by kernel", read(self.path + ".log"))
        if dropped and dropped.group(1) != "0":
            raise NotSeen(f"{self.path}: {dropped.group(0)}")
        return self.packets_so_far()


class Observer:
    """A radio of its own that only hears."""

    def __init__(self, radio: Radio, frequency: int) -> None:
        run("iw", "dev", radio.interface, "del")
        run("iw", "phy", radio.phy, "interface", "add", "obs0", "type", "monitor", "flags", "control")
        run("ip", "link", "set", "obs0", "up")
        run("iw", "dev", "obs0", "set", "freq", str(frequency))


class Start(Program):
    """One start of the bridge. At most one runs: another that begins takes down what a failed case has left running."""

    running: "Start | None" = None

    def __init__(self, name: str, folder: str, bridge: str, program: str, phy: str, networks: tuple[Net, ...],
                 version: int = 1, more: tuple[str, ...] = ()) -> None:
        self.name = name
        self.words = name, folder, bridge, program, phy, networks, version, more
        self.networks = networks
        self.more = more
        self.program = program
        self.bridge = bridge
        self.phy = phy
        self.folder = new_folder(folder, name)
        self.config, self.record, self.answers, self.log, keeping = (
            os.path.join(self.folder, file) for file in ("config", "record", "answers", "log", "keeping"))
        self.version = version
        self.write_config()
        write(keeping, KEEPING.format(program=program, answers=self.answers), 0o755)
        self.keeping = keeping
        self.observed: Tcpdump | None = None
        self.was_killed = False

    def anew(self) -> "Start":
        """Another start as this one was made, with files of its own."""
        return Start(*self.words)

    def take_down(self) -> None:
        """Ends what runs of it, however."""
        if self.is_running():
            self.process.send_signal(signal.SIGINT)
            try:
                self.process.wait(SECONDS_TO_END)
            except subprocess.TimeoutExpired:
                self.process.kill()
                for process in processes_of(COMPILED) + processes_of(self.program):
                    os.kill(process, signal.SIGKILL)
                self.process.wait()
        if self.observed is not None:
            self.observed.end()
        if Start.running is self:
            Start.running = None

    def write_config(self) -> None:
        """Writes the configuration of the networks."""
        config = RADIO_TEXT.format(version=self.version)
        for net in self.networks:
            text = NETWORK_TEXT.format(bssid=net.bssid, ssid=net.ssid, rates=net.rates, dtim=net.dtim, more=net.more)
            text = text.replace("quota = 200\n", f"quota = {net.quota}\n")
            config += text.replace("max_known = 128\n", f"max_known = {net.max_known}\n")
        write(self.config, config)

    def begin(self) -> None:
        """Starts the bridge, with the radio that hears beside it."""
        if Start.running is not None:
            Start.running.take_down()
        Start.running = self
        self.observed = Tcpdump("obs0", os.path.join(self.folder, "observed.pcap"))
        # What keeps the answers is a script, which couldn't run within the program's bounds.
        words = [self.bridge, self.config, "--phy", self.phy, "--program", self.keeping, "--record", self.record,
                 "--as-root", *BY, *self.more]
        for net in self.networks if "--wires" not in self.more else ():
            words += ["--wire", f"{net.bssid}={net.port}"]
        self.start_process(words)
        self.wait_until_begun(f"the bridge of {self.name}", READY, TIMEOUT)

    def reload(self, says: str) -> None:
        """Has the configuration read again, and waits until this is told."""
        before = len(self.told())
        self.process.send_signal(signal.SIGHUP)
        wait_for(f"'{says}' is told", TIMEOUT, lambda: says in self.told()[before:], 0.05)

    def answered(self) -> str:
        """What the program has written so far."""
        with open(self.answers, "rb") as file:
            return text_of(file.read())

    def recorded(self) -> list[str]:
        """The lines that the program was given so far, but for the last moments."""
        return read(self.record).splitlines()

    def tables(self) -> dict[str, list[str]]:
        """The networks' tables of now, by their BSSIDs."""
        before = self.told().count("\nend\n")
        self.process.send_signal(signal.SIGUSR1)
        wait_for("the tables", 20, lambda: self.told().count("\nend\n") >= before + len(self.networks), 0.1)
        return {bssid: section.table for bssid, section in read_answers(self.told()).items()}

    def station(self, bssid: str, address: str) -> str:
        """The line of a station in the tables of now, or nothing."""
        return next((line for line in self.tables()[bssid] if line.startswith(f"station {address} ")), "")

    def end(self) -> None:
        """Ends the bridge by a signal: it has to end well."""
        self.process.send_signal(signal.SIGINT)
        self.ended(0)

    def ended(self, status: int) -> None:
        """The bridge has to end with a status, and to have taken down what it set up."""
        found = self.process.wait(SECONDS_TO_END)
        Start.running = None
        self.observed.end()
        if found != status:
            raise Failed(f"the bridge ended with status {found}: {self.told()[-500:]}")
        left = [name for name in os.listdir("/sys/class/net") if name.startswith("mon0")]
        if left:
            raise Failed(f"the bridge left {left}")

    def kill_again_and_again(self, executable: str) -> None:
        """Kills what runs this file as soon as it runs: in the end that is given up."""
        self.was_killed = True
        until = time.monotonic() + SECONDS_TO_END
        while self.is_running() and time.monotonic() < until:
            kill_each(processes_of(executable))
            time.sleep(0.02)
        self.ended(1)
        self.has_told("; it begins anew")
        wait_for("the program ends", 20, lambda: not processes_of(self.program))

    def has_told(self, text: str) -> None:
        """The bridge has to have told this."""
        if text not in self.told():
            raise Failed(f"the bridge didn't say '{text}': {self.told()[-500:]}")

    def rerun(self, lines: list[str]) -> dict[str, Section]:
        """What `run` reports of these lines."""
        trace = os.path.join(self.folder, "trace")
        write(trace, "".join(f"{line}\n" for line in lines))
        return read_report(run(self.program, "run", self.config, trace))

    def change_to(self, networks: tuple[Net, ...]) -> "Start":
        """Writes a configuration of other networks in place of this one. Answers the start as it was: its files are what
        was recorded before the configuration is read again."""
        before = copy.copy(self)
        before.config = shutil.copy(self.config, f"{self.config}.before")
        self.networks = networks
        self.write_config()
        self.record, self.answers = f"{self.record}.1", f"{self.answers}.1"
        return before

    def agrees_with_run(self) -> str:
        """What the program wrote has to be what `run` reports of the record; where it was killed, to begin it."""
        wrote, report = read_answers(self.answered()), self.rerun(self.recorded())
        for net in self.networks:
            live, ran = wrote[net.bssid], report[net.bssid]
            if self.was_killed:
                ran = Section(ran.air[:len(live.air)], ran.wire[:len(live.wire)], live.table)
            same(f"{self.name}: air of {net.ssid}", live.air, ran.air)
            same(f"{self.name}: wire of {net.ssid}", live.wire, ran.wire)
            same(f"{self.name}: table of {net.ssid}", live.table, ran.table)
        air, wire = (sum(len(getattr(wrote[net.bssid], kind)) for net in self.networks) for kind in ("air", "wire"))
        return f"{len(self.recorded())} lines, {air} frames on the air, {wire} on wires"

    def agrees_without(self, guests: str) -> str:
        """With all that only the guests' network hears taken out, the others' frames have to be the same."""
        bssid = address_of(guests)
        kept = [line for line in self.recorded() if not heard_only_by(line, bssid)]
        wrote, report = read_answers(self.answered()), self.rerun(kept)
        for net in self.networks:
            if net.bssid != guests:
                same(f"air of {net.ssid}", wrote[net.bssid].air, report[net.bssid].air)
                same(f"wire of {net.ssid}", wrote[net.bssid].wire, report[net.bssid].wire)
        taken_out = len(self.recorded()) - len(kept)
        if not taken_out:
            raise Failed("the guests' network heard nothing of its own")
        return f"{taken_out} of {len(self.recorded())} lines taken out"

    def swallowed(self) -> dict[str, Section]:
        """What the program answered to what it was told of stations that joined before it began: that isn't sent."""
        lines = self.recorded()
        ends = [place for place, line in enumerate(lines) if line.startswith(RESTORED_TO)]
        return self.rerun(lines[:ends[0]]) if ends else defaultdict(Section)

    def sent_on_air(self, bssid: str) -> list[str]:
        """What the program wrote for a network on the air and the bridge sent: all but what was swallowed."""
        return read_answers(self.answered())[bssid].air[len(self.swallowed()[bssid].air):]

    def agrees_with_observed(self, earlier: "tuple[Start, ...]" = (),
                             is_stranger: Callable[[bytes], bool] = lambda receiver: False) -> str:
        """What another radio heard of each network has to be what the program wrote for it, and the earlier ones before
        it: for each receiver the same frames in the same order, where one that was sent again counts once. A unit of a
        station that dozes may have gone back to the program before it was sent. Of answers to strangers some are dropped,
        and the newest goes first: what was heard of these has to be among what was written."""
        starts = (*earlier, self)
        bssids = {address_of(net.bssid): net for start in starts for net in start.networks}
        heard: dict[str, list[bytes]] = defaultdict(list)
        answers: dict[str, list[bytes]] = defaultdict(list)
        last: dict[tuple[bytes, bytes], int] = {}
        for packet in self.observed.packets():
            found = captured(packet)
            frame = Frame(found.frame) if found else None
            if frame and frame.transmitter in bssids and not is_bridges_own(frame):
                way = frame.transmitter, frame.receiver
                if not frame.retry or last.get(way) != frame.sequence_control:
                    found_in = answers if is_stranger(frame.receiver) else heard
                    found_in[bssids[frame.transmitter].bssid].append(comparable(frame.octets))
                last[way] = frame.sequence_control
        back = sum((handed_back(start.recorded()) for start in starts), Counter())
        for net in bssids.values():
            sent = [bytes.fromhex(octets) for start in starts for octets in start.sent_on_air(net.bssid)]
            wrote = [comparable(octets) for octets in sent if not is_stranger(octets[RECEIVER])]
            to_strangers = Counter(comparable(octets) for octets in sent if is_stranger(octets[RECEIVER]))
            if made_up := Counter(answers[net.bssid]) - to_strangers:
                raise Failed(f"{self.name}: {made_up.total()} answers to strangers of {net.ssid} that weren't written")
            same_on_air(f"{self.name}: heard of {net.ssid}", heard[net.bssid],
                        without_unsent(net.bssid, wrote, heard[net.bssid], back))
        return f"{sum(map(len, heard.values()))} frames heard"


def new_folder(folder: str, name: str) -> str:
    """Makes a folder of this name there, or where it is there already with the first number behind it that isn't."""
    for count in itertools.count(1):
        path = os.path.join(folder, name if count == 1 else f"{name}-{count}")
        if not os.path.exists(path):
            os.makedirs(path)
            return path


def processes_of(executable: str) -> list[int]:
    """The processes that run this file."""
    wanted = os.path.realpath(executable)
    return [int(pid) for pid in os.listdir("/proc") if pid.isdigit() and executable_of(pid) == wanted]


def process_of(executable: str) -> int:
    """The process that runs this file, of which there has to be one."""
    found = processes_of(executable)
    if len(found) != 1:
        raise Failed(f"{executable} runs {len(found)} times")
    return found[0]


def executable_of(pid: str) -> str | None:
    """The file that a process runs, or None of one that has ended, or is the kernel's."""
    try:
        return os.readlink(f"/proc/{pid}/exe")
    except OSError:
        return None


def is_bridges_own(frame: Frame) -> bool:
    """Whether a frame of a network is one that the bridge sends by itself: a Null frame, or a disassociation or
    deauthentication for one of its reasons."""
    if frame.is_management(DISASSOCIATION) or frame.is_management(DEAUTHENTICATION):
        return number(frame.body[:2]) in BRIDGES_REASONS
    return (frame.type, frame.subtype) == (DATA, NULL)


def heard_only_by(line: str, bssid: bytes) -> bool:
    """Whether no network but this one hears a line."""
    word, _, rest = line.partition(" ")
    if word == "A":
        return bytes.fromhex(rest)[4:10] == bssid
    return word == "W" and rest.split(" ")[0] == address_text(bssid)


def sent_units(text: str, bssid: str) -> list[Frame]:
    """The frames that a network sent, of what the program wrote."""
    return [Frame(bytes.fromhex(octets)) for octets in read_answers(text)[bssid].air]


def is_group_unit(frame: Frame) -> bool:
    """Whether it is a unit for several stations, or for all."""
    return frame.type != MANAGEMENT and is_group(frame.receiver)
