"""The cases of stations that stay: the configuration is read again, the program and the bridge are killed, and no station
notices. Of each, pings that a station sends all the time are counted, and who joined."""
import os
import random
import re
import shutil
import signal
import time
from dataclasses import replace

from paths import HERE
from airing import Hostapd
from parts import Part, join_all
from stage import RESTORED_FROM, RESTORED_TO, COMPILED, Net, Start, process_of, processes_of, read_answers
from stations import Failed, Station, kill_each, read, run, wait_for, write

GUESTS, OFFICE, DEVICES = (f"02:00:00:00:01:0{number}" for number in (1, 2, 3))
FIRST_STAYING = 121
OF_NETWORKS = (10, 6, 4)  # how many stations each network has
EVERY = 0.02  # seconds between pings of the first station of each network
OTHERS_EVERY = 0.5  # of the others
MOST_MISSING = 10  # pings of one station for a reload or a killed program
MOST_MISSING_OF_BRIDGE = 100  # two seconds, for a killed bridge
KILLS, SEED = 10, 89
AGE_SECONDS = 60
SUM_OF_NOTHING, SUM_FACTOR, SUM_MASK = 0xcbf29ce484222325, 0x100000001b3, (1 << 64) - 1
SEQUENCE = re.compile(r"icmp_seq=(\d+) ttl")


class Flow:
    """Pings of a station to its host, until it is ended."""

    def __init__(self, station: Station, address: str, every: float, log: str) -> None:
        self.station, self.log, self.every = station, log, every
        with open(log, "wb") as output:
            self.process = station.start("ping", "-n", "-i", str(every), address, output=output)

    def answered(self) -> list[int]:
        """The numbers of the pings that came back so far."""
        return [int(number) for number in SEQUENCE.findall(read(self.log))]

    def goes_on(self, after: int) -> bool:
        """Whether pings came back that are later than this one."""
        return bool(self.last() > after)

    def last(self) -> int:
        """The latest that came back."""
        return max(self.answered(), default=0)

    def missing(self, first: int, last: int) -> int:
        """How many didn't come back of those between these."""
        found = {number for number in self.answered() if first <= number <= last}
        return last - first + 1 - len(found)

    def end(self) -> None:
        """Ends them."""
        for process in run("ip", "netns", "pids", self.station.name).split():
            if executable_name(process) == "ping":
                os.kill(int(process), signal.SIGINT)
        self.process.wait()


def executable_name(process: str) -> str:
    """The name of what a process runs."""
    try:
        return os.path.basename(os.readlink(f"/proc/{process}/exe"))
    except OSError:
        return ""


class Stays(Part):
    """Twenty stations in three networks."""

    def __init__(self, cases) -> None:
        self.three = (Net(GUESTS, "guests", "wire1"), Net(OFFICE, "office", "wire2", 2), Net(DEVICES, "devices", "wire3"))
        super().__init__(cases, cases.start("stays", self.three))
        self.stations = cases.stations[:sum(OF_NETWORKS)]
        self.hosts = cases.hosts
        self.flows: list[Flow] = []
        self.random = random.Random(SEED)
        self.generations = 0  # how often a program was begun since the start

    def run(self) -> None:
        """Its cases in order."""
        case = self.case
        self.begins("stays: the bridge begins, and twenty stations join three networks", self.set_up)
        case("a reload without a change: no station notices", self.reload_without_change)
        case("a reload that changes one network: no station of another one notices", self.reload_with_change)
        case(f"the program is killed {KILLS} times: no station notices", lambda: self.kill_often(
            self.start.program, MOST_MISSING))
        case(f"the bridge is killed {KILLS} times: pings come again within two seconds, and no station joins",
             lambda: self.kill_often(COMPILED, MOST_MISSING_OF_BRIDGE))
        case("a station that dozes loses no ping of its host", self.doze)
        case("a table with gaps: all keep their identifiers", self.gaps)
        case("a table that is full: all stay, and those above a smaller most join again", self.full)
        case("`run` on each record gives what its program wrote", self.records)
        self.end_flows()
        self.alone("all are killed at once: stations that are still there stay", self.kill_all)
        self.alone("a state that is damaged, old, or of another radio or configuration is told and not used", self.unused)
        self.cases.leave_all()
        self.start.take_down()
        self.alone("hostapd reads its configuration again, and is killed and begun again", self.beside_hostapd)
        self.end_flows()
        self.cases.leave_all()

    def host_of(self, place: int):
        """The host of the network of this place."""
        return self.hosts[place]

    def members(self) -> list[tuple[Station, int]]:
        """The stations with the places of their networks."""
        places = [place for place, number in enumerate(OF_NETWORKS) for _ in range(number)]
        return list(zip(self.stations, places))

    def set_up(self) -> str:
        """All are joined, and ping their hosts."""
        self.end_flows()
        self.generations = 0
        self.start.begin()
        shutil.copy(self.start.config, f"{self.start.config}.0")
        join_all(((station, self.host_of(place), self.three[place].ssid, self.three[place].bssid)
                  for station, place in self.members()), FIRST_STAYING, 180)
        before = None
        for station, place in self.members():
            every, before = OTHERS_EVERY if place == before else EVERY, place
            log = os.path.join(self.start.folder, f"ping-{station.name}")
            self.flows.append(Flow(station, self.host_of(place).address, every, log))
        self.all_go_on(30)
        return f"{len(self.flows)} stations ping their hosts, three of them each {EVERY * 1000:.0f} ms"

    def end_flows(self) -> None:
        """Ends the pings."""
        for flow in self.flows:
            flow.end()
        self.flows = []

    def all_go_on(self, seconds: float, flows: list[Flow] | None = None) -> None:
        """Pings of all stations, or of these, come back that were sent from now on."""
        flows = self.flows if flows is None else flows
        before = {flow.station.name: flow.last() for flow in flows}
        for flow in flows:
            wait_for(f"pings of {flow.station.name}", seconds, lambda: flow.goes_on(before[flow.station.name] + 2), 0.05)

    def fast(self, places: tuple[int, ...] = (0, 1, 2)) -> list[Flow]:
        """The pings that are counted, of these networks."""
        found = [flow for flow in self.flows if flow.every == EVERY]
        return [flow for place, flow in enumerate(found) if place in places]

    def told_of_stations(self, places: tuple[int, ...] = (0, 1, 2)) -> int:
        """How often a station of these networks joined, left or was sent away so far."""
        bssids = [self.three[place].bssid for place in places]
        words = (" joins {}:", " leaves {}:", " was sent away by {}:", " was refused by {}:", " was forgotten by {}:")
        return sum(self.start.told().count(word.format(bssid)) for bssid in bssids for word in words)

    def count_missing(self, change, seconds: float, most: int, places: tuple[int, ...] = (0, 1, 2)) -> int:
        """Something is changed; how many pings of one station at most are missing afterwards, of networks of these
        places. Failed where there are more, or where a station of these networks did anything but go on."""
        flows, others = self.fast(places), [flow for flow, (_, place) in zip(self.flows, self.members()) if place in places]
        told = self.told_of_stations(places)
        before = [flow.last() for flow in flows]
        change()
        self.all_go_on(seconds, others)
        time.sleep(0.3)
        missing = max(flow.missing(first, flow.last()) for first, flow in zip(before, flows))
        if self.told_of_stations(places) != told:
            raise Failed(f"stations did something: {self.start.told()[-800:]}")
        if missing > most:
            raise Failed(f"{missing} pings are missing")
        return missing

    def count_generation(self) -> None:
        """Another program was begun, by the configuration as it is now."""
        self.generations += 1
        shutil.copy(self.start.config, f"{self.start.config}.{self.generations}")

    def begun(self) -> int:
        """How often a program was begun that serves."""
        return self.start.told().count("networks are on channel")

    def reload(self) -> None:
        """The configuration is read again, and the new program serves."""
        before = self.begun()
        self.start.process.send_signal(signal.SIGHUP)
        wait_for("the new program", 30, lambda: self.begun() > before, 0.02)
        self.count_generation()

    def reload_without_change(self) -> str:
        """Also what isn't seen by stations may change."""
        identifiers, repeated = self.identifiers(), self.repeated()
        missing = self.count_missing(self.reload, 10, MOST_MISSING)
        if self.identifiers() != identifiers:
            raise Failed("identifiers changed")
        return (f"{missing} pings missing, 0 of {len(self.flows)} stations joined, {self.repeated() - repeated} frames "
                "dropped by stations as repeated")

    def reload_with_change(self) -> str:
        """The third network gets another name, and then its own again."""
        self.start.networks = (*self.three[:2], replace(self.three[2], ssid="other"))
        self.start.write_config()
        missing = self.count_missing(self.reload, 10, MOST_MISSING, (0, 1))
        for station, place in self.members():
            if place == 2:
                wait_for(f"{station.name} leaves", 20, lambda: station.network() is None)
        self.start.networks = self.three
        self.start.write_config()
        again = self.count_missing(self.reload, 10, MOST_MISSING, (0, 1))
        for station, place in self.members():
            if place == 2:
                station.joined(60, self.three[2].bssid)
        self.all_go_on(30)
        return f"{missing} pings missing of others, {again} as it was changed back; {OF_NETWORKS[2]} stations joined again"

    def kill_often(self, executable: str, most: int) -> str:
        """It is killed at drawn moments."""
        counted, repeated = [], self.repeated()
        for _ in range(KILLS):
            time.sleep(2 + self.random.random())
            counted.append(self.count_missing(lambda: self.kill(executable), 20, most))
        return (f"{sorted(counted)} pings missing, 0 stations joined, {self.repeated() - repeated} frames dropped by "
                "stations as repeated")

    def repeated(self) -> int:
        """How many frames the stations' kernels have dropped as repeated."""
        told = "".join(station.run("ethtool", "-S", station.interface) for station in self.stations)
        found = re.findall(r"rx_duplicates: (\d+)", told)
        if len(found) != len(self.stations):
            raise Failed(f"of {len(self.stations)} stations {len(found)} tell what they dropped")
        return sum(map(int, found))

    def kill(self, executable: str) -> None:
        """Kills what runs this, and waits for the next."""
        before = self.begun()
        os.kill(only_process_of(executable), signal.SIGKILL)
        wait_for("the next one", 30, lambda: self.begun() > before, 0.02)
        self.count_generation()

    def identifiers(self) -> dict[str, str]:
        """The identifiers and listen intervals of all stations, by their addresses."""
        lines = [line.split() for table in self.start.tables().values() for line in table if line.startswith("station ")]
        return {words[1]: " ".join(words[2:7]) for words in lines}

    def doze(self) -> str:
        """It sleeps while the program is killed, and is known as one that dozes by the next program."""
        station, host = self.stations[1], self.host_of(0)
        flow = self.flows[1]
        flow.end()
        address = station.hardware_address()
        self.go_to_doze(station, address)
        told = self.told_of_stations()
        for executable in (self.start.program, COMPILED):
            wait_for("the station dozes", 30, lambda: " doze " in self.start.station(GUESTS, address))
            self.kill(executable)
            if " doze " not in self.start.station(GUESTS, address):
                raise Failed(f"the next program has {self.start.station(GUESTS, address)}")
            host.ping(station.address, 8, 0.5).whole()
        station.run("iw", "dev", station.interface, "set", "power_save", "off")
        if self.told_of_stations() != told:
            raise Failed("a station joined or left")
        self.flows[1] = Flow(station, host.address, OTHERS_EVERY, flow.log)
        return "16 pings, the program and the bridge killed"

    def go_to_doze(self, station: Station, address: str) -> None:
        """Lets a station doze by Null frames, also one that another part has let doze by polls."""
        station.run("iw", "dev", station.interface, "set", "power_save", "off")
        station.run(os.path.join(HERE, "doze-by-polls"), "--timeout", "100", station.interface)
        wait_for("the station dozes", 30, lambda: " doze " in self.start.station(GUESTS, address))

    def gaps(self) -> str:
        """Those with the first, the third and the fourth identifier of a network leave."""
        order = sorted(self.guests_by_identifier().items())
        gone = [order[place][1] for place in (0, 2, 3)]
        for flow in [flow for flow in self.flows if flow.station in gone]:
            flow.end()
            self.flows.remove(flow)
        for station in gone:
            station.stop()
        wait_for("three are gone", 20, lambda: len(self.guests_by_identifier()) == len(order) - 3)
        identifiers = self.identifiers()
        self.reload()
        self.all_go_on(20)
        self.kill(self.start.program)
        self.all_go_on(20)
        if self.identifiers() != identifiers:
            raise Failed(f"identifiers changed: {identifiers} {self.identifiers()}")
        return f"{len(identifiers)} stations, three gaps"

    def guests_by_identifier(self) -> dict[int, Station]:
        """The stations of the first network."""
        addresses = {station.hardware_address(): station for station in self.stations}
        lines = [line.split() for line in self.start.tables()[GUESTS] if " associated aid " in line]
        return {int(words[4]): addresses[words[1]] for words in lines}

    def full(self) -> str:
        """The first network allows as many as its highest identifier, and then one fewer."""
        members = self.guests_by_identifier()
        highest = max(members)
        told = self.told_of_stations()
        self.set_most(highest)
        self.reload()
        self.all_go_on(20)
        if self.guests_by_identifier() != members or self.told_of_stations() != told:
            raise Failed(f"{self.guests_by_identifier()} of {members}")
        self.set_most(highest - 1)
        self.reload()
        wait_for("the last one joins again", 60, lambda: len(self.guests_by_identifier()) == len(members))
        found = self.guests_by_identifier()
        others = {aid: station for aid, station in members.items() if aid != highest}
        if {aid: found[aid] for aid in others} != others or max(found) >= highest:
            raise Failed(f"{found} of {members}")
        self.start.write_config()
        return f"{len(members)} stations, the highest identifier {highest}"

    def set_most(self, stations: int) -> None:
        """The first network has so many stations at most."""
        self.start.write_config()
        write(self.start.config, read(self.start.config).replace("max_stations = 64", f"max_stations = {stations}", 1))

    def records(self) -> str:
        """What was swallowed is in it too, between its marks. Of a program that was killed the last answers may lack."""
        lines = compared = 0
        for generation in range(self.generations + 1):
            start = generation_of(self.start, generation)
            if not os.path.exists(start.record):
                raise Failed(f"{start.record} isn't there")
            recorded = start.recorded()
            marks = [line for line in recorded if line.startswith("# restored")]
            if generation and [mark.startswith(text) for mark, text in zip(marks, (RESTORED_FROM, RESTORED_TO))] != [True] * 2:
                raise Failed(f"{start.record}: the marks are {marks}")
            compared += agrees_to_begin_with(start, recorded)
            lines += len(recorded)
        return f"{self.generations + 1} records of {lines} lines, {compared} frames compared"

    def kill_all(self) -> str:
        """tools/live, the bridge and the program are killed; the next start has what they left."""
        if not self.start.is_running():
            self.set_up_anew()
        self.end_flows()
        self.kill_and_leave()
        again = self.start = self.start.anew()
        self.generations = 0
        again.begin()
        again.has_told("was killed; taking back what it left")
        stay = sum(int(number) for number in re.findall(r"(\d+) stations of \S+ stay", again.told()))
        if not stay:
            raise Failed(f"none stays: {again.told()}")
        there = [(station, place) for station, place in self.members() if station.supplicant is not None]
        for station, place in there:
            station.joined(60, self.three[place].bssid)
        return f"{stay} of {len(there)} stations were known at once, {again.told().count(' joins ')} joined again"

    def kill_and_leave(self) -> None:
        """All are killed, the script first, so that nothing is taken back."""
        kill_each([self.start.process.pid, only_process_of(COMPILED), only_process_of(self.start.program)])
        self.start.process.wait()
        wait_for("all have ended", 20, lambda: not processes_of(COMPILED) + processes_of(self.start.program))
        self.start.take_down()

    def unused(self) -> str:
        """What a killed start left is changed before the next begins."""
        told = []
        for name, change, says in (
                ("damaged", lambda text: text[:-30], "it is damaged"),
                ("old", lambda text: with_sum(older(text)), "it is older than a minute"),
                ("radio", lambda text: with_sum(text.replace(b" phy phy", b" phy phy9")), "it is of another radio"),
                ("configuration", lambda text: with_sum(text.replace(b"interval 100", b"interval 200")),
                 "it is of another configuration")):
            if not self.start.is_running():
                self.start = self.start.anew()
                self.start.begin()
            time.sleep(1.5)
            self.kill_and_leave()
            for number in (0, 1):
                path = f"/run/waltigon/{self.cases.phy}.state.{number}"
                with open(path, "rb") as file:
                    text = file.read()
                # one that a turn before has damaged, and that wasn't written since, stays as it is
                with open(path, "wb") as file:
                    file.write(change(text) if b"\nsum " in text else text)
            self.start = self.start.anew()
            self.start.begin()
            self.start.has_told(f"isn't used, since {says}")
            told.append(name)
        self.start.end()
        if any(name.startswith(f"{self.cases.phy}.state") for name in os.listdir("/run/waltigon")):
            raise Failed("a state is left")
        return ", ".join(told)

    def beside_hostapd(self) -> str:
        """What twenty stations make of it, in one network; nothing is wanted of it."""
        host = self.host_of(0)
        point = Hostapd(self.start.folder, self.cases.phy, GUESTS, "guests", host)
        point.begin()
        try:
            join_all(((station, host, "guests", GUESTS) for station in self.stations), FIRST_STAYING, 180)
            for number, station in enumerate(self.stations):
                log = os.path.join(point.folder, f"ping-{station.name}")
                self.flows.append(Flow(station, host.address, EVERY if number < len(OF_NETWORKS) else OTHERS_EVERY, log))
            self.all_go_on(60)
            return "; ".join(f"{name}: {self.count_beside(change)}" for name, change in (
                ("read again", point.reload), ("killed and begun again", point.begin_again)))
        finally:
            point.end()

    def count_beside(self, change) -> str:
        """How many pings are missing, and how many stations joined again."""
        flows, connected = self.fast(), self.connected()
        before = [flow.last() for flow in flows]
        change()
        time.sleep(1)
        self.all_go_on(60)
        time.sleep(1)
        missing = [flow.missing(first, flow.last()) for first, flow in zip(before, flows)]
        return f"{max(missing)} pings missing, {self.connected() - connected} joined"

    def connected(self) -> int:
        """How often the stations' own programs told so far that they joined."""
        return sum(read(os.path.join(station.folder, "log")).count("CTRL-EVENT-CONNECTED") for station in self.stations)


def only_process_of(executable: str) -> int:
    """The process that runs this file, once it is the only one: after a reload the one before may still be ending."""
    wait_for(f"{executable} runs once", 10, lambda: len(processes_of(executable)) == 1, 0.02)
    return process_of(executable)


def generation_of(start: Start, number: int) -> Start:
    """The start with the record and the answers of its so-manyth program."""
    found = Start.__new__(Start)
    found.__dict__ = dict(start.__dict__)
    found.config = f"{start.config}.0"
    if number:
        found.record, found.answers, found.config = (f"{path}.{number}" for path in (start.record, start.answers,
                                                                                     start.config))
    return found


def agrees_to_begin_with(start: Start, recorded: list[str]) -> int:
    """What the program wrote has to be, to begin with, what `run` reports of the record, and the record what it was given:
    where either was killed the other may have more. Answers how many frames were compared."""
    wrote, report = read_answers(start.answered()), start.rerun(recorded)
    compared = 0
    for net in start.networks:
        for kind in ("air", "wire"):
            live, ran = getattr(wrote[net.bssid], kind), getattr(report[net.bssid], kind)
            common = min(len(live), len(ran))
            if live[:common] != ran[:common]:
                place = next(place for place in range(common) if live[place] != ran[place])
                raise Failed(f"{start.record}: {kind} of {net.ssid} differs at {place}: {live[place]} {ran[place]}")
            compared += common
    return compared


def older(text: bytes) -> bytes:
    """A state as it would be had it been written a minute before."""
    written = re.search(rb" written (\d+) ", text)
    moment = int(written[1]) - (AGE_SECONDS + 1) * 1_000_000_000
    return text.replace(written[0], b" written %d " % max(moment, 0), 1)


def with_sum(text: bytes) -> bytes:
    """A state with the sum of its lines."""
    lines = text[:text.rindex(b"\nsum ") + 1]
    found = SUM_OF_NOTHING
    for octet in lines:
        found = (found ^ octet) * SUM_FACTOR & SUM_MASK
    return lines + b"sum %016x\n" % found
