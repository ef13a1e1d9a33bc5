"""An access point from its start to its end: what has to be so, what is set up, the bridge while it runs, the
configuration that is read again, and what is taken down."""
import os
import socket
import time
from contextlib import ExitStack
from dataclasses import replace

from live import asking
from live.bridge import STATE, TABLES, Bridge, FaultCode, Signals, words_of
from live.changes import Changes
from live.checks import Plan, Wanted, as_set_up, check, check_again, check_rights, missing_wires
from live.faults import Fault
from live.packets import open_radio
from live.page import Page
from live.recording import make_record
from live.rights import MOST_MEMORY, page_user_of, rights_of
from live.running import RunFile
from live.service import Service
from live.setting_up import SettingUp
from live.state_files import StateFiles, changed_networks
from live.telling import ERROR, WARNING, tell
from live.watching import RadioWatch
from live.ways import Way
from live.wires import Wires

MASK = 0o022  # whoever else is on this machine changes no file that is made here, whatever mask the start was given
LOOK_SECONDS = 1.0  # how often one looks for wires that are missing
# Where so many bridges in a row, or their programs, have ended so soon after they were opened, no other one is begun.
MOST_EARLY, EARLY_SECONDS = 3, 2.0


class AccessPoint:
    """All of it; `stack` takes back and ends what there is."""

    def __init__(self, wanted: Wanted, stack: ExitStack) -> None:
        self.wanted, self.stack = wanted, stack
        check_rights()
        self.service = Service()
        self.signals = Signals(stack)
        self.made = made = Changes(wanted.phy)
        stack.callback(made.close)
        self.stamp = stamp_of(wanted.config)  # of the configuration, when it was read
        self.plan = check(wanted, made, stack)
        self.rights = rights_of(wanted)
        page_user = page_user_of(wanted)
        group = os.getegid() if page_user is None else page_user.pw_gid
        self.listening = asking.listen(wanted.phy, group, stack)
        self.told = RunFile(wanted, stack)
        self.state = StateFiles(wanted.phy, stack)
        self.setting_up = SettingUp(wanted, made, stack)
        self.wires = Wires(self.setting_up)
        stack.callback(self.wires.close)
        self.radio: list[socket.socket] = []
        self.of_radio: tuple[int, Way] | None = None  # how the radio was set up to which its sockets belong
        self.sends_as: tuple[int, Way] | None = None  # how it was set up when a bridge saw it send last
        stack.callback(self.close_radio)
        self.watch = RadioWatch(wanted, self.setting_up, self.service, stack)
        self.opened = 0.0  # when the last bridge was opened
        self.early = 0  # how many in a row ended soon after that
        self.page = Page(wanted, page_user, stack)
        self.bridge = self.start(self.plan)

    def start(self, plan: Plan) -> Bridge:
        """A bridge of a plan, whose networks aren't open yet."""
        tells_alive = self.service.watches or self.wanted.status is not None
        memory = MOST_MEMORY if self.rights.has_bounds else None
        record = self.make_record()
        handed = [self.listening.fileno()] if record is None else [self.listening.fileno(), record[0]]
        sends = self.sends_as == (plan.settings.frequency, plan.way)
        words = words_of(self.wanted, plan, handed[0], record, tells_alive, memory, sends)
        try:
            return Bridge(words, self.signals, self.stack, tuple(handed), self.rights, self.service.alive)
        finally:
            if record is not None:
                os.close(record[0])

    def make_record(self) -> tuple[int, str] | None:
        """The file that a bridge records in, where one is wanted; which one it is where that isn't the first."""
        if self.wanted.record is None:
            return None
        record = make_record(self.wanted.record)
        if record[1] != self.wanted.record:
            tell(f"the record is {record[1]}")
        return record

    def run(self) -> None:
        """Serves until a signal or a fault ends it."""
        try:
            self.bridge.await_networks()
            if self.bridge.has_to_go_on():
                self.open()
                self.page.begin()
                self.serve()
        finally:
            self.service.stopping()
            stays = self.signals.is_ending and os.path.exists(self.made.stay_path)
            self.bridge.end("all stays as it is set up, for the next start" if stays else "taking down what was set up")
        if stays:
            self.made.hand_on(as_set_up(self.plan.settings, self.plan.way))
            self.state.leave()

    def open(self) -> None:
        """Sets up what the plan takes, and lets frames go. What a bridge before has left of stations, and the sockets that
        it had, are handed over; what came by these meanwhile waits there."""
        self.setting_up.follow(self.plan, missing_wires(self.plan))
        if self.of_radio != (self.plan.settings.frequency, self.plan.way):
            self.close_radio()
            self.radio = open_radio(self.wanted.monitor)
            self.of_radio = self.plan.settings.frequency, self.plan.way
        self.bridge.ask(STATE, self.state.descriptors)
        self.bridge.open(self.radio, self.wires.open(self.plan))
        self.watch.begin(self.plan)
        self.opened = time.monotonic()

    def close_radio(self) -> None:
        """Closes the radio's sockets."""
        for opened in self.radio:
            opened.close()
        self.radio, self.of_radio = [], None

    def look_at_wires(self) -> None:
        """Hands over the wires that are there again."""
        for place in self.bridge.down:
            self.wires.went_down(place)
        self.bridge.down.clear()
        self.bridge.take_wires(self.wires.look())

    def serve(self) -> None:
        """Lets frames go, and does what signals ask for."""
        due = time.monotonic() + (self.wanted.tables or 0)
        look = time.monotonic() + LOOK_SECONDS
        has_told = None
        alive = 0
        while self.bridge.has_to_go_on() or self.begin_anew():
            self.bridge.wait(self.seconds_to(due if self.wanted.tables else None), (self.watch.links,))
            if self.bridge.has_to_go_on():
                self.watch.look(self.bridge, self.plan)
            if self.bridge.down or self.wires.are_missing and time.monotonic() >= look:
                look = time.monotonic() + LOOK_SECONDS
                self.look_at_wires()
            if self.bridge.is_sending and has_told is not self.bridge:
                has_told = self.bridge
                self.sends_as = self.of_radio
                self.tell_of_networks()
            if self.bridge.alive != alive:
                alive = self.bridge.alive
                self.service.alive()
                self.page.look()
            if self.wanted.tables and time.monotonic() >= due:
                due = time.monotonic() + self.wanted.tables
                self.signals.tables_asked = True
            if self.signals.tables_asked:
                self.signals.tables_asked = False
                self.bridge.ask(TABLES)
            if self.signals.reload_asked and self.bridge.has_to_go_on():
                self.signals.reload_asked = False
                self.reload()

    def begin_anew(self) -> bool:
        """Where the bridge or the program has ended by itself, another bridge with another program takes its place: the
        interfaces and their sockets stay meanwhile, and stations notice nothing. Whether that is so."""
        if self.signals.is_ending:
            return False
        reason = self.bridge.reason_to_begin_anew() or self.take_next_way()
        self.early = self.early + 1 if time.monotonic() < self.opened + EARLY_SECONDS else 0
        if reason is None or self.signals.is_ending or self.early >= MOST_EARLY:
            return False
        tell(f"{reason}; it begins anew", WARNING)
        try:
            if self.stamp != stamp_of(self.wanted.config):
                tell(f"{self.wanted.config} has changed since it was read, and is read again", WARNING)
                self.plan = self.read_again()
            self.bridge = self.start(self.plan)
        except Fault as fault:
            tell(f"it doesn't begin: {fault}", ERROR)
            return False
        self.bridge.await_networks()
        if not self.bridge.has_to_go_on():
            return False
        self.open()
        return True

    def take_next_way(self) -> str | None:
        """Where the radio sends nothing in the way in which it was set up, it is set up in the next one; the reason, where
        there is one."""
        ways = self.plan.ways[1:]
        if self.bridge.fault_code != FaultCode.SENDS_NOTHING or not ways:
            return None
        reason = f"by {self.plan.way.interfaces} this radio sends nothing, so it serves by {ways[0].interfaces}"
        self.plan = replace(self.plan, ways=ways)
        return reason

    def read_again(self) -> Plan:
        """The plan of the configuration as it is now."""
        self.stamp = stamp_of(self.wanted.config)
        return check_again(self.wanted, self.plan)

    def seconds_to(self, due: float | None) -> float | None:
        """For how long one waits at most: for what is due, for wires that are missing, and for a radio that is to be set up
        anew."""
        waits = [] if due is None else [max(0.0, due - time.monotonic())]
        if self.wires.are_missing:
            waits.append(LOOK_SECONDS)
        if self.watch.seconds is not None:
            waits.append(self.watch.seconds)
        return min(waits, default=None)

    def tell_of_networks(self) -> None:
        """The first beacon was seen as sent."""
        tell(f"{self.plan.served}, by {self.plan.way.interfaces}; Ctrl-C ends it, `kill -USR1 {os.getpid()}` shows the tables, "
             f"`kill -HUP {os.getpid()}` reads {self.wanted.config} again")
        self.service.ready(self.watch.status(self.plan))

    def reload(self) -> None:
        """Reads the configuration again: where it has a fault, or the program doesn't take it, all stays as it is; else
        the program starts anew. Stations of networks that are others now, or gone, are told to join again; all others
        notice nothing. The manager of services is told meanwhile that all is well: each step's time is bounded."""
        self.service.reloading()
        self.service.alive()
        tell(f"reading {self.wanted.config} again")
        before = self.stamp
        try:
            plan = self.read_again()
            successor = self.start(plan)
            successor.await_networks()
            if not successor.has_to_go_on():
                successor.kill()
                raise Fault(successor.fault or "the program didn't begin with it")
        except Fault as fault:
            self.stamp = before
            tell(f"all stays as it is: {fault}", ERROR)
            self.told.reloaded(str(fault))
            self.service.ready("the configuration that was read last has a fault; the one before is served")
            return
        changed = changed_networks(self.plan, plan)
        if changed:
            self.bridge.dismiss(changed)
        predecessor, self.bridge, self.plan = self.bridge, successor, plan
        try:
            predecessor.end("it begins anew")
        except Fault as fault:
            tell(str(fault), WARNING)
        self.service.alive()
        self.open()
        self.told.reloaded(None)


def stamp_of(path: str) -> tuple[int, ...]:
    """By which one sees whether a file was changed; nothing of one that isn't there."""
    try:
        found = os.stat(path)
    except OSError:
        return ()
    return found.st_ino, found.st_size, found.st_mtime_ns


def serve(wanted: Wanted) -> None:
    """Checks, sets all up, runs, and takes down what was set up."""
    os.umask(MASK)
    with ExitStack() as stack:
        AccessPoint(wanted, stack).run()
