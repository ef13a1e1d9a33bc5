"""tools/bridge, by which frames go, as a child: it is started, asked, told of and ended here."""
import select
import signal
import socket
import subprocess
import time
from collections.abc import Callable, Iterable
from contextlib import ExitStack, suppress
from enum import IntEnum
from typing import Protocol

import called
from frames import address_text
from live.checks import Plan, Wanted
from live.faults import Fault
from live.rights import Rights, end
from live.settings import Network
from live.telling import tell

SECONDS_TO_BEGIN, SECONDS_TO_END, SECONDS_TO_DISMISS = 60, 60, 5
MEANWHILE_SECONDS = 1.0  # how often is told, while one waits for it for so long, that this is no fault
FIRST = ("nice", "-n", "-15")  # before this machine's other programs: stations wait for what these two send
ENDING = (signal.SIGINT, signal.SIGTERM)
MOST_OCTETS = 4096  # of a line that it tells, and of a piece that is read
MOST_DIGITS = 10  # of a number that it tells
MOST_NETWORKS = 16
MOST_SHOWN = 80  # characters of a line that is shown
STATE, OPEN, WIRE, TABLES, DISMISS = "state", "open", "wire", "tables", "dismiss"
FORBIDDEN_CALL = 128 + signal.SIGSYS  # the status of a program that made a call that it may not make


class HasFileno(Protocol):
    """What one can wait for."""

    def fileno(self) -> int:
        """Its descriptor."""


class Notice:
    """The first words of what the bridge tells, a line each; it is asked by the lines STATE, OPEN, WIRE, TABLES and
    DISMISS, of which the first three hand descriptors over."""

    READY, SENDING, ALIVE, DOWN, DISMISSED = "ready", "sending", "alive", "down", "dismissed"
    UNSENT, ELSEWHERE, HERE = "unsent", "elsewhere", "here"
    STATUS, FAULT = "status", "fault"


class FaultCode(IntEnum):
    """The numbers of the faults by which it is decided what comes next, as `Fault::code` of the bridge has them
    (tools/bridge/src/control/faults.rs)."""

    PROGRAM_ENDED, SENDS_NOTHING = 4, 8


class Signals:
    """What a signal asks for; `waker` becomes readable by it."""

    def __init__(self, stack: ExitStack) -> None:
        self.is_ending = False
        self.tables_asked = False
        self.reload_asked = False
        self.waker, woken = socket.socketpair()
        for end in (self.waker, woken):
            end.setblocking(False)
            stack.callback(end.close)
        before = signal.set_wakeup_fd(woken.fileno(), warn_on_full_buffer=False)
        stack.callback(signal.set_wakeup_fd, before)
        for number in ENDING:
            signal.signal(number, self.end)
        signal.signal(signal.SIGUSR1, self.ask)
        signal.signal(signal.SIGHUP, self.reload)

    def end(self, *_: object) -> None:
        """The bridge is to end."""
        self.is_ending = True

    def ask(self, *_: object) -> None:
        """The tables are to be shown."""
        self.tables_asked = True

    def reload(self, *_: object) -> None:
        """The configuration is to be read again."""
        self.reload_asked = True

    def drain(self) -> None:
        """Reads what woke it."""
        with suppress(BlockingIOError):
            while self.waker.recv(512):
                pass


def network_word(network: Network, wires: dict[bytes, str], shares: dict[bytes, int]) -> str:
    """What the bridge is told of a network."""
    parts = [address_text(network.bssid), network.ssid.hex(), network.rates.hex(), str(network.max_stations),
             str(network.max_known), str(network.quota), str(shares.get(network.bssid, 1)),
             "true" if network.relays else "false"]
    return "/".join(parts + [wires[network.bssid]] if network.bssid in wires else parts)


def words_of(wanted: Wanted, plan: Plan, descriptor: int, record: tuple[int, str] | None, tells_alive: bool,
             memory: int | None, sends: bool = False) -> list[str]:
    """The words by which the bridge is started, with the descriptor of the socket by which it is asked, that of the record
    with its name, and how many octets of address space the program has, where it runs within bounds; `sends` says that
    an earlier bridge saw the radio send as it is set up."""
    settings = plan.settings
    words = [wanted.bridge, "--name", called.name(), "--phy", wanted.phy,
             "--channel", str(settings.channel), "--monitor", wanted.monitor, "--interval", str(settings.interval),
             "--by", plan.way.value, "--idle", str(wanted.idle), "--socket", str(descriptor)]
    if not wanted.tells_wires:
        words += ["--no-update"]
    if tells_alive:
        words += ["--alive"]
    if sends:
        words += ["--sends"]
    if record is not None:
        words += ["--record", f"{record[0]}:{record[1]}"]
        if wanted.record_limit is not None:
            words += ["--record-limit", str(wanted.record_limit)]
    if memory is not None:
        words += ["--bounds", str(memory)]
    for network in settings.networks:
        words += ["--network", network_word(network, dict(plan.wires), dict(plan.shares))]
    return [*words, wanted.program, wanted.config]


class Bridge:
    """tools/bridge with its program, in a group of its own, so that Ctrl-C in a terminal doesn't end it, scheduled before
    other programs, and then with fewer rights. It is spoken to by a Unix socket, its standard input and output. While
    one waits for it, `meanwhile` is called again and again."""

    def __init__(self, words: list[str], signals: Signals, stack: ExitStack, descriptors: tuple[int, ...] = (),
                 rights: Rights = Rights(), meanwhile: Callable[[], None] = lambda: None) -> None:
        self.signals, self.rights, self.meanwhile = signals, rights, meanwhile
        self.notices = b""
        self.is_ready = self.is_sending = self.is_over = self.was_dismissed = False
        self.alive = 0  # how often it told that the program answers
        self.down: list[int] = []  # the places of networks whose wires have ended, until somebody has looked at them
        self.is_unsent = False  # no beacon was told as sent for some seconds
        self.elsewhere: int | None = None  # the frequency on which it hears, where that isn't the channel's
        self.status: int | None = None
        self.fault: str | None = None
        self.fault_code: int | None = None
        self.control, theirs = socket.socketpair()
        stack.callback(self.control.close)
        with theirs:
            try:
                self.process = subprocess.Popen([*FIRST, *rights.words(), *words], stdin=theirs.fileno(),
                                                stdout=theirs.fileno(), start_new_session=True,
                                                pass_fds=descriptors)
            except OSError as fault:
                raise Fault(f"{words[0]}: {fault.strerror}") from None
        stack.callback(self.kill)

    def kill(self) -> None:
        """Ends it at once, where it hasn't ended."""
        self.send_kill()
        self.process.wait()
        self.control.close()

    def send_kill(self) -> None:
        """Ends it by a signal."""
        end(self.process, self.rights.user, signal.SIGKILL)

    def ask(self, request: str, descriptors: Iterable[int] = ()) -> None:
        """Asks it for something, and hands descriptors over; one that has ended is asked for nothing."""
        with suppress(BrokenPipeError, ConnectionResetError):
            socket.send_fds(self.control, [f"{request}\n".encode()], list(descriptors))

    def open(self, radio: list[socket.socket], wires: dict[int, socket.socket]) -> None:
        """Lets frames go by the sockets of the radio and of those wires that are there, by the places of their networks."""
        self.ask(" ".join((OPEN, *map(str, wires))), [handed.fileno() for handed in (*radio, *wires.values())])

    def take_wires(self, wires: dict[int, socket.socket]) -> None:
        """Lets frames go by wires that are there now."""
        for place, wire in wires.items():
            self.ask(f"{WIRE} {place}", [wire.fileno()])

    def wait(self, seconds: float | None, others: tuple["HasFileno", ...] = ()) -> None:
        """Waits until it tells something, a signal comes, one of the others has something to read, or the time is over;
        then takes what was told."""
        readable = select.select([self.signals.waker, self.control, *others], [], [], seconds)[0]
        self.signals.drain()
        if self.control in readable:
            try:
                piece = self.control.recv(MOST_OCTETS)
            except ConnectionResetError:  # it has ended, and left unread what it was asked
                piece = b""
            self.is_over = not piece
            *lines, self.notices = (self.notices + piece).split(b"\n")
            for line in lines:
                self.take_line(line.decode("utf-8", "replace"))
            if len(self.notices) > MOST_OCTETS:
                self.notices = b""
                self.fault = self.fault or f"the bridge told a line of more than {MOST_OCTETS} octets"

    def take_line(self, line: str) -> None:
        """Takes a line that it tells. One that it can't have told by itself is a fault, and ends it: it may be one that a
        stranger has taken over."""
        try:
            self.take(*line.partition(" ")[::2])
        except ValueError:
            self.fault = self.fault or f"the bridge told what it never tells: {line[:MOST_SHOWN]!r}"

    def take(self, word: str, rest: str) -> None:
        """Takes what it tells. A ValueError where a number is none."""
        match word:
            case Notice.READY:
                self.is_ready = True
            case Notice.SENDING:
                self.is_sending, self.is_unsent = True, False
            case Notice.UNSENT:
                self.is_unsent = True
            case Notice.ELSEWHERE:
                self.elsewhere = number_of(rest)
            case Notice.HERE:
                self.elsewhere = None
            case Notice.ALIVE:
                self.alive += 1
            case Notice.DOWN:
                self.went_down(number_of(rest))
            case Notice.DISMISSED:
                self.was_dismissed = True
            case Notice.STATUS:
                self.status = number_of(rest)
            case Notice.FAULT:
                code, _, fault = rest.partition(" ")
                self.fault_code, self.fault = number_of(code), fault

    def went_down(self, place: int) -> None:
        """The wire of the network of this place has ended. A ValueError where there can be no such network."""
        if place >= MOST_NETWORKS:
            raise ValueError(place)
        if place not in self.down:
            self.down.append(place)

    def has_to_go_on(self) -> bool:
        """Whether neither a signal nor a fault ended it."""
        return not (self.signals.is_ending or self.is_over or self.fault)

    def await_that(self, is_so: Callable[[], bool], seconds: float) -> None:
        """Waits until something is so, or it has ended; for so many seconds at most."""
        until = time.monotonic() + seconds
        while not (self.is_over or is_so()) and (left := until - time.monotonic()) > 0:
            self.meanwhile()
            self.wait(min(left, MEANWHILE_SECONDS))

    def await_networks(self) -> None:
        """Waits until the program's networks are open; where they aren't in time, that is a fault."""
        self.await_that(lambda: self.is_ready or not self.has_to_go_on(), SECONDS_TO_BEGIN)
        if self.has_to_go_on() and not self.is_ready:
            self.fault = f"the program hasn't opened its networks within {SECONDS_TO_BEGIN} seconds"

    def dismiss(self, places: list[int]) -> None:
        """Has all stations of the networks of these places told that they have to join again."""
        self.ask(" ".join((DISMISS, *map(str, places))))
        self.await_that(lambda: self.was_dismissed or self.fault is not None, SECONDS_TO_DISMISS)

    def await_end(self) -> int:
        """Waits until it has ended, which it is asked for; its status."""
        with suppress(OSError):
            self.control.shutdown(socket.SHUT_WR)
        self.await_that(lambda: False, SECONDS_TO_END)
        if not self.is_over:
            self.send_kill()
        self.is_over = True
        self.control.close()
        return self.process.wait()

    def reason_to_begin_anew(self) -> str | None:
        """Why another one takes its place, where it or the program has ended by itself; nothing where all ends: it told
        another fault, or one of them made a call that it may not make, as one does that a stranger has taken over."""
        status = self.await_end()
        if self.fault_code == FaultCode.PROGRAM_ENDED and self.status != FORBIDDEN_CALL:
            return f"the program ended by itself, with status {self.status}"
        if self.fault is None and status < 0 and status != -signal.SIGSYS:
            return f"the bridge ended by itself, {reason_of(status)}"
        return None

    def end(self, afterwards: str = "taking down what was set up") -> None:
        """Ends it: the program's tables and the counts come, and its status. A fault where it told one, or was ended."""
        status = self.await_end()
        if self.status is not None:
            tell(f"the program ended with status {self.status}; {afterwards}")
        if self.fault is not None or status != 0:
            raise Fault(self.fault or f"the bridge ended by itself, {reason_of(status)}; {afterwards}")


def number_of(text: str) -> int:
    """The number that a word of the bridge is: decimal digits, ten at most. A ValueError for any other word."""
    if not (text.isascii() and text.isdigit() and len(text) <= MOST_DIGITS):
        raise ValueError(text)
    return int(text)


def reason_of(status: int) -> str:
    """How a child ended."""
    return f"by the signal {signal.Signals(-status).name}" if status < 0 else f"with status {status}"
