"""The manager of services that started this program, where one did (sd_notify(3)): it is told when stations are served,
and that all is well."""
import os
import socket
import time
from contextlib import suppress


class Service:
    """What NOTIFY_SOCKET names, or nothing."""

    def __init__(self) -> None:
        self.path = os.environ.get("NOTIFY_SOCKET", "")
        watched = os.environ.get("WATCHDOG_PID", str(os.getpid())) == str(os.getpid())
        self.watches = bool(self.path and watched and os.environ.get("WATCHDOG_USEC"))

    def tell(self, *fields: str) -> None:
        """Tells it something; where it isn't there any more nothing is to be done."""
        if not self.path:
            return
        address = "\0" + self.path[1:] if self.path.startswith("@") else self.path
        with socket.socket(socket.AF_UNIX, socket.SOCK_DGRAM | socket.SOCK_CLOEXEC) as sending:
            with suppress(OSError):
                sending.sendto("\n".join(fields).encode(), address)

    def ready(self, status: str) -> None:
        """Stations are served."""
        self.tell("READY=1", f"STATUS={status}")

    def status(self, text: str) -> None:
        """How it stands."""
        self.tell(f"STATUS={text}")

    def reloading(self) -> None:
        """The configuration is read again."""
        self.tell("RELOADING=1", f"MONOTONIC_USEC={time.monotonic_ns() // 1000}")

    def stopping(self) -> None:
        """All is taken down."""
        self.tell("STOPPING=1")

    def alive(self) -> None:
        """All is well: the program has answered the last beginning of a beacon interval, or one waits for something
        that takes a bounded time."""
        if self.watches:
            self.tell("WATCHDOG=1")
