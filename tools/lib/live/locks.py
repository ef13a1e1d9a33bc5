"""The lock of a radio, which its access point holds as long as it runs.

Who can open a file can lock it, be it to read (flock(2)), so PHY.held is root's alone. Earlier versions lock PHY.lock,
which each user of the machine could open. That one is taken too, so that none of them runs beside this one; but where
somebody else than root holds it, it keeps nobody from the radio."""
import fcntl
import os
from contextlib import suppress

import called
from live.faults import Fault
from live.processes import has_rights_of_root, is_told_to_run, numbers
from live.telling import WARNING, tell

FLAGS = os.O_RDWR | os.O_CREAT | os.O_NOFOLLOW | os.O_CLOEXEC
MODE = 0o600
STANDARD_STREAMS = ("0", "1", "2")


class Lock:
    """That of a radio, until it is closed. A fault where another access point has it."""

    def __init__(self, folder: str, phy: str) -> None:
        self.descriptors: list[int] = []
        before = os.path.join(folder, f"{phy}.lock")
        try:
            is_free = self.take(os.path.join(folder, f"{phy}.held"))
            if is_free and not self.take(before):
                is_free = not is_held_by_root(self.descriptors[-1], os.path.join(folder, f"{phy}.run"))
                if is_free:
                    tell(f"a user other than root holds the lock of {before}, which keeps nobody from {phy} any more; "
                         "`lslocks` says who it is", WARNING)
            if not is_free:
                raise Fault(f"{phy}: another {called.fellow('live')} serves this radio")
        except OSError as fault:
            self.close()
            raise Fault(f"{folder}: {fault.strerror}") from None
        except Fault:
            self.close()
            raise

    def take(self, path: str) -> bool:
        """Takes the lock of a file, which is root's alone from now on; whether nobody had it."""
        self.descriptors.append(os.open(path, FLAGS, MODE))
        os.fchmod(self.descriptors[-1], MODE)
        with suppress(BlockingIOError):
            fcntl.flock(self.descriptors[-1], fcntl.LOCK_EX | fcntl.LOCK_NB)
            return True
        return False

    def close(self) -> None:
        """Lets another have the radio."""
        while self.descriptors:
            os.close(self.descriptors.pop())


def is_held_by_root(descriptor: int, run_file: str) -> bool:
    """Whether a process of root holds the lock of an open file: the access point that PHY.run tells of, whose
    descriptors a service can't look at, or a process that shows that it does."""
    return is_told_to_run(run_file) or any(
        has_rights_of_root(process) and holds(process, descriptor) for process in numbers())


def holds(process: int, descriptor: int) -> bool:
    """Whether a process shows that it holds the lock of this open file. Its standard streams don't count: any user
    gives these to a program that runs as root, as sudo does."""
    wanted = os.fstat(descriptor)
    with suppress(OSError):
        for name in os.listdir(f"/proc/{process}/fd"):
            if name not in STANDARD_STREAMS and os.path.samestat(os.stat(f"/proc/{process}/fd/{name}"), wanted):
                with open(f"/proc/{process}/fdinfo/{name}", encoding="ascii") as file:
                    if any(line.startswith("lock:") and "FLOCK" in line for line in file):
                        return True
    return False
