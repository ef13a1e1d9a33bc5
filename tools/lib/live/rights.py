"""With which rights the bridge and the program run: as a user who owns nothing, where the machine has one."""
import ctypes
import os
import pwd
import subprocess
from collections.abc import Iterator
from contextlib import contextmanager
from dataclasses import dataclass

from live.checks import Wanted
from live.telling import WARNING, tell

USER, PAGE_USER = "waltigon", "waltigon-status"
NOBODY = "nobody"
# The most address space of the program: below what the unit leaves to all parts, so that want of memory is an answer of
# the program (docs/OPERATING.md, 'As a service').
MOST_MEMORY = 1 << 30
MAKE_USER = "`useradd --system --user-group --no-create-home --shell /usr/sbin/nologin {}` makes it, as `make install` does"
CREATE_RULESET, TELL_VERSION = 444, 1  # landlock_create_ruleset(2)
SET_CAPABILITIES = 1 << 8  # CAP_SETPCAP


@dataclass(frozen=True)
class Rights:
    """The user as whom the bridge and the program run, or None where they run as root; and whether the program runs
    within bounds."""

    user: pwd.struct_passwd | None = None
    has_bounds: bool = True

    def words(self) -> list[str]:
        """The words of a command that goes on as this user and runs what follows."""
        if self.user is None:
            return []
        bounding = ["--bounding-set=-all"] if may_set_capabilities() else []
        return ["setpriv", f"--reuid={self.user.pw_uid}", f"--regid={self.user.pw_gid}", "--clear-groups",
                "--inh-caps=-all", *bounding, "--no-new-privs", "--"]


def rights_of(wanted: Wanted) -> Rights:
    """Those that this machine can give. What it can't is told once, with what to do, but where `--as-root` says that it is
    wanted so."""
    if wanted.as_root:
        return Rights(None, False)
    user, reason = find_user(wanted)
    if reason:
        tell(f"{reason}; until then the bridge and the program run as root, without capabilities; --as-root says that "
             "it is wanted so", WARNING)
    if not has_landlock():
        tell("this kernel has no Landlock, by which the program reads no file but its configuration: Linux has it since "
             "5.13, where `landlock` stands in the kernel's word `lsm=`; --as-root says that it is wanted so", WARNING)
    return Rights(user)


def find_user(wanted: Wanted) -> tuple[pwd.struct_passwd | None, str]:
    """The user, or why it can't be had."""
    try:
        user = pwd.getpwnam(USER)
    except KeyError:
        return None, f"there is no user {USER}, as whom the bridge and the program run: {MAKE_USER.format(USER)}"
    for words in ([wanted.bridge], [wanted.program, "check", wanted.config]):
        if not begins(words, user):
            return None, (f"the user {USER} can't run `{' '.join(words)}`: `chmod o+x` of each folder on the way there and "
                          "`chmod o+r` of the file let it, and `make install` puts the programs where it can")
    return user, ""


def page_user_of(wanted: Wanted) -> pwd.struct_passwd | None:
    """The user of the page that shows what is going on, whose group alone may ask the bridge; None where no page is wanted
    and there is none."""
    try:
        return pwd.getpwnam(PAGE_USER)
    except KeyError:
        if wanted.status is None:
            return None
    if not wanted.as_root:
        tell(f"there is no user {PAGE_USER}, as whom the status page runs: {MAKE_USER.format(PAGE_USER)}; until then it "
             f"runs as {NOBODY}, whose group may ask the bridge; --as-root says that it is wanted so", WARNING)
    return pwd.getpwnam(NOBODY)


def end(process: "subprocess.Popen[bytes]", user: pwd.struct_passwd | None, number: int) -> None:
    """Sends a signal to a process that goes on as another user: as that user, where root itself may not."""
    try:
        process.send_signal(number)
    except PermissionError:
        if user is None:
            raise
        with acting_as(user):
            process.send_signal(number)


@contextmanager
def acting_as(user: pwd.struct_passwd) -> Iterator[None]:
    """What is done is done as another user; it takes the right to become one."""
    os.seteuid(user.pw_uid)
    try:
        yield
    finally:
        os.seteuid(0)


def begins(words: list[str], user: pwd.struct_passwd) -> bool:
    """Whether this user can run it. The bridge refuses to have no words with status 2."""
    try:
        done = subprocess.run(words, user=user.pw_uid, group=user.pw_gid, extra_groups=[], stdin=subprocess.DEVNULL,
                              capture_output=True, check=False)
    except OSError:
        return False
    return done.returncode == (0 if len(words) > 1 else 2)


def has_landlock() -> bool:
    """Whether this kernel has Landlock."""
    return ctypes.CDLL(None, use_errno=True).syscall(CREATE_RULESET, None, 0, TELL_VERSION) > 0


def may_set_capabilities() -> bool:
    """Whether this process may take capabilities away from what it starts."""
    with open("/proc/self/status", encoding="ascii") as file:
        effective = next(line.split()[1] for line in file if line.startswith("CapEff:"))
    return os.geteuid() == 0 and bool(int(effective, 16) & SET_CAPABILITIES)
