"""The files in which a bridge leaves for the next one what it has to know of stations, so that these stay: they are made
here, for root's eyes alone, and handed to each bridge as descriptors."""
import os
from contextlib import ExitStack, suppress

from live import changes
from live.checks import Plan
from live.faults import Fault

FILES = 2  # written in turn, so that one of them is whole at any moment
FLAGS = os.O_RDWR | os.O_CREAT | os.O_NOFOLLOW | os.O_CLOEXEC
MODE = 0o600


class StateFiles:
    """Those of a radio. They go in the end, but where the next start goes on with all that this one set up. What a start has
    left that was killed is used by the next one too."""

    def __init__(self, phy: str, stack: ExitStack) -> None:
        self.paths = [os.path.join(changes.RUN, f"{phy}.state.{number}") for number in range(FILES)]
        self.descriptors: list[int] = []
        stack.callback(self.close)
        for path in self.paths:
            try:
                self.descriptors.append(os.open(path, FLAGS, MODE))
                os.fchmod(self.descriptors[-1], MODE)
            except OSError as fault:
                raise Fault(f"{path}: {fault.strerror}") from None

    def leave(self) -> None:
        """They stay in the end, for the next start."""
        self.paths.clear()

    def close(self) -> None:
        """Takes them away, but where they stay."""
        for descriptor in self.descriptors:
            os.close(descriptor)
        for path in self.paths:
            with suppress(FileNotFoundError):
                os.unlink(path)


def changed_networks(before: Plan, after: Plan) -> list[int]:
    """The places, before, of the networks that are gone or that are others to their stations: of these the stations have
    to join again."""
    places = range(len(before.settings.networks))
    if (before.settings.channel, before.settings.interval) != (after.settings.channel, after.settings.interval):
        return list(places)
    same = {(network.bssid, network.ssid, network.rates) for network in after.settings.networks}
    return [place for place, network in zip(places, before.settings.networks)
            if (network.bssid, network.ssid, network.rates) not in same]
