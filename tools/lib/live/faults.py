"""Why the bridge can't begin or go on, for a person who can act on it."""


class Fault(Exception):
    """What has to be changed on this machine, in the configuration or in the words."""
