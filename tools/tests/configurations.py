"""The configurations of the tests: networks of version 1 or 2, all on one channel."""

HEAD = "version = {version}\nchannel = 6\ninterval = 100\nqueue = 64\n"
NETWORK = """[[network]]
bssid = "{bssid}"
ssid = "{ssid}"
rates = "82840b16"
dtim = {dtim}
max_stations = {max_stations}
max_known = {max_known}
quota = {quota}
max_events = {max_events}
"""
SETTINGS = {"dtim": 1, "max_stations": 8, "max_known": 16, "quota": 8, "max_events": 100}


def network(bssid, ssid, **settings):
    """The table of one network; the settings may have other values, and those of version 2 besides."""
    table = NETWORK.format(bssid=bssid, ssid=ssid, **{**SETTINGS, **settings})
    of_version_2 = [f"{key} = {str(settings[key]).lower()}\n" for key in ("relay", "aging") if key in settings]
    return table + "".join(of_version_2)


def configuration(*networks, version=1):
    """The text of a file of these networks."""
    return HEAD.format(version=version) + "".join(networks)


LAB = network("02:00:00:00:01:01", "lab")
ONE_NETWORK = configuration(LAB)
