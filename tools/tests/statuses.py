"""Status documents for tests, a bridge that only has its socket, and requests to a page's server."""
import contextlib
import http.client
import json
import os
import socket
import threading

from common import wait_until


def station(number, **other):
    """A station that is associated, or what `other` makes of it."""
    return {"address": f"02:aa:00:00:{number >> 8:02x}:{number & 255:02x}", "state": "associated", "aid": number,
            "dozes": False, "since": 102.5, "heard": 0.25, "signal": -30, "rate_to": 108, "rate_from": 11,
            "octets_to": 10240, "octets_from": 9000, "frames_to": 20, "frames_from": 1, "kept": 0, **other}


def only_known(number):
    """A station that only authenticated."""
    return station(number, state="authenticated", aid=None, signal=None, rate_to=None, rate_from=None, octets_to=0,
                   octets_from=0, frames_to=0, frames_from=0, kept=None)


def network(number, ssid, stations=(), **other):
    """A network with these stations; `ssid` in octets."""
    return {"bssid": f"02:00:00:00:01:{number:02x}", "ssid": ssid.hex(), "wire": f"wire{number}", "wire_down": None,
            "updates": 4,
            "air": {"weight": 1, "seconds": 1.5, "waiting": 0, "waiting_octets": 0, "most_waiting_octets": 2097152,
                    "sent_again": 6, "unacknowledged": 5, "unsent": {}},
            "joins": 9, "leaves": {"said": 3, "silent": 2, "unassociated": 1, "kicked": 0, "moved": 1}, "moved_in": 2,
            "moved_out": 1, "claims": 1, "max_stations": 100, "max_known": 256,
            "counts": {"events": 84, "clock": 46, "unread": 3, "lost": 2, "kept": 1}, "refusals": {},
            "stations": list(stations), **other}


def document(*networks, **other):
    """A status document of these networks."""
    return {"version": "e4965d3", "since": 12.345, "phy": "phy0", "format": 1, "channel": 6, "faults": [],
            "radio": {"down": None, "unsent": None, "elsewhere": None, "heard_elsewhere": 0},
            "beacons": {"sent": 1234, "late_ms_mean": 0.412, "late_ms_worst": 7.9, "missed": 0, "late_seconds": 0.508,
                        "late_up_to_ms": [[1, 1200], [10, 1234], [200, 1234]]},
            "drops": {}, "left_out": {}, "networks": list(networks), **other}


def whole_document():
    """A status document in which all is known that may be."""
    return document(network(1, b"guests", [station(1)], refusals={"1": 1}, quota=256,
                            air={**network(1, b"")["air"], "unsent": {"late": 1}}),
                    drops={"x": 1}, left_out={"x": 1}, record={"octets": 1, "fault": None})


def busy(networks, seconds):
    """So many networks of two stations, whose counts grow evenly with the time."""
    def stations(place):
        return [station(16 * place + number, since=seconds, octets_to=1000 * seconds, octets_from=200 * seconds)
                for number in (1, 2)]
    return document(*(network(
        place + 1, f"network {place + 1}".encode(), stations(place),
        air={"weight": 1, "seconds": 0.02 * (place + 1) * seconds, "waiting": 0, "unsent": {"late": seconds // 5}},
        counts={"events": 300 * seconds, "clock": 10 * seconds, "unread": 0, "lost": seconds // 5, "kept": 0})
        for place in range(networks)), since=float(seconds))


class FakeBridge:
    """The bridge's socket: each line is answered by what `answer` makes of it, in octets; by None it is closed."""

    def __init__(self, path, answer):
        self.path, self.answer = path, answer
        self.listener = socket.socket(socket.AF_UNIX)
        self.listener.bind(path)
        self.listener.listen()
        os.chmod(path, 0o666)
        threading.Thread(target=self.serve, daemon=True).start()

    def serve(self):
        """Serves one client after the other until it is closed."""
        while True:
            try:
                client, _ = self.listener.accept()
            except OSError:
                return
            with client, client.makefile("rb") as lines:
                for line in lines:
                    answer = self.answer(line)
                    if answer is None:
                        break
                    client.sendall(answer)

    def close(self):
        """Ends it, and takes its socket away."""
        os.unlink(self.path)
        self.listener.shutdown(socket.SHUT_RDWR)
        self.listener.close()


def free_port(address="127.0.0.1"):
    """A port that is free."""
    with socket.create_server((address, 0)) as free:
        return free.getsockname()[1]


def answer_of(port, path="/metrics", address="127.0.0.1", method="GET", host=None, site=None):
    """What a server answers to a request, which names this host, and of which a browser says that it is of this site:
    the status, the headers, and the text."""
    connection = http.client.HTTPConnection(address, port, timeout=20)
    named = {"Host": host, "Sec-Fetch-Site": site}
    with contextlib.closing(connection):
        connection.request(method, path, headers={name: value for name, value in named.items() if value is not None})
        answer = connection.getresponse()
        return answer.status, answer.headers, answer.read().decode()


def answer_once_it_listens(port, **words):
    """The same, once the server listens."""
    def answer():
        with contextlib.suppress(ConnectionRefusedError):
            return answer_of(port, **words)
        return None
    return wait_until(answer, 30)


def line_of(told):
    """A document as the bridge writes it."""
    return json.dumps(told).encode() + b"\n"
