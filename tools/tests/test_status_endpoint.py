"""Tests of where the status page is served: the words that name an address and a port, the hosts that a request may name,
and tools/status at an address of its own."""
import http.client
import os
import socket
import subprocess
import unittest
from unittest import mock

from common import TOOLS, ToolTest, tool
from status.endpoint import Endpoint, endpoint_of, name_of, source_of
from status.server import Server
from statuses import FakeBridge, answer_of, answer_once_it_listens, document, free_port, line_of, network, station


class Words(unittest.TestCase):
    """What people write."""

    def test_a_port_an_address_and_a_name(self):
        for text, wanted in (("9617", Endpoint(9617)), ("192.0.2.7:1", Endpoint(1, "192.0.2.7")),
                             ("127.0.0.1:65535", Endpoint(65535)), ("[::1]:80", Endpoint(80, "::1")),
                             ("[2001:DB8:0::7]:9617", Endpoint(9617, "2001:db8::7"))):
            self.assertEqual(endpoint_of(text), wanted)
            self.assertEqual(endpoint_of(wanted.word), wanted)
        self.assertEqual([name_of(text) for text in ("AP1.example.net", "ap-2", "192.0.2.7", "[2001:DB8::7]")],
                         ["ap1.example.net", "ap-2", "192.0.2.7", "[2001:db8::7]"])

    def test_what_names_no_place_is_refused_by_name(self):
        for text, says in (
                ("", "is no port"), ("0", "0 is no port: 1 to 65535"), ("65536", "65536 is no port"),
                ("x", "x is no port"), ("192.0.2.7:", " is no port"), ("192.0.2.7:99999", "99999 is no port"), ("٣", "٣ is no port"),
                ("192.0.2:80", "192.0.2 is no address"), ("192.0.2.256:80", "192.0.2.256 is no address"),
                ("ap1.example.net:80", "ap1.example.net is no address"), (":80", " is no address"),
                ("[192.0.2.7]:80", r"\[192.0.2.7\] is no address"), ("[2001:db8::g]:80", "is no address"),
                ("2001:db8::7:80", "an address of IPv6 stands in brackets"), ("::1", "stands in brackets"),
                ("0.0.0.0:80", "0.0.0.0 stands for all addresses of this machine"),
                ("[::]:80", "stands for all addresses"),
                ("224.0.0.1:80", "224.0.0.1 is the address of many machines"), ("[ff02::1]:80", "of many machines"),
                ("255.255.255.255:80", "of many machines"), ("[fe80::1]:80", "holds on one link alone"),
                ("[fe80::1%eth0]:80", "holds on one link alone")):
            with self.subTest(text=text), self.assertRaisesRegex(ValueError, says):
                endpoint_of(text)
        for text in ("", "a b", "-a", "a-", "a..b", "a" * 64, "a." * 127 + "a", "a:80", "http://a", "a/b", "a\n", "*",
                     "[::g]"):
            with self.subTest(text=text), self.assertRaisesRegex(ValueError, "is no name of a host"):
                name_of(text)

    def test_hosts_that_a_request_may_name(self):
        here = Endpoint(9617, "192.0.2.7", ("ap1.example.net",))
        for host in ("192.0.2.7", "192.0.2.7:9617", "ap1.example.net", "AP1.Example.net:80"):
            self.assertTrue(here.answers(host), host)
        for host in ("", "localhost", "127.0.0.1:9617", "192.0.2.70", "192.0.2.7.example", "ap1.example.net.evil", "ap1",
                     "ap1.example.net:", "ap1.example.net:123456", "[192.0.2.7]", "x@192.0.2.7", "192.0.2.7,evil"):
            self.assertFalse(here.answers(host), host)
        other = Endpoint(9617, "2001:db8::7")
        self.assertTrue(other.answers("[2001:DB8:0:0::7]:9617"))
        self.assertFalse(other.answers("2001:db8::7") or other.answers("[2001:db8::8]") or other.answers("localhost"))
        self.assertTrue(Endpoint(1, "::1").answers("localhost:1") and Endpoint(1, "127.0.0.2").answers("127.0.0.2"))
        self.assertFalse(Endpoint(1, "127.0.0.2").answers("127.0.0.1"))

    def test_from_where_requests_may_come(self):
        self.assertEqual([source_of(text) for text in ("192.0.2.10", "192.0.2.0/24", "2001:db8::/32", "[2001:DB8::9]")],
                         ["192.0.2.10/32", "192.0.2.0/24", "2001:db8::/32", "2001:db8::9/128"])
        for text in ("", "192.0.2.0/33", "192.0.2.1/24", "ap1.example", "192.0.2.0/24/8", "*"):
            with self.subTest(text=text), self.assertRaisesRegex(ValueError, "is neither an address nor a network"):
                source_of(text)
        everybody, some = Endpoint(1, "192.0.2.7"), Endpoint(1, "192.0.2.7", sources=("192.0.2.16/30", "2001:db8::/32"))
        for client, may in (("192.0.2.17", True), ("192.0.2.20", False), ("198.51.100.1", False), ("2001:db8::5", True),
                            ("2001:db9::5", False), ("192.0.2.7", True), ("127.0.0.1", True), ("::1", True),
                            ("fe80::1%eth0", False)):
            self.assertTrue(everybody.serves(client), client)
            self.assertEqual(some.serves(client), may, client)

    def test_why_nothing_is_served(self):
        self.assertRegex(Endpoint(9617, "192.0.2.7").fault(), "there is no page until this machine has this address")
        with socket.create_server(("127.0.0.1", 0)) as taken:
            self.assertRegex(Endpoint(taken.getsockname()[1]).fault(), "there is no page until this port is free")
        self.assertIsNone(Endpoint(free_port()).fault())


class Addresses(ToolTest):
    """The server at an address of its own."""

    def serve(self, address, *names, sources=()):
        """Serves there."""
        told = document(network(1, b"guests", [station(1)]))
        server = Server(Endpoint(0, address, names, sources), lambda: told)
        server.start()
        self.addCleanup(server.close)
        return server

    def test_it_is_there_and_nowhere_else(self):
        server = self.serve("127.0.0.2", "ap1.example.net")
        port = server.server_address[1]
        self.assertEqual(server.url, f"http://127.0.0.2:{port}/")
        for host in (f"127.0.0.2:{port}", "ap1.example.net", "localhost"):
            self.assertEqual(answer_of(port, address="127.0.0.2", host=host)[0], 200, host)
        status, _, text = answer_of(port, address="127.0.0.2", host="127.0.0.1")
        self.assertEqual((status, text), (421, "421 ask for 127.0.0.2 or localhost or ap1.example.net\n"))
        with self.assertRaises(ConnectionRefusedError):
            answer_of(port, host="127.0.0.2")

    def test_who_may_not_ask_is_told_nothing(self):
        """The connection is closed before a request is read."""
        server = self.serve("127.0.0.2", sources=("192.0.2.10/32",))
        port = server.server_address[1]
        self.assertEqual(answer_of(port, address="127.0.0.2", host="127.0.0.2")[0], 200, "this machine may")
        with mock.patch.object(Endpoint, "serves", lambda _, client: client != "127.0.0.1"):
            with self.assertRaises((ConnectionResetError, http.client.RemoteDisconnected)):
                answer_of(port, address="127.0.0.2", host="127.0.0.2")

    @unittest.skipUnless(os.path.exists("/proc/net/if_inet6"), "this machine has no IPv6")
    def test_an_address_of_ipv6(self):
        server = self.serve("::1")
        port = server.server_address[1]
        self.assertEqual(server.url, f"http://[::1]:{port}/")
        hosts = (f"[::1]:{port}", "localhost", "127.0.0.1")
        self.assertEqual([answer_of(port, address="::1", host=host)[0] for host in hosts], [200, 200, 421])

    def test_the_command(self):
        """It takes an address, names and whether stations have metrics, and refuses what isn't one."""
        bridge = FakeBridge(self.path("x.sock"), lambda _: line_of(document(network(1, b"guests", [station(1)]))))
        self.addCleanup(bridge.close)
        os.chmod(self.folder, 0o755)
        port = free_port("127.0.0.2")
        command = [os.path.join(TOOLS, "status"), f"127.0.0.2:{port}", self.path("x.sock")]
        started = subprocess.Popen([*command, "--host", "AP1.example", "--from", "192.0.2.0/24", "--station-metrics"])
        self.addCleanup(started.wait)
        self.addCleanup(started.kill)
        status, _, text = answer_once_it_listens(port, address="127.0.0.2", host="ap1.example")
        self.assertEqual(status, 200)
        self.assertIn('waltigon_station_bytes_total{bssid="02:00:00:00:01:01",station="02:aa:00:00:00:01"', text)
        self.refused("status", f"192.0.2.7:{port}", self.path("x.sock"),
                     says=f"status: 192.0.2.7:{port}: Cannot assign requested address")
        for words, says in ((["0.0.0.0:80", "x"], "0.0.0.0 stands for all addresses"),
                            (["80", "x", "--host", "a b"], "a b is no name of a host"),
                            (["80", "x", "--from", "192.0.2.1/24"], "192.0.2.1/24 is neither an address nor a")):
            status, _, told = tool("status", *words)
            self.assertEqual(status, 2)
            self.assertIn(says, told)
