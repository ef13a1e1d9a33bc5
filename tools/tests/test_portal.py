"""Tests of the captive portal of docs/NETWORKS.md: its rules over those of share/networks, in network namespaces."""
import os
import re
import shutil
import subprocess
import sys
import unittest

from common import ROOT, ToolTest, run_to_end, text_of, wait_until
from texts import read_text

SHARED = os.path.join(ROOT, "share", "networks")
MACHINE, GUEST, OUTSIDE = (f"portal-{name}-{os.getpid()}" for name in ("machine", "guest", "outside"))
GUEST_ADDRESS, ACCEPTED = "02:aa:00:00:00:01", "02:aa:00:00:00:02"
SERVER = """import http.server, sys
class Page(http.server.BaseHTTPRequestHandler):
    def do_GET(self):
        self.send_response(200)
        self.end_headers()
        self.wfile.write(sys.argv[1].encode())
    def log_message(self, *words): pass
http.server.HTTPServer(("", int(sys.argv[2])), Page).serve_forever()
"""
FETCH = "import sys, urllib.request; print(urllib.request.urlopen(sys.argv[1], timeout=2).read().decode())"


def run(*words):
    """Runs a command that has to end well, and answers what it says."""
    done = run_to_end(words)
    if done.returncode:
        raise AssertionError(f"{' '.join(words)}: {done.stderr}")
    return done.stdout


def can_have_namespaces():
    """Whether this is root of a machine that has network namespaces and nftables."""
    if os.geteuid() != 0 or not all(map(shutil.which, ("ip", "nft", "ping", "unshare"))):
        return False
    listed = subprocess.run(["unshare", "-n", "nft", "add", "table", "inet", "x"], capture_output=True, check=False)
    return listed.returncode == 0


@unittest.skipUnless(can_have_namespaces(), "it takes root, iproute2, iputils-ping and nftables: apt-get install nftables")
class Portal(ToolTest):
    """A guest behind the bridge of guests, this machine, and a host outside, each in a namespace."""

    def setUp(self):
        super().setUp()
        for name in (MACHINE, GUEST, OUTSIDE):
            run("ip", "netns", "add", name)
            self.addCleanup(run, "ip", "netns", "delete", name)
            run("ip", "-n", name, "link", "set", "lo", "up")
        run("ip", "-n", MACHINE, "link", "add", "br-guests", "type", "bridge")
        for number, (far, name) in enumerate(((GUEST, "port-guests"), (OUTSIDE, "eth0"))):
            run("ip", "-n", MACHINE, "link", "add", name, "type", "veth", "peer", "name", "there", "netns", far)
            run("ip", "-n", far, "link", "set", "there", "address", f"02:aa:00:00:00:{number or 1:02x}", "up")
            run("ip", "-n", MACHINE, "link", "set", name, "up")
        run("ip", "-n", MACHINE, "link", "set", "port-guests", "master", "br-guests")
        run("ip", "-n", MACHINE, "link", "set", "br-guests", "up")
        for name, interface, address in ((MACHINE, "br-guests", "10.10.0.1/24"), (MACHINE, "eth0", "198.51.100.2/24"),
                                         (GUEST, "there", "10.10.0.100/24"), (OUTSIDE, "there", "198.51.100.1/24"),
                                         (OUTSIDE, "there", "9.9.9.9/32")):
            run("ip", "-n", name, "address", "add", address, "dev", interface)
        run("ip", "-n", GUEST, "route", "add", "default", "via", "10.10.0.1")
        run("ip", "-n", MACHINE, "route", "add", "default", "via", "198.51.100.1")
        run("ip", "netns", "exec", MACHINE, "sysctl", "-q", "net.ipv4.ip_forward=1")
        run("ip", "netns", "exec", MACHINE, "nft", "-f", self.rules())
        for name, page, port in ((MACHINE, "the portal", 8080), (OUTSIDE, "the Internet", 80), (OUTSIDE, "a name", 53)):
            server = subprocess.Popen(["ip", "netns", "exec", name, sys.executable, "-c", SERVER, page, str(port)])
            self.addCleanup(server.wait)
            self.addCleanup(server.terminate)
        self.wait_for("the portal", "http://10.10.0.1:8080/")

    def rules(self):
        """The rules, changed as the page says."""
        text = read_text(os.path.join(SHARED, "nftables.conf"))
        [more] = re.findall(r'^ *(iifname "br-guests" tcp dport 8080 .*)$', text_of("docs", "NETWORKS.md"), re.M)
        last = 'iifname { "br-guests", "br-office", "br-devices" } drop'
        self.assertEqual(text.count(last), 1)
        return self.write("nftables.conf", text.replace(last, f"{more}\n{last}")
                          + f'include "{os.path.join(SHARED, "portal.nft")}"\n')

    def fetched(self, url):
        """What a guest is shown, or None where nobody answers."""
        done = run_to_end(["ip", "netns", "exec", GUEST, sys.executable, "-c", FETCH, url])
        return done.stdout.strip() or None

    def wait_for(self, page, url):
        """Waits until a guest is shown this page."""
        self.assertTrue(wait_until(lambda: self.fetched(url) == page, 30), url)

    def pings(self):
        """Whether a guest reaches the host outside."""
        return subprocess.run(["ip", "netns", "exec", GUEST, "ping", "-c", "2", "-i", "0.2", "-W", "1", "198.51.100.1"],
                              capture_output=True, check=False).returncode == 0

    def accepted(self, word, address):
        """A guest accepts, or has to accept again."""
        run("ip", "netns", "exec", MACHINE, "nft", word, "element", "inet", "portal", "accepted", f"{{ {address} }}")

    def test_guests_see_the_page_until_they_accept(self):
        for _ in range(2):
            self.assertEqual(self.fetched("http://198.51.100.1/"), "the portal")
            self.assertFalse(self.pings())
            self.assertEqual(self.fetched("http://9.9.9.9:53/"), "a name", "names may be asked for")
            self.accepted("add", ACCEPTED)
            self.assertFalse(self.pings(), "another guest accepted")
            self.accepted("add", GUEST_ADDRESS)
            self.wait_for("the Internet", "http://198.51.100.1/")
            self.assertTrue(self.pings())
            self.accepted("delete", GUEST_ADDRESS)
            self.accepted("delete", ACCEPTED)
