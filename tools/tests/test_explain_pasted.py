"""Tests of what tools/explain says of texts that other programs wrote, and of frames as they show them: what it is, and
which line a trace would have for it."""
import base64
import json
import os
import struct
import unittest

from common import PROGRAM, ToolTest, needs_program, tool
from explaining import octet_records, whole
from explaining.answers import Answer, read_fault, run_program
from explaining.source import Source
from mistakes import CONFIG
from records import record
from texts import trace_line

STATION, LAB = "02aa00000001", "020000000001"
PROBE = bytes.fromhex(f"40000000ffffffffffff{STATION}ffffffffffff000000036c6162010402040b16")
AUTHENTICATION = bytes.fromhex(f"b0000000{LAB}{STATION}{LAB}0000000001000000")
WIRED = bytes.fromhex(f"{STATION}02bb00000001080045000001")
DIGITS = PROBE.hex()


def rows(octets, width=16):
    """Octets in rows, each with its place."""
    return [(at, octets[at:at + width]) for at in range(0, len(octets), width)]


def letters(octets):
    """What hex dumps show beside a row."""
    return "".join(chr(octet) if 32 <= octet < 127 else "." for octet in octets)


def spaced(octets, count=1):
    """Digits with a space behind so many octets."""
    return octets.hex(" ", count) if count == 1 else " ".join(octets[at:at + count].hex()
                                                              for at in range(0, len(octets), count))


def dump(form, octets=PROBE, width=16):
    """A hex dump: `form` makes a row of its place and octets."""
    return "".join(form(at, row) + "\n" for at, row in rows(octets, width))


def numbers(octets, size):
    """Octets as numbers of so many octets of a small-endian machine, the last one filled with zeros."""
    filled = octets + bytes(-len(octets) % size)
    kind = {2: "H", 4: "I"}[size]
    return " ".join(f"{number:0{2 * size}x}" for number in struct.unpack(f"<{len(filled) // size}{kind}", filled))


HEXADECIMAL = ", ".join(f"0x{octet:02x}" for octet in PROBE)
# A frame as other programs show it, the number of its line, and what is said of it beside the line to write.
SHOWN = [
    (dump(lambda at, row: f"{at:08x}: {spaced(row, 2):<40} {letters(row)}"), 1, ["this is a hex dump", "lines 1 to 3"]),
    (dump(lambda at, row: f"{at:08x}  {spaced(row):<48}  |{letters(row)}|") + f"{len(PROBE):08x}\n", 1, ["a hex dump"]),
    (dump(lambda at, row: f"{at:04X}  {spaced(row).upper():<47}  {letters(row)}"), 1, ["a hex dump"]),
    (dump(lambda at, row: f"{at:04x}   {spaced(row)}"), 1, ["this is a hex dump", "trace-from-capture"]),
    (dump(lambda at, row: f"{at:06x} {spaced(row)}") + "\n" + dump(lambda at, row: f"{at:06x} {spaced(row)}", WIRED), 1,
     ["a hex dump", "lines 1 to 3"]),
    (dump(lambda at, row: f"\t0x{at:04x}:  {spaced(row, 2)}"), 1, ["a hex dump"]),
    (dump(lambda at, row: f"[  12.{at:06}] mac80211: {at:08x}: {spaced(row)}"), 1, ["a hex dump"]),
    (dump(lambda at, row: f"0x7ffe{at:08x}:\t" + "\t".join(f"0x{octet:02x}" for octet in row), width=8), 1,
     ["as a program's source has them", "lines 1 to 5"]),
    (dump(lambda at, row: f"{at:07x} {numbers(row, 2)}"), 1, ["numbers of several octets", "low octet comes last"]),
    (dump(lambda at, row: f"{at:07x} {numbers(row, 4)}"), 1, ["numbers of several octets", "low octet comes last"]),
    (dump(lambda at, row: f"{at:07o} " + " ".join(f"{octet:03o}" for octet in row)), 1, ["these are octal numbers"]),
    ("A " + " ".join(f"{octet:08b}" for octet in PROBE[:-1]) + ",\n", 1, ["these are binary numbers"]),
    (f"T\nA {{ {HEXADECIMAL} }};\n", 2, ["my.trace:2:3", "a program's source"]),
    (f"A vec![{HEXADECIMAL}]\n", 1, ["my.trace:1:3", "a program's source"]),
    (f"uint8_t frame[] = {{\n  {HEXADECIMAL[:90]}\n  {HEXADECIMAL[90:]}\n}};\n", 1,
     ["a program's source", "lines 1 to 3"]),
    ('"' + "".join(f"\\x{octet:02x}" for octet in PROBE[:16]) + '" \\\n"' +
     "".join(f"\\x{octet:02x}" for octet in PROBE[16:]) + '"\n', 1, ["a program's source", "lines 1 to 2"]),
    ("A " + ", ".join(map(str, PROBE)) + "\n", 1, ["my.trace:1:3", "these are decimal numbers"]),
    ("A [" + ", ".join(str(octet - 256 * (octet > 127)) for octet in PROBE) + "]\n", 1, ["decimal numbers"]),
    ("A " + base64.b64encode(PROBE).decode() + "\n", 1, ["a frame in base64"]),
    (json.dumps([{"layers": {"frame_raw": [DIGITS, 0, len(PROBE)]}}], indent=2) + "\n", 1, ["this is JSON"]),
    (json.dumps({"type": "Buffer", "data": list(PROBE)}) + "\n", 1, ["this is JSON", "for its first frame"]),
    (json.dumps({"octets": PROBE.hex(":")}) + "\n", 1, ["this is JSON"]),
    (f"/* Frame (44 bytes) */\nstatic const unsigned char frame[44] = {{\n{HEXADECIMAL} /* .. */\n}};\n", 1,
     ["a program's source", "lines 1 to 3"]),
    (dump(lambda at, row: f"I ({at + 1234}) wifi: 0x3ffb{at:04x}   {spaced(row)}  |{letters(row)}|"), 1, ["hex dump"]),
    ("           " + spaced(bytes(range(16))) + "\n\n" + dump(lambda at, row: f"{at:08X}   {spaced(row)}"), 1,
     ["a hex dump", "lines 1 to 5"]),
    (f"Packet ({len(PROBE)} bytes):\n" + dump(lambda at, row: f"{at:04x}  {spaced(row)}"), 1, ["a hex dump", "1 to 4"]),
    (f"{DIGITS[:60]}\n{DIGITS[60:]}\n", 1, ["begins with its word", "for the lines 1 to 2"]),
    ('A "' + "".join(f"\\x{{{octet:02x}}}" for octet in PROBE) + '"\n', 1, ["a program's source"]),
    (f"A [{spaced(PROBE)}]\n", 1, ["my.trace:1:3: `[` and `]` stand among the digits"]),
    (f"A \u201c{DIGITS}\u201d\n", 1, ["`\u201c` and `\u201d` stand among the digits"]),
    (json.dumps({"packet": base64.b64encode(PROBE).decode()}) + "\n", 1, ["this is JSON", "for its first frame"]),
    (f'A bytes.fromhex("{DIGITS}")\n', 1, ["my.trace:1:3", '`bytes.fromhex("` stands before the digits of a frame']),
    (f'Buffer.from("{DIGITS}", "hex")\n', 1, ["my.trace:1:1", "stands before the digits of a frame"]),
    (f"A={DIGITS}\n", 1, ["a space alone stands after `A`"]),
    ("A " + PROBE.hex(":") + "\n", 1, ["digits stand without `:` between them", "leave each `:` out"]),
]
# Texts of other programs, as a configuration, with the program's line.
CONFIGURATIONS = [
    ("fault C1", "# nov/30/2026 01:00:00 by RouterOS 6.49\n/interface wireless\nset [ find ] ssid=lab\n", "MikroTik"),
    ("fault C1", "!\ndot11 ssid lab\n   authentication open\n!\n", "Cisco"),
    ("fault C1", 'wlan ssid-profile "lab"\n   essid "lab"\n!\n', "Aruba"),
    ("fault C1", "set wlan ap1 ssid lab\nset wlan ap1 channel 6\n", "Juniper"),
    ("fault C1", "wl0_ssid=lab\nwl0_channel=6\n", "NVRAM"),
    ("fault C1", "[General]\nChannel=6\n\n[Security]\nPassphrase=secret12\n", "a file of sections, as iwd"),
    ("fault C1", "services.hostapd = {\n  enable = true;\n  ssid = \"lab\";\n};\n", "NixOS"),
    ("fault C1", "[connection]\nid=lab\n[wifi]\nssid=lab\n", "a connection of NetworkManager"),
    ("fault C1", "NAME  UUID                                  TYPE  DEVICE\nlab   3f2b  wifi  wlan0\n", "nmcli prints"),
    ("fault C1", "BSS 02:00:00:00:00:01(on wlan0)\n\tfreq: 2437\n\tSSID: lab\n", "what `iw` prints"),
    ("fault C1", "2: wlan0: <BROADCAST,UP> mtu 1500\n    link/ether 02:00:00:00:00:01\n", "what `ip` prints"),
    ("fault C1", "interface=wlan0\ndhcp-range=192.168.4.2,192.168.4.20,24h\n", "none of its keys stands in it"),
    ("fault C2", 'DAEMON_CONF="/etc/hostapd/hostapd.conf"\n', "none of its keys stands in it"),
    ("fault C2", '[build-system]\nrequires = ["setuptools"]\n', "my.toml:1:1: this text is no configuration"),
    ("fault C1", CONFIG.replace('ssid = "lab"', '"ssid": "lab",'), 'write `ssid = "lab"`'),
    ("fault C1", CONFIG.replace("channel", "\u0441hannel"), "`\u0441` (U+0441) looks like `c`"),
    ("fault C8 network 0", CONFIG.replace("00:01\"", "00:01;\"", 1), "`;` stands beside the address"),
    ("fault C1", "bssid=02:00:00:00:00:01\nssid=lab\nwpa_state=COMPLETED\n", "wpa_cli or hostapd_cli prints"),
    ("fault C1", "CONFIG = {\n    'channel': 6,\n}\n", "written as in JSON or Python"),
    ("fault C10 network 0", CONFIG.replace('"82840b16"', "0x82840b96"), 'write `rates = "82840b96"`'),
    ("fault C1", CONFIG.replace('"lab"', "'bob\\'s lab'"), "write `ssid = \"bob's lab\"`"),
    ("fault C9 network 0", CONFIG.replace('"lab"', '["lab", "loft"]'), 'write `ssid = "lab"`'),
    ("fault C9 network 0", CONFIG.replace('"lab"', "2024"), 'write `ssid = "2024"`'),
    ("fault C8 network 0", CONFIG.replace("02:00:00:00:00:01", "02/00/00/00/00/01"),
     'write `bssid = "02:00:00:00:00:01"`'),
    ("fault C1", "A letter to the owner.\n\nThe radio is on channel six.\n", "none of its keys stands in it"),
    ("fault C7", CONFIG[:CONFIG.index("[[network]]")] + "[network.lab]\nssid = \"lab\"\n",
     "my.toml:6:1: `[network.lab]` is one table"),
    ("fault C1", CONFIG.replace('"lab"', "\"lab'"), "a closing \" is missing, and ' stands there"),
]
# The same as a trace.
TRACES = [
    ("fault L1 line 1", "Frame 1: 44 bytes on wire (352 bits)\nIEEE 802.11 Probe Request, Flags: ..\n",
     "field by field"),
    ("fault L1 line 2", "###[ RadioTap ]###\n  version   = 0\n", "scapy prints"),
    ("fault L1 line 1", "wlan0: STA 02:aa:00:00:00:01 IEEE 802.11: authenticated\n", "a log of hostapd"),
    ("fault L1 line 1", "[  1.234567] wlan0: authenticate with 02:00:00:00:00:01\n", "a log of the kernel"),
    ("fault L1 line 1", "wlan0 (phy #0): scan started\nwlan0: new station 02:aa:00:00:00:01\n", "`iw event` prints"),
    ("fault L1 line 1", "1764464400.1: wlan0 (phy #0): scan started\n", "what `iw event` prints"),
    ("fault L1 line 1", "IP 10.0.0.1.5353 > 224.0.0.251.5353: 0 PTR (QM)? _http._tcp.local. (33)\n", "tcpdump prints"),
    ("fault L2 line 1", "A 02:aa:00:00:00:01\n", "my.trace:1:3: an address alone stands here"),
    ("fault L2 line 1", f"A {DIGITS}\u2028T\u2028", "a line separator (U+2028) stands here"),
    ("fault L1 line 1", "BSSID, First time seen, channel, ESSID\n02:00:00:00:00:01, 2026, 6, lab,\n", "airodump-ng"),
    ("fault L1 line 1", ":1000000040000000FFFFFFFFFFFF02AA0000000109\n:00000001FF\n", "Intel HEX"),
    ("fault L1 line 1", "RadioTap()/Dot11(addr1='ff:ff:ff:ff:ff:ff')/Dot11ProbeReq()\n", "makes a frame in scapy"),
    ("fault L1 line 1", f"\u0410 {DIGITS}\n", "`\u0410` (U+0410) looks like `A`"),
    ("fault L1 line 2", f"A {DIGITS}\nT T T\n", "write 3 lines `T`"),
    ("fault L3 line 1", "W 02:00:00:00:00:01: ff\n", "my.trace:1:3: `:` stands beside the address"),
    ("fault L1 line 1", "hello\nworld\n", "none of its lines begins with `A`, `W` or `T`"),
    ("fault L2 line 1", "A 4000 0000 ffffffffffff 02aa00000001 ffffffffffff 0000 0003lab\n",
     "my.trace:1:61: `lab` stands here as letters"),
]
# The octets of a record of each kind, written in another form, and what is said.
RECORDS = [
    (lambda kind, bssid, octets: kind + bssid + struct.pack(">H", len(octets)) + octets, "has its high octet first"),
    (lambda kind, _, octets: kind + struct.pack("<H", len(octets)) + octets, "no BSSID stands in a record:"),
    (lambda kind, _, octets: kind + struct.pack(">H", len(octets)) + octets,
     "no BSSID stands in a record, and each length has its high octet first"),
    (lambda kind, bssid, octets: kind + bssid + struct.pack("<I", len(octets)) + octets, "four octets:"),
    (lambda kind, bssid, octets: kind + bssid + struct.pack(">I", len(octets)) + octets, "four octets, the high one"),
    (lambda kind, bssid, octets: kind + bssid + bytes([len(octets)]) + octets, "each length has one octet"),
    (lambda *parts: record(*parts) + b"\n", "(LF) stands behind each record"),
]
# Words, and what is said of them; my.toml, my.trace and my.input are there.
WORDS = [
    (["--", "--octets", "live", "my.toml"], ["the command comes first", "write `live --octets my.toml`"]),
    (["run", "my.trace"], ["`my.trace` is a trace", "write `run CONFIG my.trace`"]),
    (["run", "my.input"], ["a configuration and a trace in one", "< my.input`"]),
    (["run", "my.toml"], ["after `run` the word TRACE is missing"]),
    (["play", "my.toml", "*.tracee"], ["no file fits", "`ls .`"]),
    (["play", "my.toml", "*.trace"], ["without quotes it is my.trace"]),
    (["run", "--config=my.toml", "my.trace"], ["write `run my.toml my.trace`"]),
    (["--", "--config=my.toml", "my.trace"], ["write `run my.toml my.trace`"]),
    (["run", "~/nowhere.toml", "my.trace"], ["puts the home in the place of `~`", "there is no"]),
    (["run", "my.toml my.trace"], ["is one word, and names 2", "write `run my.toml my.trace`"]),
    (["play", "my.toml", "my.trace,my.trace"], ["is one word for 2 files", "write `my.trace my.trace`"]),
    (["--", "check my.toml"], ["is one word, and names 2", "write `check my.toml`"]),
    (["status", "my.toml"], ["one of tools/live", "write `tools/live status`"]),
    (["--", "frame"], ["one of tools/frame", "write `tools/frame --help`"]),
    (["play", "my.trace", "my.toml", "my.trace"], ["comes first", "write `play my.toml my.trace my.trace`"]),
    (["live", "--octets", "my.toml", "my.records"], ["its records", "write `live --octets my.toml < my.records`"]),
    (["run", "MY.TOML", "my.trace"], ["`my.toml` is there, and may be meant"]),
    (["yaml.toml"], ["yaml.toml:2:1: this is YAML"]),
]
# Lines that are read, and what is said of each.
LINES = [
    (f"A 0b00 0000 {LAB} {STATION} {LAB} 0000 0000 0100 0000", ["my.trace:1:3", "the two digits of the first octet",
                                                              "write `b000`"]),
    (f"A b000 0000 {LAB} {STATION} {LAB} 0000 0100 0000 0000",
     ["my.trace:1:57", "stand in each other's place", "write `0000 0100`"]),
    ("A " + " ".join(map(str, PROBE + b"\0" * (sum(len(str(octet)) for octet in PROBE) % 2))),
     ["my.trace:1:3", "its digits are decimal numbers", "write `A 40000000ff"]),
    (f"A 0000 0000 {LAB} {STATION} {LAB} 0000 0100 0a00 00036c6162 0104 8284",
     ["the element Supported Rates says that it has 4 octets, and 2 follow", "has to be `02`"]),
    ("A " + " ".join(f"{octet:x}" for octet in PROBE[:-1] + bytes(2))[:-2],
     ["its digits are octets of which some lack the zero", "write `A 40000000ff"]),
    ("A " + numbers(PROBE, 2), ["its digits are numbers of several octets", "write `A 40000000ff"]),
    (f"A 40000000ffffffffffff{STATION}ffffffffffff0000 00056775657374 010402040b16",
     ["`6775657374` is, which are its digits", 'write `ssid = "guest"` in the configuration']),
]


def said_of(said, config, trace=None):
    """What is said where the program said this."""
    texts = whole.Texts(["check", "my.toml"], Source("my.toml", config.encode()))
    if trace is not None:
        texts = whole.Texts(["run", "my.toml", "my.trace"], texts.config, [Source("my.trace", trace.encode())])
    return "\n".join(whole.explain(texts, Answer(1, b"", read_fault(said), said)))


def fault_of(trace, number):
    """The fault of a line, by its word."""
    return f"fault {'L2' if trace.split(chr(10))[number - 1].startswith('A ') else 'L1'} line {number}"


class Pasted(ToolTest):
    """Texts of other programs."""

    def write(self, name, text):
        """A file of the test's folder: its path."""
        with open(self.path(name), "wb") as file:
            file.write(text if isinstance(text, bytes) else text.encode())
        return self.path(name)

    def test_a_frame_in_another_notation_is_told_as_a_line(self):
        for trace, number, says in SHOWN:
            found = said_of(fault_of(trace, number), CONFIG, trace)
            self.assertIn(f"`A {DIGITS[:20]}", found.replace(" 0000 ffff", "0000ffff"), trace)
            for words in says:
                self.assertIn(words, found, trace)

    def test_a_frame_of_a_wire_has_its_word(self):
        found = said_of("fault L1 line 1", CONFIG, dump(lambda at, row: f"{at:04x}  {spaced(row)}", WIRED))
        self.assertIn(f"write `W BSSID {WIRED.hex()}`", found)

    def test_radiotap_is_left_out(self):
        front = bytes.fromhex("00000d000480020002000000") + b"\0"
        found = said_of("fault L1 line 1", CONFIG, dump(lambda at, row: f"{at:04x}  {spaced(row)}", front + PROBE))
        self.assertIn(f"`A {DIGITS[:20]}", found)
        self.assertIn("without the 13 octets of radiotap", found)

    def test_digits_alone_are_no_dump(self):
        """A line of digits that lacks its word, or goes on the line before, is told as that."""
        self.assertIn("begins with its word", said_of("fault L1 line 1", CONFIG, spaced(PROBE, 2) + "\n"))
        halves = f"A {PROBE[:16].hex()}\n{PROBE[16:22].hex()} {PROBE[22:].hex()}\n"
        self.assertIn("may go on the frame of the line before", said_of("fault L1 line 2", CONFIG, halves))

    def test_texts_of_other_programs_are_named(self):
        for said, config, words in CONFIGURATIONS:
            self.assertIn(words, said_of(said, config), config)
        for said, trace, words in TRACES:
            self.assertIn(words, said_of(said, CONFIG, trace), trace)

    @needs_program
    def test_the_program_refuses_them_so(self):
        good = self.write("good.toml", CONFIG)
        for said, config, _ in CONFIGURATIONS:
            self.assertEqual(run_program(PROGRAM, ["check", self.write("my.toml", config)]).errors, f"{said}\n", config)
        for said, trace in [(said, trace) for said, trace, _ in TRACES] + \
                [(fault_of(trace, number), trace) for trace, number, _ in SHOWN]:
            words = ["run", good, self.write("my.trace", trace)]
            self.assertEqual(run_program(PROGRAM, words).errors, f"{said}\n", trace)

    def test_own_texts_are_of_no_other_program(self):
        """In a configuration and a trace of this program a line with a fault has its own reason."""
        for line, said in (("ssid = lab", "a text stands in quotes"), ("channel : 6", "`:` stands where TOML has `=`"),
                           ("relay = yes", "TOML has `true` and `false`")):
            text = CONFIG.replace("queue = 64\n", f"queue = 64\n{line}\n")
            self.assertIn(said, said_of("fault C1", text))
        self.assertIn("`hello` is no word of a trace", said_of("fault L1 line 2", CONFIG, "T\nhello\n"))

    def test_files_that_are_no_text_are_named(self):
        for octets, says in ((b"\xfd7zXZ\0\0\x04\xe6", ["packed by xz", "`unxz`"]), (b"BZh91AY&SY", ["`bunzip2`"]),
                             (b"\x89PNG\r\n", ["a picture"]), (PROBE, ["those of a frame", f"write `A {DIGITS[:40]}"]),
                             (bytes(range(1, 9)) + b"\xff" * 8, ["octets and no text", "`file` says"])):
            texts = whole.Texts(["run", "my.toml", "my.trace"], Source("my.toml", CONFIG.encode()),
                                [Source("my.trace", octets)])
            found = "\n".join(whole.explain(texts, Answer(1, b"", read_fault("fault L1 line 1"), "fault L1 line 1")))
            for words in says:
                self.assertIn(words, found)

    @needs_program
    def test_what_is_odd_though_it_is_read(self):
        """An element whose ID is written as a decimal number, and a name with a character that isn't seen."""
        lines = [f"A b000 0000 {LAB} {STATION} {LAB} 0000 0000 0100 0000",
                 f"A 0000 0000 {LAB} {STATION} {LAB} 0000 0100 0a00 00036c6162 010482848b96 50020c12", "T", ""]
        words = ["run", self.write("my.toml", CONFIG), self.write("my.trace", "\n".join(lines))]
        texts = whole.texts_of(words, None)
        texts.program = PROGRAM
        found = "\n".join(whole.explain(texts, run_program(PROGRAM, words)))
        self.assertIn("the element `50` has rates, and nobody reads it", found)
        self.assertIn("write `32` for `50`", found)
        words = ["check", self.write("odd.toml", CONFIG.replace('"guest"', '"gu\\u0000est"'))]
        found = "\n".join(whole.explain(whole.texts_of(words, None), run_program(PROGRAM, words)))
        self.assertIn("has a character that isn't seen, U+0000", found)

    def test_records_in_another_form_are_named(self):
        for form, words in RECORDS:
            given = form(b"A", bytes(6), PROBE) + form(b"T", bytes(6), b"") + \
                form(b"W", bytes.fromhex(LAB), WIRED)
            for said in ("fault L2 record 1", "fault L1 record 2"):
                found = octet_records.explain(given, read_fault(said), [])
                self.assertEqual(len(found), 1)
                self.assertIn(words, found[0].text)

    def test_records_as_digits_are_named(self):
        given = record(b"A", bytes(6), PROBE).hex().encode() + b"\n"
        found = octet_records.explain(given, read_fault("fault L2 record 1"), [])
        self.assertIn("standard input is hexadecimal digits", found[0].text)
        self.assertIn("xxd -r -p", found[0].advice)

    def test_text_in_place_of_records_is_named(self):
        found = octet_records.explain(b'{"kind": "A"}\n', read_fault("fault L2 record 1"), [])
        self.assertIn("standard input is text, and `live --octets` reads records", found[0].text)

    def test_records_as_they_should_be_are_of_no_other_form(self):
        given = record(b"A", bytes(6), PROBE) + record(b"T") + record(b"W", bytes.fromhex("029900000001"), WIRED)
        found = octet_records.explain(given, read_fault("fault L4 record 3"), ["02:00:00:00:00:01"])
        self.assertIn("has the BSSID 02:99:00:00:00:01 of the record 3", found[0].text)

    @needs_program
    def test_words_are_read_with_the_files_that_they_name(self):
        for name, text in (("my.toml", CONFIG), ("my.trace", f"A {DIGITS}\nT\n"), ("my.input", f"{CONFIG}---\nT\n"),
                           ("yaml.toml", "---\nnetworks:\n  - ssid: lab\n")):
            self.write(name, text)
        begin = os.getcwd()
        self.addCleanup(os.chdir, begin)
        os.chdir(self.folder)
        for words, says in WORDS:
            _, found, _ = tool("explain", *words)
            for text in says:
                self.assertIn(text, found, words)

    @needs_program
    def test_lines_that_are_read_otherwise_than_meant(self):
        config = self.write("my.toml", CONFIG.replace('"guest"', '"6775657374"'))
        for line, says in LINES:
            trace_line(1, line)
            words = ["run", config, self.write("my.trace", line + "\nT\n")]
            answer, texts = run_program(PROGRAM, words), whole.texts_of(words, None)
            self.assertEqual((answer.status, answer.errors), (0, ""), line)
            texts.program = PROGRAM
            found = "\n".join(whole.explain(texts, answer))
            for text in says:
                self.assertIn(text, found, line)


if __name__ == "__main__":
    unittest.main()
