"""More mistakes that people make, each with the program's own line and with what has to be said of it: what they paste
and type, and what they carry over from other products."""
from mistakes import CONFIG, PROBE, Mistake, changed, joined, traced

LAB, STATION, HOST = "02:00:00:00:00:01", "02aa00000001", "02bb00000001"
QUEUE, OF_GUESTS = "queue = 64", "relay = false\naging = false\n"


def added(said, line, *says):
    """A configuration with a line more among the keys of the radio."""
    return changed(said, QUEUE, f"{QUEUE}\n{line}", *says)


def valued(said, key, old, new, *says):
    """A configuration in which a key has another value."""
    return changed(said, f"{key} = {old}", f"{key} = {new}", *says)


ELSEWHERE = [
    added("fault C3", 'country = '
                      '"DE"', "my.toml:5:1", "leave it out: the country is told to tools/live, as `--country DE`"),
    added("fault C1", "country = DE", "my.toml:5:1", "`country` is no key of a configuration", "`--country DE`"),
    added("fault C3", 'regdomain = "DE"', "`--country DE`"),
    added("fault C3", 'phy = "phy0"', "is named by `--phy` of tools/live"),
    added("fault C3", 'wires = "my.wires"', "`--wire 02:00:00:00:00:01=eth1`"),
    changed("fault C3", "quota = 8", "quota = 8\nvlan = 10", "as `--wire 02:00:00:00:00:01=eth0.7` of tools/live"),
    changed("fault C3", "quota = 8", "quota = 8\nweight = 4", "`--share 02:00:00:00:00:01=4`"),
    added("fault C3", "idle = 300", "as `--idle 300`"),
    added("fault C3", "txpower = 20", "`iw phy phy0 set txpower`"),
    changed("fault C3", "quota = 8", 'quota = 8\nkey = "secret"', "these networks don't encrypt: leave it out"),
    changed("fault C3", "quota = 8", "quota = 8\nenabled = true", "each network that stands here is there"),
    changed("fault C3", "quota = 8", "quota = 8\ndhcp = true", "docs/NETWORKS.md"),
    changed("fault C3", "quota = 8", 'quota = 8\ndescription = "x"', "as a remark: behind `#`"),
    changed("fault C3", "quota = 8", 'quota = 8\nmacfilter = "allow"', "who may join isn't chosen here"),
    changed("fault C3", "quota = 8", 'quota = 8\nrate_limit = "10M"', "no bound of its speed"),
    changed("fault C3", "relay = true", "isolate = true", "my.toml:15:1", "write `relay = false`"),
    changed("fault C3", "relay = true", "client_isolation = false", "write `relay = true`"),
    changed("fault C1", "relay = true", "isolate = yes", "write `relay = false`"),
    changed("fault C3", "channel = 6", "freq = 2437", "write `channel = 6`"),
    changed("fault C3", "interval = 100", "beaconInterval = 100", "write `interval = 100`"),
    changed("fault C1", "max_stations = "
                        "8", "max stations = 8", "a blank stands in the key", "write `max_stations = 8`"),
    changed("fault C1", '"lab"', "attic", 'write `ssid = '
                                          '"attic"`', text=CONFIG.replace('ssid = "lab"', 'ESSID = "lab"', 1)),
    changed("fault C3", "quota = 8", "quota = 8\nchannel = 11", "networks of a radio have one `channel`, which line 2"),
    changed("fault C3", 'ssid = "lab"', 'network.ssid = "lab"', 'write `ssid = "lab"`: no dots'),
    changed("fault C3", "[[network]]", "[[wifi]]", "a network begins with a line `[[network]]`; so in line 18",
            "write `[[network]]` for `[[wifi]]`", count=2),
    changed("fault C2", "version = 2", "[general]\nversion = 2", "my.toml:1:1", "`version` stands below `[general]`"),
]
VALUES = [
    valued("fault C1", "channel", "6", "auto", "no channel is chosen by itself"),
    valued("fault C1", "channel", "6", "2437MHz", "write `channel = 6`"),
    valued("fault C4", "channel", "6", "2.462", "write `channel = 11`"),
    valued("fault C4", "channel", "6", '"ch11"', "write `channel = 11`"),
    valued("fault C4", "channel", "6", '"11/HT20"', "write `channel = 11`"),
    valued("fault C4", "channel", "6", "[11]", "write `channel = 11`"),
    valued("fault C1", "channel", "6", "1,6,11", "`1,6,11` has several"),
    valued("fault C1", "channel", "6", "=> 11", "write `channel = 11`"),
    valued("fault C1", "channel", "6", "\u0661\u0661", "look like digits", "write `channel = 11`"),
    changed("fault C1", "channel = 6", "channel -> 11", "`->` stands where TOML has `=`", "write `channel = 11`"),
    valued("fault C1", "interval", "100", "1s", "here `s` stands", "write `interval = 977`, in time units"),
    valued("fault C5", "interval", "100", "204.8", "write `interval = 200`, in time units"),
    valued("fault C5", "interval", "100", '"100ms"', "write `interval = 100`"),
    valued("fault C1", "queue", "64", "unlimited", "always has a bound", "write `queue = 4096`"),
    valued("fault C6", "queue", "64", '"64KB"', "write `queue = 64`: `queue` is a number of frames, and no size"),
    valued("fault C1", "max_events", "100", "10^3", "write `max_events = 1000`"),
    valued("fault C1", "max_events", "100", "5k", "write `max_events = 5000`"),
    valued("fault C11 network 0", "max_events", "100", "1e3", "write `max_events = 1000`"),
    valued("fault C11 network 0", "max_stations", "8", "-1", "there is always a bound: `max_stations = 2007`"),
    valued("fault C1", "dtim", "1", "1 every beacon", "a remark begins with `#`", "write `dtim = 1 # every beacon`"),
    valued("fault C1", "relay", "true", "allow", "no truth value", "write `relay = true`"),
    valued("fault C1", "relay", "true", "none", "stands for no value"),
    valued("fault C13 network 0", "relay", "true", '"enabled"', "write `relay = true`"),
    valued("fault C1", "bssid", '"02:00:00:00:00:01"', "02-00-00-00-00-01", 'write `bssid = "02:00:00:00:00:01"`'),
    valued("fault C1", "bssid", '"02:00:00:00:00:01"', '02:00:00:00:00:01"', 'write `bssid = "02:00:00:00:00:01"`'),
    valued("fault C1", "bssid", '"02:00:00:00:00:01"', '""02:00:00:00:00:01""', "quotes stand twice",
           'write `bssid = "02:00:00:00:00:01"`'),
    valued("fault C8 network 0", "bssid", '"02:00:00:00:00:01"', '"auto"', "`auto` is no address, and none is chosen"),
    valued("fault C8 network 0", "bssid", '"02:00:00:00:00:01"', '"wlan0"', "the name of an interface or a radio"),
    valued("fault C8 network 0", "bssid", '"02:00:00:00:00:01"', '"$BSSID"', "that nothing has put here"),
    valued("fault C8 network 0", "bssid", '"02:00:00:00:00:01"', '"192.168.1.1"', "an address of IP"),
    valued("fault C8 network "
           "0", "bssid", '"02:00:00:00:00:01"', "0x020000000001", 'write `bssid = "02:00:00:00:00:01"`'),
    valued("fault C8 network 0", "bssid", '"02:00:00:00:00:01"', "[2, 0, 0, 0, 0, 1]", "02:00:00:00:00:01"),
    valued("fault C8 network 0", "bssid", '"02:00:00:00:00:01"', '"02:00:00:00:00:01\\n"', "a line end stands beside"),
    valued("fault C1", "ssid", '"lab"', 'f"lab"', "`f` stands before the text", 'write `ssid = "lab"`'),
    valued("fault C1", "ssid", '"lab"', "#lab", "`#` begins a remark", 'write `ssid = "#lab"`'),
    valued("fault C1", "ssid", '"lab"', '"lab";', "a line ends without `;`", 'write `ssid = "lab"`'),
    valued("fault C1", "ssid", '"lab"', '"lab\u201d', "a quote of print", 'write `ssid = "lab"`'),
    valued("fault C1", "rates", '"82840b16"', "1 2 5.5 11", 'write `rates = "82840b16"`'),
    valued("fault C10 network 0", "rates", '"82840b16"', '"1.0* 2.0* 5.5 11.0"', 'write `rates = "82840b16"`'),
    valued("fault C10 network 0", "rates", '"82840b16"', '"%1 2 %5.5 11"', 'write `rates = "82048b16"`'),
    valued("fault C10 network 0", "rates", '"82840b16"', '"1 2 5,5 11"', 'write `rates = "82840b16"`'),
    valued("fault C10 network 0", "rates", '"82840b16"', '"2 4 11 22"', "as decimal numbers",
           'write `rates = "82840b16"`'),
    valued("fault C10 network 0", "rates", '"82840b16"', '"802.11g"', "names no rate", "82840b160c1218243048606c"),
    valued("fault C10 network 0", "rates", '"82840b16"', '"1-54"', "names no rate"),
    valued("fault C10 network 0", "rates", '"82840b16"', '"010482848b96"', "the ID and the length of an element",
           'write `rates = "82848b96"`'),
    valued("fault C10 network 0", "rates", '"82840b16"', "54", 'write `rates = "ec"`'),
    valued("fault C10 network 0", "rates", '"82840b16"', "[82, 84, 96]", 'write `rates = "828496"`'),
    valued("fault C10 network 0", "rates", '"82840b16"', '"300 Mb/s"', "the greatest is 54 Mb/s"),
]
# Characters that aren't seen, or look like a space, within a value and within a header.
UNSEEN = [
    *(valued("fault C8 network 0", "bssid", f'"{LAB}"', f'"{LAB}{letter}"', "my.toml:7:27", name,
             f'write `bssid = "{LAB}"`')
      for letter, name in (("\u200b", "a zero width space (U+200B) stands here, which isn't seen"),
                           ("\u00a0", "a no-break space (U+00A0)"), ("\u00ad", "a soft hyphen (U+00AD)"),
                           ("\ufeff", "a zero width no-break space (U+FEFF)"), ("\u2060", "a word joiner (U+2060)"),
                           ("\u3164", "a hangul filler (U+3164) stands here, which isn't seen"),
                           ("\ufe0f", "a variation selector-16 (U+FE0F) stands here, which isn't seen"))),
    valued("fault C8 network 0", "bssid", f'"{LAB}"', f'"\u200b{LAB}"', "my.toml:7:10", "a zero width space"),
    valued("fault C8 network 0", "bssid", f'"{LAB}"', f'"{LAB[:5]}\u200b{LAB[5:]}"', "my.toml:7:15",
           "a zero width space", f'write `bssid = "{LAB}"`'),
    valued("fault C10 network 0", "rates", '"82840b16"', '"8284\u200b0b16"', "my.toml:9:14", "a zero width space",
           'write `rates = "82840b16"`'),
    changed("fault C1", "[[network]]", "[[network\u200b]]", "my.toml:6:10", "a zero width space", "leave it out"),
    changed("fault C1", "channel = 6", "channel = 6\u3164", "my.toml:2:12", "a hangul filler", "leave it out"),
    traced("fault L1 line 1", f"T\u2800\n{PROBE}\n", "my.trace:1:2", "a braille pattern blank (U+2800)"),
]
TEXTS_OF_CONFIGS = [
    Mistake("fault C1", CONFIG.replace('"', "\u201d"), None, ("my.toml:7:9", "; so in lines 8, 9, 19, 20 and 1 more")),
    *(changed("fault C1", "channel = 6", f"{mark}the channel\nchannel = 6", "my.toml:2:1", "a remark begins with `#`",
              "write `# the channel`") for mark in ("% ", "' ", "* ", "rem ", "<!-- ", "{# ", "\\ ")),
    *(valued("fault C1", "channel", "6", f"6 {mark} the channel", "write `channel = 6 # the channel`")
      for mark in ("%", "!", "REM", "/*", "*", "\\", "<!--")),
    changed("fault C1", "channel = 6", "channel =3D 11", "the source of a mail", "write `channel = 11`"),
    valued("fault C1", "interval", "100", "204,8", "write `interval = 200`"),
    Mistake("fault C1", f"{CONFIG}}}\n", None, ("`}` alone stands here",)),
    changed("fault C1", "channel = 6", "channel,11", "`,` stands where TOML has `=`", "write `channel = 11`"),
    changed("fault C3", "channel = 6", "--channel=11", "my.toml:2:1", "write `channel = 11`"),
    changed("fault C1", "channel = 6", "--channel 11", "as before a program's option", "write `channel = 11`"),
    changed("fault C1", "channel = 6", "set channel 11", "`set` stands before the key", "write `channel = 11`"),
    Mistake("fault C1", "{\\rtf1\\ansi channel = 6}", None, ("(RTF)", "save it as plain text")),
    changed("fault C1", "channel = 6", "/*\nchannel = 6", "none goes over several lines"),
    changed("fault C1", "channel = 6", "the channel of the radio\nchannel = 6", "words alone stand here"),
    changed("fault C1", "dtim = 1", "...\ndtim = 1", "`...` stands for lines that were left out"),
    changed("fault C1", QUEUE, f'{QUEUE}\ninclude "x.toml"', "no other file is read from here"),
    *(Mistake("fault C1", "".join(f"{mark}{line}\n" for line in CONFIG.splitlines()), None,
              ("my.toml:1:", "stands before this line", "write `version = 2`")) for mark in ("> ", "7:", "  7 ", "- ")),
    *(changed("fault C1", "[[network]]", header, "write `[[network]]`") for header in (
        "[[[network]]]", "(network)", "<network>", "network:", "[[network]] lab", "[[network]];")),
    Mistake("fault C1", CONFIG[:CONFIG.index('"lab"') + 3], None, ("my.toml:8:8", "the text ends within this line")),
    Mistake("fault C1", CONFIG[:CONFIG.index("rates") + 3], None, ("my.toml:9:1", "`rates` may have stood here")),
    Mistake("fault C1", f"cat > my.toml <<EOF\n{CONFIG}EOF\n", None, ("my.toml:1:1", "a here-document")),
    Mistake("fault C1", f"{CONFIG}\x1a", None, ("my.toml:29:1", "Ctrl-Z")),
    changed("fault C1", "channel = "
                        "6", "\x1b[32mchannel\x1b[0m = 6", "the colours of a terminal", "write `channel = 6`"),
    Mistake("fault C1", CONFIG.replace("\n", ";\n"), None, ("my.toml:1:12", "ends without `;`")),
    Mistake("fault C1", CONFIG.replace('"', "&quot;"), None, ("my.toml:7:9", "a page of HTML")),
    Mistake("fault C1", CONFIG.encode("utf-32"), None, ("in UTF-32", "iconv -f UTF-32")),
    Mistake("fault C1", CONFIG.replace("\n", "\\n"), None, ("`\\n` stands here as two characters",)),
    Mistake("fault C1", "---\nversion: 2\nchannel: 6\n", None, ("this is YAML",)),
]
WORDS_OF_TRACES = [
    *(traced("fault L1 line 1", f"{word} {PROBE[2:]}\n", "`A` is: ", "write `A 4000")
      for word in ("'A'", "[A]", "A.", "\u201cA")),
    traced("fault L1 line 1", f"{PROBE.replace(' ', ',')}\nT\nA,4000\n", "commas stand between the fields",
           "write `A 40000000 ffff", "so in 1 more line"),
    traced("fault L1 line 1", f"a{PROBE[2:]}\n", "a space stands after `A`", "write `A 4000"),
    traced("fault L1 line 1", PROBE.replace(" ", "/") + "\n", "`/` stands where a space does", "write `A 4000"),
    traced("fault L1 line 1", PROBE.replace(" ", "&nbsp;") + "\n", "the source of a page (HTML)", "write `A 4000"),
    traced("fault L1 line 2", f"T\n\t{PROBE[2:]}\n", "its word, which is missing here", "write `A 4000"),
    traced("fault L1 line 2", f"{PROBE}\n{PROBE[2:]}\n", "its word, which is missing here", "write `A 4000"),
    traced("fault L1 line 2", "T\n # a remark\n", "a remark begins at the beginning", "write `# a remark`"),
    traced("fault L1 line 2", "T\nT # a tick\n", "write `T` alone; a remark has a line of its own"),
    traced("fault L1 line 2", "T\nsleep 1\n", "`sleep` is no word", "write `T`"),
    traced("fault L1 line 1", "include x.trace\n", "no other file is read from here"),
    traced("fault L1 line "
           "1", f"     1\t# a probe\n     2\t{PROBE}\n", "`1` stands before the word", "so in 1 more line:",
           "`cat -n`"),
    traced("fault L1 line 1", f"7:{PROBE}\n9:T\n", "`7:` stands before the word", "`grep -n`"),
    traced("fault L1 line 1", "TA a400 01c0 020000000001 02aa00000001\n", "two lines are joined here",
           "write `T`, and `A a400"),
    traced("fault L1 line 2", "A\n4000 0000\nffffffffffff\n", "a frame is one line", "for the lines 1 to 3"),
    traced("fault L1 line 2", f"{PROBE}\nEOF\n", "a here-document"),
    traced("fault L1 line 1", "- T\n", "`-` stands before the word", "write `T`"),
    traced("fault L1 line 1", b"A" + bytes(6) + b"\x02\0ab", "records, as `live --octets` reads them"),
    traced("fault L3 line 1", f"W {PROBE[2:]}\n", "a frame on the air (802.11) stands behind `W`", "write `A 4000"),
    traced("fault L3 line 1", f"W {LAB}{STATION}{HOST}0800\n", "a space is missing behind the address"),
    traced("fault L3 line 1", f"W <{LAB}> {STATION} {HOST} 0800\n", "`<>` stands beside", f"write `W {LAB}`"),
    traced("fault L3 line 1", f"W 0 {STATION} {HOST} 0800\n", "`0` is none", "its networks have"),
    traced("fault L3 line 1", f"W labb {STATION} {HOST} 0800\n", "`labb` is nearly the SSID of", f"write `W {LAB}`"),
    traced("fault L3 line "
           "1", f"W 02\u201300\u201300\u201300\u201300\u201301 {STATION} {HOST} 0800\n", f"write `W {LAB}`"),
    traced("fault L1 line 1", f"W={LAB} {STATION} {HOST} 0800\n", "a space alone stands after `W`"),
]
DIGITS_OF_TRACES = [
    traced("fault L2 line "
           "1", PROBE.replace("4000", "4O00", 1) + "\n", "my.trace:1:4", "write 0: `40000000` for `4O000000`"),
    traced("fault L2 line 1", PROBE.replace("4000", "\uff14000", 1) + "\n", "my.trace:1:3", "write 4"),
    traced("fault L2 line 1", PROBE.replace("40000000", "4000\t0000", 1) + "\n", "a TAB among the digits"),
    traced("fault L2 line 1", f"A 12:00:01 {PROBE[2:]}\n", "`12:00:01` stands before the digits", "write `A 4000"),
    traced("fault L2 line 1", f"A len=40 {PROBE[2:]}\n", "`len=40` stands before the digits", "write `A 4000"),
    traced("fault L2 line 1", f"A lab {PROBE[2:]}\n", "`lab` stands before the digits", "write `A 4000"),
    traced("fault L2 line 1", f"A b000 0000 lab {STATION} lab 0000 0000 0100 0000\n", "my.trace:1:13",
           "`lab` stands where an address does", "write `020000000001`"),
    traced("fault L2 line 1", PROBE.replace("ffffffffffff", "broadcast") + "\n", "a word for octets",
           "write `ffffffffffff`"),
    traced("fault L2 line 1", f"W {LAB} {STATION} {HOST} ARP 01\n", "a word for octets", "write `0806`"),
    traced("fault L2 line 1", f"W {LAB} {STATION} {HOST} 0800 hello\n", "as letters", "it is `68656c6c6f`"),
    traced("fault L2 line 1", f"{PROBE} (a probe)\n", "`(a probe)` stands behind the digits", "begins with `#`"),
    traced("fault L2 line 1", f"{PROBE[:40]}=\n{PROBE[40:]}\n", "breaks lines by `=`", f"write `{PROBE[:40]}"),
    traced("fault L2 line 1", f"{PROBE};\n", "a line ends with its digits", "leave it out"),
    traced("fault L2 line 1", f"{PROBE}<br>\n", "the source of a page (HTML)"),
    traced("fault L2 line 1", PROBE.replace("ffffffffffff", "ff*6", 1) + "\n", "an octet that is repeated",
           "write `ffffffffffff`"),
    traced("fault L2 line 1", f"A fc=4000 dur=0000 a1=ffffffffffff a2={STATION} a3=ffffffffffff seq=0000\n",
           "`fc=` names a field", "write `A 40000000ffffffffffff02aa"),
    traced("fault L2 line "
           "1", f"W {LAB} 02:aa:00:00:00:01 02:bb:00:00:00:01 0800\n", f"write `W {LAB} {STATION} {HOST}"),
    traced("fault L2 line 1", f"{PROBE}A b000 0000 020000000001 {STATION} 020000000001 0000 0000 0100 0000\n",
           f"my.trace:1:{len(PROBE) + 1}", "a second line begins here", "write `A b000"),
    traced("fault L2 line 1", f"{PROBE[:38]}\n{PROBE[38:]}\n", "the frame goes on in the next line"),
    traced("fault L2 line 1", PROBE.replace("02aa", "\x1b[01;31m\x1b[K02aa", 1) + "\n", "the colours of a terminal",
           "--color=never"),
]
# Networks as tables of another form.
OTHER_TABLES = [
    Mistake("fault C1", CONFIG.replace("[[network]]", "network = [{", 1), None,
            ("my.toml:6:12", "the keys of a table within braces have commas between them, and none stands before line "
             "8", "write `[[network]]` in place of `network = [{`")),
    changed("fault C1", "[[network]]", "network {", "`network {` begins no network", "write `[[network]]`"),
    changed("fault C1", "[[network]]", "[[network.1]]", "my.toml:6:1", "`[[network.1]]` makes one table of `network`",
            "write `[[network]]`"),
    changed("fault C1", "[[network]]", "[network.lab]", "my.toml:6:1", "`[network.lab]` makes one table of `network`",
            "write `[[network]]`"),
]
# Configurations that end before their last lines do; the last network of CONFIG ends so: max_known = 16, quota = 8,
# max_events = 100, relay = false, aging = false.
CUT = [
    Mistake("fault C11 network 1", CONFIG[:CONFIG.rindex("max_events")].rstrip(), None,
            ("my.toml:25:1", "the text ends here, without a line end, and `max_events`, `relay` and `aging` are "
             "missing", "written or copied to its end", "`max_events = 100`, `relay = true` and `aging = false`")),
    Mistake("fault C11 network 1", CONFIG.replace("quota = 8", "quota = 256").rpartition("56\nmax_events")[0], None,
            ("my.toml:25:1", "look at `quota = 2` too: the network 0 has 256")),
    Mistake("fault C11 network 1", CONFIG[:CONFIG.rindex("quota")], None,
            ("my.toml:24:1", "the text ends here, and `quota`, `max_events`, `relay` and `aging` are missing")),
    Mistake("fault C13 network 1", CONFIG[:CONFIG.rindex("aging")].rstrip(), None,
            ("my.toml:27:1", "the text ends here, without a line end, and `aging` is missing",
             "write `aging = false` below it")),
    Mistake("fault C13 network 1", CONFIG[:CONFIG.rindex("aging")], None,
            ("the key `aging` is missing in the network", "write `aging = false`")),
    changed("fault C11 network 1", f"max_events = 100\n{OF_GUESTS}", OF_GUESTS,
            "the key `max_events` is missing", "write `max_events = 1000000`",
            text=CONFIG.replace("max_events = 100", "max_events = 1000000", 1)),
    Mistake("fault C7", CONFIG[:CONFIG.index("\n[[network]]")].rstrip(), None,
            ("my.toml:4:1", "there is no network: the text ends here, without a line end")),
]
# A frame with a wrong character in its header, before digits that are long enough for a frame of their own.
ASSOCIATION = f"A 0000 0000 020000000001 {STATION} 020000000001 0000 0100 0a00 00036c6162 010402040b16"
WRONG_DIGITS = [
    *(traced("fault L2 line 2", f"T\n{ASSOCIATION.replace(word, wrong, 1)}\n", f"my.trace:2:{column}",
             "is no hexadecimal digit", *says)
      for word, wrong, column, says in (
          ("020000000001", "02000000000l", 24, ["write 1: `020000000001` for `02000000000l`"]),
          ("020000000001", "O20000000001", 13, ["write 0: `020000000001` for `O20000000001`"]),
          (STATION, "02aa0000000l", 37, [f"write 1: `{STATION}`"]),
          ("020000000001", "020000000g01", 22, ["`g` is no hexadecimal digit"]),
          (STATION, "02aa0000OOO1", 34, [f"write 0: `{STATION}`"]),
          ("A 0000 0000", "A 0000 00z0", 10, ["`z` is no hexadecimal digit"]),
          ("A 0000", "A 00q0", 5, ["`q` is no hexadecimal digit"]))),
    traced("fault L2 line 1", f"A b000 0000 020000000001 {STATION} 020000000001 0000 OOOO 0100 0000\n", "my.trace:1:57",
           "`O` is no hexadecimal digit", "write 0: `0000` for `OOOO`"),
    traced("fault L2 line 1", f"A b000 0000 020000000001 {STATION} 020000000001 0000 0000 Ol00 0000\n", "my.trace:1:62",
           "`O` is no hexadecimal digit", "write 0: `0100` for `Ol00`"),
]
IN_REMARKS = [
    changed("fault C4", "channel = 6", "#channel = 6", "my.toml:2:1", "`channel` stands behind `#` here",
            "write `channel = 6`, without `#`"),
    changed("fault C4", "channel = 6", "#define CHANNEL 11", "write `channel = 11`, without `#`"),
    changed("fault C4", "channel = 6", "# channel 6 is the best one", "the key `channel` is missing"),
    changed("fault C4", "version = 2\nchannel = 6", "version = 2 # channel = 6", "my.toml:1:13",
            "write `channel = 6` in a line of its own"),
    changed("fault C9 network 0", 'ssid = "lab"', '#ssid = "lab"', "my.toml:8:1", 'write `ssid = "lab"`, without `#`'),
    changed("fault C3", "[[network]]", "# [[network]]", "my.toml:6:1", "it begins no network", "write `[[network]]`"),
]
JOINED = [
    changed("fault C1", "version = 2\nchannel", "version = 2 ,\nchannel", "nothing stands after a value",
            "write `version = 2`"),
    changed("fault C1", "channel = 6", "channel: int = 6", "a key has no type", "write `channel = 6`"),
    changed("fault C1", "channel = 6", "int channel = 6;", "`int` stands before the key", "write `channel = 6`"),
    changed("fault C1", "interval = 100", "option beacon_int 100", "write `interval = 100`"),
    changed("fault C1", 'rates = "82840b16"', "list supported_rates '1000 2000'", 'write `rates = "8284"`'),
    changed("fault C1", "relay = true", "relay = true[[network]]", "two lines are joined here: `relay = true`",
            "and `[[network]]` in the next line"),
    changed("fault C1", "relay = true", "relay = trueA 4000", "two lines are joined here", "has a file of its own"),
    changed("fault C1", "dtim = 1", "dtim = two", "write `dtim = 2`"),
    changed("fault C1", "dtim = 1", "dtim = 3 3", "write `dtim = 3`"),
    changed("fault C1", "channel = 6", "channel = 2.4 GHz", "`2.4 GHz` is a band", "one of 1, 6 or 11"),
    changed("fault C13 network 0", "aging = false", "aging = 300", "write `aging = true`", "listen interval"),
    changed("fault C4", "channel = 6", "channel.primary = 11", "my.toml:2:1", "`channel` alone is one",
            "write `channel = 11`"),
    changed("fault C9 network 0", 'ssid = "lab"', 'ssid.name = "lab"', "`ssid.name` is no key", 'write `ssid = "lab"`'),
    traced("fault L2 line 1", f"A 0x{PROBE[2:]}\n", "digits stand without `0x`", "write `A 4000"),
    traced("fault L1 line 1", f"\u2192 {PROBE}\n", "`\u2192` stands before the word", "write `A 4000"),
    traced("fault L1 line 1", f"[12:00:01.123] {PROBE}\n", "`[12:00:01.123]` stands before the word", "write `A 4000"),
    traced("fault L1 line 1", "T=5\n", "write 5 lines `T`"),
    changed("fault C1", '\n[[network]]\nbssid = "02:00:00:00:00:02"', '\nbssid = "02:00:00:00:00:02"', "my.toml:18:1",
            "its line `[[network]]` is missing", "write `[[network]]` in a line before this one"),
    traced("fault L2 line 2", f"{PROBE}\n{PROBE.replace(STATION, STATION[1:])}\n", "this group has 11",
           f"write `{STATION}` where it is that of line 1"),
    traced("fault L2 line 1", PROBE.replace(" ", "\u00a0").replace("\u00a0", " ", 1) + "\n",
           "more places of this line"),
    joined("fault C1", f"{CONFIG}\u2014-\n{PROBE}\n", "standard input:29:1", "three hyphens"),
    traced("fault L1 line 1", "12:01:07.113420 Probe Request (lab) [1.0 2.0 5.5 11.0 Mbit]\n"
           "\t0x0000:  4000 0000 ffff ffff ffff 02aa 0000 0001\n\t0x0010:  ffff ffff ffff 0000 0003 6c61 6201 0402\n",
           "what tcpdump prints of a frame", "write `A 40000000ffff", "for the lines 1 to 3", "tcpdump -w"),
]
# A value that is another's, a name that is hidden or in digits, and a trace of another configuration.
OF_OTHERS = [
    changed("fault C10 network 0", '"82840b16"', '"828402040b16"', "`02` is the rate 1 Mb/s a second time",
            'write `rates = "82840b16"`'),
    changed("fault C9 network 0", 'ssid = "lab"', "ssid = 6775657374", 'write `ssid = "guest"`', "in hexadecimal"),
    changed("fault C9 network 0", 'ssid = "lab"', "ssid = 12345678", 'write `ssid = "12345678"`'),
    traced("fault L4 line 4", f"{PROBE}\nA b000 0000 020000000777 {STATION} 020000000777 0000 000001000000\n"
           f"A 0000 0000 020000000777 {STATION} 020000000777 0000 01000a0000036c6162010402040b16\n"
           f"W 02:00:00:00:07:77 {STATION} {HOST} 0800 45\n", "to which 2 lines on the air are",
           "don't belong together"),
    traced("fault L4 line 2", f"A b000 0000 020000000001 {STATION} 020000000001 0000 000001000000\n"
           f"W 02:00:00:00:00:10 {STATION} {HOST} 0800 45\n", "write 02:00:00:00:00:01, or a network with"),
]
TEXTS = [*ELSEWHERE, *VALUES, *UNSEEN, *TEXTS_OF_CONFIGS, *WORDS_OF_TRACES, *DIGITS_OF_TRACES, *OTHER_TABLES, *CUT,
         *WRONG_DIGITS, *IN_REMARKS, *JOINED, *OF_OTHERS]
