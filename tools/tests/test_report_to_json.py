"""Tests of tools/report-to-json: nothing of a report is lost in its JSON, and what is no report is refused."""
import json
import os

from common import CASES, TOOLS, ToolTest, needs_program, run_program, run_to_end, tool, with_report
from texts import read_text


def text_of(networks):
    """The report that the JSON was made of."""
    lines = []
    for network in networks:
        lines.append(f"network {network['bssid']} ssid {network['ssid_octets']}")
        lines.append(" ".join(f"{count} {network[count]}" for count in ("events", "clock", "unread", "lost", "kept")))
        for row in network["stations"]:
            line = f"station {row['address']} {row['state']}"
            if row["state"] == "associated":
                mode = "doze" if row["dozes"] else "active"
                line += f" aid {row['aid']} listen {row['listen']} {mode} kept {row['kept']}"
            lines.append(line)
        lines += [f"air {frame}" for frame in network["air"]] + [f"wire {frame}" for frame in network["wire"]]
        lines.append("end")
    return "".join(f"{line}\n" for line in lines)


class Json(ToolTest):
    """The JSON of reports."""

    def networks(self, *words, program_input=None):
        """The networks of the JSON that the tool writes."""
        status, stdout, stderr = tool("report-to-json", *words, program_input=program_input)
        self.assertEqual((status, stderr), (0, ""), words)
        return json.loads(stdout)["networks"]

    def test_reports_come_back(self):
        """The report of each case is written back from its JSON, octet for octet."""
        rows = 0
        for folder in with_report():
            report = os.path.join(folder, "stdout")
            networks = self.networks(report)
            self.assertEqual(text_of(networks), read_text(report), folder)
            rows += sum(len(network["stations"]) for network in networks)
        self.assertGreater(rows, 50)

    def test_names(self):
        """The name of a network stands as text where it is UTF-8, and by its octets always."""
        text = "network 02:00:00:00:00:01 ssid {}\nevents 0 clock 0 unread 0 lost 0 kept 0\nend\n"
        for octets, name in (("6c6162", "lab"), ("436166c3a9", "Caf\u00e9"), ("ff", None), ("22", '"'), ("0a", "\n")):
            network, = self.networks("-", program_input=text.format(octets))
            self.assertEqual((network["ssid"], network["ssid_octets"]), (name, octets))

    def test_frames_are_left_out(self):
        """Without frames all else stays."""
        report = os.path.join(CASES["three_networks_over_some_intervals"], "stdout")
        whole = self.networks(report)
        self.assertTrue(all(network["air"] for network in whole))
        for network in whole:
            del network["air"], network["wire"]
        self.assertEqual(self.networks(report, "--without-frames"), whole)

    def test_tables_of_live(self):
        """Of what `live` wrote the tables are read, each time that it wrote them, and all else is passed over."""
        live = read_text(os.path.join(CASES["live_answers_each_line"], "stdout"))
        tables = "".join(f"{line}\n" for line in live.splitlines() if line.split()[0] in
                         ("network", "events", "station", "end"))
        self.assertLess(len(tables), len(live) / 2)
        networks = self.networks("-", program_input=live)
        self.assertEqual(text_of(networks), tables)
        self.assertEqual([network["events"] for network in networks], [1, 3, 2, 6])
        for cut, says in ((live[:live.index("network ")], "wrote no tables here"), (live[:-5], "can't be read")):
            status, stdout, stderr = tool("report-to-json", "-", program_input=cut)
            self.assertEqual((status, stdout), (1, ""))
            self.assertIn(says, stderr)

    @needs_program
    def test_live_itself(self):
        """The program's own lines, as they come: the tables of both networks after `I`, and again at the end."""
        config = os.path.join(CASES["live_answers_each_line"], "radio.toml")
        live = run_program("live", config, program_input="T\nA 40\nI\n")
        networks = self.networks("-", program_input=live)
        self.assertEqual([network["clock"] for network in networks], [1, 1, 1, 1])

    def test_input_that_is_no_text(self):
        """Octets that are no text, and no standard input at all, are refused."""
        report = os.path.join(TOOLS, "report-to-json")
        for words in ('"$0" - </dev/zero', '"$0" - <&-', 'printf "\\377\\n" | "$0" -'):
            done = run_to_end(["bash", "-c", words.replace("</dev/zero", "< <(head -c 99 /dev/zero)"), report])
            self.assertEqual((done.returncode, done.stdout, done.stderr.count("\n")), (1, "", 1), words)

    def test_refusals(self):
        """What is no report, or isn't there, is refused."""
        self.refused("report-to-json", self.path("none"), says="No such file")
        three = CASES["three_networks_over_some_intervals"]
        self.refused("report-to-json", os.path.join(three, "input"), says="can't be read")
        report = read_text(os.path.join(three, "stdout"))
        for cut in ("", report[:-1], report[:-4], report[:100]):
            self.write("cut", cut)
            self.refused("report-to-json", self.path("cut"), says="report")
