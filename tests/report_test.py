#!/usr/bin/env python3
"""Tries the tools for a designer's tables: lint, report, what_if, and what import_icd, sweep and plot have for them.
Needs Python 3.11."""

import csv
import json
import re
import subprocess
import sys
import unittest
import unittest.mock
from fractions import Fraction
from html.parser import HTMLParser

from tools_test import LINKS, PORTS, PROGRAM, TOOLS, TOP, WithFolder, has, tool

import lint  # noqa: E402  (from tools/, by the path that tools_test sets)
import loads  # noqa: E402
import networks  # noqa: E402
import plot  # noqa: E402
import report  # noqa: E402
import report_page  # noqa: E402
import what_if  # noqa: E402

TOOLS |= {"lint.py": lint, "report.py": report, "what_if.py": what_if}
STAIR = TOP / "examples/tutorial/stair.toml"
SERVER = '[[server]]\nname = "s1"\nrate = 100\n'
FLOW = '\n[[flow]]\nname = "f1"\npacket = 1000\narrival = { kind = "bucket", burst = 1000, rate = 1 }\npath = ["s1"]\n'
CLASSES = '[[server]]\nname = "p{}"\nrate = 100\ndiscipline = "priority"\nqueues = 2\n'

# What is lawful and hardly meant: the file, its line, and words of what is told.
ODD = [
    (
        SERVER + FLOW.replace("burst = 1000", "burst = 999"),
        8,
        "flow f1: its curve lets in 999 bits at once, less than its packet of 1000",
    ),
    (SERVER + FLOW.replace("burst = 1000", "burst = 125"), 8, "its burst of 125 is an eighth of its packet: bytes"),
    (
        SERVER + FLOW.replace("1000", "1518"),
        7,
        "flow f1: a packet of 1518 bits: bytes? A frame of 1518 bytes has 12144 bits",
    ),
    (SERVER + FLOW.replace("rate = 1 ", "rate = 101 "), 2, "server s1: its load is above 1: 1.010 of"),
    (
        SERVER + 'service = { kind = "gate", cycle = 100, slot = 9 }\n' + FLOW,
        4,
        "a slot has 900 bits, and a packet of f1 1000: a real",
    ),
    (
        "version = 2\n" + SERVER + 'service = { kind = "list", piece = [{ x = 0, at = 0, slope = 101 }] }\n' + FLOW,
        5,
        "it promises 101 bits within 1, and in version 2 no server works faster than its rate of 100",
    ),
    ("", 1, "the network: it has no server"),
    (SERVER, 1, "the network: it has no flow"),
    (
        SERVER + FLOW.replace('"bucket", burst = 1000, rate = 1', '"stair", period = "1/101"'),
        8,
        "a period of 1/101 is far below 1",
    ),
    (CLASSES.format(1) + CLASSES.format(2) + FLOW.replace('"s1"', '"p1:0", "p2:1"'), 16, "queue 0 at p1, and 1 at p2"),
    (
        SERVER + 'discipline = "drr"\nquanta = [1000, 9000]\n' + FLOW.replace("rate = 1 ", "rate = 20 "),
        2,
        "the load of queue 0 is above 1: it is 2.000 of its share",
    ),
]


class Lint(WithFolder):
    def test_what_is_odd(self):
        for text, line, told in ODD:
            path = self.file("n.toml", text)
            run = tool("lint.py", path, "--program", PROGRAM)
            self.assertEqual((run.returncode, run.stderr), (1, ""), told)
            found = [words for words in run.stdout.splitlines() if told in words]
            self.assertEqual(len(found), 1, (told, run.stdout))
            self.assertTrue(found[0].startswith(f"{path} line {line}: "), found)

    def test_a_service_that_is_ahead_of_its_rate(self):
        waits = [{"x": 0, "at": 0}, {"x": 10, "at": 0, "slope": 200}, {"x": 11, "at": 200, "slope": 50}]
        repeats = {"rank": 10, "period": 2, "rise": 201}
        for curve, wanted in (
            ({"piece": waits}, None),
            ({"piece": waits[:2]}, (21, 2200)),
            ({"piece": waits[:2], "tail": {"rank": 10, "period": 1, "rise": 200}}, (21, 2200)),
            ({"piece": waits, "tail": repeats | {"rise": 250}}, (52, 5250)),
            ({"piece": waits, "tail": repeats | {"rise": 200}}, None),
            ({"piece": [{"x": 0, "at": 0, "slope": 101}, {"x": 1, "at": 101}]}, (1, 101)),
        ):
            self.assertEqual(lint.ahead_of(curve, 100), wanted, curve)

    def test_the_examples_have_nothing_odd(self):
        for path in sorted(TOP.glob("examples/**/*.toml")):
            self.assertEqual(list(lint.findings(networks.load(path), lint.Places(path.read_text()))), [], path)
        run = tool("lint.py", STAIR, "--program", PROGRAM)
        self.assertEqual((run.returncode, run.stdout), (0, ""))

    def test_the_networks_that_pages_show_have_nothing_odd(self):
        """That of the format, but for a packet of 8 bits beside a curve of 8, and that of the front page."""
        for page, odd in [("docs/FORMATS.md", ["flow f3: a packet of 8 bits: bytes?"]), ("README.md", [])]:
            blocks = re.findall(r"(?:^    .*\n|^\n(?=    ))+", (TOP / page).read_text(), re.M)
            shown = next(block for block in blocks if "    [[flow]]\n" in block)
            path = self.file("n.toml", "".join(f"{line[4:]}\n" for line in shown.splitlines()))
            self.assertEqual(len(networks.analyse(path, PROGRAM).flows), shown.count("[[flow]]"), page)
            found = tool("lint.py", path, "--program", PROGRAM).stdout.splitlines()
            self.assertEqual(len(found), len(odd), (page, found))
            for line, words in zip(found, odd):
                self.assertIn(words, line)

    def test_an_unlawful_file_is_refused(self):
        path = self.file("n.toml", SERVER + FLOW.replace('"s1"', '"s2"'))
        run = tool("lint.py", path, "--program", PROGRAM)
        self.assertEqual((run.returncode, run.stdout), (1, ""))
        self.assertIn("M8 flow[0].path[0]", run.stderr)
        self.assertIn("line 9: flow f1, path[0]", run.stderr)


class Loads(unittest.TestCase):
    def test_decimals_go_the_safe_way(self):
        for value, up, down in [
            (Fraction(1, 3), "0.334", "0.333"),
            (Fraction(130), "130.000", "130.000"),
            (Fraction(1, 10**9), "0.001", "0.000"),
            (Fraction(-1, 3), "-0.333", "-0.334"),
        ]:
            self.assertEqual((loads.rounded_up(value), loads.rounded_down(value)), (up, down))

    def test_values_of_a_list(self):
        curve = {
            "piece": [{"x": 0, "at": 8}, {"x": 2, "at": 9, "after": 10, "slope": 3}],
            "tail": {"rank": 2, "period": 4, "rise": 20},
        }
        values = [loads.value_of_list(curve, Fraction(time)) for time in (0, 1, 2, 3, 5, 6, 7, 10)]
        self.assertEqual(values, [8, 8, 9, 13, 19, 29, 33, 49])
        self.assertEqual(loads.slope_of_list(curve), 5)

    def test_loads_of_queues(self):
        network = networks.load(TOP / "examples/tutorial/priority.toml")
        server = next(server for server in network["server"] if server["name"] == "sw1-sw2")
        self.assertEqual(
            [loads.load_of_queue(server, queue, network["flow"]) for queue in (0, 1)],
            [Fraction(4032, 10**5), Fraction(10184, 10**5)],
        )


class Page(HTMLParser):
    """The tags of a page, those that stand open, and the texts of the cells of its tables."""

    def __init__(self, text):
        super().__init__()
        self.open, self.tags, self.cells = [], [], []
        self.feed(text)

    def handle_starttag(self, tag, attributes):
        self.tags.append((tag, dict(attributes)))
        if tag not in ("meta", "br", "rect", "line"):
            self.open.append(tag)
        if tag == "td":
            self.cells.append("")

    def handle_endtag(self, tag):
        if tag not in ("rect", "line"):
            assert self.open.pop() == tag, tag

    def handle_data(self, text):
        if "td" in self.open:
            self.cells[-1] += text


class Report(WithFolder):
    def made(self, *words, deadlines="flow,deadline\nvideo,482.46\ntracks,399.739\n"):
        return tool("report.py", STAIR, "--deadlines", self.file("d.csv", deadlines), *words, "--program", PROGRAM)

    def test_the_table(self):
        run = self.made("--csv", self.folder / "o.csv")
        self.assertEqual((run.returncode, run.stderr), (1, ""))
        self.assertIn("1 of 2 deadlines kept, 1 not; 2 flows\n", run.stdout)
        lines = [line.split() for line in run.stdout.splitlines()]
        self.assertIn("tracks 399.740 399.739 FAIL -0.001 19987/50".split(), lines)
        self.assertIn("video 482.460 482.460 PASS 0.000 24123/50".split(), lines)
        self.assertIn("sw1-sw2:0 0.102 179.360 2042".split(), lines)
        self.assertIn("sw1-sw2:0 179.360 37 % brings most: video 75 %, tracks 25 %".split(), lines)
        with open(self.folder / "o.csv", newline="") as file:
            rows = list(csv.DictReader(file))
        self.assertEqual([(row["flow"], row["verdict"]) for row in rows], [("tracks", "FAIL"), ("video", "PASS")])

    def test_no_cell_is_a_formula(self):
        network = self.file("n.toml", STAIR.read_text().replace('"tracks"', '"-tracks"'))
        words = ["--deadlines", self.file("d.csv", "flow,deadline\n-tracks,399.739\n"), "--csv", self.folder / "o.csv"]
        tool("report.py", network, *words, "--program", PROGRAM)
        with open(self.folder / "o.csv", newline="") as file:
            rows = list(csv.DictReader(file))
        self.assertEqual([(row["flow"], row["slack_us"]) for row in rows], [("'-tracks", "-0.001"), ("video", "")])

    def test_status_0_where_all_is_kept(self):
        for text, status in [
            ("name,what,deadline\nvideo,x,2413/5\ntracks,,400\n", 0),
            ("name,what,deadline\nvideo,x,2412/5\ntracks,,400\n", 1),
            ("name,what,deadline\ntracks,,400\nvideo,,\n", 0),
            ("name,what,deadline\ntracks,,399\nvideo,,\n", 1),
        ]:
            self.assertEqual(self.made(deadlines=text).returncode, status, text)
        self.assertEqual(tool("report.py", STAIR, "--program", PROGRAM).returncode, 0)

    def test_flows_without_a_deadline_are_counted(self):
        for text, told in [
            ("flow,deadline\n", "0 of 0 deadlines kept; 2 flows, 2 without a deadline\n"),
            ("flow,deadline\nvideo,600\n", "1 of 1 deadlines kept; 2 flows, 1 without a deadline\n"),
            ("flow,deadline\nvideo,600\ntracks,500\n", "2 of 2 deadlines kept; 2 flows\n"),
        ]:
            self.assertIn(told, self.made(deadlines=text).stdout)
        self.assertNotIn("without a deadline", tool("report.py", STAIR, "--program", PROGRAM).stdout)

    def test_a_missing_bound_fails(self):
        path = self.file("n.toml", SERVER + FLOW.replace("rate = 1 ", "rate = 101 "))
        run = tool("report.py", path, "--program", PROGRAM)
        self.assertEqual(run.returncode, 1)
        self.assertIn("0 of 0 deadlines kept; 1 flows, 1 without a bound", run.stdout)
        self.assertIn(f"odd: {path} line 2: server s1: its load is above 1: 1.010", run.stdout)
        self.assertIn("f1 none FAIL none".split(), [line.split() for line in run.stdout.splitlines()])

    def test_a_refusal_is_explained(self):
        ring = (
            SERVER
            + SERVER.replace("s1", "s2")
            + FLOW.replace('["s1"]', '["s1", "s2"]')
            + FLOW.replace("f1", "f2").replace('["s1"]', '["s2", "s1"]')
        )
        run = tool("report.py", self.file("n.toml", ring), "--program", PROGRAM)
        self.assertEqual((run.returncode, run.stdout), (1, ""))
        self.assertIn("report: netcalc: cycle s1 s2 s1\n", run.stderr)
        self.assertIn("s1 to s2: flow f1, line", run.stderr)

    def test_faults_of_deadlines(self):
        for text, told in [
            ("flow,deadline\nvidoe,1\n", "d.csv line 2: no flow vidoe (is it `video`?)"),
            ("flow,deadline\nvideo,0\n", "d.csv line 2: deadline 0 is not above 0"),
            ("flow,deadline\nvideo,1e3\n", "d.csv line 2: deadline"),
            ("flow,deadline\nvideo,1/0\n", "has the denominator 0"),
            ("flow,deadline\nvideo,1\nvideo,2\n", "d.csv line 3: video has another deadline in an earlier line"),
            ("flow,limit\nvideo,1\n", "d.csv line 1: no column deadline"),
            ("", "d.csv line 1: no head line"),
            ("link,deadline\nvideo,1\n", "d.csv line 1: no column flow, and none name\n"),
            ("flow;deadline\nvideo;1\n", "and none name: write commas in place of the semicolons\n"),
        ]:
            run = self.made(deadlines=text)
            self.assertEqual((run.returncode, run.stdout, run.stderr.count("\n")), (1, "", 1))
            self.assertIn(told, run.stderr)

    def test_the_page(self):
        self.made("--html", self.folder / "o.html")
        text = (self.folder / "o.html").read_text()
        page = Page(text)
        self.assertEqual(page.open, [])
        for words in [
            "tracks",
            "399.740",
            "FAIL",
            "-0.001",
            "19987/50",
            "sw1-sw2:0",
            "179.360",
            "2042",
            "video 75 %, tracks 25 %",
        ]:
            self.assertIn(words, page.cells)
        # a bar tells the share of the deadline that is taken, also where it is not seen: 482.46 of 482.46
        self.assertIn("1.00", [found.get("aria-label") for tag, found in page.tags if tag == "svg"][:2])
        # nothing is fetched from elsewhere
        self.assertEqual(
            [tag for tag, found in page.tags if {"src", "href"} & found.keys() or tag in ("link", "img", "iframe")], []
        )
        self.assertNotRegex(re.sub("<title>.*?</title>", "", text), r"https?:|@import|url\(")
        self.assertEqual(len([tag for tag, _ in page.tags if tag == "script"]), 1)

    def test_odd_names_are_escaped(self):
        flow = report.Flow(
            "<b>&", Fraction(1), Fraction(2), [report.Hop("<i>", Fraction(1), Fraction(1), [("<u>", Fraction(1))])]
        )
        text = report_page.page(report.Report(["network <x>"], ["<y>"], [flow], []))
        self.assertEqual(Page(text).open, [])
        for word in ("<b>", "<i>", "<u>", "<x>", "<y>"):
            self.assertNotIn(word, text)

    def test_a_report_in_json(self):
        made = {
            "branches": [
                {"bound": "12.346", "deadline": "12.346", "link": "a", "met": True, "port": "p"},
                {"bound": "12.346", "deadline": "12.345", "link": "b", "met": False, "port": "p"},
                {"bound": "none", "link": "c", "port": "p"},
                # Both rounded up, the bound is as great as the deadline; that it is missed is told.
                {"bound": "1.000", "deadline": "1.000", "link": "d", "met": False, "port": "p"},
                {"bound": "1.000", "deadline": "0.9997", "link": "e", "met": True, "port": "p"},
                {"bound": "1.000", "deadline": "0.000", "link": "f", "met": False, "port": "p"},
            ],
            "ports": [
                {"backlog": "17", "delay": "1.500", "load": "0.250", "name": "p", "queue": 0},
                {"backlog": "none", "delay": "none", "load": "1.200", "name": "q", "queue": 1},
            ],
        }
        run = tool("report.py", self.file("n.json", json.dumps(made)), "--html", self.folder / "o.html")
        self.assertEqual((run.returncode, run.stderr), (1, ""))
        lines = [line.split() for line in run.stdout.splitlines()]
        for line in [
            "a to p 12.346 12.346 PASS 0.000 6173/500",
            "b to p 12.346 12.345 FAIL -0.001 6173/500",
            "c to p none FAIL none",
            "d to p 1.000 1.000 FAIL 0.000 1",
            "e to p 1.000 0.999 PASS 0.000 1",
            "f to p 1.000 0.000 FAIL -1.000 1",
            "p:0 0.250 1.500 3",
            "q:1 1.200 none none",
        ]:
            self.assertIn(line.split(), lines)
        for text in [
            "{",
            "{}",
            '{"branches": [1], "ports": []}',
            '{"branches": [], "ports": [{}]}',
            '{"branches": [{"link": "a", "port": "p", "bound": "x"}], "ports": []}',
            '{"branches": [{"link": "a", "port": "p", "bound": "1", "met": 1}], "ports": []}',
            '{"branches": [{"link": "a", "port": "p", "bound": "1/0"}], "ports": []}',
            '{"branches": [{"link": "\\ud800", "port": "p", "bound": "1"}], "ports": []}',
            5000 * '{"a":',
        ]:
            self.refused("n.json: ", "report.py", self.file("n.json", text))


# Clicks each head of each table twice, and tells in the page's title the columns of numbers that do not rise, then
# fall.
CLICKS = """<script>
const told = [];
for (const button of document.querySelectorAll("th [role=button]"))
  for (const sign of [1, -1]) {
    button.click();
    const head = button.closest("th"), rows = [...head.closest("table").tBodies[0].rows];
    const values = rows.map(row => Number(row.cells[head.cellIndex].dataset.v));
    const falls = (value, place) => place > 0 && sign * (value - values[place - 1]) < 0;
    if (values.some(falls)) told.push(button.innerText);
  }
document.title = "wrong: " + told.join();
</script>"""


@unittest.skipUnless("--browser" in sys.argv, "without --browser")
class Browser(WithFolder):
    """The page in Chromium (Debian's), which takes seconds of a processor."""

    def test_a_click_sorts(self):
        """Each column of numbers, in the table of flows, in that of ports and in those of the flows' parts."""
        path, tables = self.folder / "n.toml", [TOP / "examples/aircraft" / name for name in ("links.csv", "ports.csv")]
        path.write_text(tool("import_icd.py", "--version", 2, "--longest-gap", 8, *tables).stdout)
        made = ["--deadlines", tables[0], "--html", self.folder / "o.html", "--program", PROGRAM]
        self.assertEqual(tool("report.py", path, *made).returncode, 1)
        page = (self.folder / "o.html").read_text().replace("</body>", CLICKS + "</body>")
        words = ["chromium", "--headless", "--no-sandbox", "--dump-dom", self.file("p.html", page).as_uri()]
        run = subprocess.run(words, capture_output=True, text=True, check=True, timeout=120)
        self.assertIn("<title>wrong: </title>", run.stdout)
        self.assertEqual(run.stdout.count("</details>"), 60)
        self.assertEqual(run.stdout.count('aria-sort="descending"'), 2 + 60)


class WhatIf(WithFolder):
    def rows(self, text, net=STAIR, deadlines="flow,deadline\nvideo,470\ntracks,500\n", words=(), program=PROGRAM):
        words = [*words, *(["--deadlines", self.file("d.csv", deadlines)] if deadlines else [])]
        words += ["--write", self.folder / "o.toml", "--program", program]
        return tool("what_if.py", net, self.file("e.csv", text), *words)

    def test_each_row_has_its_line(self):
        run = self.rows(
            "latency,sw1-sw2,8\nrate,s9,1\nlatency,sw2-computer,8\nundo\nadd,log,4032,4032,1,radar sw1-sw2\ndrop,log\n"
        )
        self.assertEqual((run.returncode, run.stderr), (1, ""))
        lines = run.stdout.splitlines()
        self.assertEqual(lines[0], "1  latency,sw1-sw2,8: taken; 2 fell, video most, by 8.000")
        self.assertEqual(lines[1], "2  rate,s9,1: refused unknown-name s9")
        self.assertEqual(lines[2], "3  latency,sw2-computer,8: taken; 2 fell, video most, by 8.000; video now PASS")
        self.assertEqual(lines[3], "4  undo: taken; 2 rose, video most, by 8.000; video now FAIL")
        self.assertRegex(lines[4], r"^5  add,.*: taken; 2 rose, .*; log is new: [0-9.]+$")
        self.assertIn("log is gone", lines[5])
        self.assertEqual(lines[7:], [
            "flow    before us  after us  greater us  deadline us",
            "video     482.460   474.460      -8.000      470.000  FAIL",
            "tracks    399.740   391.740      -8.000      500.000  PASS",
        ])  # fmt: skip

    def test_a_deadline_that_is_missed_by_little_is_not_shown_as_kept(self):
        """399.7395 is below the bound of 399.74, and would be shown like it if it were rounded up."""
        text = "flow,deadline\ntracks,399.7395\n"
        line = "tracks    399.740   399.740       0.000      399.739  FAIL\n"
        self.assertIn(line, self.rows("", deadlines=text).stdout)
        self.assertIn("tracks has 399.740 of 399.739\n", self.greatest(deadlines=text).stdout)

    def test_the_written_file_has_the_same_bounds(self):
        """After edits of each kind that are taken, on files of each kind of server."""
        every = "rate,sw1-sw2,90\nlatency,sw1-sw2,8\nlink,radar,1/3\npacket,tracks,2016\nstair,video,4000,5\n"
        every += "packet,video,8000\nbucket,tracks,5000,5\nundo\n"
        every += (
            "add,log,4032,4032,1,radar sw1-sw2\nroute,log,radar\nundo\ndrop,tracks\nadd,tracks,4032,9999,1/3,radar\n"
        )
        drr = SERVER + 'discipline = "drr"\nquanta = [1000, 9000]\n' + FLOW
        stalled = (TOP / "examples/tutorial/stair.toml").read_text().replace("jitter = 200", "jitter = 1300")
        for name, text, rows in [
            ("n.toml", STAIR.read_text(), every),
            ("q.toml", drr, "quantum,s1,0,3000\n"),
            ("j.toml", stalled, "packet,tracks,2016\n"),
        ]:
            path = self.file(name, text)
            run = self.rows(rows, path, None)
            self.assertEqual((run.returncode, run.stderr), (0, ""))
            self.assertNotIn("refused", run.stdout)
            wanted = what_if.subprocess.run(
                [PROGRAM, "edit", path, self.folder / "e.csv"], capture_output=True, text=True, check=True
            ).stdout
            wanted = [line for line in wanted.splitlines() if not line.startswith("edit ")]
            self.assertEqual(networks.analyse(self.folder / "o.toml", PROGRAM).text.splitlines(), wanted)

    def test_the_bounds_after_each_row_stand_beside_those_before(self):
        """Each column is what `edit` tells of so many rows, rounded up; a row that is refused has that of the row
        before it."""
        rows = "latency,sw1-sw2,8\nrate,s9,1\nadd,log,4032,4032,1,radar\npacket,log,8000\nundo\ndrop,log\n"
        self.rows(rows, words=["--csv", self.folder / "o.csv"])
        with open(self.folder / "o.csv", newline="") as file:
            table = {row.pop("flow"): row for row in csv.DictReader(file)}
        self.assertEqual({name: row.pop("deadline_us") for name, row in table.items()}, {
            "video": "470.000", "tracks": "500.000", "log": "",
        })  # fmt: skip
        self.assertEqual(list(table["log"]), ["before_us", *(f"after_{row}_us" for row in range(1, 7))])
        for count, column in enumerate(table["log"]):
            edits = self.file("e.csv", "".join(rows.splitlines(keepends=True)[:count]))
            run = what_if.subprocess.run([PROGRAM, "edit", STAIR, edits], capture_output=True, text=True, check=True)
            told = {name: report.shown(bound) for name, bound in what_if.bounds_of(run.stdout).items()}
            self.assertEqual({name: row[column] for name, row in table.items() if row[column]}, told, column)

    def test_no_name_is_a_formula(self):
        net = self.file("n.toml", SERVER + FLOW.replace('name = "f1"', 'name = "-A1"'))
        self.rows("rate,s1,50\n", net, None, ["--csv", self.folder / "o.csv"])
        self.assertIn("\n'-A1,,", (self.folder / "o.csv").read_text())

    def test_a_long_list_is_edited_once(self):
        """Each other network is analysed once, and no row makes the rows before it anew."""
        asked = self.folder / "asked"
        counting = self.file("counting", f'#!/bin/sh\necho "$1" >>{asked}\nexec {PROGRAM} "$@"\n')
        counting.chmod(0o755)
        run = self.rows("rate,radar,90\nundo\n" * 10, program=counting)
        self.assertEqual(run.stdout.count(": taken; "), 20, run.stderr)
        words = asked.read_text().split()
        # The network as it is, once before all and once with the others, that of the first row; and lint's look.
        self.assertEqual({word: words.count(word) for word in words}, {"analyse": 3, "edit": 1, "measure": 1})

    def test_a_longer_packet_leaves_its_curve(self):
        run = self.rows("packet,tracks,8000\n", deadlines=None)
        self.assertIn(
            "odd after all rows: flow tracks: its curve lets in 4032 bits at once, less than its packet of 8000",
            run.stdout,
        )
        self.assertNotIn("odd", self.rows("packet,tracks,8000\nstair,tracks,1000,200\n", deadlines=None).stdout)

    def test_faults(self):
        run = self.rows("rate,sw1-sw2\n")
        self.assertEqual(run.returncode, 1)
        self.assertIn("e.csv: T3 row 1\n", run.stderr)
        self.assertIn("e.csv line 1\n    rate,sw1-sw2\n  T3: it has more or fewer fields", run.stderr)
        self.assertEqual(tool("what_if.py", STAIR).returncode, 2)
        self.assertEqual(tool("what_if.py", STAIR, "--greatest-load").returncode, 2)

    def greatest(self, *words, deadlines="flow,deadline\nvideo,600\ntracks,500\n"):
        return tool(
            "what_if.py",
            STAIR,
            "--greatest-load",
            *words,
            "--deadlines",
            self.file("d.csv", deadlines),
            "--program",
            PROGRAM,
        )

    def test_the_greatest_load(self):
        """The factor keeps all deadlines, one part more does not, each asked of the program by another file."""
        run = self.greatest()
        self.assertEqual(run.returncode, 0, run.stderr)
        factor = Fraction(re.match(r"all rates times (\S+) \(", run.stdout)[1])
        for times, is_kept in ((factor, True), (factor + Fraction(1, 64), False)):
            lower = Fraction(1000 / times * 64 // 1, 64)  # the period of tracks, and half that of video
            text = (
                STAIR.read_text()
                .replace("period = 2000", f'period = "{2 * lower}"')
                .replace("period = 1000", f'period = "{lower}"')
            )
            answer = networks.analyse(self.file("n.toml", text), PROGRAM)
            bounds = [answer.flows[name]["bound"] for name in ("video", "tracks")]
            self.assertEqual(bounds[0] <= 600 and bounds[1] <= 500, is_kept, (times, bounds))
        self.assertRegex(
            self.greatest("video").stdout, r"^the rate of video times \S+ \([0-9.]+\): all deadlines kept\n"
        )
        run = self.greatest(deadlines="flow,deadline\nvideo,1\n")
        self.assertEqual(run.returncode, 1)
        self.assertIn("no factor on all rates keeps all deadlines: with the least, video has", run.stdout)
        self.refused(
            "no flow vidoe (is it `video`?)",
            "what_if.py",
            STAIR,
            "--greatest-load",
            "vidoe",
            "--deadlines",
            self.folder / "d.csv",
            "--program",
            PROGRAM,
        )


class Examples(WithFolder):
    """Each tool on each network of examples/, and on files that are none."""

    def test_reports(self):
        """Each flow and each queue of the answer has its line, each bound is rounded up; in the page they stand too."""
        for path in sorted(TOP.glob("examples/**/*.toml")):
            made = ["--html", self.folder / "o.html", "--csv", self.folder / "o.csv"]
            run = tool("report.py", path, *made, "--program", PROGRAM)
            self.assertEqual((run.returncode, run.stderr), (0, ""), path)
            answer = networks.analyse(path, PROGRAM)
            with open(self.folder / "o.csv", newline="") as file:
                rows = {row["flow"]: row for row in csv.DictReader(file)}
            self.assertEqual(rows.keys(), answer.flows.keys(), path)
            for name, numbers in answer.flows.items():
                shown = Fraction(rows[name]["bound_us"])
                self.assertTrue(0 <= shown - numbers["bound"] < Fraction(1, 1000), (path, name))
                self.assertEqual(Fraction(rows[name]["exact_bound"]), numbers["bound"])
            cells = Page((self.folder / "o.html").read_text()).cells
            queues = [f"{server}:{queue}" for server, queue in answer.queues]
            self.assertEqual([name for name in [*rows, *queues] if name not in cells], [], path)
            self.assertNotIn("odd: ", run.stdout)

    def test_shares_of_a_delay_are_whole(self):
        """A flow's parts are the delays of its hops and its links, and make up its total-flow bound."""
        for path in sorted(TOP.glob("examples/**/*.toml")):
            answer = networks.analyse(path, PROGRAM)
            for flow in report.of_network(path, None, PROGRAM).flows:
                whole = sum(hop.delay for hop in flow.hops)
                self.assertEqual(whole, answer.flows[flow.name]["tfa"], (path, flow.name))
                self.assertEqual(sum(hop.share for hop in flow.hops), 1)

    def test_edits(self):
        for edits in sorted(TOP.glob("examples/**/*_edits.csv")):
            net = edits.with_name(edits.name.replace("_edits.csv", ".toml"))
            run = tool("what_if.py", net, edits, "--write", self.folder / "o.toml", "--program", PROGRAM)
            self.assertEqual((run.returncode, run.stderr), (0, ""), edits)
            told = edits.with_name(edits.name.replace(".csv", ".txt")).read_text()
            self.assertEqual(run.stdout.count(": refused "), told.count(" refused "), edits)
            wanted = [line for line in told.splitlines() if not line.startswith("edit ")]
            self.assertEqual(networks.analyse(self.folder / "o.toml", PROGRAM).text.splitlines(), wanted, edits)

    def test_rounding_and_variants(self):
        """A network on a grid keeps its bounds or has greater ones; a folder of networks is a study."""
        for path in sorted(TOP.glob("examples/*/*.toml")):
            run = tool("round.py", path, "--grid", 4)
            self.assertEqual(run.returncode, 0, path)
            (self.folder / f"{path.stem}.toml").write_text(run.stdout)
        run = tool("sweep.py", self.folder, "--table", self.folder / "o.csv", "--program", PROGRAM)
        self.assertEqual(run.returncode, 0, run.stderr)
        with open(self.folder / "o.csv", newline="") as file:
            for row in csv.DictReader(file):
                (path,) = TOP.glob(f"examples/*/{row['variant']}.toml")
                if row["status"] == "0":
                    for name, numbers in networks.analyse(path, PROGRAM).flows.items():
                        self.assertGreaterEqual(Fraction(row[f"bound {name}"]), numbers["bound"], (path, name))

    def test_files_that_are_none(self):
        """Each tool names the file and ends with 1, by a line of its own or by what the program says."""
        folder, words = self.folder / "folder", {"what_if.py": [self.file("e.csv", "undo\n")]}
        folder.mkdir()
        for path, told in [
            (self.folder / "absent.toml", "absent.toml"),
            (folder, "folder"),
            (self.file("n.toml", "["), "n.toml"),
            (self.file("u.toml", b"# \xff\n"), "u.toml"),
        ]:
            for name in ("lint.py", "report.py", "what_if.py", "round.py"):
                run = tool(name, path, *words.get(name, []))
                self.assertEqual((run.returncode, run.stdout), (1, ""), (name, path))
                self.assertIn(told, run.stderr.splitlines()[0], (name, path))


class ImportAndSweep(WithFolder):
    def made(self, *words, links=LINKS, ports=PORTS):
        return tool("import_icd.py", *words, self.file("links.csv", links), self.file("ports.csv", ports))

    def test_the_tables_stand_in_either_order(self):
        links, ports = self.file("links.csv", LINKS), self.file("ports.csv", PORTS)
        self.assertEqual(tool("import_icd.py", ports, links).stdout, tool("import_icd.py", links, ports).stdout)
        self.refused("links.csv line 1: no column rate", "import_icd.py", links, links)

    def test_deadlines_of_branches_are_those_of_their_flows(self):
        links = self.file(
            "branches.csv",
            "name,bag,largest_frame,jitter,priority,path,deadline\n"
            "v,1,200,,,es1 sw1-p1,500\nw,1,200,,,es1,\nv,1,200,,,es1,1\n",
        )
        path = self.file("n.toml", tool("import_icd.py", links, self.file("ports.csv", PORTS)).stdout)
        run = tool("report.py", path, "--deadlines", links, "--program", PROGRAM)
        self.assertEqual(run.returncode, 1)
        self.assertIn("1 of 2 deadlines kept, 1 not; 3 flows, 1 without a deadline", run.stdout)
        self.assertRegex(run.stdout, r"(?m)^ *v_1 .* PASS ")
        self.assertRegex(run.stdout, r"(?m)^ *v_2 .* FAIL ")

    def test_gaps_are_cut_and_the_head_says_so(self):
        run = self.made("--longest-gap", "3", "--version", "2")
        network = networks.load(self.file("n.toml", run.stdout))
        self.assertEqual(
            (network["version"], [flow["arrival"]["period"] for flow in network["flow"]]), (2, [2000, 3000])
        )
        head = run.stdout.splitlines()[2:4]
        self.assertEqual(
            head,
            [
                "# 1 gaps above 3 ms are cut to it: who sends less often keeps that too.",
                "# No port sends faster than its rate.",
            ],
        )
        self.assertNotIn("version", networks.load(self.file("n.toml", self.made().stdout)))
        for words in (["--longest-gap", "0"], ["--longest-gap", "x"], ["--version", "3"]):
            self.assertEqual(self.made(*words).returncode, 2)

    def test_gaps_that_are_cut_too_far_are_warned_of(self):
        """1538 bytes of 4 milliseconds in each 1/8 are 98.432 bits a microsecond, and with the other link more than
        100; without the cut, and where the port is too slow anyway, there is nothing to warn of."""
        run = self.made("--longest-gap", "1/8")
        self.assertEqual((run.returncode, run.stderr.count("\n")), (0, 1), run.stderr)
        self.assertIn("as cut, the gaps ask for 1.126 of what es1:0 is promised, and too much at 1 queues", run.stderr)
        answer = networks.analyse(self.file("n.toml", run.stdout), PROGRAM)
        self.assertEqual(answer.queues["sw1-p1", 1]["delay"], None)
        slow = PORTS.replace("100,", "1,")
        for words, ports in [(["--longest-gap", 1], PORTS), ([], PORTS), (["--longest-gap", 3], slow)]:
            self.assertEqual(self.made(*words, ports=ports).stderr, "", words)

    def test_what_a_switch_holds_each_frame_is_a_part_of_the_link_before(self):
        ports = "name,rate,latency,link,discipline,delay\nes1,100,,0.1,,\nsw1-p1,100,16,,priority 2,5.25\n"
        run = self.made(ports=ports)
        first, second = networks.load(self.file("n.toml", run.stdout))["server"]
        self.assertEqual((Fraction(first["link"]), second.get("link"), second["service"]["latency"]), (
            Fraction(535, 100), None, 16,
        ))  # fmt: skip
        self.assertIn("# What the switches hold each frame is a part of the links that lead to them.\n", run.stdout)
        # The bound is greater by the delay alone.
        bounds = [
            networks.analyse(self.file("m.toml", self.made(ports=text).stdout), PROGRAM).flows["vl1"]["bound"]
            for text in (ports, ports.replace("5.25", ""))
        ]
        self.assertEqual(bounds[0] - bounds[1], Fraction(525, 100))
        rounded = networks.load(self.file("g.toml", self.made("--grid", 1, ports=ports).stdout))
        self.assertEqual(rounded["server"][0]["link"], 7)
        two = ports + "sw1-p2,100,16,,,5\n"
        for links, table, told in [
            (LINKS, ports.replace("0.1,,", "0.1,,1"), "links.csv line 2: port es1 has a delay: it is the first"),
            (LINKS, ports.replace("5.25", "-1"), "ports.csv line 3: delay -1 is below 0"),
            (LINKS, ports.replace("delay", "delay,delay"), "ports.csv line 1: two columns delay"),
            (
                LINKS.replace("1,es1 sw1-p1", "1,es1 sw1-p2"),
                two,
                "links.csv line 3: ports sw1-p1 and sw1-p2 have unlike delays, and both stand behind es1",
            ),
        ]:
            self.refused(told, "import_icd.py", self.file("links.csv", links), self.file("ports.csv", table))

    def test_a_gate_is_read(self):
        ports = "name,rate,latency,link,discipline,gate\nes1,100,,0.1,,\nsw1-p1,100,,,priority 2,1000 250.5\n"
        run = self.made(ports=ports)
        network = networks.load(self.file("n.toml", run.stdout))
        self.assertEqual(network["server"][1]["service"], {"kind": "gate", "cycle": 1000, "slot": "501/2"})
        self.assertNotIn("service", network["server"][0])
        self.assertEqual(networks.analyse(self.folder / "n.toml", PROGRAM).status, 0)
        rounded = networks.load(self.file("g.toml", self.made("--grid", 1, ports=ports).stdout))
        self.assertEqual(rounded["server"][1]["service"]["slot"], 250)
        for table, told in [
            (ports.replace("1000 250.5", "1000"), "ports.csv line 3: gate '1000' is no CYCLE SLOT, as 1000 250"),
            (ports.replace("250.5", "1001"), "ports.csv line 3: the gate's slot of 1001 is longer than its cycle"),
            (ports.replace("250.5", "0"), "ports.csv line 3: the gate's slot 0 is not above 0"),
            (ports.replace("100,,,priority", "100,16,,priority"), "ports.csv line 3: a gate and a latency: a network"),
        ]:
            self.refused(told, "import_icd.py", self.file("links.csv", LINKS), self.file("ports.csv", table))

    def test_a_rate_of_version_2_is_not_rounded_down(self):
        run = self.made("--version", 2, "--grid", 4, ports=PORTS.replace("100", "100.1", 1))
        self.assertEqual((run.returncode, run.stdout), (1, ""))
        self.assertIn("ports.csv line 2: rate 1001/10 is no multiple of 1/4", run.stderr)
        self.assertEqual(self.made("--version", 2, "--grid", 4).returncode, 0)

    def test_buckets_over_many_ports_are_warned_of(self):
        ports = PORTS + "sw2-p1,100,16,,\n"
        run = self.made("--buckets", links=LINKS.replace("sw1-p1\nvl2", "sw1-p1 sw2-p1\nvl2"), ports=ports)
        self.assertEqual(run.returncode, 0)
        self.assertIn("1 links pass more than two ports as buckets", run.stderr)
        self.assertEqual([self.made(*words, ports=ports).stderr for words in (["--buckets"], [])], ["", ""])

    def answers(self, *tables):
        """The answers of two tables by the recipe of the documents, and as buckets on a grid."""
        for words in (["--version", 2, "--longest-gap", 8], ["--buckets", "--grid", 4]):
            yield networks.analyse(self.file("n.toml", tool("import_icd.py", *words, *tables).stdout), PROGRAM)

    def test_the_recipe_answers_where_buckets_do_not(self):
        """Eight links over three to five ports."""
        ports = "name,rate,latency,link,discipline\n" + "".join(f"p{number},100,16,1/2,\n" for number in range(5))
        links = "name,bag,largest_frame,jitter,priority,path\n"
        for number in range(8):
            path = " ".join(f"p{at}" for at in range(number % 3, 5))
            links += f"v{number},{2 ** (1 + number % 7)},{84 + 37 * number},,,{path}\n"
        stairs, buckets = self.answers(self.file("links.csv", links), self.file("ports.csv", ports))
        self.assertEqual((stairs.status, buckets.status), (0, 6))
        self.assertIn("too wide", buckets.text)

    def test_the_recipe_has_the_lower_bounds(self):
        """The 60 links of examples/aircraft, over two to three ports: a fifth lower and more at the largest bound."""
        stairs, buckets = self.answers(TOP / "examples/aircraft/links.csv", TOP / "examples/aircraft/ports.csv")
        largest = [max(flow["bound"] for flow in answer.flows.values()) for answer in (stairs, buckets)]
        self.assertLess(largest[0], largest[1] * 4 / 5)

    def test_a_sweep_calls_the_program_and_says_how_many_a_second(self):
        template = self.file("t.toml", SERVER.replace("100", "$rate") + FLOW)
        rows = self.file("p.csv", "rate\n100\n200\n")
        run = tool("sweep.py", template, rows, "--table", self.folder / "o.csv")
        self.assertEqual(run.returncode, 0)
        self.assertRegex(run.stderr, r"\n2 variants in [0-9.]+ s, [0-9]+ a second\n$")
        self.assertEqual(networks.the_program(TOP / "netcalc"), networks.the_program(networks.PROGRAM))
        self.assertNotEqual(networks.the_program(networks.PROGRAM), str(networks.PROGRAM))


class Pictures(WithFolder):
    def test_numbers_at_bars_are_rounded_up(self):
        for value, told in [
            (Fraction(1, 3), "0.333334"),
            (Fraction(19987, 50), "399.74"),
            (Fraction(12345671, 10), "1234570"),
            (0, "0"),
            (Fraction(2999999, 3), "1000000"),
            (Fraction(1, 10**9), "0.000001"),
        ]:
            self.assertEqual(plot.rounded_up(value), told)
            self.assertGreaterEqual(Fraction(told), value)

    def test_flows_have_colours_of_their_own(self):
        self.assertEqual(len({plot.colour_of(place) for place in range(64)}), 64)

    def test_the_largest_rows_stay(self):
        names, columns, label = plot.largest_rows(
            [f"f{n}" for n in range(300)], [("delay", [*range(299), None], "red")], "delay"
        )
        self.assertEqual((names[0], names[-1], len(names), len(columns[0][1])), ("f100", "f299", 200, 200))
        self.assertEqual(label, "delay: the largest 200 of 300")

    @unittest.skipUnless(has("matplotlib"), "matplotlib is not installed")
    def test_no_picture_is_too_tall(self):
        text = "".join(f"queue s{n} {q} delay {n}/7 backlog {q}\n" for n in range(64) for q in range(8)) + "".join(
            f"flow f{n} tfa {n} sfa {n} bound {n}\n" for n in range(256)
        )
        sizes = []
        # The figure is asked for its pixels in place of being drawn, which takes seconds; it is saved in its own size.
        with unittest.mock.patch.object(plot, "save", lambda figure, _: sizes.append(figure.canvas.get_width_height())):
            run = tool("plot.py", "bounds", self.file("answer", text), "-o", self.folder / "o.png")
        self.assertEqual(run.returncode, 0, run.stderr)
        self.assertTrue(3000 < max(*sizes[0]) < 4000, sizes)

    def test_a_run_of_some_ports_between_two_times(self):
        words = ["run", TOP / "examples/tutorial/meeting.csv", "--net", STAIR, "-o", self.folder / "o.svg"]
        for more, told in [
            (["--ports", "sw1-sw2,x"], "no server of"),
            (["--from", "9", "--to", "8"], "nothing to draw from 9 to 8"),
            (["--from", "x"], "'x' is no number"),
        ]:
            self.refused(told, "plot.py", *words, *more)
        self.assertEqual(tool("plot.py", "bounds", STAIR, "-o", self.folder / "o.svg", "--ports", "a").returncode, 2)
        if has("matplotlib"):
            run = tool("plot.py", *words, "--ports", "sw1-sw2", "--from", "140", "--to", "250")
            self.assertEqual((run.returncode, run.stderr), (0, ""))
            drawn = (self.folder / "o.svg").read_text()
            self.assertIn("works of video", drawn)
            self.assertNotIn("works of tracks", drawn)
            self.assertNotIn("sw2-computer", drawn)


if __name__ == "__main__":
    unittest.main(argv=[word for word in sys.argv if word != "--browser"])
