#!/usr/bin/env python3
"""Tries the tools of tools/ that stand outside the proved program: importer, rounding, sweep, and what the pictures are
drawn from. Needs Python 3.11.

The sweep over a Dask scheduler, with a worker that is ended half way, is tried where `distributed` is installed and
--dask is given.
"""

import contextlib
import csv
import io
import json
import pathlib
import subprocess
import sys
import tempfile
import unittest
import unittest.mock
from fractions import Fraction

TOP = pathlib.Path(__file__).resolve().parent.parent
sys.path.insert(0, str(TOP / "tools"))
import import_icd  # noqa: E402  (from tools/, as the others)
import networks  # noqa: E402
import plot  # noqa: E402
import round as rounding  # noqa: E402
import sweep  # noqa: E402

TOOLS = {"import_icd.py": import_icd, "plot.py": plot, "round.py": rounding, "sweep.py": sweep}
PROGRAM = TOP / "bin/x86_64-linux/netcalc"

LINKS = """name,bag,largest_frame,jitter,priority,path
vl1,2,200,40,0,es1 sw1-p1
vl2,4,1518,,1,es1 sw1-p1
"""
PORTS = """name,rate,latency,link,discipline
es1,100,,0.1,
sw1-p1,100,16,,priority 2
"""
TEMPLATE = """[[server]]
name = "s1"
rate = "$rate"
service = { kind = "latency", latency = 16 }

[[flow]]
name = "f1"
packet = 12000
arrival = { kind = "stair", period = "$period" }
path = ["s1"]
"""


def tool(name, *words):
    """A run of a tool, in this process, since a process of its own takes longer than most tests. A fault that it does
    not tell is the test's."""
    out, err = io.StringIO(), io.StringIO()
    with unittest.mock.patch.object(sys, "argv", [name, *map(str, words)]), contextlib.redirect_stdout(
        out
    ), contextlib.redirect_stderr(err):
        try:
            networks.ended(name.removesuffix(".py"), TOOLS[name].main)
        except SystemExit as end:
            return subprocess.CompletedProcess(words, end.code, out.getvalue(), err.getvalue())


def has(module):
    """Whether a module is installed."""
    import importlib.util

    return importlib.util.find_spec(module) is not None


class WithFolder(unittest.TestCase):
    """A test with a folder of its own."""

    def setUp(self):
        folder = tempfile.TemporaryDirectory()
        self.addCleanup(folder.cleanup)
        self.folder = pathlib.Path(folder.name)

    def file(self, name, text):
        path = self.folder / name
        path.write_bytes(text if isinstance(text, bytes) else text.encode())
        return path

    def refused(self, told, name, *words):
        """A tool's run ends with 1, and says one line."""
        run = tool(name, *words)
        self.assertEqual((run.returncode, run.stdout, run.stderr.count("\n")), (1, "", 1), (told, run.stderr))
        self.assertIn(told, run.stderr)


class Import(WithFolder):
    def made(self, links, ports, *words):
        return tool("import_icd.py", *words, self.file("links.csv", links), self.file("ports.csv", ports))

    def test_tables_come_back(self):
        import tomllib

        run = self.made(LINKS, PORTS)
        self.assertEqual(run.returncode, 0, run.stderr)
        network = tomllib.loads(run.stdout)
        servers, flows = network["server"], network["flow"]
        self.assertEqual([server["name"] for server in servers], ["es1", "sw1-p1"])
        self.assertEqual([Fraction(server["rate"]) for server in servers], [100, 100])
        self.assertEqual(Fraction(servers[0]["link"]), Fraction(1, 10))
        self.assertEqual(servers[1]["queues"], 2)
        self.assertEqual([flow["packet"] for flow in flows], [8 * 220, 8 * 1538])
        self.assertEqual([Fraction(flow["arrival"]["period"]) for flow in flows], [2000, 4000])
        self.assertEqual(Fraction(flows[0]["arrival"]["jitter"]), 40)
        self.assertEqual(flows[1]["path"], ["es1", "sw1-p1:1"])

    def test_the_head_says_what_was_read_and_how(self):
        lines = self.made(LINKS, PORTS, "--buckets", "--grid", 4, "--overhead", 24).stdout.splitlines()
        links, ports = self.folder / "links.csv", self.folder / "ports.csv"
        self.assertEqual(lines[0], f"# Made by import_icd.py of {links} and {ports}, in microseconds and bits;")
        told = "# frames as token buckets, with 24 bytes of the wire beside their own, on a grid of 1/4"
        self.assertEqual(lines[1], f"{told}: arrivals up, services down.")
        plain = self.made(LINKS, PORTS).stdout.splitlines()[1]
        self.assertEqual(plain, "# frames as stairs, with 20 bytes of the wire beside their own.")

    def test_the_program_takes_it(self):
        path = self.file("n.toml", self.made(LINKS, PORTS).stdout)
        answer = networks.analyse(path, PROGRAM)
        self.assertEqual(answer.status, 0, answer.text)
        self.assertEqual(sorted(answer.flows), ["vl1", "vl2"])

    def test_faults_have_their_line(self):
        for links, ports, told in [
            (LINKS.replace("sw1-p1\nvl2", "sw9\nvl2"), PORTS, "links.csv line 2: no port sw9"),
            (LINKS.replace("vl2,4", "vl1,4"), PORTS, "links.csv line 3: bag is another one than in the first line of vl1"),
            (LINKS.replace("vl2,4", "vl2,0"), PORTS, "links.csv line 3: bag 0 is not above 0"),
            (LINKS.replace("1518,,1", "1518,,2"), PORTS, "links.csv line 3: port sw1-p1 has no queue 2"),
            (LINKS.replace("1518", "x"), PORTS, "links.csv line 3: largest_frame 'x' is no whole number"),
            (LINKS, PORTS.replace("es1,100", "es1,-5"), "ports.csv line 2: rate -5 is not above 0"),
            (LINKS, PORTS.replace("priority 2", "edf"), "ports.csv line 3: discipline 'edf' is none of"),
            (
                LINKS,
                PORTS.replace("priority 2", "drr 500 500"),
                "links.csv line 3: port sw1-p1: the quantum of queue 1",
            ),
            (LINKS.replace("path\n", "way\n"), PORTS, "links.csv line 1: no column path"),
        ]:
            self.refused(told, "import_icd.py", self.file("links.csv", links), self.file("ports.csv", ports))

    def test_odd_cells_have_their_line(self):
        head = LINKS.splitlines()[0] + "\n"
        for line, told in [
            (b"vl\xe9,2,200,,,es1", "line 2: byte 0xe9 is not UTF-8"),
            (b"vl1,,200,,,es1", "line 2: bag is empty"),
            (b",2,200,,,es1", "line 2: '' is no name"),
            (b"vl1", "line 2: largest_frame is empty"),
            (b"vl1,1e999999999,200,,,es1", "line 2: bag '1e999999999' is no number"),
            (b"vl1,1/0,200,,,es1", "line 2: bag: 1/0 has the denominator 0"),
            (b"vl1,1,200,-.5,,es1", "line 2: jitter '-.5' is no number"),
            (b"vl1,1,200,-0.5,,es1", "line 2: jitter -1/2 is below 0"),
            (
                b"vl1," + 6000 * b"9" + b",200,,,es1",
                "line 2: bag: 9999999999999999999999999999999999999999.. (6000 characters) is above 2^127 - 1",
            ),
            (b"vl1," + str(2**127 - 1).encode() + b",200,,,es1", "line 2: a number would be above 2^127 - 1"),
            (b"vl1,1," + 6000 * b"9" + b",,,es1", "line 2: largest_frame '99999"),
            (b"vl1,1,\0,,,es1", "line 2: "),
            (b"vl1,1,200,,,es1,sw1-p1", "line 2: 7 cells under a head line of 6"),
            (b'vl1,1,200,,,"es1', "line 2: unexpected end of data"),
            (b"vl1,1,200,,,es1\n\nvl1,1,200,1,,es1", "line 4: jitter is another one than in the first line of vl1"),
            (b"vl1_2,1,200,,,es1\nvl1,1,200,,,es1\nvl1,1,200,,,es1", "line 4: vl1_2, as this branch of vl1 would be called"),
            (32 * b"v" + b",1,200,,,es1\n" + 32 * b"v" + b",1,200,,,es1", "line 2: " + 32 * "v" + "_1, as this branch"),
        ]:
            self.refused(
                told,
                "import_icd.py",
                self.file("links.csv", head.encode() + line + b"\n"),
                self.file("ports.csv", PORTS),
            )
        for table, told in [
            ("", "line 1: no head line"),
            (LINKS.replace("bag", "name", 1), "line 1: two columns name"),
        ]:
            self.refused(told, "import_icd.py", self.file("links.csv", table), self.file("ports.csv", PORTS))
        self.refused("absent.csv: No such file", "import_icd.py", "absent.csv", self.file("ports.csv", PORTS))

    def test_branches_are_flows(self):
        """Rows of one name are the branches of one link, which agree by value in all but path and deadline."""
        head, first, second = (LINKS.splitlines()[0], *LINKS.splitlines()[1:])
        table = "\n".join([f"{head},deadline", f"{first},400", f"{second},", "vl1,2.0,200,80/2,0,es1,", ""])
        run = self.made(table, PORTS)
        path = self.file("n.toml", run.stdout)
        flows = networks.load(path)["flow"]
        self.assertEqual(
            [(flow["name"], flow["path"]) for flow in flows],
            [("vl1_1", ["es1", "sw1-p1:0"]), ("vl2", ["es1", "sw1-p1:1"]), ("vl1_2", ["es1"])],
        )
        told = "1 links of several branches are 2 flows, NAME_1 and so on; ports that branches share count the link once a branch"
        self.assertIn(f"# {told}.\n", run.stdout)
        self.assertEqual(run.stderr, f"import_icd: {told}, and netbound once\n")
        # Rows of empty cells before the head line are none, as for netbound.
        again = self.made(f"\n,,\n{table}", f"\n{PORTS}")
        self.assertEqual((again.returncode, again.stdout), (0, run.stdout))
        ports, links = self.folder / "ports.csv", self.folder / "links.csv"
        self.assertEqual(networks.load(self.file("m.toml", tool("import_icd.py", ports, links).stdout))["flow"], flows)

    def test_words_out_of_range(self):
        for words in (["--overhead", "-1"], ["--overhead", str(2**21)], ["--grid", "0"], ["--grid", "1/2"]):
            self.assertEqual(self.made(LINKS, PORTS, *words).returncode, 2, words)

    def test_a_grid_is_that_of_rounding(self):
        """As it is rounded by the other tool, by which examples/afdx/grid.toml was made."""
        for words in ([], ["--buckets"]):
            path = self.file("n.toml", self.made(LINKS, PORTS, *words).stdout)
            piped = networks.load(self.file("p.toml", tool("round.py", path, "--grid", 4).stdout))
            self.assertEqual(
                networks.load(self.file("g.toml", self.made(LINKS, PORTS, *words, "--grid", 4).stdout)), piped
            )
        afdx = TOP / "examples/afdx"
        run = tool("import_icd.py", "--buckets", "--grid", 4, afdx / "links.csv", afdx / "ports.csv")
        self.assertEqual(networks.load(self.file("a.toml", run.stdout)), networks.load(afdx / "grid.toml"))
        # The file of the example is what the tool writes, below the line for editors; its page shows the same.
        kept = (afdx / "grid.toml").read_text().splitlines()
        self.assertEqual(run.stdout.splitlines()[1:], kept[2:])
        self.assertIn("of examples/afdx/links.csv and examples/afdx/ports.csv, in", kept[1])
        self.refused(
            "ports.csv line 2: the rate of es1: 1/8 would become 0",
            "import_icd.py",
            "--grid",
            4,
            self.file("links.csv", LINKS),
            self.file("ports.csv", PORTS.replace("100", "0.125", 1)),
        )


class Round(WithFolder):
    def test_bounds_grow_and_refusals_go(self):
        wide = "1000000000000000000000001/99999999999999999999997"
        path = self.file(
            "n.toml", TEMPLATE.replace("$rate", wide).replace("$period", "1000000000000000003/1000000000000007")
        )
        self.assertEqual(networks.analyse(path, PROGRAM).status, 6)
        run = tool("round.py", path, "--grid", 10)
        self.assertEqual(run.returncode, 0, run.stderr)
        self.assertEqual(networks.analyse(self.file("r.toml", run.stdout), PROGRAM).status, 0)

    def test_numbers_go_the_safe_way(self):
        text = TEMPLATE.replace("$rate", "199/2").replace("$period", "999/2") + 'arrival.jitter = "1/3"\n'
        text = text.replace('"stair", period = "999/2" }', '"stair", period = "999/2", jitter = "1/3" }').replace(
            'arrival.jitter = "1/3"\n', ""
        )
        run = tool("round.py", self.file("n.toml", text))
        network = networks.load(self.file("r.toml", run.stdout))
        arrival = network["flow"][0]["arrival"]
        self.assertEqual((network["server"][0]["rate"], arrival["period"], arrival["jitter"]), (99, 499, 1))

    def test_a_lower_rate_is_no_pace(self):
        for rate, version in (("199/2", 1), ("99", 2)):
            run = tool(
                "round.py",
                self.file("n.toml", "version = 2\n" + TEMPLATE.replace("$rate", rate).replace("$period", "1000")),
            )
            self.assertEqual(networks.load(self.file("r.toml", run.stdout))["version"], version)
            self.assertEqual("version 1" in run.stderr, version == 1)

    def compared(self, text):
        run = tool("round.py", self.file("n.toml", text), "--compare", "--program", PROGRAM)
        self.assertEqual(run.returncode, 0, run.stderr)
        return run.stdout.splitlines()

    def test_each_bound_is_compared(self):
        tables = ["flow bound rounded greater", "queue delay rounded greater", "queue backlog rounded greater"]
        text = TEMPLATE.replace("$rate", "199/2").replace("$period", "1000")
        lines = self.compared(text)
        self.assertEqual(lines[::2], tables)
        before, after = (
            networks.analyse(self.file("m.toml", text.replace("199/2", rate)), PROGRAM) for rate in ("199/2", "99")
        )
        for line, numbers, name, key in [
            (lines[1], "flows", "f1", "bound"),
            (lines[3], "queues", ("s1", 0), "delay"),
            (lines[5], "queues", ("s1", 0), "backlog"),
        ]:
            old, new = (getattr(answer, numbers)[name][key] for answer in (before, after))
            told = name if name == "f1" else "s1:0"
            self.assertEqual(line, f"{told} {old} {new} {new - old}")
        self.assertEqual(lines[3], "s1:0 27184/199 4528/33 4000/6567")
        # 12000 bits each 241/2 microseconds are more than 99 a microsecond, and less than 199/2 + 1/4.
        lines = self.compared(text.replace("1000", "241/2").replace("199/2", "399/4"))
        self.assertEqual(lines[::2], tables)
        self.assertEqual([line.split()[2:] for line in lines[1::2]], 3 * [["unbounded", "-"]])

    def test_a_refused_file_has_new_bounds_alone(self):
        wide = "1000000000000000000000001/99999999999999999999997"
        text = TEMPLATE.replace("$rate", wide)
        lines = self.compared(text.replace("$period", "1300000000000000003/1000000000000007"))
        self.assertIn("the file itself is refused: netcalc: too wide", lines[0])
        self.assertEqual([line.split()[1::2] for line in lines[2::2]], 3 * [["-", "-"]])

    def test_a_grid_may_be_too_coarse(self):
        run = tool("round.py", self.file("n.toml", TEMPLATE.replace("$rate", "1/3").replace("$period", "1000")))
        self.assertEqual(run.returncode, 1)
        self.assertIn("take a grid of at least 3", run.stderr)

    def test_faults_are_told(self):
        server, flow = '[[server]]\nname = "s"\n', '[[flow]]\nname = "f"\n'
        for text, told in [
            (server + "rate = 1.5\n", "server[0].rate: 1.5 is a float"),
            (server + "rate = inf\n", "server[0].rate: inf is a float"),
            (server + "rate = 2026-01-01\n", "server[0].rate: no value of a network file is a date"),
            (server + "rate = true\n", "the rate of s: True is no number"),
            (server + "rate = 0\n", "the rate of s: 0 is not above 0"),
            (server + 'rate = "1/0"\n', "the rate of s: 1/0 has the denominator 0"),
            (server + 'rate = "1e999999999"\n', "the rate of s: '1e999999999' is no number"),
            (server + 'rate = 1\nlink = "%d/2"\n' % (2**127 + 1), "is above 2^127 - 1"),
            (server + "rate = 1\nservice = {}\n", "the service of s: kind is missing"),
            (server, "the rate of s is missing"),
            ("[[server]]\nrate = 1\n", "server[0].name is missing"),
            ("[server]\nrate = 1\n", "server is not an array"),
            ("server = [1]\n", "server[0] is not a table"),
            (flow, "f: arrival is missing"),
            (flow + 'arrival = { kind = "bucket", burst = -1, rate = 0 }\n', "the burst of f: -1 is below 0"),
            (flow + 'arrival = { kind = "queue" }\n', "kind 'queue' is none of bucket, stair, list"),
            ("[[server\n", "no TOML: "),
            ("a = " + 5000 * "[" + 5000 * "]" + "\n", "no TOML: "),
            (".".join(400 * "a") + " = 1\n", "nested more than 160 deep"),
            (server + "rate = 1\n" + ".".join(400 * "a") + " = 1\n", "nested more than 160 deep"),
            (b"# \xe9\n", "line 1: byte 0xe9 is not UTF-8"),
            *(
                (f'{server}rate = 1\nlink = {sign}{digits}\n', "an integer is above 2^127 - 1")
                for digits in (str(2**127), 4300 * "9", 4301 * "9", 9000 * "9")
                for sign in ("", "-")
            ),
            (server + "rate = 1\n" + flow + "packet = 0x" + 9000 * "f" + "\n", "flow[0].packet: an integer is above"),
        ]:
            self.refused(told, "round.py", self.file("n.toml", text))
        self.refused("absent.toml: No such file", "round.py", self.folder / "absent.toml")
        self.refused(
            "absent: No such file",
            "round.py",
            "--compare",
            "--program",
            self.folder / "absent",
            TOP / "examples/one_flow.toml",
        )
        for grid in ("0", "x", str(10**30)):
            self.assertEqual(tool("round.py", TOP / "examples/one_flow.toml", "--grid", grid).returncode, 2)

    def test_another_locale_changes_nothing(self):
        """What is written is UTF-8, as files are, where the locale knows ASCII alone."""
        import os

        text = '"é" = 1\n' + TEMPLATE.replace("$rate", "100").replace("$period", "1000")
        words = [sys.executable, TOP / "tools/round.py", self.file("é.toml", text)]
        ascii_only = os.environ | {"LC_ALL": "C", "PYTHONUTF8": "0", "PYTHONCOERCECLOCALE": "0"}
        for more, told in ([], '"é" = 1'), (["--compare", "--program", PROGRAM], "M3 é"):
            run = subprocess.run([*words, *more], capture_output=True, env=ascii_only, check=False)
            self.assertIn(told, (run.stdout + run.stderr).decode())
            self.assertNotIn(b"Traceback", run.stderr)

    def test_odd_texts_come_back(self):
        network = {"server": [{"name": 'a"\\\n\t\x7fé', "rate": 1, "odd key": [True, {"x": "y"}]}], "flow": []}
        self.assertEqual(
            networks.load(self.file("n.toml", networks.dump(network, "a\x1bb"))), {"server": network["server"]}
        )


class WithVariants(WithFolder):
    """A test with a study of six variants."""

    def setUp(self):
        super().setUp()
        rows = [f"{rate},{period}" for rate in (20, 50, 100) for period in (500, 1000)]
        self.words = [
            self.file("t.toml", TEMPLATE),
            self.file("p.csv", "rate,period\n" + "\n".join(rows) + "\n"),
            *("--table", self.folder / "out.csv", "--program", PROGRAM),
        ]

    def table(self):
        with open(self.folder / "out.csv", newline="") as file:
            return list(csv.DictReader(file))


class Sweep(WithVariants):
    def test_each_variant_has_its_line(self):
        run = tool("sweep.py", *self.words)
        self.assertEqual(run.returncode, 0, run.stderr)
        table = self.table()
        self.assertEqual(
            [(row["rate"], row["period"], row["status"]) for row in table[4:]],
            [("100", "500", "0"), ("100", "1000", "0")],
        )
        self.assertEqual([row["bound f1"] for row in table], ["unbounded", "616", "256", "256", "136", "136"])

    def test_it_goes_on_where_it_stopped(self):
        tool("sweep.py", *self.words)
        whole = self.table()
        journal = self.folder / "out.csv.journal"
        lines = journal.read_text().splitlines(keepends=True)
        journal.write_text("".join(lines[:3]) + lines[3][:20])
        run = tool("sweep.py", *self.words)
        self.assertIn("3 variants in", run.stderr)
        strip = lambda table: [{key: row[key] for key in row if key != "seconds"} for row in table]
        self.assertEqual(strip(self.table()), strip(whole))
        self.assertEqual(run.stderr.count("Traceback"), 0)

    def test_a_changed_row_is_asked_again(self):
        tool("sweep.py", *self.words)
        rows = pathlib.Path(self.words[1])
        rows.write_text(rows.read_text().replace("20,500", "300,500"))
        run = tool("sweep.py", *self.words)
        self.assertIn("1 variants in", run.stderr)
        self.assertEqual((self.table()[0]["rate"], self.table()[0]["status"]), ("300", "0"))
        self.assertNotEqual(self.table()[0]["bound f1"], "unbounded")

    def test_a_name_without_a_column_is_told(self):
        run = tool("sweep.py", self.words[0], self.file("q.csv", "rate\n100\n"), *self.words[2:])
        self.assertEqual(run.returncode, 1)
        self.assertIn("period", run.stderr)

    def test_faults_are_told(self):
        template, _, *rest = self.words
        for rows, told in [
            ("", "p.csv line 1: no head line"),
            ("rate,rate,period\n1,1,1\n", "p.csv line 1: a column stands twice"),
            ("rate,period\n1,1\n1\n", "p.csv line 3: 1 cells under a head line of 2"),
            (b"rate,period\n1,\xe9\n", "p.csv line 2: byte 0xe9 is not UTF-8"),
        ]:
            self.refused(told, "sweep.py", template, self.file("p.csv", rows), *rest)
        self.refused("p.csv: no variant", "sweep.py", template, self.file("p.csv", "rate,period\n\n"), *rest)
        empty = self.folder / "empty"
        empty.mkdir()
        self.refused("empty: no variant", "sweep.py", empty, *rest)
        self.assertFalse((self.folder / "out.csv").exists())
        self.assertFalse((self.folder / "out.csv.journal").exists())
        rows = self.file("p.csv", "rate,period\n1,1\n")
        self.refused("t.toml: Invalid placeholder", "sweep.py", self.file("t.toml", "$rate $1"), rows, *rest)
        self.refused(
            "absent: No such file", "sweep.py", self.file("t.toml", TEMPLATE), rows, *rest[:-1], self.folder / "absent"
        )
        for words in (["--seconds", "0"], ["--seconds", "nan"], ["--workers", "0"]):
            self.assertEqual(tool("sweep.py", template, rows, *rest, *words).returncode, 2)
        self.assertEqual(tool("sweep.py", template, *rest).returncode, 2)

    def test_an_odd_journal_does_not_count(self):
        tool("sweep.py", *self.words)
        journal = self.folder / "out.csv.journal"
        entry = json.loads(journal.read_text().splitlines()[0])
        odd = ["1", "[]", '{"variant": "1"}', 5000 * "9", 5000 * "[", '{"a":' * 5000]
        odd += [json.dumps(entry | {key: value}) for key in entry for value in (None, [], {"f1": 5}, {"f1": "1/0"})]
        odd += ['{"variant": "2", "as']
        half = [json.dumps(entry | other).encode() for other in ({"refusal": "\ud800"}, {"bounds": {"\ud800": "1"}})]
        for text in ("\n".join(odd).encode(), b"\xe9\n\x00\n", "\x85\u2028\n".encode(), b"\n".join(half), half[0]):
            self.file("out.csv.journal", text)
            self.assertIn("6 variants in", tool("sweep.py", *self.words).stderr)
            self.assertEqual(len(self.table()), 6)
            self.assertNotIn("variants in", tool("sweep.py", *self.words).stderr)

    def test_no_cell_is_a_formula(self):
        rows = "rate,period,=note\n100,1000,=1+1\n-1/2,1000,-1/2\n100,1000,-1+1\n100,1000, @a\n100,1000,+a\n"
        tool("sweep.py", self.words[0], self.file("f.csv", rows), *self.words[2:])
        table = self.table()
        self.assertEqual([row["'=note"] for row in table], ["'=1+1", "-1/2", "'-1+1", "'@a", "'+a"])
        self.assertEqual([row["rate"] for row in table], ["100", "-1/2", "100", "100", "100"])

    def test_one_study_a_journal(self):
        import fcntl

        with open(self.folder / "out.csv.journal", "w") as file:
            fcntl.flock(file, fcntl.LOCK_EX)
            self.refused("another study writes it", "sweep.py", *self.words)

    def test_what_was_ended_is_asked_again(self):
        program = self.file("program", "#!/bin/sh\nkill -9 $$\n")
        program.chmod(0o755)
        words = [*self.words[:-1], program]
        tool("sweep.py", *words)
        self.assertEqual({row["status"] for row in self.table()}, {"signal 9"})
        self.assertIn("6 variants in", tool("sweep.py", *words).stderr)
        slow = self.file("slow", "#!/bin/sh\nexec sleep 20\n")
        slow.chmod(0o755)
        words = [*self.words[:-1], slow, "--seconds", "0.01"]
        tool("sweep.py", *words)
        self.assertEqual({row["status"] for row in self.table()}, {"time"})
        self.assertNotIn("variants in", tool("sweep.py", *words).stderr)

    @unittest.skipUnless(has("matplotlib"), "matplotlib is not installed")
    def test_plot(self):
        picture = self.folder / "o.svg"
        self.assertEqual(tool("sweep.py", *self.words, "--plot", "rate", picture).returncode, 0)
        self.assertIn("front", picture.read_text())
        self.refused("has no column speed", "sweep.py", *self.words, "--plot", "speed", picture)
        self.refused("a picture ends with .svg", "sweep.py", *self.words, "--plot", "rate", self.folder / "o.xyz")
        slow = [self.words[0], self.file("s.csv", "rate,period\n1,1\n"), *self.words[2:]]
        tool("sweep.py", *slow)
        self.refused("no variant has a bound", "sweep.py", *slow, "--plot", "rate", picture)
        named = [
            self.file("n.toml", TEMPLATE.replace("f1", "$name")),
            self.file("n.csv", "rate,period,name\n100,500,x\n"),
            *self.words[2:],
        ]
        tool("sweep.py", *named)
        self.refused("variant 1: name is 'x', and no number", "sweep.py", *named, "--plot", "name", picture)

    @unittest.skipIf(has("matplotlib"), "matplotlib is installed")
    def test_no_plot(self):
        self.refused("--plot needs matplotlib", "sweep.py", *self.words, "--plot", "rate", self.folder / "o.svg")

    def test_names_that_are_not_utf_8(self):
        import os

        folder = self.folder / os.fsdecode(b"\xe9")
        folder.mkdir()
        text = TEMPLATE.replace("$rate", "100").replace("$period", "1000")
        (folder / os.fsdecode(b"\xe9.toml")).write_text(text)
        program = folder / "netcalc"
        program.symlink_to(PROGRAM)
        run = tool("sweep.py", folder, "--table", folder / "o.csv", "--program", program)
        self.assertEqual(run.returncode, 0, run.stderr)
        self.assertIn(b"\r\n\xe9,0,", (folder / "o.csv").read_bytes())
        run = tool("round.py", self.file("n.toml", text), "--compare", "--program", program)
        self.assertIn("f1 136 136 0\n", run.stdout)

    def test_refusals_and_a_folder(self):
        folder = self.folder / "files"
        folder.mkdir()
        (folder / "a.toml").write_text(TEMPLATE.replace("$rate", "100").replace("$period", "1000"))
        (folder / "b.toml").write_text("")
        (folder / "c.toml").write_text("nonsense")
        run = tool("sweep.py", folder, *self.words[2:])
        self.assertEqual(run.returncode, 0, run.stderr)
        told = [(row["variant"], row["status"], row["refusal"]) for row in self.table()]
        self.assertEqual(told, [("a", "0", ""), ("b", "0", ""), ("c", "1", "netcalc: n.toml: M1")])


CURVES = """piece 0 at 1344 after 1344 slope 0
tail periodic 0 1000 1344
piece 0 at 0 after 0 slope 0
piece 750 at 0 after 0 slope 100
tail periodic 0 1000 25000
delay 19086/25
backlog 1344
"""


class Plot(WithFolder):
    """What is read of answers, and where a picture marks the deviations; drawing itself needs matplotlib."""

    def test_curves(self):
        (arrival, service), numbers = plot.read_curves(CURVES)
        self.assertEqual(numbers["delay"], "19086/25")
        self.assertEqual([piece[0] for piece in arrival.unrolled(Fraction(2500))], [0, 1000, 2000])
        served = service.graph(Fraction(3000))
        self.assertEqual((served.near(Fraction(800)), served.near(Fraction(3001))), ([5000], []))
        self.assertEqual(served.first_at(Fraction(1344)), Fraction(19086, 25))
        self.assertEqual((served.first_above(Fraction(25000)), served.first_at(Fraction(10**9))), (1750, None))
        level, start, reached = plot.widest(arrival, service, Fraction(3000))
        self.assertEqual((level, reached - start), (1344, Fraction(19086, 25)))
        time, low, top = plot.highest(arrival, service, Fraction(3000))
        self.assertEqual((time, low, top), (0, 0, 1344))

    def test_a_thousand_pieces(self):
        """What is drawn is found in less than a second of processor time, on a machine that other work keeps busy too."""
        import time

        pieces = [f"piece {at} at {at * at} after {at * at + 1} slope {2 * at}" for at in range(1000)]
        lines = [*pieces, "tail affine"]
        served = [f"piece {at} at {(at - 9) * at} after {(at - 9) * at} slope {2 * at - 8}" for at in range(9, 1000)]
        lines += ["piece 0 at 0 after 0 slope 0", *served, "tail affine", "delay 10", "backlog 8983"]
        curves, _ = plot.read_curves("\n".join(lines))
        begun = time.process_time()
        plot.widest(*curves, Fraction(999))
        self.assertEqual(plot.highest(*curves, Fraction(999)), (999, 989010, 998002))
        self.assertLess(time.process_time() - begun, 1)

    def test_a_gate_is_latest_behind_its_closed_time(self):
        lines = [
            "piece 0 at 22 after 22 slope 1",
            "tail affine",
            "piece 0 at 0 after 0 slope 0",
            "piece 10 at 0 after 0 slope 8",
        ]
        text = "\n".join([*lines, "tail periodic 0 13 24", "delay 21", "backlog 32"]) + "\n"
        _, start, reached = plot.widest(*plot.read_curves(text)[0], Fraction(80))
        self.assertEqual(reached - start, 21)

    def test_faults(self):
        first, second = CURVES.splitlines()[:2]
        for what, text, told in [
            ("bounds", "", "the answer has no flow and no queue"),
            ("bounds", "servers 0 flows 0\n", "the answer has no flow and no queue"),
            ("bounds", "servers 0 flows 0\nrun packets 0 end 0\nbreach none\n", "the answer has no flow and no queue"),
            ("bounds", "netcalc: cycle s1 s2 s1\n", "line 1: no line of an answer: netcalc: cycle"),
            ("bounds", "queue s1 0 delay 1/0 backlog 1\n", "line 1: '1/0' is no number"),
            ("bounds", "queue s1 0 delay\n", "line 1: no line of an answer"),
            ("bounds", "queue s1 0 delay " + 500 * "9" + " backlog 1\n", "(500 characters)' is no number"),
            ("bounds", "run packets 1 end 1\nflow f tfa 1 sfa 1 bound 1\n", "line 2: no line of an answer"),
            ("bounds", "queue s1 0 delay 1 backlog 1/" + 5000 * "0" + "1\n", "(5003 characters)' is no number"),
            ("bounds", "queue s1 0 delay 1 backlog 1/00\n", "'1/00' is no number"),
            ("bounds", "queue " + 100_000 * "s" + " 0 delay 1 backlog 1\n", "(100000 characters)' is no name"),
            ("bounds", "flow " + 33 * "f" + " tfa 1 sfa 1 bound 1\n", "' is no name"),
            ("bounds", "queue s1 1000 delay 1 backlog 1\n", "'1000' is no number of a queue"),
            ("bounds", b"\xe9", "line 1: byte 0xe9 is not UTF-8"),
            ("curves", "", "an answer with two curves shown"),
            ("curves", "rate 10\n", "an answer with two curves shown"),
            ("curves", "speed 10\n", "line 1: no line of an answer"),
            ("curves", first, "an answer with two curves shown"),
            ("curves", second, "line 1: the pieces before a tail"),
            ("curves", CURVES.replace("1344", "1/0"), "line 1: '1/0' is no number"),
            (
                "curves",
                CURVES.replace("0 1000 1344", "0 0 1344"),
                "line 2: a periodic tail has a start, a period above 0",
            ),
        ]:
            self.refused(told, "plot.py", what, self.file("answer", text), "-o", self.folder / "o.svg")
        self.refused("absent: No such file", "plot.py", "bounds", self.folder / "absent", "-o", self.folder / "o.svg")
        for path in ("o.xyz", "o.pdf", "o.pgf", "svg"):
            told = f"{path}: a picture ends with .svg or .png"
            self.refused(told, "plot.py", "curves", self.file("answer", CURVES), "-o", self.folder / path)

    def test_faults_of_rows(self):
        for text, told in [
            ("", "no packet enters"),
            ("enter,0,nobody,1\n", "line 1: no flow nobody"),
            ("enter,1/0,tracks,1\n", "line 1: '1/0' is no number"),
            ("enter,0,tracks,1\nreach,1,radar,-1\n", "line 2: no packet -1 has entered"),
            ("enter,0,tracks,1\nleave,1,radar,1\n", "line 2: no packet 1 has entered"),
            ("enter,0,tracks,1\nleave,1,camera,0\n", "line 2: packet 0 of tracks does not pass camera"),
            ("enter,0,tracks,1\nwork,nowhere,0,0,1,1\n", "line 2: no server nowhere"),
            ("packet,0,video,1\n", "line 1: no row of a recorded run"),
            ("enter,0,tracks,1\nvisit,0,radar," + 4 * "1" + "\n", "line 2: no row of a recorded run"),
            ('enter,0,"tracks,1\n', "line 1: unexpected end of data"),
        ]:
            self.refused(
                told,
                "plot.py",
                "run",
                self.file("run.csv", text),
                "--net",
                TOP / "examples/tutorial/stair.toml",
                "-o",
                self.folder / "o.svg",
            )
        for net, told in [
            ("nonsense", "no TOML"),
            ('[[flow]]\nname = "f"\npath = "s"\n', "path is not an array"),
            ('[[flow]]\nname = "f"\npath = ["s:x"]\n', "f has no path entry s:x"),
            ('[[server]]\nname = "%s"\n' % (100_000 * "s"), "(100000 characters)' is no name"),
        ]:
            run = self.file("run.csv", "enter,0,f,1\n")
            self.refused(told, "plot.py", "run", run, "--net", self.file("n.toml", net), "-o", self.folder / "o.svg")

    @unittest.skipIf(has("matplotlib"), "matplotlib is installed")
    def test_not_drawn(self):
        self.refused(
            "drawing needs matplotlib", "plot.py", "curves", self.file("answer", CURVES), "-o", self.folder / "o.svg"
        )

    @unittest.skipUnless(has("matplotlib"), "matplotlib is not installed")
    def test_drawn(self):
        report = "queue s1 0 delay unbounded backlog 0\nflow f1 tfa unbounded sfa unbounded bound unbounded\n"
        seen = "run packets 1 end 130\nworst f1 120 bound unbounded\npeak s1 0 12000 bound unbounded\nbreach none\n"
        flat = CURVES.splitlines()[:2] + [
            "piece 0 at 0 after 0 slope 0",
            "tail affine 0",
            "delay unbounded",
            "backlog unbounded",
        ]
        infinite = (
            ["piece 0 at 0 after unbounded", "tail infinite 0"]
            + CURVES.splitlines()[2:5]
            + ["delay unbounded", "backlog unbounded"]
        )
        net = ["--net", TOP / "examples/tutorial/stair.toml"]
        flows, queues = "delay bound of a flow", "bound of a queue"
        for what, text, words, drawn in [
            ("bounds", report, [], "unbounded"),
            ("bounds", "servers 1 flows 0\nqueue s1 0 delay 0 backlog 0\n", [], "s1:0"),
            ("bounds", report.partition("\n")[2], [], flows),
            ("bounds", seen, [], "worst of the run"),
            ("bounds", "run packets 1 end 130\nworst f1 120 bound unbounded\nbreach none\n", [], "delay of a flow"),
            ("curves", CURVES, [], "delay 19086/25"),
            ("curves", "\n".join(flat), [], "arrival curve"),
            ("curves", "\n".join(infinite), [], "service curve"),
            ("run", "enter,0,tracks,4032\nend,0\n", net, "works of tracks"),
        ]:
            picture = self.folder / "o.svg"
            run = tool("plot.py", what, self.file("answer", text), *words, "-o", picture)
            self.assertEqual((run.returncode, run.stderr), (0, ""))
            self.assertIn(drawn, picture.read_text())
            self.assertEqual(queues in picture.read_text(), text.count("\nqueue") + text.startswith("queue") > 0)
        fine = self.file("answer", CURVES.replace("0 1000 1344", "0 1/1000 1344"))
        self.refused("too many to draw", "plot.py", "curves", fine, "-o", self.folder / "o.svg")

    def test_run(self):
        flows, queues = plot.read_run(
            "run packets 1 end 130\nworst f1 120 bound 130\npeak s1 0 12000 bound unbounded\nbreach none\n"
        )
        self.assertEqual((flows, queues), ([("f1", 120, 130)], [("s1:0", 12000, None)]))

    def test_recorded(self):
        names, paths = plot.read_paths(TOP / "examples/tutorial/stair.toml")
        self.assertEqual(paths["tracks"], {"radar": 0, "sw1-sw2": 0, "sw2-computer": 0})
        servers, flows, end = plot.read_recorded((TOP / "examples/tutorial/meeting.csv").read_text(), names, paths)
        self.assertEqual((flows, end), (["video", "tracks"], Fraction(11051, 25)))
        switch = servers["sw1-sw2"]
        self.assertEqual(
            switch.works, [(0, Fraction(6957, 50), Fraction(13109, 50)), (1, Fraction(13109, 50), Fraction(605, 2))]
        )
        # as `check` says: its peak is 16336
        self.assertEqual(switch.holds(0, end)[1], [0, 12304, 16336, 4032, 0, 0])


class Distributed(WithVariants):
    """The same over a scheduler with two workers, of which one is ended half way."""

    def test_a_worker_may_go(self):
        try:
            import distributed
        except ImportError:
            self.skipTest("distributed is not installed")
        if "--dask" not in OPTIONS:
            self.skipTest("without --dask")
        import os
        import signal
        import threading
        import time

        rows = [f"{rate},{period}" for rate in range(20, 120) for period in (500, 1000)]
        self.words[1] = self.file("p.csv", "rate,period\n" + "\n".join(rows) + "\n")
        with distributed.LocalCluster(
            n_workers=2, threads_per_worker=1, processes=True, dashboard_address=None
        ) as cluster:
            first = next(iter(cluster.workers.values())).process.pid
            journal = self.folder / "out.csv.journal"

            ended = threading.Event()

            def end_a_worker():
                while not ended.is_set():
                    if journal.exists() and journal.read_text().count("\n") >= len(rows) // 2:
                        os.kill(first, signal.SIGKILL)
                        return
                    time.sleep(0.01)

            killer = threading.Thread(target=end_a_worker)
            killer.start()
            run = tool("sweep.py", *self.words, "--scheduler", cluster.scheduler_address)
            self.assertFalse(ended.is_set())
            ended.set()
            killer.join()
        self.assertEqual(run.returncode, 0, run.stderr)
        self.assertEqual([row["variant"] for row in self.table()], [str(number) for number in range(1, len(rows) + 1)])
        self.assertEqual({row["status"] for row in self.table()}, {"0"})
        self.assertEqual(journal.read_text().count("\n"), len(rows))
        print(f"{len(rows)} variants, a worker ended half way", file=sys.stderr)


OPTIONS = [word for word in sys.argv[1:] if word == "--dask"]

if __name__ == "__main__":
    unittest.main(argv=[sys.argv[0], *(word for word in sys.argv[1:] if word != "--dask")])
