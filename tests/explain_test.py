#!/usr/bin/env python3
"""Tries `./netcalc explain`, and what the launcher adds for people: each code of a refusal has its sentences, and each
refusal of a small file is told with the file, the line and the name of its place. Needs Python 3.11."""

import os
import pathlib
import pty
import re
import shutil
import subprocess
import sys
import unittest

from tools_test import PROGRAM, TOP, WithFolder

import explain  # noqa: E402  (from tools/, by the path that tools_test sets)
import networks  # noqa: E402
from places import Places  # noqa: E402

SERVER = '[[server]]\nname = "s1"\nrate = 100\n'
SECOND = '\n[[server]]\nname = "s2"\nrate = 100\n'
FLOW = (
    '\n[[flow]]\nname = "video"\npacket = 1000\narrival = { kind = "bucket", burst = 1000, rate = 1 }\npath = ["s1"]\n'
)

# A network's file, the fault, the words that tell its place, and the hint at what was meant.
NETWORKS = [
    ("a = [", "M1", "n.toml: ", "(at end of document)"),
    ("x = 1\nx = 2\n", "M1", "n.toml: ", "at line 2"),
    ("x = 99999999999999999999\n", "M1", "line 1: x has more than 64 bits", ""),
    (SERVER + '[[server]]\nname = "s2"\n', "M2", "n.toml line 4: server s2, rate", ""),
    (SERVER + "lnik = 3\n", "M3", "n.toml line 4: server s1, lnik", "(is it 'link'?)"),
    (SERVER.replace("100", "1.5"), "M4", "n.toml line 3: server s1, rate", ""),
    (SERVER.replace("100", '"1/0"'), "M5", "n.toml line 3: server s1, rate", ""),
    (SERVER + SECOND.replace("100", "0"), "M6", "n.toml line 7: server s2, rate", ""),
    (SERVER + SERVER, "M7", "n.toml line 5: server s1, name", ""),
    (SERVER + FLOW.replace('"s1"', '"s2"'), "M8", "n.toml line 9: flow video, path[0]", "(is it 's1'?)"),
    (SERVER + FLOW.replace("burst = 1000", "burst = -1"), "M9", "n.toml line 8: flow video, arrival", ""),
    (SERVER + FLOW.replace('["s1"]', '[\n  "s1",\n  "s1"\n]'), "M10", "n.toml line 11: flow video, path[1]", ""),
    ("".join(SERVER.replace("s1", f"s{n}") for n in range(65)), "M11", "n.toml line 1: server", ""),
    (SERVER + 'discipline = "drr"\nquanta = [10]\n' + FLOW, "M12", "n.toml line 5: server s1, quanta[0]", ""),
]

# Rows of a trace or a recorded run, the fault, and its line; a script's lines likewise.
ROWS = [
    ("simulate", "packet,0,v\tideo,1\n", "T1", 1),
    ("simulate", "\npacket,0,video,1\n\npaket,0,video,1\n", "T2", 4),
    ("simulate", "packet,0,video\n", "T3", 1),
    ("simulate", "packet,0,video,0\n", "T4", 1),
    ("simulate", "packet,0,vidoe,1\n", "T5", 1),
    ("simulate", "packet,1,video,1\n\npacket,0,video,1\n", "T6", 3),
    ("simulate", 10001 * "packet,0,video,1\n", "T7", 10001),
    ("check", "end,0\nend,0\n", "T8", 2),
    ("check", "enter,0,video,10\nleave,5,s1,0\nend,5\n", "L6", 2),
    ("curve", "show zero\nshow\té\n", "C1", 2),
    ("curve", "show bucket(1)\n", "C2", 1),
    ("curve", "show bucket(1, q)\n", "C3", 1),
    ("curve", 257 * "show zero\n", "C4", 257),
    ("curve", "let a = zero\nlet a = zero\n", "C5", 2),
    ("curve", "value x at 1\n", "C6", 1),
    ("curve", "show bucket(-1, 1)\n", "C7", 1),
    ("curve", "value zero at -1\n", "C8", 1),
]

# What has a line of refusal and no code.
OTHERS = [
    "too long", "cannot read", "unknown flow", "cycle", "too many: curve", "too wide: curve", "too wide: simulation",
    "too wide: check", "too many: measure", "too wide: measure", "too many: burst", "too wide: burst", "too many: line",
    "too wide: line", "too many", "too wide",
]  # fmt: skip


class Explain(WithFolder):
    def explained(self, *words):
        """What the program prints for some words, and the lines that explain it."""
        run = subprocess.run([PROGRAM, *words], cwd=self.folder, capture_output=True, text=True, check=False)
        here = os.getcwd()
        os.chdir(self.folder)
        try:
            return run.stdout, explain.explain(run.stdout, list(words))
        finally:
            os.chdir(here)

    def test_each_code_has_its_sentences(self):
        known = explain.sentences()
        codes = [f"M{n}" for n in range(1, 13)] + [f"T{n}" for n in range(1, 9)] + [f"C{n}" for n in range(1, 9)]
        codes += [f"L{n}" for n in range(1, 10)] + [
            f"refused {word}" for word in "unknown-name bad-value limit cycle".split()
        ]
        for code in codes + OTHERS:
            means, mend = known[code]
            self.assertTrue(len(means) > 10 and len(mend) > 10, code)
            pages = (TOP / "docs/FORMATS.md").read_text() + (TOP / "docs/CALCULATOR.md").read_text()
            self.assertIn(f"| {means} | {mend} |", pages, code)
        cells = explain.CELLS.split("|") + ["path-service", "tfa", "sfa", "bound"]
        self.assertEqual({code[5:] for code in known if code.startswith("cell ")}, set(cells))

    def test_networks(self):
        known = explain.sentences()
        for text, code, place, hint in NETWORKS:
            self.file("n.toml", text)
            told, lines = self.explained("analyse", "n.toml")
            self.assertRegex(told, rf"^netcalc: n.toml: {code}\b", code)
            self.assertIn(place, lines[0], (code, lines))
            self.assertIn(hint, "\n".join(lines))
            self.assertIn(f"  {code}: {known[code][0]}".replace("`", "'"), lines)
        self.assertEqual({code for _, code, _, _ in NETWORKS}, {f"M{n}" for n in range(1, 13)})

    def test_rows_and_scripts(self):
        for command, text, code, line in ROWS:
            self.file("n.toml", SERVER + FLOW)
            self.file("rows", text)
            told, lines = self.explained(*([command, "rows"] if command == "curve" else [command, "n.toml", "rows"]))
            self.assertIn(f" {code}", told)
            self.assertIn(f"rows line {line}", lines[0], (code, lines))
            self.assertTrue(lines[1].startswith("    ") and any(f"  {code}: " in told for told in lines), lines)

    def test_limits_and_cycles(self):
        wide = FLOW.replace("rate = 1 ", 'rate = "1/1329227995784915872903807060280344576" ')
        ring = (
            SERVER
            + SECOND
            + FLOW.replace('["s1"]', '["s1", "s2"]')
            + FLOW.replace("video", "back").replace('["s1"]', '["s2", "s1"]')
        )
        stairs = [
            FLOW.replace("video", f"f{n}").replace('"bucket", burst = 1000, rate = 1', f'"stair", period = "{n}/1000"')
            for n in (999983, 999979)
        ]
        for text, told in [
            (
                ring,
                [
                    "n.toml: the paths go round over s1 s2 s1",
                    "s1 to s2: flow video, line 13",
                    "s2 to s1: flow back, line 19",
                ],
            ),
            (
                SERVER + "".join(stairs),
                [
                    "queue 0 of server s1 (n.toml line 1)",
                    "at s1: 999979/1000, 999983/1000; together after 999962000357/1000",
                    "total: the sum of the curves",
                    "too many: an operator",
                ],
            ),
            (SERVER + wide + wide.replace("video", "other"), ["server s1 (n.toml line 1)", "too wide: a number"]),
            (
                SERVER + FLOW.replace('"bucket", burst = 1000, rate = 1', f'"stair", period = "1/{2**120}"'),
                ["n.toml line 8: flow video"],
            ),
        ]:
            self.file("n.toml", text)
            _, lines = self.explained("analyse", "n.toml")
            for words in told:
                self.assertIn(words, "\n".join(lines))

    def test_edits(self):
        self.file("n.toml", SERVER + FLOW)
        self.file("e.csv", "rate,s9,1\n\nrate,s1,0\nrate,s1,5\n")
        told, lines = self.explained("edit", "n.toml", "e.csv")
        self.assertEqual(told.count("refused"), 2)
        self.assertEqual([line for line in lines if line.startswith("e.csv")], ["e.csv line 1", "e.csv line 3"])
        self.assertIn("(is it 's1'?)", "\n".join(lines))

    def test_nothing_to_explain(self):
        self.file("n.toml", SERVER + FLOW)
        self.assertEqual(self.explained("analyse", "n.toml")[1], [])
        self.assertEqual(self.explained("nonsense")[1], [])

    def test_a_lost_file_has_no_line(self):
        lines = explain.explain("netcalc: gone.toml: M6 flow[2].path[1]\nnetcalc: too wide: total s1 0\n", [])
        self.assertEqual(lines[0], "gone.toml: flow[2].path[1]")
        self.assertIn("queue 0 of server s1", lines)

    def test_codes_that_there_are_not_have_no_sentences(self):
        long = 5000 * "9"
        for line in [
            "netcalc: n: M99 flow[0]",
            "netcalc: n: M8",
            "netcalc: n: T9 row 1",
            f"netcalc: n: T1 row {long}",
            f"netcalc: n: C1 line {long}",
            f"netcalc: too many: line {long}",
            "edit 1 refused too-",
            f"edit {long} refused limit",
            f"verdict unlawful row {long} L1",
            "verdict unlawful row 1 L0",
        ]:
            lines = explain.explain(line + "\n", [])
            self.assertFalse([said for said in lines if "to mend it" in said], line)

    def test_odd_texts_have_no_places_and_no_fault(self):
        for text in [
            "[",
            "[[a",
            'a = "',
            "a = {b",
            "a = '''x",
            "]",
            "a.b.c",
            "=",
            "[a]\nb = [1, {c = 2},\n",
            "\x00",
            9000 * "[",
        ]:
            Places(text)
        places = Places(
            '[[server]]\n"na\\"me" = 1 # x\nname = """s"""\nservice = { kind = "list",\n  piece = [ { x = 0 } ] }'
        )
        self.assertEqual(places.lines['server[0].na"me'], 2)
        self.assertEqual((places.line("server[0].service.piece[0].x"), places.owner("server[0].x")), (5, "server s"))


class Launcher(WithFolder):
    """What the launcher adds, with the program of bin/ (or the launcher's own)."""

    def run_it(self, *words, text=None):
        return subprocess.run(
            [TOP / "netcalc", *words], input=text, cwd=self.folder, capture_output=True, text=True, check=False
        )

    def test_help_and_version(self):
        usage = (TOP / "tests/words/help/stdout").read_text()
        told = self.run_it("--help")
        self.assertEqual((told.returncode, told.stderr), (0, ""))
        for command in re.findall(r"(\w+) (?:NET|N|FILE)\b", usage.removeprefix("netcalc: usage: netcalc ")):
            self.assertIn(f"  netcalc {command} ", told.stdout)
        for word in "import lint report explain round sweep plot what-if".split():
            self.assertIn(f"  netcalc {word} ", told.stdout)
        told = self.run_it("--version")
        self.assertEqual(told.returncode, 0)
        self.assertRegex(told.stdout, r"^netcalc of the sources [0-9a-f]{16}, built by \S.*\n$")
        self.assertTrue(os.access(self.run_it("--program").stdout.removesuffix("\n"), os.X_OK))

    def test_explain(self):
        path = self.file("n.toml", SERVER + FLOW.replace('"s1"', '"s2"'))
        told = self.run_it("explain", "analyse", path.name)
        self.assertEqual((told.returncode, told.stdout), (1, "netcalc: n.toml: M8 flow[0].path[0]\n"))
        self.assertIn("n.toml line 9: flow video, path[0]", told.stderr)
        piped = self.run_it("explain", text=told.stdout)
        self.assertEqual((piped.returncode, piped.stdout, piped.stderr), (0, told.stdout, told.stderr))

    def test_the_links_of_the_front_page(self):
        """Its lines work in a home that has no folder yet."""
        lines = re.findall("^    ((?:mkdir|ln) .*)$", (TOP / "README.md").read_text(), re.M)
        home = {**os.environ, "HOME": str(self.folder)}
        subprocess.run(["sh", "-ec", "\n".join(lines)], cwd=TOP, env=home, check=True)
        links = [path for path in self.folder.rglob("*") if path.is_symlink()]
        self.assertEqual({path.name for path in links}, {"netcalc", "netcalc.1", "netbound", "netbound.1"})
        self.assertEqual((len(lines), len(links), all(path.exists() for path in links)), (5, 6, True))
        for name in ("netcalc", "netbound"):
            told = subprocess.run([self.folder / ".local/bin" / name, "--version"], stdout=subprocess.PIPE, check=False)
            self.assertEqual((told.returncode, told.stdout[: len(name)]), (0, name.encode()))

    def test_a_terminal(self):
        """Its standard error alone decides; the bytes and the status of the program stay as they are."""
        self.file("n.toml", SERVER + FLOW.replace('"s1"', '"s2"'))
        self.file("good.toml", SERVER + FLOW)
        for name, status, told in [("n.toml", 1, "flow video, path[0]"), ("good.toml", 0, "")]:
            there, here = pty.openpty()
            run = subprocess.run(
                [TOP / "netcalc", "analyse", name], cwd=self.folder, stdout=subprocess.PIPE, stderr=here, check=False
            )
            os.write(here, b".")
            seen = os.read(there, 10000).decode()
            os.close(here), os.close(there)
            plain = subprocess.run([PROGRAM, "analyse", name], cwd=self.folder, stdout=subprocess.PIPE, check=False)
            self.assertEqual((run.returncode, run.stdout), (status, plain.stdout))
            self.assertEqual(plain.returncode, status)
            self.assertIn(told, seen)
            self.assertEqual(seen == ".", status == 0)

    def test_a_terminal_without_cat_has_the_answer(self):
        self.file("good.toml", SERVER + FLOW)
        for name in ("find", "getconf", "mktemp", "rm", "sha256sum", "sort", "uname"):
            (self.folder / name).symlink_to(shutil.which(name))
        there, here = pty.openpty()
        words = [TOP / "netcalc", "analyse", "good.toml"]
        few = os.environ | {"PATH": str(self.folder)}
        run = subprocess.run(words, cwd=self.folder, stdout=subprocess.PIPE, stderr=here, env=few, check=False)
        os.close(here), os.close(there)
        self.assertEqual((run.returncode, run.stdout[:19]), (0, b"servers 1 flows 1\nq"))

    def test_a_full_device_is_a_write_fault_on_a_terminal_too(self):
        if not pathlib.Path("/dev/full").exists():
            self.skipTest("no /dev/full")
        self.file("good.toml", SERVER + FLOW)
        there, here = pty.openpty()
        with open("/dev/full", "w") as full:
            run = subprocess.run(
                [TOP / "netcalc", "analyse", "good.toml"], cwd=self.folder, stdout=full, stderr=here, check=False
            )
        os.close(here), os.close(there)
        self.assertEqual(run.returncode, 4)


if __name__ == "__main__":
    unittest.main()
