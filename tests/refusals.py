#!/usr/bin/env python3
"""Files that are refused, and some at the edge of it, each by itself as a whole command: the first fault and where it is told.

    python3 tests/refusals.py [PROGRAM]

PROGRAM is that of bin/ where none is named. A row is a text and what is told of it, by the rules of docs/FORMATS.md and
docs/CALCULATOR.md. It prints each answer that is another one, and ends with 1 where one was.
"""

import subprocess
import sys
import tempfile
from pathlib import Path

TOP = Path(__file__).resolve().parent.parent
PAST = 2**127  # the least number that is none

NAMED = "[[server]]\nname = 's1'\n"
SERVER = NAMED + "rate = 100\nservice = { kind = 'latency', latency = 10 }\n"
PLAIN = NAMED + "rate = 100\n"
PACKET = "[[flow]]\nname = 'f1'\npacket = 12000\n"
FLOW = PACKET + "arrival = { kind = 'bucket', burst = 12000, rate = 10 }\n"
SMALL = "[[flow]]\nname = 'f1'\npacket = 1000\narrival = { kind = 'bucket', burst = 1, rate = 1 }\n"
PATH = "path = ['s1']\n"
OTHER = "[[flow]]\nname = 'f2'\npacket = 6000\narrival = { kind = 'bucket', burst = 6000, rate = 5 }\n"
NARROW = f"arrival = {{ kind = 'stair', period = '1/{2**120}' }}\n"
WIDE = f"rate = '{PAST - 1}'\n"
ROUND = "discipline = 'drr'\nquanta = "
LIST = "arrival = { kind = 'list', piece = "
LONG = "s" * 33

# A network file, and what is told of it.
NETWORKS = [
    # Each kind of fault, with its place.
    ("a", "M1"),
    ("[[server", "M1"),
    (SERVER + PACKET + "arrival = { kind = 'bucket', burst = 12000, rate = 10", "M1"),
    (NAMED, "M2 server[0].rate"),
    (SERVER + "[[flow]]\nname = 'f1'\n", "M2 flow[0].packet"),
    (NAMED + "rate = 1\nspeed = 2\nqueues = 0", "M3 server[0].speed"),
    (SERVER + "colour = 1\n" + FLOW + PATH, "M3 server[0].colour"),
    (NAMED + "rate = 1.5\n" + FLOW + PATH, "M4 server[0].rate"),
    ("server = [1]", "M4 server[0]"),
    (NAMED + "rate = '1/0'\n" + FLOW + PATH, "M5 server[0].rate"),
    (NAMED + f"rate = '{PAST}'\n" + FLOW + PATH, "M5 server[0].rate"),
    (NAMED + "rate = 0", "M6 server[0].rate"),
    ("version = 3", "M6 version"),
    (SERVER + FLOW + PATH + OTHER + "path = []\n", "M6 flow[1].path"),
    (NAMED + "rate = 1\n" + NAMED, "M7 server[1].name"),
    (SERVER + FLOW + PATH + FLOW + PATH, "M7 flow[1].name"),
    (NAMED + "rate = 1\nservice = { kind = 'latency', latency = -1 }", "M9 server[0].service negative"),
    (NAMED + "rate = 1\n" + ROUND + "[1,1,1,1,1,1,1,1,1]", "M11 server[0].quanta"),
    (SERVER + ROUND + "[6000, 6000]\n" + FLOW + PATH, "M12 server[0].quanta[0]"),
    (SERVER + ROUND + "[6000, 6000]\n" + FLOW + "path = ['s1:1']\n", "M12 server[0].quanta[1]"),
    (NAMED + WIDE + FLOW + PATH, "too wide: curve server[0].service"),
    (SERVER + PACKET + NARROW + PATH, "too wide: curve flow[0].arrival"),
    # Of two faults the first is told. Keys of one table go in the order of the format, and not of the file.
    ("version = 3\nserver = 1\n", "M6 version"),
    ("version = 3\nb = 1\na = 1\n", "M3 a"),
    (NAMED + "link = -1\nrate = 0\n", "M6 server[0].rate"),
    ("[[server]]\nlink = -1\nrate = 0\nname = 's 1'\n", "M6 server[0].name"),
    ("[[server]]\nspeed = 1\n", "M3 server[0].speed"),
    ("[[flow]]\npath = []\npacket = 0\nname = 'f1'\n", "M6 flow[0].packet"),
    (NAMED + "rate = 1\nservice = {}\nlink = -1\n", "M2 server[0].service.kind"),
    (PLAIN + "service = { foo = 1, kind = 'x' }\n", "M6 server[0].service.kind"),
    (PLAIN + "service = { foo = 1, kind = 'gate' }\n", "M3 server[0].service.foo"),
    (PACKET + "arrival = { kind = 'x', burst = 1 }\n", "M6 flow[0].arrival.kind"),
    # An array's own fault goes before those of its entries, and these go in order.
    (SERVER + FLOW + "path = ['s9', 's1:1']\n", "M8 flow[0].path[0]"),
    (SERVER + FLOW + "path = ['s1', 's1:1', 's1']\n", "M6 flow[0].path[1]"),
    (PACKET + LIST + "[{ at = 1 }, 5] }\n", "M2 flow[0].arrival.piece[0].x"),
    # Servers go in order, and before flows.
    (NAMED + "rate = 1\nlink = -1\n" + NAMED + "rate = 0\n", "M6 server[0].link"),
    ("[[flow]]\nname = 'f1'\n" + SERVER + NAMED, "M7 server[1].name"),
    (SERVER + FLOW + "path = []\n" + FLOW + PATH, "M6 flow[0].path"),
    # A later flow's fault goes before a short quantum, that before a curve over a limit, and services before arrivals.
    (PLAIN + ROUND + "[999, 2000]\n" + SMALL + "path = ['s1:0']\n", "M12 server[0].quanta[0]"),
    (PLAIN + ROUND + "[999, 2000]\n" + SMALL + "path = ['s1:0']\n[[flow]]\nname = 'f1'\n", "M7 flow[1].name"),
    (NAMED + WIDE + ROUND + "[1]\n" + FLOW + PATH, "M12 server[0].quanta[0]"),
    (SERVER + "[[server]]\nname = 's2'\n" + WIDE + PACKET + NARROW + PATH, "too wide: curve server[1].service"),
    (SERVER + FLOW + PATH + "[[flow]]\nname = 'f2'\npacket = 1\n" + NARROW + PATH, "too wide: curve flow[1].arrival"),
    # A limit hides that a curve falls, and not that its first piece is late.
    (SERVER + PACKET + LIST + f"[{{ x = 0, at = 1, slope = '-1/{2**120}' }}] }}\n" + PATH, "too wide: curve flow[0].arrival"),
    (SERVER + PACKET + LIST + f"[{{ x = 1, at = 1, slope = '-1/{2**120}' }}] }}\n" + PATH, "M9 flow[0].arrival not-rising"),
    # Edges of ranges.
    *[
        (NAMED + "rate = 1\n" + keys, f"{fault} server[0].{key}")
        for keys, fault, key in [
            ("discipline = 'FIFO'\n", "M6", "discipline"),
            ("discipline = 'priority'\n", "M2", "queues"),
            ("discipline = 'priority'\nqueues = 0\n", "M6", "queues"),
            ("discipline = 'priority'\nqueues = 9\n", "M6", "queues"),
            ("discipline = 'priority'\nqueues = 8\nquanta = 'x'\n", "M3", "quanta"),
            ("discipline = 'drr'\n", "M2", "quanta"),
            (ROUND + "[]\n", "M6", "quanta"),
            (ROUND + "[1, 0]\n", "M6", "quanta[1]"),
            (ROUND + "[16777216, 16777217]\n", "M6", "quanta[1]"),
            # Keys of another discipline: at their turn, whatever stands there.
            ("queues = 'x'\n", "M3", "queues"),
            (ROUND + "[1]\nqueues = 2\n", "M3", "queues"),
            ("quanta = 'x'\nqueues = 1\n", "M3", "queues"),
            ("quanta = 'x'\nqueues = 1\nlink = -1\n", "M6", "link"),
            # Keys of another kind of curve.
            ("service = { kind = 'list', piece = [], close = true }\n", "M3", "service.close"),
            ("service = { kind = 'latency', cycle = 1 }\n", "M3", "service.cycle"),
        ]
    ],
    (f"[[server]]\nname = '{LONG}'\n", "M6 server[0].name"),
    ("[[flow]]\nname = 'f1'\npacket = 16777217\n", "M6 flow[0].packet"),
    # Odd files.
    ("version = 9223372036854775808\n", "M1"),
    ("version = 9223372036854775807\n", "M6 version"),
    ("version = 1\nversion = 1\n", "M1"),
    (NAMED + "[server]\n", "M1"),
    ("[[server]]\nname = 's\u00e9'\n", "M6 server[0].name"),
    ("[[server]]\nname = ''\n", "M6 server[0].name"),
    ("'a.b' = 1\n", "M3 a.b"),
    (SERVER + "'' = 1\n", "M3 server[0]."),
    ("a\0 = 1\n", "M1"),
    (b"#\xff", "M1"),
    # Long ones.
    ("a = " + "[" * 100_000, "M1"),
    ("a = " + "{a=" * 100_000, "M1"),
    ("[" * 100_000 + "a]", "M1"),
    ("version = " + "9" * 100_000 + "\n", "M1"),
    (NAMED + "rate = '" + "9" * 100_000 + "'\n", "M5 server[0].rate"),
    (NAMED + "rate = '1/" + "0" * 100_000 + "'\n", "M5 server[0].rate"),
    ("[[server]]\nname = '" + "s" * 100_000 + "'\n", "M6 server[0].name"),
    (PLAIN + SMALL + "path = ['s1:" + "9" * 100_000 + "']\n", "M6 flow[0].path[0]"),
    ("[[server]]\n" + "k" * 100_000 + " = 1\n", "M3 server[0]." + "k" * 100_000),
    # So many are allowed and then have a fault of their own; one more is too many.
    ("[[server]]\n" * 64, "M2 server[0].name"),
    ("[[server]]\n" * 65, "M11 server"),
    ("[[flow]]\n" * 256, "M2 flow[0].name"),
    ("[[flow]]\n" * 257, "M11 flow"),
    (PLAIN + SMALL + "path = [" + "'s1'," * 16 + "]", "M10 flow[0].path[1]"),
    (PLAIN + SMALL + "path = [" + "'s1'," * 17 + "]", "M11 flow[0].path"),
    (PACKET + LIST + "[" + "{}," * 64 + "] }", "M2 flow[0].arrival.piece[0].x"),
    (PACKET + LIST + "[" + "{}," * 65 + "] }", "M11 flow[0].arrival.piece"),
]

# Files that are taken, and the first line of their report: a mark before the text, other ends of lines, empty arrays, a name of 32 letters, a
# link of -0 and keys with dots, and a server and a flow of one name.
TAKEN = [
    ("\ufeff" + SERVER + FLOW + PATH, "servers 1 flows 1"),
    ("[[server]]\r\nname = 's1'\r\nrate = 100\r\n", "servers 1 flows 0"),
    ("server = []\nflow = []\n", "servers 0 flows 0"),
    (
        f"[[server]]\nname = '{LONG[1:]}'\nrate = 1\nlink = '-0'\nservice.kind = 'gate'\nservice.cycle = 2\nservice.slot = 2\n"
        "discipline = 'priority'\nqueues = 8\n", "servers 1 flows 0"),
    ("[[server]]\nname = 'f1'\nrate = 1\n" + FLOW + "path = ['f1:00']\n", "servers 1 flows 1"),
]

# One network, in few words and in any order, and in whole: the reports on both are one.
ALIKE = [
    """
version = 1
[[flow]]
path = ['s1:1', 's2']
packet = 1000
name = 'f1'
arrival = { kind = 'bucket', burst = 3, rate = '1/2' }
[[flow]]
name = 'f2'
packet = 2000
arrival = { kind = 'stair', period = 1000, jitter = 2 }
path = ['s2:01', 's3:0', 'plain']
[[flow]]
name = 'f3'
packet = 16777216
path = ['plain']
[flow.arrival]
kind = 'list'
piece = [{ x = 0, at = 1 }]
tail = { rank = 0, period = 2, rise = 1 }
close = false
[[server]]
name = 's1'
rate = 100
service = { kind = 'latency', latency = '21/2' }
link = 1
discipline = 'priority'
queues = 2
[[server]]
name = 's2'
rate = '0201/2'
service = { kind = 'gate', cycle = 1000, slot = 250 }
link = '1/2'
discipline = 'drr'
quanta = [1000, 2000]
[[server]]
name = 's3'
rate = 5
discipline = 'fifo'
[server.service]
kind = 'list'
piece = [{ x = 0, at = 0 }, { x = 1, at = 0, after = 0, slope = 3 }]
[[server]]
name = 'plain'
rate = 16777216
""",
    """
server = [
  { name = "s1", rate = "100", service = { kind = "latency", latency = "42/4" }, link = "1", discipline = "priority", queues = 2 },
  { name = "s2", rate = "201/2", service = { kind = "gate", cycle = "1000", slot = "250" }, link = "2/4", discipline = "drr", quanta = [1000, 2000] },
  { name = "s3", rate = "5/1", link = 0, discipline = "fifo", service = { kind = "list", piece = [
    { x = 0, at = 0, after = 0, slope = 0 }, { x = 1, at = 0, after = 0, slope = 3 } ] } },
  { name = "plain", rate = 16777216, link = 0, discipline = "fifo", service = { kind = "latency", latency = 0 } },
]
flow = [
  { name = "f1", packet = 1000, arrival = { kind = "bucket", burst = 3, rate = "2/4" }, path = ["s1:1", "s2:0"] },
  { name = "f2", packet = 2000, arrival = { kind = "stair", period = 1000, jitter = 2 }, path = ["s2:1", "s3:0", "plain:0"] },
  { name = "f3", packet = 16777216, path = ["plain:0"], arrival = { kind = "list", piece = [{ x = 0, at = 1, after = 1, slope = 0 }], tail = {
    rank = 0, period = 2, rise = 1 } } },
]
""",
]

# Paths of a flow over one server of one queue.
PATHS = [
    ("['s1:1']", "M6 flow[0].path[0]"),
    ("['s1', 's1']", "M10 flow[0].path[1]"),
    ("['s1', 's1:0']", "M10 flow[0].path[1]"),
    ("['s9']", "M8 flow[0].path[0]"),
    ("['S1']", "M8 flow[0].path[0]"),
    ("['s1', 2]", "M4 flow[0].path[1]"),
    ("['s1:99999999999999999999']", "M6 flow[0].path[0]"),
    ("[]", "M6 flow[0].path"),
    ("'s1'", "M4 flow[0].path"),
    *[(f"['{entry}']", "M5 flow[0].path[0]") for entry in ("", "s 1", ":0", "s1:", "s1:-1", "s1:0:0", "s\u00e9", LONG)],
]

# Values that are of another kind than they have to be: of the second server or flow, and at the top.
KINDS = [
    *[
        (NAMED + "rate = 1\n[[server]]\n" + keys, f"M4 server[1].{key}")
        for keys, key in [
            ("name = 1\n", "name"),
            ("name = 's2'\nrate = true\n", "rate"),
            ("name = 's2'\nrate = 1\nservice = 'latency'\n", "service"),
            ("name = 's2'\nrate = 1\nservice = { kind = 1 }\n", "service.kind"),
            ("name = 's2'\nrate = 1\nservice = { kind = 'latency', latency = 1e3 }\n", "service.latency"),
            ("name = 's2'\nrate = 1\nservice = { kind = 'gate', cycle = 1979-05-27, slot = 1 }\n", "service.cycle"),
            ("name = 's2'\nrate = 1\nlink = []\n", "link"),
            ("name = 's2'\nrate = 1\ndiscipline = ['fifo']\n", "discipline"),
            ("name = 's2'\nrate = 1\ndiscipline = 'priority'\nqueues = '2'\n", "queues"),
            ("name = 's2'\nrate = 1\n" + ROUND + "1000\n", "quanta"),
            ("name = 's2'\nrate = 1\n" + ROUND + "[1000, '1']\n", "quanta[1]"),
        ]
    ],
    *[
        (SERVER + FLOW + PATH + "[[flow]]\n" + keys, f"M4 flow[1].{key}")
        for keys, key in [
            ("name = {}\n", "name"),
            ("name = 'f2'\npacket = '1'\n", "packet"),
            ("name = 'f2'\npacket = 1\narrival = 'bucket'\n", "arrival"),
            ("name = 'f2'\npacket = 1\narrival = { kind = 'bucket', burst = inf }\n", "arrival.burst"),
            ("name = 'f2'\npacket = 1\n" + LIST + "{} }\n", "arrival.piece"),
            ("name = 'f2'\npacket = 1\n" + LIST + "[1] }\n", "arrival.piece[0]"),
            ("name = 'f2'\npacket = 1\n" + LIST + "[{ x = nan }] }\n", "arrival.piece[0].x"),
            ("name = 'f2'\npacket = 1\n" + LIST + "[], tail = [] }\n", "arrival.tail"),
            ("name = 'f2'\npacket = 1\n" + LIST + "[], close = 1 }\n", "arrival.close"),
        ]
    ],
    ("version = '1'", "M4 version"),
    ("server = 's1'", "M4 server"),
    ("[server]\nname = 's1'", "M4 server"),
    ("flow = [[]]", "M4 flow[0]"),
]

# Services of a server that are refused for their shape, and why; nothing where they are not.
SERVICES = [
    ("kind = 'gate', cycle = 0, slot = -1", "negative"),
    ("kind = 'gate', cycle = 10, slot = 0", "zero-period"),
    ("kind = 'gate', cycle = 10, slot = 11", "zero-period"),
    ("kind = 'gate', cycle = 0, slot = 0", "zero-period"),
    ("kind = 'gate', cycle = -1, slot = 1", "zero-period"),
    ("kind = 'latency', latency = -1", "negative"),
    ("kind = 'list', piece = []", "not-rising"),
    ("kind = 'list', piece = [{ x = 0, at = 5, after = 3 }]", "not-rising"),
    ("kind = 'list', piece = [{ x = 0, at = 0, after = 1 }]", "not-continuous"),
    ("kind = 'list', piece = [{ x = 0, at = 1, after = 2 }]", "not-continuous"),
    ("kind = 'list', piece = [{ x = 0, at = 0 }, { x = 1, at = 1 }]", "not-continuous"),
    ("kind = 'list', piece = [{ x = 0, at = 1 }]", "not-zero-at-start"),
    # A jump at the end of a period is one.
    ("kind = 'list', piece = [{ x = 0, at = 0, slope = 1 }], tail = { rank = 0, period = 1, rise = 2 }", "not-continuous"),
    ("kind = 'list', piece = [{ x = 0, at = 0, slope = 1 }], tail = { rank = 0, period = 1, rise = 1 }", None),
    ("kind = 'list', piece = [{ x = 0, at = 0, slope = 1 }], tail = { rank = 0, period = 1, rise = '1/2' }", "not-rising"),
    # Over a limit: the numbers of a kind, and a line whose value at 0 does not fit.
    (f"kind = 'latency', latency = '1/{PAST - 1}'", "too wide"),
    (f"kind = 'gate', cycle = 1, slot = '1/{PAST - 1}'", "too wide"),
    (f"kind = 'gate', cycle = '{2**100}', slot = 1", "too wide"),
    (f"kind = 'list', piece = [{{ x = 0, at = 0, slope = '{2**126}' }}, {{ x = '{2**126}', at = 0, slope = '{2**126}' }}]", "too wide"),
]

# The same of arrivals.
PERIOD = "21267647932558653966460912964485513216/42535295865117307932921825928971026433"
ARRIVALS = [
    ("kind = 'bucket', burst = 1, rate = -1", "negative"),
    ("kind = 'bucket', burst = -1, rate = 0", "negative"),
    ("kind = 'stair', period = 0, jitter = '-1/2'", "negative"),
    ("kind = 'stair', period = 1, jitter = -1", "negative"),
    ("kind = 'stair', period = 0", "zero-period"),
    ("kind = 'stair', period = -1", "zero-period"),
    (f"kind = 'stair', period = '1/{PAST - 1}'", "too wide"),
    (f"kind = 'stair', period = 1, jitter = '1/{PAST - 1}'", "too wide"),
    (f"kind = 'stair', period = '1/{PAST - 1}', jitter = '{2**100}'", "too wide"),
    # Of a list the tail goes first, then the starts, and then the shape.
    ("kind = 'list', piece = [], tail = { rank = 0, period = 0, rise = 1 }", "zero-period"),
    ("kind = 'list', piece = [{ x = 0, at = 2 }], tail = { rank = 0, period = 1, rise = -1 }", "negative"),
    ("kind = 'list', piece = [{ x = 0, at = 0 }], tail = { rank = 0, period = 0, rise = 0 }", "zero-period"),
    ("kind = 'list', piece = [{ x = 0, at = 0 }], tail = { rank = 0, period = 0, rise = -1 }", "negative"),
    ("kind = 'list', piece = [{ x = 0, at = 0 }], tail = { rank = -1, period = 1, rise = 0 }", "negative"),
    ("kind = 'list', piece = [{ x = 0, at = 0 }], tail = { rank = 0, period = 1, rise = 0 }", None),
    ("kind = 'list', piece = []", "not-rising"),
    ("kind = 'list', piece = [{ x = 0, at = 0 }, { x = 0, at = 0 }]", "not-rising"),
    ("kind = 'list', piece = [{ x = 1, at = 0 }, { x = 2, at = 0 }]", "not-rising"),
    ("kind = 'list', piece = [{ x = 0, at = 0 }, { x = 1, at = 0 }]", None),
    ("kind = 'list', piece = [{ x = 0, at = 0 }, { x = -1, at = 0 }]", "negative"),
    ("kind = 'list', piece = [{ x = 1, at = 0 }]", "not-rising"),
    ("kind = 'list', piece = [{ x = 0, at = -1 }]", "negative"),
    ("kind = 'list', piece = [{ x = 0, at = 0, after = -1 }]", "negative"),
    ("kind = 'list', piece = [{ x = 0, at = 1, slope = -1 }]", "not-rising"),
    ("kind = 'list', piece = [{ x = 0, at = 5, slope = -1 }]", "not-rising"),
    ("kind = 'list', piece = [{ x = 0, at = 1 }]", None),
    ("kind = 'list', piece = [{ x = 0, at = 1, after = 2 }]", None),
    (f"kind = 'list', piece = [{{ x = 0, at = 1, slope = '-1/{2**61}' }}]", "too wide"),
    # A start in the second period is refused also where the sum of rank and period does not fit: 1/2 is just before it, and just in it.
    *[
        (f"kind = 'list', piece = [{{ x = 0, at = 0 }}, {{ x = '1/2', at = 0 }}], tail = {{ rank = '{rank}', period = '{PERIOD}', rise = 0 }}", told)
        for rank, told in [(f"1/{2**126 + 1}", "too wide"), (f"1/{2**126 + 3}", "not-rising")]
    ],
    # A closure has limits of its own: 2^20 pieces and more, and numbers that are too wide as well; not closed, both are curves.
    ("kind = 'list', piece = [{ x = 0, at = 0 }, { x = 1, at = 1 }, { x = '1048577/1048576', at = 2 }], close = true", "too many"),
    (f"kind = 'list', piece = [{{ x = 0, at = 0 }}, {{ x = 1, at = 1 }}, {{ x = '{2**60 + 1}/{2**60}', at = 2 }}], close = true", "too wide"),
    (f"kind = 'list', piece = [{{ x = 0, at = 0 }}, {{ x = 1, at = 1 }}, {{ x = '{2**60 + 1}/{2**60}', at = 2 }}], close = false", None),
]

# Scripts of the calculator, and what is told of them. A line is looked at by itself before any statement is answered.
SHOWN = "piece 0 at 0 after 0 slope 0\ntail affine 0\n"
FAR = 10**37
SCRIPTS = [
    ("\tshow zero", "C1 line 1"),
    ("show bucket(1, q) \t", "C1 line 1"),
    ("show bucket(1, q) \x7f", "C1 line 1"),
    ("\n# a comment\nshow bucket(1)", "C2 line 3"),
    ("show bucket(q", "C2 line 1"),
    ("let zero = zero", "C2 line 1"),
    ("let 1a = zero", "C2 line 1"),
    ("show bucket(1, q)", "C3 line 1"),
    ("show bucket(1, 1/0)", "C3 line 1"),
    ("show zero\nshow bucket(1, q)\n\t", "C3 line 2"),
    ("value x at 1\n\tshow zero", "C1 line 2"),
    ("value x at 1\nshow bucket(1)", "C2 line 2"),
    # Names, of 32 letters at most.
    ("value x at 1", "C6 line 1"),
    ("let a = zero\n\nlet a = x", "C5 line 3"),
    ("let a = a", "C6 line 1"),
    ("show a\nlet a = zero", "C6 line 1"),
    ("show sum(bucket(-1, 0), x)", "C7 line 1"),
    ("show sum(x, bucket(-1, 0))", "C6 line 1"),
    ("equal bucket(-1, 0), x", "C7 line 1"),
    ("equal x, bucket(-1, 0)", "C6 line 1"),
    ("value x at -1", "C6 line 1"),
    ("show scale(x, -1)", "C6 line 1"),
    ("show a23456789012345678901234567890_-", "C6 line 1"),
    ("show a234567890123456789012345678901-x", "C2 line 1"),
    ("let " + "ab" * 16 + "c = zero", "C2 line 1"),
    ("rate zero\nshow " + "ab" * 16 + "c", "C2 line 2"),
    # Parentheses, 64 deep at most, and 256 statements at most.
    ("show " + "scale(" * 64 + "zero" + ", 1)" * 64, SHOWN),
    ("show " + "scale(" * 65 + "zero" + ", 1)" * 65, "C4 line 1"),
    ("show " + "scale(" * 65 + "zero" + ", q)" * 65, "C3 line 1"),
    ("rate " + "close(" * 9000 + "zero" + ")" * 9000, "C4 line 1"),
    ("rate " + "close(" * 9000 + "zero" + ")" * 9001, "C2 line 1"),
    ("#\nrate zero\n" * 256, "rate 0\n" * 256),
    ("rate zero\n" * 257, "C4 line 257"),
    ("rate zero\n" * 256 + "\nshow x", "C4 line 258"),
    ("rate zero\n" * 256 + "\nshow x(", "C2 line 258"),
    # Kinds of curves, the second statement each.
    *[
        (f"rate zero\nshow {curve}", "C7 line 2")
        for curve in (
            "bucket(-1, 0)", "bucket(0, -1)", "latency(-1, 0)", "latency(1, -1)", "latency(0, -1)", "stair(0, 1, 0)", "stair(1/2, 1, 0)",
            "stair(16777217, 1, 0)", "stair(1, 0, 0)", "stair(1, 1, -1)", "stair(0, -1, 0)", "stair(0, 0, -1)", "gate(-1, 1, 1)", "gate(1, 1, 2)",
            "gate(1, 0, 0)", "gate(100, 10, 11)", "gate(1, 10, 0)", "gate(0, 0, 0)", "gate(1, -1, 1)", "gate(-1, 0, 0)", "gate(1, 0, -1)")
    ],
    # Conditions of operators: d is below 0, u is infinite, and p falls.
    *[
        ("let d = deconv(bucket(1, 1), bucket(2, 1))\nlet u = deconv(bucket(1, 2), bucket(0, 1))\n"
         f"let p = posdiff(bucket(5, 0), latency(1, 0))\n{statement}", "C8 line 4")
        for statement in (
            "value zero at -1", "show close(d)", "show runsup(d)", "show runinf(d)", "show close(u)", "show runsup(u)", "show runinf(u)",
            "show shift(zero, -1)", "show posminus(zero, -1)", "show posminus(u, 1)", "show scale(zero, -1)", "show scale(u, 1)",
            "show posdiff(u, zero)", "show deconv(zero, u)", "delay zero, u", "delay p, zero", "delay zero, p", "backlog zero, u")
    ],
    # Over a limit, before what comes after it.
    (f"value bucket(0, 1) at {10**36}", "too wide: line 1"),
    (f"value bucket(3, 2) at {PAST - 1}", "too wide: line 1"),
    (f"show latency(1, {FAR})", "too wide: line 1"),
    (f"rate zero\nequal latency(1, {FAR}), x", "too wide: line 2"),
    (f"show x\nshow latency(1, {FAR})", "C6 line 1"),
    (f"show scale(latency(1, {FAR}), -1)", "too wide: line 1"),
    *[
        (f"rate {curve}", "too wide: line 1")
        for curve in (
            f"latency({2**62}, {2**62})", f"latency({2**100}, {2**100})", f"latency(1/{PAST - 1}, 0)", f"gate(1, 1, 1/{PAST - 1})",
            f"gate({2**100}, {2**100}, 1)", f"stair(4, 1/{PAST - 1}, 0)", f"stair(4, 1, 1/{PAST - 1})", f"stair(4, 1/{PAST - 1}, {2**100})")
    ],
    # Texts that are no numbers.
    *[
        (f"value zero at {text}", "C3 line 1")
        for text in ("1/000", f"{PAST}", f"1/{PAST}", f"-{PAST}/0", "9" * 50 + "/1", f"{PAST}/", "1/", "/1", "-", "--1", "1/-2", "6/-4", "1/2/3")
    ],
    *[(f"value zero at {text}", "C2 line 1") for text in ("", "1 1")],
    *[(f"value zero at {text}", "C1 line 1") for text in ("1\t",)],
]

# Rows of traces and of lists of edits, over the network of one server s1 and one flow f1.
ROWS = [
    ("simulate", "packet,0,f1,1\npaint,\x07", "T1 row 2"),
    ("simulate", "paint", "T2 row 1"),
    ("simulate", "packet,0,f1", "T3 row 1"),
    ("simulate", "packet,0,f1,x", "T4 row 1"),
    ("simulate", "packet,0,z,0", "T4 row 1"),
    ("simulate", "stall,z,2,2", "T4 row 1"),
    ("simulate", "packet,0,f9,1", "T5 row 1"),
    ("simulate", "\npacket,5,f1,1\npacket,4,f1,1", "T6 row 2"),
    ("simulate", "packet,0,f1,1\n" * 10_000 + "paint\n", "T7 row 10001"),
    ("edit", "undo\nundo\t", "T1 row 2"),
    ("edit", "paint,s1", "T2 row 1"),
    ("edit", "undo,1", "T3 row 1"),
    ("edit", "rate,s1,x", "T4 row 1"),
    ("edit", "route,f1,", "T4 row 1"),
    ("edit", "route,f1,s1  s2", "T4 row 1"),
    ("edit", "packet,f1,1/1", "T4 row 1"),
    ("edit", "packet,f1,9223372036854775808", "T4 row 1"),
]


def cases():
    """Each call: its words, its files, and what is told."""
    for text, told in NETWORKS + KINDS + TAKEN + [(PLAIN + SMALL + f"path = {path}\n", told) for path, told in PATHS]:
        yield "analyse f", {"f": text}, told
    for service, told in SERVICES:
        yield "analyse f", {"f": PLAIN + f"service = {{ {service} }}\n"}, of_curve(told, "server[0].service")
    for arrival, told in ARRIVALS:
        # A later curve that is over a limit by itself is not looked at before.
        later = "[[flow]]\nname = 'f2'\npacket = 1\n" + NARROW + PATH
        text = SERVER + PACKET + f"arrival = {{ {arrival} }}\n" + PATH + later
        yield "analyse f", {"f": text}, of_curve(told, "flow[0].arrival") or "too wide: curve flow[1].arrival"
    for script, told in SCRIPTS:
        yield "curve f", {"f": script}, told
    for command, rows, told in ROWS:
        yield f"{command} n f", {"n": SERVER + FLOW + PATH, "f": rows}, told


def of_curve(told, place):
    """What is told of a curve that is refused for its shape or is over a limit; nothing where it is neither."""
    if told is None or told.startswith("too"):
        return told and f"{told}: curve {place}"
    return f"M9 {place} {told}"


def wanted(told):
    """The status and the text or its begin: of no refusal, of a limit, of an answer (its lines end), or of a fault."""
    if told is None:
        return 0, ""
    if told.startswith("servers "):
        return 0, told + "\n"
    if told.startswith("too"):
        return (6 if told.startswith("too wide") else 7), f"netcalc: {told}\n"
    if told.endswith("\n"):
        return 0, told
    return 1, f"netcalc: f: {told}\n"


def run(program, words, folder, files):
    """The status of a call where these files lie, and what it writes."""
    for name, text in files.items():
        Path(folder, name).write_bytes(text if isinstance(text, bytes) else text.encode())
    child = subprocess.run([program, *words.split()], cwd=folder, stdout=subprocess.PIPE, stderr=subprocess.STDOUT, check=False)
    return child.returncode, child.stdout.decode(errors="replace")


def main():
    program = str(Path(sys.argv[1] if len(sys.argv) > 1 else TOP / "bin/x86_64-linux/netcalc").resolve())
    tried = wrong = 0
    with tempfile.TemporaryDirectory(prefix="refusals_") as folder:
        for words, files, told in cases():
            came, wrote = run(program, words, folder, files)
            status, text = wanted(told)
            tried += 1
            # A report goes on after the line that is wanted of it; a refusal has no other line.
            if came != status or not wrote.startswith(text) or (status and wrote != text):
                wrong += 1
                print(f"tests/refusals.py: {words} on {files['f'][:200]!r}: status {came}, {wrote[:200]!r}, wanted {str(told)[:200]!r}")
        reports = {run(program, "analyse f", folder, {"f": text}) for text in ALIKE}
        if len(reports) != 1 or min(reports)[0] != 0:
            wrong += 1
            print(f"tests/refusals.py: two files of one network: {reports}")
    print(f"refusals: {tried} files; {wrong} wrong")
    sys.exit(1 if wrong else 0)


if __name__ == "__main__":
    main()
