#!/usr/bin/env python3
"""Tables at the limits of netbound, and what it takes for them.

    python3 bench/heaviest_tables.py NETBOUND [WORD]

Each pair of tables is at one of the limits (ports, queues, links, branches, ports of a path, bytes), or written to be slow: a port to which frames come from
thousands of others, with many queues, where each step of what the other queues bring is a service, and each service is held to each step of the queue's own.
Two pairs differ in the names of their ports alone: those of the one would all begin at one place in a hash table of the kit's.
With WORD only those whose name has it. A line each: the status, seconds of processor time (at most 120), megabytes, and the first line that it prints.
It asserts nothing.
"""

import itertools
import resource
import string
import sys
import tempfile
from pathlib import Path

import real_size

SECONDS = 120
PORTS = "name,rate,latency,link,discipline"
LINKS = "name,bag,largest_frame,jitter,priority,path"
QUANTA = "drr " + " ".join(["2000"] * 8)


def tables(ports, links):
    return "\n".join([PORTS, *ports]) + "\n", "\n".join([LINKS, *links]) + "\n"


def base36(number):
    """A short name."""
    digits = ""
    while True:
        digits = "0123456789abcdefghijklmnopqrstuvwxyz"[number % 36] + digits
        number //= 36
        if not number:
            return digits


def star(sources, queues, discipline):
    """So many ports, each of which sends a link into each queue of the last one; no two have one rate, and all of them together less than that one."""
    ports = [f"{base36(n)},{200 + n / 1000},0,0,{discipline}" for n in range(sources)] + [f"last,1000000,0,0,{discipline}"]
    links = [f"{base36(n)}_{q},{1 + n % 97},{64 + n % 1400},{n % 11},{q},{base36(n)} last" for n in range(sources) for q in range(queues)]
    return tables(ports, links)


def nearly_full(sources):
    """So many ports of links that are served first, each of a pace little above its load, and so many of the other links of one port, which are hardly slower
    than each of the services that are left: so each of these is held to 4,096 jumps."""
    paces = [(0.4505 + 0.009 * (n % 97) / 97) * 1000 / sources for n in range(sources)]
    ports = [f"a{n},{pace:.6f},0,0,priority 2" for n, pace in enumerate(paces)] + [f"b{n},100,0,0,priority 2" for n in range(sources)]
    gaps = [0.512 * sources / (load * 1000) for load in (0.45, 0.539)]
    first = [f"u{n},{gaps[0]:.6f},44,{n * 37 % 5000},0,a{n} last" for n in range(sources)]
    rest = [f"v{n},{gaps[1]:.6f},44,{n * 53 % 7000},1,b{n} last" for n in range(sources)]
    return tables([*ports, "last,1000,0,0,priority 2"], first + rest)


def full_of_quanta(sources):
    """So many ports, each of a pace little above its load, with a link into each of the 8 queues of the last one, which they fill all but a thousandth:
    each step of what seven queues bring is a service of the eighth, and little faster than its links."""
    load = 999 / sources
    ports = [f"p{n},{load * (1.0001 + 0.0006 * (n % 97) / 97):.6f},0,0,{QUANTA}" for n in range(sources)]
    gap = 0.512 * 8 / load
    links = [f"l{n}_{q},{gap * (1 + 0.0001 * ((n * 7 + q) % 13)):.6f},44,{(n * 37 + q * 11) % 5000},{q},p{n} last" for n in range(sources) for q in range(8)]
    return tables([*ports, f"last,1000,0,0,{QUANTA}"], links)


def chain():
    """16,384 links along the same 64 ports."""
    ports = [f"{base36(n)},1000000,0,0," for n in range(64)]
    path = " ".join(base36(n) for n in range(64))
    return tables(ports, [f"{base36(n)},100,64,0,,{path}" for n in range(16_384)])


def wide_tree():
    """Links of 32 branches over 62 ports each, that part at the last one."""
    ports = [f"{base36(n)},1000000,0,0," for n in range(1000)]
    way = " ".join(base36(n) for n in range(61))
    return tables(ports, [f"{base36(n)},100,64,0,,{way} {base36(100 + (n + 7 * b) % 900)}" for n in range(2_400) for b in range(32)])


def short_branches():
    """131,072 branches of 16,384 links, each of one port and in parts of one row."""
    ports = [f"{base36(n)},1000,0,0," for n in range(4_096)]
    return tables(ports, [f"{base36(n % 16_384)},100,64,0,,{base36(n % 4_096)}" for n in range(131_072)])


def many_queues():
    ports = [f"{base36(n)},100,0,0,{QUANTA}" for n in range(4_096)]
    return tables(ports, [f"{base36(n)},100,64,0,{n % 8},{base36(n % 4_096)} {base36(4_095)}" for n in range(16_384) if n % 4_096 != 4_095])


def folded(a, b):
    """Both halves of a product of two numbers of 64 bits, one over the other."""
    product = a * b
    return (product ^ product >> 64) & (2**64 - 1)


def place(name):
    """Where a hash table of 512 groups begins to look for a name of four to eight bytes, by the hasher of the kit's std, whose seed is fixed."""
    multiplier = 0x9E3779B97F4A7C15
    state = folded(0x243F6A8885A308D3 ^ int.from_bytes(name[:4] + name[-4:], "little"), multiplier ^ 2 * len(name))
    state = folded(state ^ 0xFFFFFF, multiplier ^ 2)
    return (state ^ state >> 32) & 511


def falling_together(count):
    """So many names that a hash table looks for at one place; they take some six seconds to find."""
    letters = (string.digits + string.ascii_letters).encode()
    found = (b"ab" + bytes(end) for end in itertools.product(letters, repeat=4))
    return [name.decode() for name in itertools.islice((name for name in found if place(name) == 7), count)]


def named(names):
    """16,000 links over 50 ports each, of 4,096 with these names."""
    ports = [f"{name},1000000,0,0," for name in names]
    firsts = [50 * n % (len(names) - 50) for n in range(16_000)]
    return tables(ports, [f"{base36(n)},1000,64,0,,{' '.join(names[first:first + 50])}" for n, first in enumerate(firsts)])


TABLES = {
    "16,384 links over 64 ports": chain,
    "2,400 links of 32 branches over 62 ports": wide_tree,
    "131,072 branches of one port": short_branches,
    "4,096 ports of 8 queues": many_queues,
    "16,000 links over 50 ports of any names": lambda: named([f"ab{base36(46_656 + 11 * n)}" for n in range(4_096)]),
    "16,000 links over 50 ports of names that fall together": lambda: named(falling_together(4_096)),
    "1,000 ports into one, first in first out": lambda: star(1_000, 1, "fifo"),
    "4,095 ports into one, first in first out": lambda: star(4_095, 1, "fifo"),
    "1,000 ports into one of two priorities": lambda: star(1_000, 2, "priority 2"),
    "4,095 ports into one of two priorities": lambda: star(4_095, 2, "priority 2"),
    "500 ports into one of 8 quanta": lambda: star(500, 8, QUANTA),
    "1,000 ports into one of 8 quanta": lambda: star(1_000, 8, QUANTA),
    "2,047 ports into one of 8 quanta": lambda: star(2_047, 8, QUANTA),
    "300 and 300 ports into one that is nearly full": lambda: nearly_full(300),
    "600 and 600 ports into one that is nearly full": lambda: nearly_full(600),
    "1,000 nearly full ports into one of 8 quanta": lambda: full_of_quanta(1_000),
    "2,047 nearly full ports into one of 8 quanta": lambda: full_of_quanta(2_047),
}


def main(words):
    if len(words) not in (1, 2):
        sys.exit(__doc__)
    resource.setrlimit(resource.RLIMIT_CPU, (SECONDS, SECONDS))
    for name, make in TABLES.items():
        if len(words) == 2 and words[1] not in name:
            continue
        with tempfile.TemporaryDirectory() as folder:
            files = []
            for file, text in zip(["ports.csv", "links.csv"], make()):
                (Path(folder) / file).write_text(text)
                files.append(str(Path(folder) / file))
            (status, out), seconds, _ = real_size.measured([words[0], *files], folder, "out")
            memory = real_size.memory_of([words[0], *files], folder)
            size = sum(Path(file).stat().st_size for file in files) / 1e6
        line = out.split(b"\n")[0].decode()[:80]
        most = f"{memory:.0f} MiB" if memory else "memory not told"
        print(f"{name} ({size:.1f} MB): status {status}, {seconds:.2f} s, {most}, {out.count(b' none')} none: {line}", flush=True)
    return 0


if __name__ == "__main__":
    sys.exit(main(sys.argv[1:]))
