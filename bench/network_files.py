"""Writes the largest files of networks that the format takes, and times reading them.

    python3 bench/network_files.py NETCALC

NETCALC is the program. The first file has 64 servers and 256 flows of 16 hops with listed arrival curves of up to 64
pieces, cut to fit 1,048,576 bytes; its flows go round, so that it is read whole and has no cell. Then the same with a
fault near its end, and files that are made to take long: brackets in brackets, a long key, many keys, headers or flows,
a long number, many short keys under one long header, and names that differ in their last byte. The last is analysed.
A line a file: its bytes, the status, the seconds that the run took, how many times the bytes and the seconds are those
of a smaller file of the same make, and the first line that was written. Where the seconds grow as the bytes do, the two
are alike.

Then files of one flow whose curve is closed: from 1 on it has a segment of length 1 / n, so that the closure of that
has about 2 n pieces. A line an n: the seconds, and how many times as long as for half the n. That is about 4, since
the closures of two parts are convolved piece by piece.
"""

import subprocess
import sys
import tempfile
import time
from pathlib import Path

MOST_BYTES = 1_048_576


def server(number: int) -> str:
    return (
        f'[[server]]\nname = "s{number}"\nrate = {1000 + number}\n'
        f'service = {{ kind = "latency", latency = {number} }}\nlink = 1\n'
    )


def pieces(count: int) -> str:
    return ", ".join(f'{{ x = {n}, at = {n + 1}, after = "{n + 1}/1", slope = 1 }}' for n in range(count))


def flow(number: int, count: int, path: list[str]) -> str:
    hops = ", ".join(f'"{hop}"' for hop in path)
    return (
        f'[[flow]]\nname = "f{number}"\npacket = 1\n'
        f'arrival = {{ kind = "list", piece = [{pieces(count)}] }}\npath = [{hops}]\n'
    )


def network(most: int, last_path: list[str] | None = None, last_key: str = "") -> str:
    """The largest such file of at most so many bytes; the last key is one of its last flow."""
    servers = "".join(server(n) for n in range(64))

    def with_pieces(count: int) -> str:
        flows = []
        for n in range(256):
            path = last_path if n == 255 and last_path is not None else [f"s{n % 48 + k}" for k in range(16)]
            flows.append(flow(n, count, path))
        return servers + "".join(flows) + last_key

    for count in range(64, 1, -1):
        text = with_pieces(count)
        if len(text) <= most:
            return text
    return with_pieces(1)


def names(most: int) -> str:
    """Servers whose names differ in their last bytes, and flows over the last of them."""
    servers = "".join(f'[[server]]\nname = "{"s" * 28}{n:04}"\nrate = 1\n' for n in range(64))
    path = "path = [" + ", ".join(f'"{"s" * 28}{63 - n:04}"' for n in range(16)) + "]\n"
    flows = "".join(
        f'[[flow]]\nname = "{"f" * 28}{n:04}"\npacket = 1\narrival = {{ kind = "bucket", burst = 1, rate = 0 }}\n{path}'
        for n in range(256)
    )
    text = servers + flows
    return text + "#" * max(0, most - len(text) - 1) + "\n"


# Each makes a file of at most so many bytes.
FILES = {
    "in a ring": lambda most: network(most, ["s1", "s0"]),
    "unknown server at the end": lambda most: network(most, [f"s{k}" for k in range(15)] + ["s99"]),
    "unknown key at the end": lambda most: network(most, last_key="speed = 1\n"),
    "deep": lambda most: "a = " + "[" * (most // 2 - 3) + "]" * (most // 2 - 3) + "\n",
    "long key": lambda most: '"' + "k" * (most - 8) + '" = 1\n',
    "many keys": lambda most: "".join(f"k{n} = 1\n" for n in range(most // 12)),
    "long number": lambda most: "version = " + "9" * (most - 12) + "\n",
    "many headers": lambda most: "".join(f"[k{n}]\n" for n in range(most // 10)),
    "many dotted keys": lambda most: "".join(f"a.b.k{n} = 1\n" for n in range(most // 16)),
    "many flows": lambda most: "[[flow]]\n" * (most // 9),
    "long header": lambda most: "[" + "k" * (most // 2) + "]\n" + "".join(f"a{n} = 1\n" for n in range(most // 24)),
    "alike names": names,
    "accepted and analysed": lambda most: network(most),
}


def closed(parts: int) -> str:
    """A flow whose curve is closed, with a segment of length 1 / parts from 1 on."""
    return server(0) + (
        '[[flow]]\nname = "f"\npacket = 1\npath = ["s0"]\narrival = { kind = "list", close = true, piece = '
        f'[{{ x = 0, at = 1 }}, {{ x = 1, at = 2 }}, {{ x = "{parts + 1}/{parts}", at = 3 }}] }}\n'
    )


def seconds(program: str, path: Path, text: str) -> tuple[float, int, str]:
    path.write_text(text)
    began = time.monotonic()
    run = subprocess.run([program, "analyse", str(path)], capture_output=True, text=True)
    took = time.monotonic() - began
    lines = (run.stdout + run.stderr).splitlines()
    return took, run.returncode, lines[0][:100] if lines else ""


def main() -> None:
    program = sys.argv[1]
    with tempfile.TemporaryDirectory() as folder:
        path = Path(folder) / "n.toml"
        for name, make in FILES.items():
            small = make(MOST_BYTES // 2)
            before, _, _ = seconds(program, path, small)
            text = make(MOST_BYTES)
            took, status, line = seconds(program, path, text)
            bytes_ratio, time_ratio = len(text) / len(small), took / before
            print(
                f"{name}: {len(text)} bytes, status {status}, {took:.2f} s, "
                f"{bytes_ratio:.1f} times the bytes, {time_ratio:.1f} times the seconds, {line}"
            )
        before = None
        for parts in (20, 40, 80):
            took, status, line = seconds(program, path, closed(parts))
            ratio = f", {took / before:.1f} times as long" if before else ""
            print(f"closed, n = {parts}: status {status}, {took:.2f} s{ratio}, {line}")
            before = took


if __name__ == "__main__":
    main()
