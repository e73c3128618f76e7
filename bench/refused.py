#!/usr/bin/env python3
"""Refuses each allocation, each opening, each read and each write of some calls in turn, and looks at what the program does.

    python3 bench/refused.py PROGRAM [CASE..]

PROGRAM is netcalc, or netbound where its file is called so. A small library, which gcc makes in a folder that is removed, stands before the C library and lets the call of a number
fail: malloc and realloc as where memory is refused, open and read with an error of the device, write with a full device. Memory is refused once, and
in a run of its own from that call on. A CASE is a folder below tests/, as runs/avionics; without one the cases are those below.

Wanted where memory is refused: status 5 and nothing written, or the answer as without it. Where a file cannot be opened or read: status 3 and the
line of that file. Where output cannot be written: status 4 and a front of the answer. A line a case: how many calls of each were refused in turn.
What is not as wanted is printed, and makes it end with 1. The last line has the sums.
"""

import os
import subprocess
import sys
import tempfile
from pathlib import Path

TOP = Path(__file__).resolve().parent.parent
CASES = """
    bounds/one_flow bounds/two_hops runs/avionics runs/a_stall_of_10 runs/a_stall_of_11 runs/a_gate_that_reaches_its_bound
    runs/an_unknown_flow edits/edits_of_each_kind edits/names_that_nothing_has edits/a_rate_a_flow_and_a_path_back
    limits/a_total_too_many limits/a_cycle faults/not_toml
    checks/two_hops_as_simulated checks/deficits_as_simulated checks/a_packet_a_unit_early check_faults/no_end
    measures/four_packets measures/an_unknown_flow exercises/flows_of_one_server
    curves/eight_lines curves/a_textbook_delay curves/parentheses_64_deep curves/a_sum_with_too_many_pieces
    json/one_flow json/a_dropped_flow_and_back bounds/two_flows_that_share_a_link edits/a_rate_touches_the_sum_behind_its_link
""".split()
TABLES = """
    netbound/one_fifo_port netbound/a_fork_behind_two_ports netbound/two_priorities netbound/two_quanta netbound/a_gate_with_a_latency
    netbound/json_with_deadlines netbound/a_load_above_1_and_what_comes_after netbound/a_ring_of_three_ports netbound/no_table_of_links
    netbound/an_unknown_flag netbound/help netbound/an_overhead_behind_an_equals_sign
""".split()
KINDS = ("memory", "open", "read", "write")
LIBRARY = r"""
#define _GNU_SOURCE
#include <dlfcn.h>
#include <errno.h>
#include <fcntl.h>
#include <stdarg.h>
#include <stdio.h>
#include <stdlib.h>
#include <string.h>
#include <unistd.h>

static long counts[4], fail_at[4];
static int ready, own, from;

static void begin(void) {
    static const char *names[4] = {"REFUSE_MEMORY", "REFUSE_OPEN", "REFUSE_READ", "REFUSE_WRITE"};
    if (ready) return;
    ready = 1;
    from = getenv("REFUSE_FROM") != NULL;
    for (int kind = 0; kind < 4; kind++) {
        const char *text = getenv(names[kind]);
        fail_at[kind] = text ? atol(text) : 0;
    }
}

static int refused(int kind) {
    if (own) return 0;
    begin();
    counts[kind]++;
    return fail_at[kind] && (from ? counts[kind] >= fail_at[kind] : counts[kind] == fail_at[kind]);
}

void *malloc(size_t size) {
    static void *(*next)(size_t);
    if (!next) next = dlsym(RTLD_NEXT, "malloc");
    return refused(0) ? NULL : next(size);
}

void *realloc(void *place, size_t size) {
    static void *(*next)(void *, size_t);
    if (!next) next = dlsym(RTLD_NEXT, "realloc");
    return refused(0) ? NULL : next(place, size);
}

int open(const char *path, int flags, ...) {
    static int (*next)(const char *, int, ...);
    va_list more;
    va_start(more, flags);
    int mode = va_arg(more, int);
    va_end(more);
    if (!next) next = dlsym(RTLD_NEXT, "open");
    if (refused(1)) { errno = EIO; return -1; }
    return next(path, flags, mode);
}

ssize_t read(int file, void *place, size_t size) {
    static ssize_t (*next)(int, void *, size_t);
    if (!next) next = dlsym(RTLD_NEXT, "read");
    if (refused(2)) { errno = EIO; return -1; }
    return next(file, place, size);
}

ssize_t write(int file, const void *place, size_t size) {
    static ssize_t (*next)(int, const void *, size_t);
    if (!next) next = dlsym(RTLD_NEXT, "write");
    if (refused(3)) { errno = ENOSPC; return -1; }
    return next(file, place, size);
}

__attribute__((destructor)) static void told(void) {
    const char *path = getenv("REFUSE_COUNTS");
    own = 1;
    if (!path) return;
    FILE *file = fopen(path, "w");
    if (!file) return;
    fprintf(file, "%ld %ld %ld %ld\n", counts[0], counts[1], counts[2], counts[3]);
    fclose(file);
}
"""


class Tried:
    """A program with the library before it."""

    def __init__(self, program: str, folder: Path):
        self.program = program
        self.library = folder / "refuse.so"
        self.counts = folder / "counts"
        source = folder / "refuse.c"
        source.write_text(LIBRARY)
        subprocess.run(["gcc", "-O1", "-shared", "-fPIC", "-o", str(self.library), str(source), "-ldl"], check=True)

    def run(self, case: Path, kind: str = "", number: int = 0, is_from: bool = False) -> tuple[int, bytes]:
        words = (case / "words").read_text().split()
        refused = {f"REFUSE_{kind.upper()}": str(number)} if kind else {}
        refused |= {"REFUSE_FROM": "1"} if is_from else {}
        env = {**os.environ, "LD_PRELOAD": str(self.library), "REFUSE_COUNTS": str(self.counts), **refused}
        child = subprocess.run([self.program, *words], cwd=case, env=env, stdout=subprocess.PIPE, stderr=subprocess.STDOUT, check=False)
        return child.returncode, child.stdout

    def counted(self, case: Path) -> tuple[tuple[int, bytes], list[int]]:
        """The answer of a case, and how many calls of each kind it makes."""
        answer = self.run(case)
        return answer, [int(count) for count in self.counts.read_text().split()]


def is_wanted(kind: str, answer: tuple[int, bytes], came: tuple[int, bytes], lines: list[bytes]) -> bool:
    if kind == "memory":
        return came in ((5, b""), answer)
    if kind == "write":
        return came[0] == 4 and answer[1].startswith(came[1]) or came == answer
    return came[0] == 3 and came[1] in lines or came == answer


def others_of(tried: Tried, case: str, kind: str, count: int, answer: tuple[int, bytes]) -> int:
    """How many ends are not as wanted where the calls of a kind are refused in turn."""
    folder = TOP / "tests" / case
    name = "netbound" if case.startswith("netbound/") else "netcalc"
    lines = [f"{name}: cannot read {word}\n".encode() for word in (folder / "words").read_text().split()]
    others = 0
    for number in range(1, count + 1):
        for is_from in (False, True) if kind == "memory" else (False,):
            came = tried.run(folder, kind, number, is_from)
            if not is_wanted(kind, answer, came, lines):
                others += 1
                print(f"{case}: {kind} {number}{' and all after it' if is_from else ''} refused: status {came[0]}, {came[1][:100]!r}", flush=True)
    return others


def main() -> None:
    if len(sys.argv) < 2:
        sys.exit(__doc__)
    program = str(Path(sys.argv[1]).resolve())
    cases = sys.argv[2:] or (TABLES if Path(program).name.startswith("netbound") else CASES)
    wrong = 0
    sums = dict.fromkeys(KINDS, 0)
    with tempfile.TemporaryDirectory(prefix="refused_") as name:
        tried = Tried(program, Path(name))
        for case in cases:
            answer, counts = tried.counted(TOP / "tests" / case)
            by_kind = dict(zip(KINDS, counts))
            wrong += sum(others_of(tried, case, kind, count, answer) for kind, count in by_kind.items())
            sums = {kind: sums[kind] + count for kind, count in by_kind.items()}
            print(f"{case}: status {answer[0]}; refused in turn: {', '.join(f'{kind} {count}' for kind, count in by_kind.items())}", flush=True)
    print(f"{len(cases)} calls; refused in turn: {', '.join(f'{kind} {count:,}' for kind, count in sums.items())}; {wrong} ends not wanted")
    sys.exit(1 if wrong else 0)


if __name__ == "__main__":
    main()
