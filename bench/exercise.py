"""Times the command `exercise`.

    python3 bench/exercise.py NETCALC

NETCALC is the program. A line a workload: its number, the status, the seconds that the command took, and its lines on
the largest bound, on the largest worst delay and on what the run breaks first. The flows of odd workloads pass one
server each, those of even ones up to four. Nothing is asserted about time. Where the program has no command `exercise`,
one line says so.
"""

import subprocess
import sys
import time

NUMBERS = [7, 8, 11]
USAGE = 2


def timed(program: str, number: int) -> tuple[int, float, list[str]]:
    start = time.perf_counter()
    ended = subprocess.run([program, "exercise", str(number)], capture_output=True, text=True)
    return ended.returncode, time.perf_counter() - start, ended.stdout.splitlines()


def main() -> None:
    program = sys.argv[1]
    for number in NUMBERS:
        status, seconds, lines = timed(program, number)
        if status == USAGE:
            print("the program has no command `exercise`")
            return
        print(f"exercise {number}: status {status}, {seconds:.2f} s, {', '.join(lines[2:])}")


if __name__ == "__main__":
    main()
