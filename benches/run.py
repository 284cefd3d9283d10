#!/usr/bin/env python3
"""Compares the proved program with the plain one: answers, time, memory.

    run.py [PROGRAM]

PROGRAM is the proved program; without it the environment variable
CIPHERBENCH names it, else it is crates/cipherbench/out/cipherbench, where
`rt run` in that crate leaves it. The plain program
and the scripts are made in target/bench/. Times are end to end, from the
start of the process to its exit, with the answers sent to /dev/null.
"""

import os
import re
import statistics
import subprocess
import sys
import time
from pathlib import Path

ROOT = Path(__file__).resolve().parent.parent
WORK = ROOT / "target" / "bench"
PILES = ["flat", "direct", "lru8", "four"]
REQUESTS = 200_000
RUNS = 7
LINEAR_PILE = "lru8"
LINEAR_SIZES = [0, 50_000, 100_000, 200_000, 400_000]


def script(pile, count):
    path = WORK / f"{pile}-{count}.txt"
    with open(path, "wb") as out:
        subprocess.run([sys.executable, ROOT / "benches" / "generate.py", pile, str(count)],
                       stdout=out, check=True)
    return path


def check_same(programs, path):
    """Stops unless both programs accept the script with the same answers."""
    outputs = [path.with_suffix(".plain"), path.with_suffix(".proved")]
    for program, output in zip(programs, outputs):
        with open(output, "wb") as out:
            subprocess.run([program, path], stdout=out, check=True)
    if outputs[0].read_bytes() != outputs[1].read_bytes():
        sys.exit(f"answers differ: {outputs[0]} {outputs[1]}")


def seconds(program, path):
    start = time.perf_counter()
    subprocess.run([program, path], stdout=subprocess.DEVNULL, check=True)
    return time.perf_counter() - start


def times(programs, path):
    """(best, median) in ms for each program. Runs alternate, so that other
    load on the machine falls on both alike."""
    taken = [[] for _ in programs]
    for _ in range(RUNS):
        for program, mine in zip(programs, taken):
            mine.append(1000 * seconds(program, path))
    return [(min(mine), statistics.median(mine)) for mine in taken]


def peak_memory(program, path):
    """Peak resident memory in MiB, as text.

    Without /usr/bin/time it is only a bound: what the kernel reports for a
    child starts at the size of its parent, and Python is a large one.
    """
    if os.access("/usr/bin/time", os.X_OK):
        report = subprocess.run(["/usr/bin/time", "-v", program, path], stdout=subprocess.DEVNULL,
                                stderr=subprocess.PIPE, text=True, check=True).stderr
        peak = re.search(r"Maximum resident set size \(kbytes\): (\d+)", report).group(1)
        return f"{int(peak) / 1024:.1f}"
    child = subprocess.Popen([program, path], stdout=subprocess.DEVNULL)
    usage = os.wait4(child.pid, 0)[2]
    return f"<{usage.ru_maxrss / 1024:.1f}"


def main():
    if len(sys.argv) > 2:
        sys.exit(__doc__.strip())
    proved = Path(sys.argv[1] if len(sys.argv) == 2 else
                  os.environ.get("CIPHERBENCH") or ROOT / "crates" / "cipherbench" / "out" / "cipherbench")
    proved = proved.resolve()
    if not os.access(proved, os.X_OK):
        sys.exit(f"no program at {proved}")

    WORK.mkdir(parents=True, exist_ok=True)
    plain = WORK / "plain"
    subprocess.run(["rustc", "--edition", "2021", "-C", "opt-level=3",
                    ROOT / "benches" / "plain.rs", "-o", plain], check=True)
    programs = [plain, proved]

    paths = {pile: script(pile, REQUESTS) for pile in PILES}
    for path in paths.values():
        check_same(programs, path)
    print(f"answers: identical for {', '.join(PILES)}")

    print(f"\n{REQUESTS} requests, {RUNS} runs, best / median in ms; ratio of the best")
    print(f"{'pile':<8}{'plain':>16}{'proved':>18}{'ratio':>8}")
    for pile, path in paths.items():
        (best, median), (best2, median2) = times(programs, path)
        print(f"{pile:<8}{best:>7.1f} /{median:>7.1f}{best2:>9.1f} /{median2:>7.1f}"
              f"{best2 / best:>8.2f}")

    print(f"\nlinearity, pile {LINEAR_PILE}: best in ms, and ns per request beyond the start")
    print(f"{'requests':>8}{'plain':>9}{'ns':>7}{'proved':>9}{'ns':>7}")
    start = None
    for count in LINEAR_SIZES:
        path = script(LINEAR_PILE, count)
        check_same(programs, path)
        best = [pair[0] for pair in times(programs, path)]
        start = start or best
        row = f"{count:>8}"
        for mine, mine_start in zip(best, start):
            each = f"{1e6 * (mine - mine_start) / count:.0f}" if count else "-"
            row += f"{mine:>9.1f}{each:>7}"
        print(row)

    print(f"\npeak resident memory in MiB, {REQUESTS} requests")
    print(f"{'pile':<8}{'script':>8}{'plain':>8}{'proved':>8}")
    for pile, path in paths.items():
        row = f"{pile:<8}{path.stat().st_size / 2**20:>8.1f}"
        for program in programs:
            row += f"{peak_memory(program, path):>8}"
        print(row)


if __name__ == "__main__":
    main()
