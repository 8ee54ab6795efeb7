#!/usr/bin/env python3
"""Times the program on projects that it makes itself, and prints tables.

    bench/bench.py search [--program PROGRAM] [--runs N]
    bench/bench.py plans [--program PROGRAM] [--tries N]

`search` makes projects and times `solve` on each by 1, 2 and 4 workers, with
its log and without, and `check` on the report; what counts is the least of N
times. `plans` makes projects of 20 and of 30 jobs and asks for a plan of each
after N tries: how far its end lies above the least duration, how long it
took, and how many of these projects `solve` proves that begins with that plan.

The program is `schedule` at the top of the repository, unless another is
named; what comes out is measured on one machine and is no claim.
"""

import argparse
import os
import pathlib
import subprocess
import sys
import tempfile
import time

TOP = pathlib.Path(__file__).resolve().parent.parent

# Seed, jobs, modes and the most nodes of each search.
SEARCHES = [
    (1, 20, 1, 50_000),
    (2, 30, 1, 50_000),
    (7, 30, 3, 50_000),
    (1, 40, 1, 50_000),
    (3, 40, 3, 50_000),
    (5, 60, 2, 50_000),
    (9, 90, 1, 20_000),
    (4, 128, 4, 20_000),
]

# The least durations of made projects by jobs and modes, for seeds 1 to 10.
LEAST = {
    (20, 3): [24, 29, 25, 17, 22, 28, 27, 32, 21, 25],
    (30, 1): [73, 53, 51, 71, 78, 71, 56, 72, 60, 69],
    (30, 3): [33, 38, 31, 22, 31, 35, 29, 35, 25, 35],
}


class Run:
    """What one call of the program took, and what it gave."""

    def __init__(self, program, words, output):
        begin = time.monotonic()
        with open(output, "wb") as out:
            child = subprocess.Popen([program, *map(str, words)], stdout=out, stderr=subprocess.DEVNULL)
            _, status, usage = os.wait4(child.pid, 0)
        self.seconds = time.monotonic() - begin
        self.megabytes = usage.ru_maxrss / 1024
        self.status = os.waitstatus_to_exitcode(status)


def least_of(runs, program, words, output):
    """The shortest of some runs."""
    return min((Run(program, words, output) for _ in range(runs)), key=lambda run: run.seconds)


def row(*cells):
    print("| " + " | ".join(str(cell) for cell in cells) + " |", flush=True)


def heading(*cells):
    row(*cells)
    row(*("---" for _ in cells))


def made(program, folder, seed, jobs, modes):
    """The path of a made project."""
    path = folder / f"{seed}-{jobs}-{modes}"
    run = Run(program, ["make", seed, jobs, f"modes={modes}"], path)
    if run.status != 0:
        sys.exit(f"make {seed} {jobs} modes={modes} ended with {run.status}")
    return path


def lines_of(path):
    """The lines of a report or a plan that have two words, by the first."""
    with open(path, encoding="ascii") as text:
        pairs = (line.split() for line in text)
        return {pair[0]: pair[1] for pair in pairs if len(pair) == 2}


def bench_search(program, folder, runs):
    heading("seed", "jobs", "modes", "nodes", "verdict", "`log=no` s", "with log s", "MB", "2 workers s", "4 workers s", "`check` s", "MB")
    for seed, jobs, modes, nodes in SEARCHES:
        project = made(program, folder, seed, jobs, modes)
        report = folder / "report"
        words = ["solve", project, f"nodes={nodes}"]
        quiet = least_of(runs, program, [*words, "log=no"], report)
        crews = [least_of(runs, program, [*words, "log=no", f"workers={crew}"], report) for crew in (2, 4)]
        logged = least_of(runs, program, words, report)
        verdict = lines_of(report)["verdict"]
        judged = least_of(runs, program, ["check", project, report], folder / "judgement")
        if judged.status != 0:
            sys.exit(f"the report on {project.name} isn't accepted")
        row(seed, jobs, modes, nodes, verdict, f"{quiet.seconds:.3f}", f"{logged.seconds:.3f}", f"{logged.megabytes:.0f}",
            *(f"{crew.seconds:.3f}" for crew in crews), f"{judged.seconds:.3f}", f"{judged.megabytes:.0f}")


def bench_plans(program, folder, tries):
    heading("jobs", "modes", "least durations", f"ends after {tries} tries", "above, %", "longest s", "proved with nodes=100000")
    for (jobs, modes), least in LEAST.items():
        ends, seconds, proved = [], [], 0
        for seed in range(1, len(least) + 1):
            project = made(program, folder, seed, jobs, modes)
            run = Run(program, ["plan", project, f"tries={tries}"], folder / "plan")
            ends.append(int(lines_of(folder / "plan")["duration"]))
            seconds.append(run.seconds)
            solved = Run(program, ["solve", project, f"tries={tries}", "nodes=100000", "log=no"], folder / "report")
            proved += solved.status == 0
        above = sum(100 * (end - best) / best for end, best in zip(ends, least)) / len(least)
        row(jobs, modes, ", ".join(map(str, least)), ", ".join(map(str, ends)), f"{above:.1f}", f"{max(seconds):.2f}", f"{proved} of {len(least)}")


def main():
    words = argparse.ArgumentParser(description=__doc__, formatter_class=argparse.RawDescriptionHelpFormatter)
    words.add_argument("table", choices=["search", "plans"])
    words.add_argument("--program", default=str(TOP / "schedule"))
    words.add_argument("--runs", type=int, default=3)
    words.add_argument("--tries", type=int, default=3000)
    asked = words.parse_args()
    with tempfile.TemporaryDirectory() as name:
        folder = pathlib.Path(name)
        if asked.table == "search":
            bench_search(asked.program, folder, asked.runs)
        else:
            bench_plans(asked.program, folder, asked.tries)


if __name__ == "__main__":
    main()
