#!/usr/bin/env python3
"""Uses the program as nobody should, and looks at what it does.

    tools/hostile.py memory  refuses each request for memory in turn
    tools/hostile.py texts   damages a report and canonical texts, byte by byte
    tools/hostile.py files   gives it files that are none, and a full disk
    tools/hostile.py workers [--minutes N]  many workers on one processor, and
                             one on many, each report judged
    tools/hostile.py all     all of these

The program is `schedule` at the top of the repository, unless `--program`
names another. A fault is printed, and the script ends with 1. `memory` builds
refuse_memory.c with the C compiler `cc`.
"""

import argparse
import os
import pathlib
import subprocess
import sys
import tempfile
import time

TOP = pathlib.Path(__file__).resolve().parent.parent
EXAMPLES = TOP / "examples"
LIMIT = 30
faults = 0


def fault(*what):
    global faults
    faults += 1
    print("FAULT", *what, flush=True)


def run(program, words, settings=None, text=None, prefix=()):
    """Status, and what was written."""
    made = subprocess.run([*prefix, program, *map(str, words)], input=text, stdout=subprocess.PIPE, stderr=subprocess.DEVNULL,
                          env={**os.environ, **(settings or {})}, timeout=LIMIT, check=False)
    return made.returncode, made.stdout


# ---- refused memory


def built_shim(folder):
    shim = folder / "refuse_memory.so"
    subprocess.run(["cc", "-O2", "-shared", "-fPIC", "-o", shim, TOP / "tools" / "refuse_memory.c"], check=True)
    return shim


def is_true_report(program, project, bytes_, folder):
    """Whether `check` accepts it."""
    report = folder / "true"
    report.write_bytes(bytes_)
    return run(program, ["check", project, report])[0] == 0


def refuse_each(program, shim, folder, words, whole, true_answer):
    """Refuses each request in turn, alone and with all later ones, until a run isn't touched any more."""
    count = folder / "count"
    settings = {"LD_PRELOAD": str(shim), "REFUSE_COUNT": str(count)}
    tried = short = 0
    for more in ({}, {"REFUSE_FROM_THERE": "yes"}):
        number = 1
        while True:
            status, written = run(program, words, {**settings, **more, "REFUSE_MEMORY": str(number)})
            tried += 1
            if status == 8:
                short += 1
                if written:
                    fault(words, "request", number, "status 8, but something was written")
            elif status != whole[0] or not true_answer(written):
                fault(words, "request", number, "status", status, "and no full answer")
            if int.from_bytes(count.read_bytes(), sys.byteorder) < number:
                break
            number += 1
    print(" ".join(map(str, words)), f"- {tried} runs, {short} of them ended with 8", flush=True)


def memory(program, folder):
    shim = built_shim(folder)
    a, t, b = EXAMPLES / "a.sm", EXAMPLES / "t.sm", EXAMPLES / "b.mm"
    for project in (a, t):
        for workers in (1, 2):
            words = ["solve", project, f"workers={workers}"]
            whole = run(program, words)
            refuse_each(program, shim, folder, words, whole, lambda text, project=project: is_true_report(program, project, text, folder))
    report = folder / "report"
    report.write_bytes(run(program, ["solve", a])[1])
    for words in (["check", a, report], ["show", b], ["make", 42, 3], ["trial", 42, 3], ["plan", b, "tries=3"]):
        whole = run(program, words)
        refuse_each(program, shim, folder, words, whole, lambda text, whole=whole: text == whole[1])


# ---- damaged texts


def damaged(text):
    """Each proper prefix, and each byte replaced by others."""
    for length in range(len(text)):
        yield text[:length]
    for place in range(len(text)):
        for byte in (0x00, 0x0A, 0x20, 0x30, 0x39, 0x7A, 0xFF):
            if text[place] != byte:
                yield text[:place] + bytes([byte]) + text[place + 1:]


def try_damaged(program, text, words_of, statuses, folder):
    path = folder / "damaged"
    seen = {}
    longest = 0.0
    for text_now in damaged(text):
        path.write_bytes(text_now)
        begin = time.monotonic()
        status, _ = run(program, words_of(path))
        longest = max(longest, time.monotonic() - begin)
        seen[status] = seen.get(status, 0) + 1
        if status not in statuses:
            fault(words_of(path), "status", status, "on", text_now)
    if longest > 1:
        fault("a run of", longest, "seconds")
    counted = ", ".join(f"{number} with {status}" for status, number in sorted(seen.items()))
    print(f"{sum(seen.values())} texts: {counted}; the longest run took {longest:.2f} s", flush=True)


def texts(program, folder):
    a = EXAMPLES / "a.sm"
    report = run(program, ["solve", a])[1]
    try_damaged(program, report, lambda path: ["check", a, path], (0, 3), folder)
    for name in ("a.sm", "b.mm"):
        canonical = run(program, ["show", EXAMPLES / name])[1]
        try_damaged(program, canonical, lambda path: ["solve", path], (0, 1, 2, 5), folder)


# ---- files that are none


def expect(program, words, want, written=None, **more):
    status, text = run(program, words, **more)
    if status != want or (written is not None and text != written):
        fault(words, "status", status, "and", text[:80], "where", want, "was due")
    else:
        print(" ".join(map(str, words)), "- status", status, flush=True)


def files(program, folder):
    a = EXAMPLES / "a.sm"
    with open("/dev/full", "wb") as full:
        status = subprocess.run([program, "solve", a], stdout=full, stderr=subprocess.DEVNULL, check=False).returncode
    print("solve on a full disk - status", status) if status == 7 else fault("a full disk: status", status)
    expect(program, ["solve", folder], 6, b"")
    expect(program, ["solve", folder / "absent"], 6, b"")
    expect(program, ["check", a, folder / "absent"], 6, b"")
    if os.getuid() != 0:
        closed = folder / "closed"
        closed.write_bytes(a.read_bytes())
        closed.chmod(0)
        expect(program, ["solve", closed], 6, b"")
    expect(program, ["solve", "/dev/zero"], 5, b"bad project: code 1 line 0\n")
    expect(program, ["check", a, "/dev/zero"], 3, b"report refused: line 1 reason 1\n")
    expect(program, ["solve", "/dev/stdin"], 0, run(program, ["solve", a])[1], text=a.read_bytes())


# ---- many workers


def workers(program, folder, minutes):
    many, one = "32", "1"
    end = time.monotonic() + 60 * minutes
    seed = runs = 0
    project, report = folder / "made", folder / "found"
    while time.monotonic() < end:
        seed += 1
        project.write_bytes(run(program, ["make", seed, 12 + seed % 30, f"modes={1 + seed % 3}"])[1])
        for crew, prefix in ((many, ("taskset", "-c", "0")), (one, ())):
            words = ["solve", project, f"workers={crew}", "nodes=5000"]
            status, text = run(program, words, prefix=prefix)
            report.write_bytes(text)
            judged, _ = run(program, ["check", project, report])
            runs += 1
            if status not in (0, 1, 2) or judged != 0:
                fault("seed", seed, words, "status", status, "and judged", judged)
    print(f"{runs} searches of {seed} made projects, each report accepted", flush=True)


def main():
    words = argparse.ArgumentParser(description=__doc__, formatter_class=argparse.RawDescriptionHelpFormatter)
    words.add_argument("part", choices=["memory", "texts", "files", "workers", "all"])
    words.add_argument("--program", default=str(TOP / "schedule"))
    words.add_argument("--minutes", type=float, default=3)
    asked = words.parse_args()
    with tempfile.TemporaryDirectory() as name:
        folder = pathlib.Path(name)
        if asked.part in ("memory", "all"):
            memory(asked.program, folder)
        if asked.part in ("texts", "all"):
            texts(asked.program, folder)
        if asked.part in ("files", "all"):
            files(asked.program, folder)
        if asked.part in ("workers", "all"):
            workers(asked.program, folder, asked.minutes)
    sys.exit(1 if faults else 0)


if __name__ == "__main__":
    main()
