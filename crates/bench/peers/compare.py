#!/usr/bin/env python3
"""Runs each script and its counterpart in OpenMP tasks one right after the other, and prints nanoseconds and ratios.

    compare.py SWT [NAME ..]      with the built program; gcc with OpenMP must be there

Of each the least of three runs counts, or of so many as the variable RUNS says; CHAIN says how long the chain is. The items of a script are its events, halved; a run of `swt` is timed whole, from its start to its
last line, reading and compiling too. A task of OpenMP does more than an item: for a turn of a loop there is one task and there are some items. So
the last column compares the whole times.
"""
import os, subprocess, sys, tempfile, time

HERE = os.path.dirname(os.path.abspath(__file__))
COUNTS = [(1, 1), (1, 3), (2, 2)]

CHAIN = int(os.environ.get("CHAIN", "10000"))
RUNS = int(os.environ.get("RUNS", "3"))
NAMES = ["flat", "fib22", "fib24", "chain", "array", "nested", "calls"]


def chain(folder):
    """A script of so many scalars, each from the one before."""
    path = os.path.join(folder, "chain.swift")
    with open(path, "w") as file:
        file.write("import io;\nint x0 = 0;\n")
        for i in range(1, CHAIN):
            file.write(f"int x{i:x}=x{i - 1:x}+1;")
        file.write(f'\nprintf("%i", x{CHAIN - 1:x});\n')
    return path


def timed(words):
    start = time.monotonic()
    done = subprocess.run(words, stdout=subprocess.DEVNULL, stderr=subprocess.PIPE, text=True)
    if done.returncode:
        sys.exit(f"{' '.join(words)}: status {done.returncode}: {done.stderr}")
    return time.monotonic() - start


def events(swt, script, folder):
    trace = os.path.join(folder, "trace")
    timed([swt, "run", script, "--trace", trace, "--steps", "4294967295"])
    with open(trace, "rb") as file:
        return sum(1 for _ in file) - 1


def least(tasks, name):
    """The least of the runs of the tasks: nanoseconds, and how many tasks there were."""
    words = [tasks, name] + [str(CHAIN)] * (name == "chain")
    found = []
    for _ in range(RUNS):
        said = subprocess.run(words, env={**os.environ, "OMP_NUM_THREADS": "4"}, capture_output=True, text=True, check=True)
        nanos, made, _ = said.stdout.split()
        found.append((int(nanos), int(made)))
    return min(found)


def main():
    swt, names = sys.argv[1], sys.argv[2:] or NAMES
    with tempfile.TemporaryDirectory() as folder:
        tasks = os.path.join(folder, "tasks")
        subprocess.run(["gcc", "-O2", "-fopenmp", "-o", tasks, os.path.join(HERE, "tasks.c")], check=True)
        print("| script | items | " + " | ".join(f"{e} + {w}, ns an item" for e, w in COUNTS) + " | OpenMP on 4, ns a task | best whole run: OpenMP / swt |")
        print("|---|---|" + "---|" * len(COUNTS) + "---|---|")
        for name in names:
            script = chain(folder) if name == "chain" else os.path.join(HERE, "scripts", name + ".swift")
            items = events(swt, script, folder) // 2
            ours = []
            for engines, workers in COUNTS:
                words = [swt, "run", script, "--engines", str(engines), "--workers", str(workers), "--steps", "4294967295"]
                ours.append(min(timed(words) for _ in range(RUNS)))
            nanos, made = least(tasks, name)
            cells = [f"{t * 1e9 / items:.0f}" for t in ours]
            print(f"| {name} | {items:,} | " + " | ".join(cells) + f" | {nanos / made:.0f} | {nanos / 1e9 / min(ours):.2f} |", flush=True)


main()
