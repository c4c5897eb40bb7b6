#!/usr/bin/env python3
"""Compares a program that plays a day's log with the baseline, and measures both. With neither --compare nor --measure it does
both. Ends with status 1 at the first difference.

It builds the baseline with rustc, and runs on Linux only: it reads a process's peak memory from /proc.
"""

import argparse
import fcntl
import os
import random
import shutil
import statistics
import struct
import subprocess
import sys
import tempfile
import termios
import time

import logs

FOLDER = os.path.dirname(os.path.abspath(__file__))
REPLAY = os.path.join(FOLDER, "..", "crates", "replay", "out", "replay")


def build(folder, *flags):
    """Builds the baseline into a folder, and gives its path."""
    program = os.path.join(folder, "-".join(("baseline", *flags)).replace("/", ""))
    source = os.path.join(FOLDER, "baseline", "main.rs")
    subprocess.run(["rustc", "--edition", "2021", "-C", "opt-level=3", *flags, "-o", program, source], check=True)
    return program


# Comparing.


def feed(child, log, sizes):
    """Writes a log to a child's standard input in pieces of the given sizes, each when the one before has been read."""
    at = 0
    for size in sizes:
        try:
            child.stdin.write(log[at : at + size])
        except BrokenPipeError:
            return
        at += size
        while unread(child.stdin) and child.poll() is None:
            time.sleep(0.0001)


def unread(pipe):
    return struct.unpack("i", fcntl.ioctl(pipe, termios.FIONREAD, b"\0" * 4))[0]


def play(program, log, sizes=None):
    """The exit status and the output on a log, which comes from a file, or from a pipe in pieces."""
    with tempfile.TemporaryFile() as output:
        if sizes is None:
            with tempfile.TemporaryFile() as file:
                file.write(log)
                file.seek(0)
                status = subprocess.run([program], stdin=file, stdout=output).returncode
        else:
            with subprocess.Popen([program], stdin=subprocess.PIPE, stdout=output, bufsize=0) as child:
                feed(child, log, sizes)
                child.stdin.close()
                status = child.wait()
        output.seek(0)
        return status, output.read()


def difference(name, wanted, found):
    """Words on the first difference of two results, or nothing if there is none."""
    if wanted == found:
        return None
    if wanted[0] != found[0]:
        return f"status {found[0]}, but {name} {wanted[0]}"
    wanted, found = (result[1].splitlines(keepends=True) for result in (wanted, found))
    line = 0
    while wanted[line : line + 1] == found[line : line + 1]:
        line += 1
    return f"output line {line + 1}: {found[line : line + 1]}, but {name} {wanted[line : line + 1]}"


def fails(program):
    """Whether the program ends with another status than 0 if it cannot read, and if it cannot write."""
    folder = os.open("/", os.O_RDONLY)
    with open("/dev/full", "wb") as full:
        read = subprocess.run([program], stdin=folder, stdout=subprocess.DEVNULL, stderr=subprocess.DEVNULL).returncode
        write = subprocess.run([program], stdin=subprocess.DEVNULL, stdout=full, stderr=subprocess.DEVNULL).returncode
    os.close(folder)
    return read != 0 and write != 0


def compare(program, folder, first, count):
    """Compares the program with the baseline on worked, damaged and random logs; whether all is the same."""
    baseline = build(folder)
    # With debug assertions the baseline tests after every accepted frame that the documents agree.
    strict = build(folder, "-C", "debug-assertions=on")

    def same(what, log, sizes=None):
        wanted = play(baseline, log)
        words = difference("the baseline's", wanted, play(program, log, sizes))
        words = words or difference("the baseline's", wanted, play(strict, log))
        if words:
            print(f"{what}: {words}")
        return not words

    for name, (log, report) in logs.WORKED.items():
        words = difference("the worked one's", (0, report.encode()), play(baseline, log.encode()))
        if words:
            print(f"worked log '{name}', the baseline: {words}")
            return False
        if not same(f"worked log '{name}'", log.encode()):
            return False
    for name, make in logs.DAMAGED.items():
        if not same(f"damaged log '{name}'", make()):
            return False
    for seed in range(first, first + count):
        log = logs.random_log(seed)
        if not same(f"random log, seed {seed}", log):
            return False
        if len(log) < 10_000:
            rng = random.Random(seed)
            sizes = rng.choices((1, 2, 7, 20, 80, 81, 400), k=len(log))
            if not same(f"random log, seed {seed}, in pieces", log, take(sizes, len(log))):
                return False
    for tried in (baseline, program):
        if not fails(tried):
            print(f"{tried}: a failed read or write ends with status 0")
            return False
    print(f"same on {len(logs.WORKED)} worked, {len(logs.DAMAGED)} damaged and {count} random logs, seeds from {first}")
    return True


def take(sizes, length):
    """As many of the sizes as come to the length."""
    taken = []
    while length > 0:
        taken.append(sizes[len(taken)])
        length -= taken[-1]
    return taken


# Measuring.


def timed(program, path, output):
    """User and system time together, and the time that passed, of one run on the log in a file."""
    with open(path, "rb") as log, open(output, "wb") as report:
        start = time.perf_counter()
        child = subprocess.Popen([program], stdin=log, stdout=report)
        _, status, usage = os.wait4(child.pid, 0)
        passed = time.perf_counter() - start
    child.returncode = os.waitstatus_to_exitcode(status)
    if child.returncode:
        sys.exit(f"{program}: status {child.returncode}")
    return usage.ru_utime + usage.ru_stime, passed


def peak_memory(program, log):
    """The most memory in KiB that a program has had, when it has taken all of a log but its last line and waits for more.

    This is VmHWM of its process. The ru_maxrss of a child is never less than what the process had that started it."""
    with subprocess.Popen([program], stdin=subprocess.PIPE, stdout=subprocess.DEVNULL, bufsize=0) as child:
        feed(child, log, [log.rindex(b"\n", 0, -1) + 1])
        while child.poll() is None:
            with open(f"/proc/{child.pid}/status") as file:
                status = dict(line.split(":", 1) for line in file)
            if status["State"].split()[0] == "S":
                break
            time.sleep(0.001)
        else:
            sys.exit(f"{program}: ended before the log")
        child.stdin.close()
        child.wait()
    return int(status["VmHWM"].split()[0])


def measure(program, folder, runs):
    """Prints a table of both programs' times and memory; whether their outputs are the same."""
    programs = {"program": program, "baseline": build(folder)}
    print(" " * 21 + "user+system (s)   wall clock (s)    peak memory")
    print(" " * 21 + "minimum   median  minimum   median        (KiB)")
    for name, (what, _, lines) in logs.MEASURED.items():
        log = logs.measured_log(name)
        path = os.path.join(folder, f"{name}.log")
        with open(path, "wb") as file:
            file.write(log)
        times = {each: [] for each in programs}
        reports = {each: os.path.join(folder, f"{each}.report") for each in programs}
        for _ in range(runs):
            for each in programs:
                times[each].append(timed(programs[each], path, reports[each]))
        rows = {}
        for each in programs:
            used, passed = zip(*times[each])
            rows[each] = [min(used), statistics.median(used), min(passed), statistics.median(passed)]
            rows[each].append(peak_memory(programs[each], log))
        rows["ratio"] = [tested / plain for tested, plain in zip(rows["program"], rows["baseline"])]
        print(f"{name}: {what}, {lines:,} lines, {len(log):,} bytes, {runs} runs of each in turn")
        for each, row in rows.items():
            memory = f"{row[4]:13.2f}" if each == "ratio" else f"{row[4]:13}"
            print(f"   {each:16}" + "".join(f"{value:9.3f}" for value in row[:4]) + memory)
        played = {}
        for each in programs:
            with open(reports[each], "rb") as file:
                played[each] = 0, file.read()
        words = difference("the baseline's", played["baseline"], played["program"])
        if words:
            print(f"log {name}: {words}")
            return False
    return True


def main():
    parser = argparse.ArgumentParser(description=__doc__, formatter_class=argparse.RawDescriptionHelpFormatter)
    parser.add_argument("program", nargs="?", default=REPLAY, help="the program under test (crates/replay/out/replay)")
    parser.add_argument("--compare", action="store_true", help="compare only")
    parser.add_argument("--measure", action="store_true", help="measure only")
    parser.add_argument("--seed", type=int, default=1, help="the first seed of the random logs (1)")
    parser.add_argument("--logs", type=int, default=400, help="how many random logs (400)")
    parser.add_argument("--runs", type=int, default=7, help="how many runs of each program on each log (7)")
    given = parser.parse_args()
    program = shutil.which(os.path.abspath(given.program))
    if program is None:
        sys.exit(f"{given.program}: no such program")
    with tempfile.TemporaryDirectory() as folder:
        if given.compare or not given.measure:
            if not compare(program, folder, given.seed, given.logs):
                sys.exit(1)
        if given.measure or not given.compare:
            if not measure(program, folder, given.runs):
                sys.exit(1)


if __name__ == "__main__":
    main()
