"""Times goref-tools: bench.py FOLDER-OF-JUDGE FOLDER-OF-RECORDS ROUNDS. See bench/README.md."""

import os
import resource
import statistics
import subprocess
import sys
import time

MANY = 100_000


def seconds(words):
    """How long a run takes by the clock, and how much of a processor."""
    before = resource.getrusage(resource.RUSAGE_CHILDREN)
    start = time.perf_counter()
    end = subprocess.run(words, stdin=subprocess.DEVNULL, stdout=subprocess.DEVNULL, stderr=subprocess.DEVNULL)
    clock = time.perf_counter() - start
    if end.returncode not in (0, 1):
        sys.exit(f"bench.py: {' '.join(words[:4])} ended with {end.returncode}")
    after = resource.getrusage(resource.RUSAGE_CHILDREN)
    return clock, after.ru_utime + after.ru_stime - before.ru_utime - before.ru_stime


def medians(runs, rounds):
    """The medians of runs that are made by turns."""
    times = [[seconds(words) for words in runs] for _ in range(rounds)]
    return [tuple(map(statistics.median, zip(*column))) for column in zip(*times)]


def counted(processes):
    """How long some processes take by the clock that do nothing but count, all at once."""
    words = [sys.executable, "-c", "for _ in range(20_000_000): pass"]
    start = time.perf_counter()
    running = [subprocess.Popen(words) for _ in range(processes)]
    for process in running:
        process.wait()
    return time.perf_counter() - start


def records_of(folder):
    return [os.path.join(place, name) for place, _, names in sorted(os.walk(folder)) for name in sorted(names)
            if name.lower().endswith(".sgf")]


def copies(records, folder, count):
    """So many files in folders of a thousand, each a link to a record."""
    for number in range(count):
        place = os.path.join(folder, f"{number // 1000:03}")
        os.makedirs(place, exist_ok=True)
        os.link(records[number % len(records)], os.path.join(place, f"{number:06}.sgf"))


def most_memory(words):
    """The most memory in MB that a run and its processes take together, as the system shares it out between them."""
    process = subprocess.Popen(words, stdout=subprocess.DEVNULL, stderr=subprocess.DEVNULL)
    most = 0
    while process.poll() is None:
        most = max(most, sum(share(number) for number in [process.pid, *children(process.pid)]))
        time.sleep(0.1)
    return most / 1000


def children(number):
    try:
        with open(f"/proc/{number}/task/{number}/children") as file:
            return [int(word) for word in file.read().split()]
    except OSError:
        return []


def share(number):
    try:
        with open(f"/proc/{number}/smaps_rollup") as file:
            return next(int(line.split()[1]) for line in file if line.startswith("Pss:"))
    except (OSError, StopIteration):
        return 0


def main():
    folder, source, rounds = sys.argv[1], sys.argv[2], int(sys.argv[3])
    tools = [sys.executable, "-m", "goref"]
    kept = os.path.join(folder, "records")
    os.mkdir(kept)
    records = []
    for number, path in enumerate(records_of(source)):
        records.append(os.path.join(kept, f"{number:06}.sgf"))
        with open(path, "rb") as old, open(records[-1], "wb") as new:
            new.write(old.read())
    print(f"{len(records)} records, medians of {rounds} rounds by turns")
    print("| Run | Seconds by the clock | Seconds of a processor |\n|---|---|---|")
    many = os.path.join(folder, "many")
    copies(records, os.path.join(folder, "ten"), 10 * len(records))
    ten = os.path.join(folder, "ten")
    runs = {
        "`judge` in C": [os.path.join(folder, "judge"), *records],
        "`goref-tools judge -j 1`": [*tools, "judge", "-j", "1", kept],
        "`goref-tools tidy`": [*tools, "tidy", kept],
        "`goref-tools --help`": [*tools, "--help"],
        "`goref-tools judge --help`": [*tools, "judge", "--help"],
        "ten times as many files, `judge -j 1`": [*tools, "judge", "-j", "1", ten],
        "the same, `judge -j 4`": [*tools, "judge", "-j", "4", ten],
    }
    for name, (clock, processor) in zip(runs, medians(list(runs.values()), rounds)):
        print(f"| {name} | {clock:.3f} | {processor:.3f} |")
    alone, together = (statistics.median(counted(count) for _ in range(rounds)) for count in (1, 4))
    print(f"\nFour processes that only count do {4 * alone / together:.2f} times as much as one.")
    copies(records, many, MANY)
    print(f"\n{MANY:,} files, `judge -j 4`: {most_memory([*tools, 'judge', '-j', '4', many]):.0f} MB at most")


if __name__ == "__main__":
    main()
