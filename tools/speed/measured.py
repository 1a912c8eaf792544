"""Reads what benchmarks print: lines `SYSTEM WORKLOAD ENTRIES THREADS NANOSECONDS`, and
`# hits SYSTEM WORKLOAD ENTRIES THREADS RATIO`. Each line is given as its words; others are left
out."""
import collections
import statistics


def median_times(lines):
    """The median of the nanoseconds of each (system, workload, entries, threads)."""
    times = collections.defaultdict(list)
    for words in lines:
        if len(words) == 5 and words[0] != "#":
            times[words[0], words[1], int(words[2]), int(words[3])].append(float(words[4]))
    return {kind: statistics.median(every) for kind, every in times.items()}


def ratios_of(lines):
    """The last hit ratio of each (system, workload, entries, threads)."""
    ratios = {}
    for words in lines:
        if len(words) == 7 and words[:2] == ["#", "hits"]:
            ratios[words[2], words[3], int(words[4]), int(words[5])] = float(words[6])
    return ratios
