"""Traces of keys: text that `lru_size` reads, with a line `KEY [CHARGE]` for each use, also packed
by `xz`, and drawn keys."""
import bisect
import itertools
import lzma
import sys


def keys_of(path):
    """The key of each use. Ends the program with a message if the file is no such trace."""
    text = path.read_bytes()
    if path.suffix == ".xz":
        text = lzma.decompress(text)
    lines = text.decode("utf-8").splitlines()
    keys = [words[0] for words in map(str.split, lines) if words]
    if not keys or len(keys) < len(lines):
        sys.exit(f"{path}: a trace has a line KEY [CHARGE] for each use")
    return keys


def draws(state=1):
    """Numbers from 0 up to 2^53, by the generator of the benchmark's keys."""
    while True:
        state = (state * 6_364_136_223_846_793_005 + 1_442_695_040_888_963_407) % 2**64
        yield state >> 11


def zipf(count, keys=200_000, exponent=0.99):
    """Keys by Zipf's law: the often used ones are the small ones."""
    sums = list(itertools.accumulate((rank + 1) ** -exponent for rank in range(keys)))
    parts = (draw / 2**53 * sums[-1] for draw in itertools.islice(draws(), count))
    return [min(bisect.bisect_right(sums, part), keys - 1) for part in parts]
