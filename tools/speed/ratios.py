"""The arithmetic of a comparison by pairs of runs. `python3 -m doctest tools/speed/ratios.py` runs
the examples."""
import statistics


def paired(own, peer):
    """The ratios of times to those of a peer, which ran before the first of them and after each:
    each time is divided by the mean of its two neighbours.

    >>> paired([4, 9], [1, 3, 6])
    [2.0, 2.0]
    """
    neighbours = zip(own, peer[:-1], peer[1:], strict=True)
    return [2 * time / (before + after) for time, before, after in neighbours]


def quartiles(ratios):
    """The first quartile, the median and the third quartile: half of the ratios lie between the
    first and the third.

    >>> quartiles([0.9, 0.5, 0.7, 0.6, 0.8])
    [0.6, 0.7, 0.8]
    """
    return statistics.quantiles(ratios, method="inclusive")


def rounded(low, median, high):
    """A median with only the digits that its quartiles allow: the last digit is the last one of
    which neither quartile is more than one unit away, and at most the second after the point.

    >>> rounded(0.71, 0.72, 0.73), rounded(0.66, 0.72, 0.78), rounded(2.10, 2.36, 2.47)
    ('0.72', '0.7', '2')

    If the quartiles lie on both sides of 1, or if the median is rounded to 1, there is no
    difference to tell.

    >>> rounded(0.99, 1.02, 1.03), rounded(0.98, 1.08, 1.15), rounded(0.92, 0.96, 0.98)
    ('about the same', 'about the same', 'about the same')

    The quartiles stand in its place if one unit of the last digit is more than half of the median,
    or if they lie on both sides of 1 and more than a tenth from the median.

    >>> rounded(0.4, 0.7, 0.9), rounded(0.02, 0.09, 0.11), rounded(0.8, 1.3, 2.6)
    ('0.40 to 0.90', '0.02 to 0.11', '0.80 to 2.60')
    """
    spread = max(high - median, median - low)
    for digits in (2, 1, 0):
        unit = 10**-digits
        # a little more than a unit, as the difference of two binary fractions is not exact
        if spread <= unit * 1.0001 and unit <= median / 2:
            text = f"{median:.{digits}f}"
            if not low <= 1 <= high and float(text) != 1:
                return text
            if digits:
                return "about the same"
    return f"{low:.2f} to {high:.2f}"
