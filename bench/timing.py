"""Times of programs that run in turn."""

import math
import statistics

ROUNDS = 5
ROUND_MS = 80  # that a program decodes a file in a round
LEAST_DECODINGS, MOST_DECODINGS = 2, 60_000  # in a round
FIRST_PIXELS = 1_000_000  # that it decodes before, to learn how long a decoding takes
# A ratio of medians is shown where it differs by more than this from that of least times.
NOISE = 0.05


class Times:
    """What a program took for a file: the least of all rounds, and the median of their medians."""

    def __init__(self, rounds):
        self.least = min(least for least, _ in rounds)
        self.median = statistics.median(median for _, median in rounds)

    def in_ms(self):
        return f"{self.least:.3g} ({self.median:.3g})"


def in_turn(runs):
    """The times of programs that run in turn, each by a call that gives its least and its median
    time, or None where it can't decode the file."""
    taken = zip(*([run() for run in runs] for _ in range(ROUNDS)))
    return [None if None in times else Times(times) for times in taken]


def decodings_of(program, case, path):
    """How many times a program decodes a file in a round, or None where it can't."""
    first = program.run(case, path, max(LEAST_DECODINGS, FIRST_PIXELS // math.prod(case.size)))
    return first and max(LEAST_DECODINGS, min(MOST_DECODINGS, round(ROUND_MS / first[0])))


def times_from_memory(programs, case, path):
    """The times of a decoding, of programs that decode a file from memory."""

    def run_of(program):
        decodings = decodings_of(program, case, path)
        return lambda: decodings and program.run(case, path, decodings)

    return in_turn([run_of(program) for program in programs])


def times_of_programs(programs, case, path):
    """The times of whole programs for a file."""

    def run_of(program):
        def run():
            time = program.run(case, path)
            return time and (time, time)

        return run

    return in_turn([run_of(program) for program in programs])


def ratio(ours, theirs):
    """Our time as a ratio to another's, with that of medians where the two differ."""
    if not ours or not theirs:
        return "-"
    of_least, of_medians = ours.least / theirs.least, ours.median / theirs.median
    noise = f" ({of_medians:.2f})" if abs(of_least - of_medians) > NOISE else ""
    return f"{of_least:.2f}{noise}"
