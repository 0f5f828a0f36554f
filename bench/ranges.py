"""From which ratio to which one kinds of cases go."""

SMALL = 64  # columns of a small picture, at most


def kind_of(case):
    """The kind of a case in the tables of ranges."""
    if case.size[0] <= SMALL:
        return "%dx%d" % case.size
    if case.way.startswith("lossless"):
        return "lossless"
    if case.scale > 1:
        return "at 1/2, 1/4 and 1/8"
    if case.picture == "grain":
        return "grain"
    if "progressive" in case.way:
        return "photographs, progressive"
    return "photographs, grey" if case.way == "grey" else "photographs, colour"


def least_times(results):
    """For each kind the least times of all programs, a list for each of its cases; ours is the
    first."""
    kinds = {}
    for case, times in results.items():
        if times[0]:
            kinds.setdefault(kind_of(case), []).append([one and one.least for one in times])
    return kinds


def range_of(ratios):
    """The least and the greatest of ratios, of which some may be missing."""
    found = [value for value in ratios if value]
    return f"{min(found):.2f} to {max(found):.2f}" if found else "-"


def ranges_of_ours(rows):
    """The range of our time to that of each other program."""
    columns = zip(*([theirs and row[0] / theirs for theirs in row[1:]] for row in rows))
    return list(map(range_of, columns))


def ranges_to(reference, rows):
    """The range of each other program's time to that of the one with this index; none where that
    one decodes none of the files."""
    others = [
        [time and time / row[reference] for time in row[:reference] + row[reference + 1 :]]
        for row in rows
        if row[reference]
    ]
    return list(map(range_of, zip(*others)))
