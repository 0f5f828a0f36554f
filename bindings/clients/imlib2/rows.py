"""rows.py WHOLE PART: how many rows from the top of the second PPM file are those of the first."""

import sys


def rows_of(name):
    """The rows of a PPM file of 8 bits."""
    with open(name, "rb") as file:
        file.readline()
        width, height = map(int, file.readline().split())
        file.readline()
        return [file.read(3 * width) for _ in range(height)]


whole, part = map(rows_of, sys.argv[1:])
equal = next((y for y, (one, other) in enumerate(zip(whole, part)) if one != other), len(whole))
print(f"{equal} of {len(whole)}")
