"""difference.py OURS THEIRS [MEAN]: by how much two PPM or PGM files of 8 bits differ, on average
and at most. The status is 1 if the mean is greater than MEAN."""

import sys


def picture(name):
    """The head of a file, and its samples."""
    with open(name, "rb") as file:
        return [file.readline() for _ in range(3)], file.read()


def main(ours, theirs, limit="255"):
    (head, ours), (other, theirs) = picture(ours), picture(theirs)
    if head != other or len(ours) != len(theirs):
        sys.exit("difference.py: pictures of different sizes")
    differences = [abs(a - b) for a, b in zip(ours, theirs)]
    mean = sum(differences) / len(differences)
    print(f"libjpeg's differ by {mean:.2f} on average, {max(differences)} at most")
    sys.exit(mean > float(limit))


main(*sys.argv[1:])
