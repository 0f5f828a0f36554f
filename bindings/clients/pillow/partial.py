"""partial.py WHOLE CUT..: of each file CUT, which is the beginning of the file WHOLE, Pillow with
the plugin loads the part before the fault where LOAD_TRUNCATED_IMAGES is set, and otherwise refuses
it, as Pillow's own decoder does.

Prints for each how many of its rows are those of the whole file, with the plugin and by Pillow's
own decoder, and the greatest difference between the two pictures in rows that both have.
"""

import sys

from PIL import Image, ImageChops, ImageFile


def loaded(name, is_lenient):
    """The picture of a file, or None where it is refused."""
    ImageFile.LOAD_TRUNCATED_IMAGES = is_lenient
    try:
        with Image.open(name) as image:
            image.load()
            return image.copy()
    except OSError:
        return None
    finally:
        ImageFile.LOAD_TRUNCATED_IMAGES = False


def equal_rows(part, whole):
    """How many rows from the top are equal."""
    width, height = whole.size
    row = len(whole.tobytes()) // height
    one, other = part.tobytes(), whole.tobytes()
    for y in range(height):
        if one[y * row : (y + 1) * row] != other[y * row : (y + 1) * row]:
            return y
    return height


def difference(one, other, rows):
    """The greatest difference of a sample in the first rows."""
    box = (0, 0, one.width, rows)
    extrema = ImageChops.difference(one.crop(box), other.crop(box)).getextrema()
    return max(most for _, most in (extrema if isinstance(extrema[0], tuple) else [extrema]))


def pictures(names):
    """For each file its picture, or None, and that with LOAD_TRUNCATED_IMAGES."""
    return [(loaded(name, False), loaded(name, True)) for name in names]


def main(whole, *cuts):
    names = [whole, *cuts]
    own = pictures(names)
    import zaxbriar_pillow  # from here on Pillow has the plugin's decoder

    ours, faults = pictures(names), 0
    for name, (own_strict, own_part), (strict, part) in zip(cuts, own[1:], ours[1:]):
        is_alike = (own_strict is None) == (strict is None) and (own_part is None) == (part is None)
        faults += not is_alike
        if part is None or own_part is None:
            print(f"{name}: refused{'' if is_alike else ', and not by both'}")
            continue
        rows, own_rows = equal_rows(part, ours[0][0]), equal_rows(own_part, own[0][0])
        most = difference(part, own_part, min(rows, own_rows)) if min(rows, own_rows) else 0
        print(
            f"{name}: {rows} of {part.height} rows are the whole file's, by Pillow {own_rows};",
            f"these differ by at most {most}",
        )
    print(
        f"partial: {len(cuts)} cut files, {zaxbriar_pillow.decoded_partially} shown in part,"
        f" {faults} answers unlike Pillow's"
    )
    sys.exit(1 if faults else 0)


main(*sys.argv[1:])
