"""Each call of the cases of ../../../c/test that Python has answers as the independent model does
that made them."""

import unittest
from collections import Counter

import zaxbriar
from common import cases
from zaxbriar import library
from zaxbriar.options import TUPLES

# The members of zaxbriar_picture that are named here, with the names of their numbers.
NAMES = {
    "layout": library.LAYOUTS,
    "process": library.PROCESSES,
    "format": library.FORMATS,
    "transform": library.TRANSFORMS,
}
MEMBERS = (
    "size row_bytes decoding_bytes stream_bytes width height pixel_bytes layout components"
    " precision sample_bytes process orientation format density_unit horizontal_density"
    " vertical_density transform"
).split()
LIMITS = {"max_samples", "max_bytes", "max_passes"}
MEMBERS_OF_TUPLES = set().union(*TUPLES.values())
ANSWERS = {
    "MALFORMED": zaxbriar.MalformedError,
    "UNSUPPORTED": zaxbriar.UnsupportedError,
    "TRUNCATED": zaxbriar.TruncatedError,
    "NO_MEMORY": zaxbriar.NoMemoryError,
    "NO_ROOM": zaxbriar.NoRoomError,
    "BAD_ARGUMENT": zaxbriar.BadArgumentError,
    "TOO_LARGE": zaxbriar.TooLargeError,
    "TOO_MANY_PASSES": zaxbriar.TooManyPassesError,
}


def members_of(answer):
    """The name of an answer, the numbers that it tells, and what follows them."""
    head, _, rest = answer.partition(", ")
    name, *words = head.split()
    return name, dict(zip(words[::2], map(int, words[1::2]))), rest


def options_of(words):
    """The options NAME=NUMBER, without a limit of passes unless they give one; or None for members
    that Python doesn't have, and for a crop that it refuses without the library."""
    options = {"max_passes": 0}
    given = {}
    for word in words:
        name, _, number = word.partition("=")
        number = int(number)
        if name.startswith("reserved"):
            return None
        if name in MEMBERS_OF_TUPLES:
            given[name] = number
            continue
        if name in ("layout", "transform"):
            names = library.LAYOUTS if name == "layout" else library.TRANSFORMS
            number = names[number] if number < len(names) else f"number {number}"
        options[name] = number
    for name, members in TUPLES.items():
        if any(given.get(member) for member in members):
            options[name] = tuple(given.get(member, 0) for member in members)
    if 0 in options.get("crop", (0, 0, 1, 1))[2:]:
        return None
    return options


class Cases(unittest.TestCase):
    maxDiff = None

    def check_info(self, info, numbers, rest):
        """The members of a description are those that an answer tells."""
        told = {name: numbers.get(name, 0) for name in MEMBERS if name in numbers or name in NAMES}
        found = {name: getattr(info, name) for name in MEMBERS}
        for name, names in NAMES.items():
            told[name] = names[told[name]]
        told["transform"] = None if told["transform"] == "of_stream" else told["transform"]
        if "stream_bytes" not in numbers:
            del found["stream_bytes"]
        self.assertEqual({name: it for name, it in found.items() if it or name in told}, told)
        factors = "".join("%X%X" % each for each in info.sampling)
        self.assertEqual(factors.ljust(8, "0"), rest.partition("sampling ")[2][:8])

    def check_error(self, error, name, numbers, rest):
        self.assertIs(type(error), ANSWERS[name])
        if numbers.get("width"):
            self.check_info(error.info, numbers, rest)
        else:
            self.assertIsNone(error.info)
        if name == "UNSUPPORTED":
            feature = library.FEATURES.index(error.feature), error.feature_argument
            told = numbers.get("feature", 0), numbers.get("feature_argument", 0)
            self.assertEqual(feature, told)

    def read_info(self, stream, words, answer):
        options = options_of(words)
        if options is None:
            return False
        name, numbers, rest = members_of(answer)
        try:
            self.check_info(zaxbriar.read_info(stream, **options), numbers, rest)
        except zaxbriar.Error as error:
            self.check_error(error, name, numbers, rest)
        else:
            self.assertEqual(name, "OK")
        return True

    def decode(self, stream, words, answer, call=zaxbriar.decode):
        options = options_of(words[1:])
        if options is None:
            return False
        name, numbers, rest = members_of(answer)
        memory = bytearray([7]) * int(words[0])
        try:
            found = call(stream, out=memory, **options)
        except zaxbriar.Error as error:
            self.check_error(error, name, numbers, rest)
        else:
            is_part = isinstance(found, zaxbriar.Partial)
            picture, whole_rows, fault = found if is_part else (found, 0, None)
            self.assertEqual(name, "PARTIAL" if fault else "OK")
            self.assertEqual(whole_rows, numbers.get("whole_rows", 0))
            self.assertEqual(fault.answer if fault else 0, numbers.get("fault", 0))
            self.check_info(picture.info, numbers, rest)
        self.assertEqual(bytes(memory).hex().upper(), rest.partition("memory ")[2])
        return True

    def decode_partial(self, stream, words, answer):
        return self.decode(stream, words, answer, zaxbriar.decode_partial)

    def decode_planes(self, stream, words, answer):
        return False

    def metadata(self, stream, words, answer):
        kind, _, *given = words
        kind, is_whole = int(kind) & ~16, bool(int(kind) & 16)
        kind = library.KINDS[kind] if kind < len(library.KINDS) else None
        options = options_of(given)
        if kind is None or options is None or not options.keys() <= LIMITS:
            return False
        name, numbers, rest = members_of(answer)
        try:
            found = zaxbriar.metadata(stream, kind, whole_image=is_whole, **options)
        except zaxbriar.Error as error:
            self.assertIs(type(error), ANSWERS[name])
            return True
        self.check_data(found, name, numbers, rest)
        return True

    def check_data(self, found, name, numbers, rest):
        if name == "NO_ROOM":  # which Python's call always has
            self.assertEqual(len(found), numbers["length"])
            return
        self.assertEqual(name, "NO_DATA" if found is None else "OK")
        if found is not None:
            self.assertEqual(len(found), numbers.get("length", 0))
            self.assertTrue(rest.partition("memory ")[2].startswith(found.hex().upper()))

    def joined_metadata(self, stream, words, answer):
        names, kind = library.JOINED_KINDS, int(words[0])
        if kind >= len(names) or names[kind] is None:
            return False
        self.check_data(zaxbriar.joined_metadata(stream, names[kind]), *members_of(answer))
        return True

    def find_metadata(self, stream, words, answer):
        name, numbers, rest = members_of(answer)
        found = zaxbriar.find_metadata(stream)
        self.assertEqual(name, "OK")
        for kind in ("exif", "xmp"):
            place = getattr(found, kind) or slice(0, 0)
            told = numbers.get(f"{kind}.offset", 0), numbers.get(f"{kind}.size", 0)
            self.assertEqual((place.start, place.stop - place.start), told)
        told = [tuple(map(int, pair.split())) for pair in rest.split(", ") if pair]
        parts = [(it.start, it.stop - it.start) for it in found.icc if it.stop > it.start]
        self.assertEqual(parts, told)
        self.assertEqual(found.icc_parts, numbers.get("icc_parts", 0))
        self.assertEqual(found.stream_bytes, numbers.get("stream_bytes", 0))
        self.assertEqual(found.ended, bool(numbers.get("ended", 0)))
        return True

    def next_segment(self, stream, words, answer):
        start = int(words[0])
        name, numbers, rest = members_of(answer)
        try:
            found = zaxbriar.next_segment(stream, start)
        except zaxbriar.TruncatedError as error:
            told = numbers.get("needed", 0), numbers.get("skipped", 0)
            self.assertEqual((name, error.needed, error.skipped), ("TRUNCATED", *told))
        except zaxbriar.MalformedError:
            self.assertEqual(name, "MALFORMED")
        else:
            told = [numbers.get(key, 0) for key in ("offset", "size", "end")]
            own = [found.offset - start, found.size, found.end - start]
            self.assertEqual([name, *own], ["OK", *told])
            self.assertEqual("marker %02X" % found.marker, rest)
        return True

    def test_calls(self):
        counts = Counter()
        for stream, line, answer in cases():
            call, *words = line.split()
            with self.subTest(line):
                is_asked = getattr(self, call)(stream, words, answer)
                counts[call if is_asked else "not in Python"] += 1
        print(f"cases: {dict(counts)}")
        self.assertGreater(counts["decode"], 100)


if __name__ == "__main__":
    unittest.main()
