"""The structs and numbers of the module are those of the C library's header."""

import ctypes
import re
import unittest

from common import TOP
from zaxbriar import library

STRUCTS = {
    "options": library.Options,
    "picture": library.Description,
    "place": library.Place,
    "places": library.Places,
    "segment": library.Segment,
}


class Header(unittest.TestCase):
    def test_structs(self):
        source = (TOP / "bindings/c/zaxbriar.c").read_text()
        sizes = re.findall(r"_Static_assert\(sizeof\(zaxbriar_(\w+)\) == (\d+)", source)
        # (what is kept for rows is the library's own, behind a pointer)
        sizes = {name: int(size) for name, size in sizes if name != "kept"}
        self.assertEqual(set(sizes), set(STRUCTS))
        for name, size in sizes.items():
            self.assertEqual(ctypes.sizeof(STRUCTS[name]), size, name)
        offsets = re.findall(r"offsetof\(zaxbriar_(\w+), (\w+)\) == (\d+)", source)
        offsets = [it for it in offsets if it[0] != "kept"]
        self.assertGreater(len(offsets), 30)
        for name, member, offset in offsets:
            self.assertEqual(getattr(STRUCTS[name], member).offset, int(offset), member)

    def test_members(self):
        header = (TOP / "bindings/c/zaxbriar.h").read_text()
        header = re.sub(r"/\*.*?\*/", "", header, flags=re.S)
        for name, struct in STRUCTS.items():
            body = re.search(r"typedef struct zaxbriar_%s \{(.*?)\} zaxbriar_" % name, header, re.S)
            members = re.findall(r"(\w+)(?:\[\d+\])?;", body[1])
            self.assertEqual([each[0] for each in struct._fields_], members)

    def numbers(self, kind):
        """The names of an enumeration in small letters, without ZAXBRIAR_, with their numbers."""
        header = (TOP / "bindings/c/zaxbriar.h").read_text()
        body = re.search(r"typedef enum zaxbriar_%s \{(.*?)\} zaxbriar_" % kind, header, re.S)[1]
        names = re.findall(r"ZAXBRIAR_(\w+) = (\d+)", re.sub(r"/\*.*?\*/", "", body, flags=re.S))
        return {int(number): name.lower() for name, number in names}

    def test_numbers(self):
        for kind, names, prefix in (
            ("layout", library.LAYOUTS, ""),
            ("transform", library.TRANSFORMS, "transform_"),
            ("process", library.PROCESSES, ""),
            ("format", library.FORMATS, "format_"),
            ("feature", library.FEATURES, "feature_"),
        ):
            told = self.numbers(kind)
            self.assertEqual(set(told), set(range(len(names))), kind)
            for number, name in enumerate(names):
                if name is not None:
                    self.assertEqual(told[number], prefix + name)
        for number, name in self.numbers("result").items():
            self.assertEqual(getattr(library, name.upper()), number)
        kinds = dict(enumerate(library.KINDS[1:], 1))
        for number, name in enumerate(library.JOINED_KINDS):
            if name is not None:
                self.assertEqual(kinds.setdefault(number, name), name)
        self.assertEqual(self.numbers("kind"), {**kinds, library.WHOLE_IMAGE: "whole_image"})


if __name__ == "__main__":
    unittest.main()
