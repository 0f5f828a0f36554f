"""A program that uses the types of the module: mypy --strict has nothing against it, and needs each
`ignore`, behind which stands a misuse. It isn't run."""

import mmap
from typing import Optional

import zaxbriar


def sizes(data: bytes, mapped: mmap.mmap, room: bytearray) -> tuple[int, Optional[str]]:
    picture: zaxbriar.Picture = zaxbriar.decode(data, layout="rgb", scale=2, max_passes=10)
    flat: memoryview = memoryview(picture).cast("B")
    zaxbriar.decode(mapped, out=room, stride=64)
    zaxbriar.decode(memoryview(data), out=zaxbriar.decode(data))
    part = zaxbriar.decode_partial(data, min_width=100)
    rows: int = part.whole_rows
    if isinstance(part.fault, zaxbriar.UnsupportedError):
        feature: Optional[str] = part.fault.feature
    exif: Optional[bytes] = zaxbriar.metadata(data, "exif", whole_image=True, max_bytes=1 << 20)
    thumbnail: Optional[bytes] = zaxbriar.joined_metadata(data, "thumbnail")
    place: Optional[slice] = zaxbriar.find_metadata(data).exif
    info: zaxbriar.Info = zaxbriar.read_info(data)
    options: zaxbriar.Options = {"layout": "bgra", "max_samples": 10, "bottom_up": True}
    options["upright"] = True
    options["luma"] = True
    options["crop"] = (0, 0, 16, 16)
    zaxbriar.decode(data, within=(256, 0))
    zaxbriar.decode(data, **options)
    end: int = zaxbriar.next_segment(data).end
    with zaxbriar.rows(mapped, scale=2, transform="none", max_passes=10) as given:
        lines: list[bytes] = [*given, next(given)]
        height: int = given.info.height - given.lines
    by_row: zaxbriar.RowsOptions = {"min_width": 100}
    zaxbriar.rows(data, **by_row).close()
    with zaxbriar.arriving_rows([data, mapped], transform="none") as arriving:
        lines += [row for row in arriving if arriving.info and arriving.lines < 9]
    as_it_comes: zaxbriar.ArrivingRowsOptions = {"max_passes": 10}
    zaxbriar.arriving_rows(iter([room]), **as_it_comes).close()
    with zaxbriar.feed(layout="rgb", upright=True, max_bytes=1 << 20) as fed:
        fed.feed(mapped)
        known: Optional[zaxbriar.Info] = fed.info()
        shown: zaxbriar.Partial = fed.show()
    rows += fed.size + shown.whole_rows + (known.width if known else 0)
    before: Optional[int] = zaxbriar.Error().lines
    rows += len(lines) + height + (before or 0)
    found = len(exif or b"") + len(thumbnail or b"")
    return len(flat) + rows + info.width + found + end, info.process


def misuses(data: bytes) -> None:
    zaxbriar.decode("text")  # type: ignore[arg-type]
    zaxbriar.decode(data, layout="RGB")  # type: ignore[arg-type]
    zaxbriar.decode(data, scale="2")  # type: ignore[arg-type]
    zaxbriar.decode(data, crop=(0, 0, 16))  # type: ignore[arg-type]
    zaxbriar.decode(data, within=256)  # type: ignore[arg-type]
    zaxbriar.decode(data, max_pases=3)  # type: ignore[call-arg]
    zaxbriar.rows(data, layout="rgb")  # type: ignore[call-arg]
    zaxbriar.rows("text")  # type: ignore[arg-type]
    zaxbriar.arriving_rows(data)  # type: ignore[arg-type]
    zaxbriar.arriving_rows([data], scale=2)  # type: ignore[call-arg]
    zaxbriar.feed(data)  # type: ignore[call-arg]
    zaxbriar.feed(layout="RGB")  # type: ignore[arg-type]
    zaxbriar.feed().feed("text")  # type: ignore[arg-type]
    zaxbriar.feed().info().width  # type: ignore[union-attr]
    zaxbriar.metadata(data, "iptc")  # type: ignore[arg-type]
    zaxbriar.joined_metadata(data, "icc")  # type: ignore[arg-type]
    zaxbriar.joined_metadata(data, "exif", max_bytes=9)  # type: ignore[call-arg]
    zaxbriar.metadata(data, "exif", layout="rgb")  # type: ignore[call-arg]
    zaxbriar.read_info(data).width = 3  # type: ignore[misc]
