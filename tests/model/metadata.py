"""What stands in a stream beside its picture: an own reading of Exif data of several segments and
their thumbnail, extended XMP data, IPTC data and ICC profiles, from the standards."""
import re
import struct


def payloads(stream, whole=False):
    """The segments of applications, up to the first scan or to the end of the image: of each its
    number and its payload."""
    at, found = 2, []
    while True:
        marker = re.compile(rb"\xff+([^\x00\xff])", re.DOTALL).search(stream, at)
        if marker is None or marker[1] == b"\xd9":
            return found
        code, at = marker[1][0], marker.end()
        if code in (1, *range(0xD0, 0xD9)):
            continue
        if code == 0xDA and not whole:
            return found
        (size,) = struct.unpack_from(">H", stream, at)
        if 0xE0 <= code < 0xF0:
            found.append((code - 0xE0, stream[at + 2 : at + size]))
        at += size


def named(segments, number, name):
    """The data of those segments that have a number and a name."""
    found = [it for its_number, it in segments if its_number == number]
    return [it[len(name) :] for it in found if it.startswith(name)]


def order_of(exif):
    """How struct names the order of a TIFF structure's bytes, by its header."""
    return {b"II*\0": "<", b"MM\0*": ">"}.get(exif[:4])


def directories(exif):
    """The first two directories of a TIFF structure: of each the entries (tag, type, count, last
    four bytes), as many as are there."""
    order, found = order_of(exif), []
    if order is None or len(exif) < 8:
        return [[], []]
    (at,) = struct.unpack_from(order + "I", exif, 4)
    while len(found) < 2:
        body = exif[at:] if at else b""
        if len(body) < 2:
            found.append([])
            at = 0
            continue
        (count,) = struct.unpack_from(order + "H", body)
        entries = [body[2 + 12 * it :][:12] for it in range(count)]
        found.append(
            [struct.unpack(order + "HHI", it[:8]) + (it[8:],) for it in entries if len(it) == 12]
        )
        link = body[2 + 12 * count :][:4]
        at = struct.unpack(order + "I", link)[0] if len(link) == 4 else 0
    return found


def exif_in(segments):
    """The Exif data, joined from their segments."""
    runs = []
    for part in named(segments, 1, b"Exif\0\0"):
        if order_of(part) or not runs:
            runs.append(part)
        else:
            runs[-1] += part
    return runs[-1] if runs else None


def orientation_of(exif):
    order = order_of(exif)
    for tag, kind, count, last in directories(exif)[0]:
        if tag == 0x112 and count == 1 and kind in (3, 9):
            value = struct.unpack(order + ("Hxx" if kind == 3 else "I"), last)[0]
            if 1 <= value <= 8:
                return value
    return None


def thumbnail_of(exif):
    """The thumbnail, by the first entries of its two tags."""
    order, values = order_of(exif), []
    for wanted in (0x201, 0x202):
        entries = [it for it in directories(exif)[1] if it[0] == wanted]
        if not entries or entries[0][1] not in (3, 4) or entries[0][2] != 1:
            return None
        values.append(struct.unpack(order + {3: "Hxx", 4: "I"}[entries[0][1]], entries[0][3])[0])
    start, size = values
    part = exif[start : start + size]
    return part if part and len(part) == size else None


def thumbnail_in(segments):
    """The thumbnail in the Exif data."""
    return thumbnail_of(exif_in(segments) or b"")


def xmp_in(segments):
    """The main packet: the last one."""
    found = named(segments, 1, b"http://ns.adobe.com/xap/1.0/\0")
    return found[-1] if found else None


def extended_xmp_in(segments):
    """The extension that the main packet names: its parts in order, if they leave no gap, don't
    overlap, and all name its length."""
    packet = re.compile(rb"""xmpNote:HasExtendedXMP(?:\s*=\s*["']|>)(.{32})""", re.DOTALL).search(
        xmp_in(segments) or b""
    )
    if packet is None:
        return None
    parts = []
    for part in named(segments, 1, b"http://ns.adobe.com/xmp/extension/\0"):
        if len(part) > 40 and part[:32] == packet[1]:
            parts.append(struct.unpack(">II", part[32:40])[::-1] + (part[40:],))
    joined = b""
    for start, _, part in sorted(parts):
        if start != len(joined):
            return None
        joined += part
    return joined if parts and all(size == len(joined) for _, size, _ in parts) else None


def iptc_in(segments):
    """The first resource 0x0404 of Photoshop's image resources."""
    body = b"".join(named(segments, 13, b"Photoshop 3.0\0"))
    while body[:4] == b"8BIM" and len(body) >= 12:
        (number,) = struct.unpack_from(">H", body, 4)
        name = 1 + body[6]
        at = 6 + name + name % 2
        if len(body) < at + 4:
            return None
        (size,) = struct.unpack_from(">I", body, at)
        found = body[at + 4 :][:size]
        if len(found) < size:
            return None
        if number == 0x0404:
            return found
        body = body[at + 4 + size + size % 2 :]
    return None


def exif_of(stream, whole=False):
    return exif_in(payloads(stream, whole))


def xmp_of(stream, whole=False):
    return xmp_in(payloads(stream, whole))


def extended_xmp_of(stream, whole=False):
    return extended_xmp_in(payloads(stream, whole))


def iptc_of(stream, whole=False):
    return iptc_in(payloads(stream, whole))


def sizes_of(stream):
    """What `info` says of the data in a header: the key of each line and its value."""
    exif = exif_of(stream)
    parts = [it for it in named(payloads(stream), 2, b"ICC_PROFILE\0") if len(it) > 2]
    found = {
        "icc-bytes": sum(len(it) - 2 for it in parts) if parts else None,
        "exif-bytes": None if exif is None else len(exif),
        "orientation": None if exif is None else orientation_of(exif),
    }
    made = thumbnail_of(exif or b""), xmp_of(stream), extended_xmp_of(stream), iptc_of(stream)
    keys = "thumbnail-bytes", "xmp-bytes", "extended-xmp-bytes", "iptc-bytes"
    found |= {key: None if it is None else len(it) for key, it in zip(keys, made)}
    return found
