"""JPEG files taken apart at their segments and put together otherwise."""

SOI, EOI = b"\xff\xd8", b"\xff\xd9"
APP0, APP14, DHT, SOS = 0xE0, 0xEE, 0xC4, 0xDA
SOF0, SOF2 = 0xC0, 0xC2


def end_of_scan(stream, place):
    """Where the entropy-coded data that begin at a place end: at a marker that is no restart."""
    while True:
        place = stream.index(b"\xff", place)
        code = stream[place + 1]
        if code != 0 and not 0xD0 <= code <= 0xD7:
            return place
        place += 2


def segments_of(stream):
    """The segments between SOI and EOI, each a marker's code and its bytes; a scan's data stand
    with its header."""
    segments = []
    place = 2
    while stream[place : place + 2] != EOI:
        code = stream[place + 1]
        end = place + 2 + int.from_bytes(stream[place + 2 : place + 4], "big")
        if code == SOS:
            end = end_of_scan(stream, end)
        segments.append((code, stream[place:end]))
        place = end
    return segments


def joined(segments):
    """The file of these segments."""
    return SOI + b"".join(text for _, text in segments) + EOI


def segment(code, payload):
    """A segment of this code."""
    return code, b"\xff%c" % code + (len(payload) + 2).to_bytes(2, "big") + payload


def mjpeg_frame(stream):
    """The file as a frame of an AVI file has it: without Huffman tables, after a segment that says
    AVI1."""
    kept = [part for part in segments_of(stream) if part[0] not in (APP0, DHT)]
    return joined([segment(APP0, b"AVI1" + bytes(10)), *kept])


def with_adobe(stream, transform):
    """The file with Adobe's segment of this colour transform, or where it is None with no segment
    that speaks of colours."""
    kept = [part for part in segments_of(stream) if part[0] not in (APP0, APP14)]
    if transform is None:
        return joined(kept)
    return joined([segment(APP14, b"Adobe\0d\0\0\0\0%c" % transform), *kept])


def prefixes(stream):
    """The file closed after each of its scans but the last."""
    segments = segments_of(stream)
    ends = [place for place, (code, _) in enumerate(segments) if code == SOS]
    return [joined(segments[: end + 1]) for end in ends[:-1]]


def without_component(stream, name):
    """The file without the scans of the component of this name alone."""

    def is_of_it(part):
        code, text = part
        return code == SOS and text[4] == 1 and text[5] == name

    return joined([part for part in segments_of(stream) if not is_of_it(part)])


def of_components(streams):
    """The file whose components are those of files of one component each, of equal sizes and
    quantization tables. Their scans follow one another, and no segment speaks of colours."""
    parts = []
    for code, text in segments_of(streams[0]):
        if code in (SOF0, SOF2):
            components = b"".join(b"%c\x11\0" % name for name in range(1, len(streams) + 1))
            parts.append(segment(code, text[4:9] + b"%c" % len(streams) + components))
        elif code not in (APP0, DHT, SOS):
            parts.append((code, text))
    for name, stream in enumerate(streams, 1):
        for code, text in segments_of(stream):
            if code in (DHT, SOS):
                parts.append((code, text[:5] + b"%c" % name + text[6:] if code == SOS else text))
    return joined(parts)
