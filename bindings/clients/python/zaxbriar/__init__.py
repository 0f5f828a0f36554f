"""Decodes JPEG pictures by zaxbriar, a decoder whose calls are proved.

    picture = zaxbriar.decode(data, layout="rgb")
    picture.shape, memoryview(picture), numpy.asarray(picture)

`data` is bytes, or any buffer of bytes, such as a bytearray, an mmap or an array of numpy. It is
read where it is, unless there are gaps between its bytes, and mustn't change during a call, while
other threads run. The options are those of the class Options.
"""

from .arriving import ArrivingRows, arriving_rows
from .by_pieces import Fed, feed
from .by_rows import Rows, rows
from .calls import (
    decode,
    decode_partial,
    find_metadata,
    joined_metadata,
    metadata,
    next_segment,
    read_info,
    version,
)
from .errors import (
    BadArgumentError,
    Error,
    MalformedError,
    NoMemoryError,
    NoRoomError,
    TooLargeError,
    TooManyPassesError,
    TruncatedError,
    UnsupportedError,
)
from .options import (
    MAX_PASSES,
    ArrivingRowsOptions,
    Layout,
    Limits,
    Options,
    RowsOptions,
    Transform,
)
from .picture import Info, Partial, Picture, Places, Segment

__version__ = "0.1.0"
__all__ = [
    "ArrivingRows",
    "ArrivingRowsOptions",
    "BadArgumentError",
    "Error",
    "Fed",
    "Info",
    "Layout",
    "Limits",
    "MAX_PASSES",
    "MalformedError",
    "NoMemoryError",
    "NoRoomError",
    "Options",
    "Partial",
    "Picture",
    "Places",
    "Rows",
    "RowsOptions",
    "Segment",
    "TooLargeError",
    "TooManyPassesError",
    "Transform",
    "TruncatedError",
    "UnsupportedError",
    "arriving_rows",
    "decode",
    "decode_partial",
    "feed",
    "find_metadata",
    "joined_metadata",
    "metadata",
    "next_segment",
    "read_info",
    "rows",
    "version",
]
