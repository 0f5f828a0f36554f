"""The picture of a stream that arrives in pieces."""

from __future__ import annotations

import threading
import weakref
from ctypes import byref, c_void_p
from typing import TYPE_CHECKING

from . import library
from .calls import check, new_memory, partial_of, picture_in, stream_of
from .errors import TruncatedError
from .options import Options, options_of
from .picture import Info, Partial, info_of

if TYPE_CHECKING:
    from types import TracebackType

    from typing_extensions import Buffer, Self, Unpack


class Fed:
    """A stream that is fed in pieces. However it was cut, `info` and `show` answer as read_info and
    decode_partial do of all bytes that were fed, with the options of `feed`.

    These bytes, and what whole scans among them have brought, stay in memory until `close`, the end
    of a `with`, or until nobody has the object any more; other calls are a ValueError then. Threads
    may share it.
    """

    size: int  # how many bytes were fed

    def __init__(self, **options: Unpack[Options]) -> None:
        self._options, self.size = options_of(options), 0
        self._handle = c_void_p()
        answer = library.fed_new(byref(self._options), byref(self._handle))
        told = library.Description()
        if answer == library.BAD_ARGUMENT:
            # (the text for options that don't exist is the one that a stream of no bytes gets)
            answer = library.read_info(None, 0, byref(self._options), byref(told))
        check(answer, told, self._options)
        self._finish = weakref.finalize(self, library.fed_free, self._handle)
        self._lock = threading.Lock()

    def _check_open(self) -> None:
        if not self._finish.alive:
            raise ValueError("the stream is closed")

    def feed(self, data: Buffer) -> None:
        """Copies the next bytes. After a NoMemoryError none of them were taken."""
        with stream_of(data) as piece, self._lock:
            self._check_open()
            check(library.fed_feed(self._handle, *piece), library.Description(), self._options)
            self.size += piece[1]

    def _describe(self) -> library.Description:
        self._check_open()
        told = library.Description()
        answer = library.fed_info(self._handle, byref(told))
        check(answer, told, self._options)
        return told

    def info(self) -> Info | None:
        """Describes the picture, by its header, or returns None while that isn't there."""
        with self._lock:
            try:
                return info_of(self._describe(), self._options)
            except TruncatedError:
                return None

    def show(self) -> Partial:
        """Decodes what the bytes bring, as decode_partial does. The fault is a TruncatedError while
        they end before the image does; any other, or None, is final: bytes that follow change
        nothing. Raises an error where the header isn't there, too: a TruncatedError while it may
        come.

        Each whole scan is read once, by the first call after it has arrived, and the scan in which
        the bytes end by each call; and each call makes all pixels. So show a picture once the bytes
        have doubled, say, and not for each small piece. With `scale`, `min_width` or `min_height`
        each call reads all bytes.
        """
        with self._lock:
            told = self._describe()
            memory = new_memory(told.size)
            with library.held(memory) as address:
                shown = library.fed_show(self._handle, address, memory.nbytes, byref(told))
                check(shown, told, self._options)
                return partial_of(picture_in(memory, address, told, self._options), told)

    def close(self) -> None:
        """Frees everything."""
        with self._lock:
            self._finish()

    def __enter__(self) -> Self:
        return self

    def __exit__(
        self,
        kind: type[BaseException] | None,
        error: BaseException | None,
        trace: TracebackType | None,
    ) -> None:
        self.close()


def feed(**options: Unpack[Options]) -> Fed:
    """Takes a stream in pieces, and shows at any time the picture of what has arrived. The options
    are those of the class Options."""
    return Fed(**options)
