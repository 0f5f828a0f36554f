"""The rows of a picture whose stream arrives in pieces, one by one."""

from __future__ import annotations

import ctypes
import threading
from typing import TYPE_CHECKING, Iterable

from . import library
from .by_pieces import Fed
from .calls import check
from .errors import Error, error_of
from .options import ARRIVING, ArrivingRowsOptions, options_of
from .picture import Info, info_of

if TYPE_CHECKING:
    from types import TracebackType

    from typing_extensions import Buffer, Self, Unpack


class ArrivingRows:
    """The rows of a picture while its stream arrives, an iterator: each as soon as its bytes are
    there. The next piece is taken when a row is asked for that needs it.

    The rows and the exceptions are those of `rows` for all pieces as one, but that one for the
    header comes with the first row. All is freed after the last row, an exception, `close`, the end
    of a `with`, or when nobody has the rows any more. Threads may share them.
    """

    info: Info | None  # None until there is a row
    lines: int  # how many rows were given

    def __init__(self, pieces: Iterable[Buffer], **options: Unpack[ArrivingRowsOptions]) -> None:
        self._options = options_of(options, ARRIVING)
        if isinstance(pieces, (str, bytes, bytearray, memoryview)):
            raise TypeError("pieces is an iterable of buffers, and not one of them")
        self._pieces = iter(pieces)
        self._fed = Fed(**options)
        self._handle, self._row = self._fed._handle, ctypes.create_string_buffer(0)
        self._wanted = 0
        self._is_over = False
        self._lock = threading.Lock()
        self.info, self.lines = None, 0

    def __iter__(self) -> Self:
        return self

    def __next__(self) -> bytes:
        with self._lock:
            if self._is_over:
                raise StopIteration
            try:
                row = self._take()
            except BaseException:
                self._end()
                raise
            if row is None:
                self._end()
                raise StopIteration
            self.lines += 1
            return row

    def _take(self) -> bytes | None:
        """Takes pieces until there is a row, or None after the last."""
        while True:
            answer = library.WAITING
            if self.info is not None:
                answer = library.fed_next(self._handle, self._row, len(self._row))
            if answer == library.OK:
                return self._row.raw
            if answer == library.END:
                return None
            if answer != library.WAITING:
                raise self._refusal(answer)
            self._take_piece()

    def _take_piece(self) -> None:
        for piece in self._pieces:
            try:
                self._fed.feed(piece)
            except Error as error:
                error.lines = self.lines if self.info else None
                raise
            # (a header of many pieces isn't read for each of them)
            if self._fed.size >= self._wanted:
                self._begin(is_last=False)
            return
        self._begin(is_last=True)
        library.fed_end(self._handle)

    def _begin(self, is_last: bool) -> None:
        """Begins with the rows, once the header is there."""
        if self.info is not None:
            return
        self._wanted = self._fed.size * 5 // 4
        told = library.Description()
        answer = library.fed_rows(self._handle, ctypes.byref(told))
        if answer == library.TRUNCATED and not is_last:
            return
        check(answer, told, self._options)
        self.info = info_of(told, self._options)
        self._row = ctypes.create_string_buffer(told.row_bytes)

    def _refusal(self, answer: int) -> Error:
        told = library.Description()
        library.fed_refusal(self._handle, ctypes.byref(told))
        error = error_of(answer, told)
        error.lines = self.lines
        return error

    def _end(self) -> None:
        self._is_over = True
        self._fed.close()

    def close(self) -> None:
        """Frees everything. No more rows are given then."""
        with self._lock:
            self._end()

    def __enter__(self) -> Self:
        return self

    def __exit__(
        self,
        kind: type[BaseException] | None,
        error: BaseException | None,
        trace: TracebackType | None,
    ) -> None:
        self.close()


def arriving_rows(pieces: Iterable[Buffer], **options: Unpack[ArrivingRowsOptions]) -> ArrivingRows:
    """Gives the rows of a picture one by one, from the top, while its stream arrives, as `pieces`
    gives it. The options are those of the class ArrivingRowsOptions.

    If the first scan has all components of a sequential frame, as in most files, each row of MCUs
    is decoded once, when its bytes are there, which are dropped then. Other files give all rows
    after the last piece.
    """
    return ArrivingRows(pieces, **options)
