"""The rows of a picture, one by one."""

from __future__ import annotations

import ctypes
import threading
import weakref
from contextlib import ExitStack
from typing import TYPE_CHECKING

from . import library
from .calls import check, stream_of
from .errors import error_of
from .options import ROWS, RowsOptions, options_of
from .picture import Info, info_of

if TYPE_CHECKING:
    from types import TracebackType

    from typing_extensions import Buffer, Self, Unpack


def _free(handle: ctypes.c_void_p, held: ExitStack) -> None:
    """Frees what the library keeps, and then lets the stream go."""
    library.rows_free(handle)
    held.close()


class Rows:
    """The rows of a picture, an iterator: each is `info.row_bytes` bytes, as the picture of decode
    has them. A sample of more than 8 bits has two bytes, the lower one first.

    Only at its end is a stream known to have no fault. The exception for one that has says in
    `lines` how many rows the stream codes before it.

    The buffer of the stream is held, and mustn't change, until the last row, an exception, `close`,
    the end of a `with`, or until nobody has the rows any more. Threads may share them.
    """

    info: Info
    lines: int  # how many rows were given

    def __init__(self, data: Buffer, **options: Unpack[RowsOptions]) -> None:
        wanted, told = options_of(options, ROWS), library.Description()
        self._handle = ctypes.c_void_p()
        with ExitStack() as stack:
            stream = stack.enter_context(stream_of(data))
            begun = ctypes.byref(self._handle)
            answer = library.rows_new(*stream, ctypes.byref(wanted), begun, ctypes.byref(told))
            check(answer, told, wanted)
            self._finish = weakref.finalize(self, _free, self._handle, stack.pop_all())
        self.info, self.lines = info_of(told, wanted), 0
        self._row = ctypes.create_string_buffer(told.row_bytes)
        self._lock = threading.Lock()

    def __iter__(self) -> Self:
        return self

    def __next__(self) -> bytes:
        with self._lock:
            if not self._finish.alive:
                raise StopIteration
            answer = library.rows_next(self._handle, self._row, len(self._row))
            if answer == library.OK:
                self.lines += 1
                return self._row.raw
            told = library.Description()
            library.rows_refusal(self._handle, ctypes.byref(told))
            self._finish()
        if answer == library.END:
            raise StopIteration
        error = error_of(answer, told)
        error.lines = self.lines
        raise error

    def close(self) -> None:
        """Frees everything. No more rows are given then."""
        with self._lock:
            self._finish()

    def __enter__(self) -> Self:
        return self

    def __exit__(
        self,
        kind: type[BaseException] | None,
        error: BaseException | None,
        trace: TracebackType | None,
    ) -> None:
        self.close()


def rows(data: Buffer, **options: Unpack[RowsOptions]) -> Rows:
    """Describes the picture of a stream, and gives its rows one by one, from the top, while the
    stream is read: for a program that needs no whole picture in memory. The options are those of
    the class RowsOptions.

    If the first scan has all components of a sequential frame, as in most files, two rows of MCUs
    are in memory at most, whatever the height is. Others are read to their end for the first row.
    """
    return Rows(data, **options)
