"""The exceptions: one class for each answer of the C library that refuses a stream or a call."""

from __future__ import annotations

from typing import TYPE_CHECKING

from . import library

if TYPE_CHECKING:
    from .picture import Info


class Error(Exception):
    """Says why a stream or a call was refused: the class of all these exceptions."""

    answer = -1  # the number of zaxbriar.h
    text: str  # what the library says of the fault, "" after metadata and segments
    info: Info | None = None  # the picture, after TooLargeError and NoRoomError
    lines: int | None = None  # of an iterator over rows: how many were given before

    def __init__(self, text: str = "") -> None:
        super().__init__(text)
        self.text = text

    @property
    def name(self) -> str:
        """The library's own name of the answer, such as "truncated stream"."""
        return str(library.answer_name(self.answer).decode())

    def __str__(self) -> str:
        told = self.text or self.name
        return told if self.lines is None else f"{told}, after {self.lines} rows"


class MalformedError(Error):
    """The stream breaks a rule of the standard."""

    answer = library.MALFORMED


class UnsupportedError(Error):
    """The stream needs a feature that isn't supported."""

    answer = library.UNSUPPORTED
    feature: str | None = None  # such as "arithmetic"
    feature_argument = 0  # the number that goes with it, such as the bits of "precision"


class TruncatedError(Error):
    """The stream ends too soon."""

    answer = library.TRUNCATED
    needed = 0  # after next_segment: how many more bytes are needed at least,
    skipped = 0  # and how many of those that it looked at don't matter any more


class NoMemoryError(Error, MemoryError):
    """There is no memory for the picture, or for decoding it."""

    answer = library.NO_MEMORY


class NoRoomError(Error, ValueError):
    """`out` is smaller than the picture, whose size is `info.size`."""

    answer = library.NO_ROOM


class BadArgumentError(Error, ValueError):
    """An argument has a value that doesn't exist, or that doesn't fit the picture."""

    answer = library.BAD_ARGUMENT


class TooLargeError(Error):
    """By its header, the picture exceeds max_samples or max_bytes."""

    answer = library.TOO_LARGE


class TooManyPassesError(Error):
    """The scans code the blocks of the picture more often than max_passes allows."""

    answer = library.TOO_MANY_PASSES


_CLASSES = {
    kind.answer: kind
    for kind in (
        MalformedError,
        UnsupportedError,
        TruncatedError,
        NoMemoryError,
        NoRoomError,
        BadArgumentError,
        TooLargeError,
        TooManyPassesError,
    )
}


def error_of(answer: int, description: library.Description | None = None) -> Error:
    """The exception for an answer, with what the library says of it."""
    text = description.text.decode() if description else ""
    error = _CLASSES.get(answer, Error)(text)
    error.answer = answer
    if isinstance(error, UnsupportedError) and description:
        error.feature = library.FEATURES[description.feature]
        error.feature_argument = description.feature_argument
    return error
