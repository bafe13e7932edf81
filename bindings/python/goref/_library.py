"""The library, and its calls as ctypes sees them."""

import ctypes
import ctypes.util
import functools
import os
from ctypes import POINTER, Structure, c_char_p, c_size_t, c_uint8, c_void_p
from typing import Any, Optional

from goref._types import GorefError


class MissingLibrary(GorefError, ImportError):
    """There is no libgoref.so, or it can't be loaded."""


class Handle(Structure):
    """A `goref_session`."""

    _fields_ = [("session", c_void_p)]


_LENGTH = POINTER(c_size_t)
_TEXT = [c_char_p, c_size_t]
_ROOM = [c_char_p, c_size_t, _LENGTH]
_HANDLE = POINTER(Handle)

_CALLS = {
    "goref_answers": [c_uint8, *_TEXT, *_ROOM],
    "goref_judge": [*_TEXT, *_ROOM],
    "goref_tidy": [*_TEXT, *_ROOM],
    "goref_next_game": [*_TEXT, c_size_t, _LENGTH, _LENGTH],
    "goref_open": [c_uint8, _HANDLE],
    "goref_send": [_HANDLE, *_TEXT, _LENGTH],
    "goref_give": [_HANDLE, *_TEXT, *_TEXT, _LENGTH],
    "goref_wants": [*_TEXT, *_ROOM],
    "goref_take": [_HANDLE, *_ROOM],
    "goref_close": [_HANDLE],
}

# From here, what bindings/build makes, and what stands in the `lib` that this package was installed below.
_KNOWN = ("../../lib/libgoref.so", "../../../libgoref.so.1")


def _place() -> Optional[str]:
    """Where the library is."""
    named = os.environ.get("GOREF_LIBRARY")
    if named:
        return named
    here = os.path.dirname(os.path.abspath(__file__))
    for known in _KNOWN:
        place = os.path.normpath(os.path.join(here, known))
        if os.path.exists(place):
            return place
    # To ask the system may run a compiler, so that comes last.
    return ctypes.util.find_library("goref")


@functools.lru_cache(maxsize=None)
def library() -> Any:
    """The library, loaded once."""
    place = _place()
    if place is None:
        raise MissingLibrary(
            "libgoref.so isn't there: make it by bindings/build, or set GOREF_LIBRARY to where it is"
        )
    try:
        loaded = ctypes.CDLL(place)
        for name, arguments in _CALLS.items():
            function = getattr(loaded, name)
            function.argtypes = arguments
            function.restype = None if name == "goref_close" else c_uint8
    except OSError as why:
        raise MissingLibrary(f"{place} can't be loaded ({why}): make it anew by bindings/build") from None
    except AttributeError as why:
        raise MissingLibrary(f"{place} is older than this module ({why}): make it anew by bindings/build") from None
    return loaded


def text_in_room(place: int, function: Any, *arguments: Any) -> "tuple[int, bytes]":
    """The status of a call that fills a room, and the whole text, for which the room grows once if need be."""
    length = c_size_t()
    while True:
        room = ctypes.create_string_buffer(place)
        status = function(*arguments, room, place, ctypes.byref(length))
        if length.value <= place:
            return status, ctypes.string_at(room, length.value)
        place = length.value
