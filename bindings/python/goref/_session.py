"""A session that stands between calls."""

import ctypes
import os
import stat
import threading
from types import TracebackType
from typing import Callable, List, Mapping, Optional, Sequence, Type, Union

from goref._library import Handle, library, text_in_room
from goref._types import Bytes, GorefError, OutOfMemory, Refused, SessionOver, bytes_of, lines_of_board

Files = Union[
    Mapping[bytes, bytes], Mapping[str, bytes], Callable[[bytes], Optional[bytes]], "os.PathLike[str]", str, None
]
"""Where `loadsgf` finds its files: a mapping from names to bytes, a folder, or a function from a name to bytes.

A name that leads out of the folder, also by a symbolic link, finds nothing.
"""

_MOST = 16_777_216

_NO_MEMORY = "out of memory"
"""goref's reason for a command that it has no memory for."""

# goref removes these from each line before it looks for words.
_CONTROLS = bytes(byte for byte in [*range(32), 127] if byte not in b"\t\n")


class Session:
    """A game that is played by lines of GTP, on a board that has `size` lines at first.

    It is a context manager, and `close` ends it. Several threads may use one session: each call waits for the one
    before it, but for calls that a function for files makes itself: their lines are answered first. A session takes
    72 kB at first; after 250 moves on 19 lines some 160 kB of it are in memory.
    """

    def __init__(self, size: int = 19) -> None:
        size = lines_of_board(size)
        self._library = library()
        self._handle = Handle()
        self._lock = threading.RLock()
        self._is_over = False
        if self._library.goref_open(size, ctypes.byref(self._handle)) != 0:
            raise OutOfMemory(_NO_MEMORY)

    def __enter__(self) -> "Session":
        return self

    def __exit__(
        self, kind: Optional[Type[BaseException]], why: Optional[BaseException], trace: Optional[TracebackType]
    ) -> None:
        self.close()

    def __del__(self) -> None:
        if hasattr(self, "_lock"):
            self.close()

    @property
    def is_over(self) -> bool:
        """Whether the session was closed, or answered `quit`: no line is answered then."""
        return self._is_over

    def close(self) -> None:
        """Ends the session, and gives its memory back. A second call does nothing."""
        with self._lock:
            self._is_over = True
            self._library.goref_close(ctypes.byref(self._handle))

    def send(self, lines: Bytes, files: Files = None) -> bytes:
        """The answers to lines, which go on where the lines before them ended, up to `quit`.

        A last line without a line end is answered too, so cut none in two. A file that isn't found, can't be read or
        is longer than a record may be is answered by `? cannot load file`. Raises `SessionOver` where the session was
        closed; `OutOfMemory` where there was no memory for an answer: its command was carried out, and no line after
        it, and the session goes on.
        """
        text = bytes_of("lines", lines)
        with self._lock:
            if files is None or b"loadsgf" not in text.translate(None, _CONTROLS):
                return self._answers(self._send(text), len(text))
            told: List[bytes] = []
            for line in text.split(b"\n"):
                status = self._send_with(line, files)
                told.append(self._answers(status, 256, told))
                if status == 1:
                    break
            return b"".join(told)

    def ask(self, command: Union[str, Bytes], files: Files = None) -> str:
        """The result of one command.

        Raises `Refused`, with goref's reason, if the session refuses the command, and `OutOfMemory` if goref lacks
        memory: for the command, which then changed nothing (its answer is `? out of memory`), or as `send` does.
        """
        line = command.encode("utf-8") if isinstance(command, str) else bytes_of("command", command)
        if b"\n" in line.rstrip(b"\n"):
            raise ValueError("command has several lines: send answers those")
        with self._lock:
            if self._is_over:
                raise SessionOver("the session is over")
            answer = self.send(line, files).decode("utf-8", "replace").strip()
        if answer.startswith("?"):
            reason = answer.partition(" ")[2]
            raise OutOfMemory(reason) if reason == _NO_MEMORY else Refused(reason)
        return answer[1:].lstrip("0123456789").strip()

    def _send(self, text: bytes, file: Optional[bytes] = None) -> int:
        """Sends lines, and a file for each that wants one, and gives the status."""
        length = ctypes.c_size_t()
        handle = ctypes.byref(self._handle)
        if file is None:
            status = self._library.goref_send(handle, text, len(text), ctypes.byref(length))
        else:
            status = self._library.goref_give(handle, text, len(text), file, len(file), ctypes.byref(length))
        if status == 1:
            self._is_over = True
        return int(status)

    def _send_with(self, line: bytes, files: Files) -> int:
        """Sends a line, with its file where it wants one that is there."""
        status, name = text_in_room(256, self._library.goref_wants, line, len(line))
        return self._send(line, _file(files, name) if status == 0 else None)

    def _answers(self, status: int, place: int, before: Sequence[bytes] = ()) -> bytes:
        """The answers to what was sent last."""
        if status == 4:
            raise SessionOver("the session was closed")
        taken, text = text_in_room(64 + place, self._library.goref_take, ctypes.byref(self._handle))
        if status == 3:
            raise OutOfMemory(_NO_MEMORY, b"".join(before) + text)
        if taken != 0 or status not in (0, 1):
            raise GorefError(f"libgoref answered with the status {taken or status}")
        return text


def _file(files: Files, name: bytes) -> Optional[bytes]:
    """What the file of a name holds, or nothing where there is none."""
    if files is None:
        return None
    if isinstance(files, (str, os.PathLike)):
        return _file_in(os.fsencode(files), name)
    if isinstance(files, Mapping):
        found = files.get(name)  # type: ignore[call-overload]
        if found is None:
            found = files.get(name.decode("utf-8", "surrogateescape"))  # type: ignore[call-overload]
    else:
        found = files(name)
    return None if found is None else bytes_of("file", found)


def _file_in(folder: bytes, name: bytes) -> Optional[bytes]:
    """What a file below a folder holds. A name that leads out of the folder finds nothing."""
    top = os.path.realpath(folder)
    try:
        path = os.path.realpath(os.path.join(top, name))
        if os.path.commonpath([top, path]) != top:
            return None
        # To open a pipe may wait for ever, and all other calls with it.
        with open(os.open(path, os.O_RDONLY | os.O_NONBLOCK | os.O_CLOEXEC), "rb") as file:
            return file.read(_MOST + 1) if stat.S_ISREG(os.fstat(file.fileno()).st_mode) else None
    except (OSError, ValueError):
        return None
