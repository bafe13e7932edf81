"""An engine of the Go Text Protocol as a process that is asked lines."""

import asyncio
import os
import signal
from typing import Optional, Sequence, Tuple

from goref._tools.match_clock import BEAT, Clock
from goref._tools.responses import BadResponse, Incoming, Response

FAREWELL = 1.0
"""How many seconds an engine has to end after `quit`."""

_DRAIN = 1.0
"""How many seconds are waited for what belongs to an end: the last of the output, or the status."""


class EngineFailed(Exception):
    """An engine that can't be asked any more. The text says what it did, to be read after its name."""


class EngineLate(EngineFailed):
    """An engine whose response didn't come in time."""


class Engine(asyncio.SubprocessProtocol):
    """A process, and those that it starts, which are one process group.

    Once it failed, all of them are killed, and each line is answered by that failure.
    """

    def __init__(self, words: Sequence[str], clock: Optional[Clock] = None) -> None:
        self._words = words
        self._clock = clock or Clock()
        self._loop = asyncio.get_running_loop()
        self._incoming = Incoming()
        self._starting: "Optional[asyncio.Future[Tuple[asyncio.SubprocessTransport, Engine]]]" = None
        self._process: Optional[asyncio.SubprocessTransport] = None
        self._exit: "asyncio.Future[int]" = self._loop.create_future()
        self._is_output_closed = False
        self._answer: "Optional[asyncio.Future[Tuple[Response, float]]]" = None
        self._asked_at = 0.0
        self._allowed = 0.0
        self._is_looking = False
        self._failure: Optional[EngineFailed] = None
        self._is_leaving = False

    async def start(self) -> None:
        """Starts the process. Raises EngineFailed where it can't be started."""
        pipe = asyncio.subprocess.PIPE
        self._starting = asyncio.ensure_future(
            self._loop.subprocess_exec(
                lambda: self, *self._words, stdin=pipe, stdout=pipe, stderr=None, start_new_session=True
            )
        )
        try:
            await asyncio.shield(self._starting)
        except OSError as why:
            raise EngineFailed(f"can't be started: {why.strerror or why}") from None
        except ValueError as why:
            raise EngineFailed(f"can't be started: {why}") from None

    @property
    def has_failed(self) -> bool:
        """Whether it can't be asked any more."""
        return self._failure is not None

    async def ask(self, line: str, seconds: float) -> Tuple[Response, float]:
        """The response to a line, and the seconds that it took. Raises EngineFailed."""
        self._begin(line, seconds)
        assert self._answer
        try:
            return await self._answer
        except EngineFailed as why:
            raise type(why)(f"{why} at `{line}`") from None
        finally:
            self._answer = None

    def _begin(self, line: str, seconds: float) -> None:
        """Sends a line, if that is of use."""
        self._answer = self._loop.create_future()
        self._allowed = seconds
        self._asked_at = self._clock.now()
        try:
            self._incoming.ask()
        except BadResponse as why:
            self._fail(EngineFailed(str(why)))
        if self._failure:
            if not self._answer.done():
                self._answer.set_exception(self._failure)
            return
        assert self._process
        pipe = self._process.get_pipe_transport(0)
        assert isinstance(pipe, asyncio.WriteTransport)
        pipe.write(line.encode("utf-8", "surrogateescape") + b"\n")
        if not self._is_looking:
            self._is_looking = True
            self._loop.call_later(BEAT, self._look)

    async def leave(self) -> None:
        """Has it end by `quit`, and kills what is there a second after that."""
        self._is_leaving = True
        if await self._is_started():
            assert self._process
            pipe = self._process.get_pipe_transport(0)
            if not self._exit.done() and isinstance(pipe, asyncio.WriteTransport):
                pipe.write(b"quit\n")
                await asyncio.wait([self._exit], timeout=FAREWELL)
            await self.kill()

    async def kill(self) -> None:
        """Ends it and all that it started, and waits for its end."""
        self._fail(EngineFailed("was ended"))
        if await self._is_started():
            assert self._process
            self._kill_group()
            await asyncio.wait([self._exit], timeout=5 * _DRAIN)
            self._process.close()

    async def _is_started(self) -> bool:
        """Whether there is a process, which a start may just be about to make."""
        if self._starting is None:
            return False
        await asyncio.wait([self._starting])
        return not self._starting.cancelled() and self._starting.exception() is None

    def _fail(self, failure: EngineFailed) -> None:
        """From here on it can't be asked. What fails later is a consequence of this."""
        if self._failure is None:
            self._failure = failure
            self._kill_group()
            if self._answer and not self._answer.done():
                self._answer.set_exception(failure)

    def _kill_group(self) -> None:
        """Kills the process group, which has the number of its first process."""
        if self._process is not None and not self._exit.done():
            try:
                os.killpg(self._process.get_pid(), signal.SIGKILL)
            except OSError:
                pass

    def _look(self) -> None:
        """Looks whether a response is late, again and again until it fails: a timer for each line would cost more."""
        waited = self._clock.now() - self._asked_at
        if self._answer and not self._answer.done() and waited > self._allowed:
            self._is_late()
        if self._failure is None:
            self._loop.call_later(BEAT, self._look)

    def _is_late(self) -> None:
        self._fail(EngineLate(f"wrote no response within {self._allowed:g} s"))

    # What the loop tells of the process.

    def connection_made(self, transport: asyncio.BaseTransport) -> None:
        assert isinstance(transport, asyncio.SubprocessTransport)
        self._process = transport

    def pipe_data_received(self, fd: int, data: bytes) -> None:
        if self._failure or self._is_leaving:
            return
        try:
            response = self._incoming.feed(data)
        except BadResponse as why:
            self._fail(EngineFailed(str(why)))
            return
        if response and self._answer and not self._answer.done():
            taken = self._clock.now() - self._asked_at
            if taken > self._allowed:
                self._is_late()
            else:
                self._answer.set_result((response, taken))

    def pipe_connection_lost(self, fd: int, exc: Optional[Exception]) -> None:
        if fd == 1:
            self._is_output_closed = True
            self._await_end()

    def process_exited(self) -> None:
        assert self._process
        # What it started is ended now, for its number may soon be that of another group.
        self._kill_group()
        status = self._process.get_returncode()
        if not self._exit.done():
            self._exit.set_result(0 if status is None else status)
        self._await_end()

    def _await_end(self) -> None:
        """It has ended where its output has ended and its status is there. One of them may come late, or never."""
        if self._is_output_closed and self._exit.done():
            self._end()
        else:
            self._loop.call_later(_DRAIN, self._end)

    def _end(self) -> None:
        if not self._exit.done():
            self._fail(EngineFailed("closed its output"))
        elif self._exit.result() < 0:
            self._fail(EngineFailed(f"was ended by {_name_of_signal(-self._exit.result())}"))
        else:
            self._fail(EngineFailed(f"ended with status {self._exit.result()}"))


def _name_of_signal(number: int) -> str:
    try:
        return signal.Signals(number).name
    except ValueError:
        return f"signal {number}"
