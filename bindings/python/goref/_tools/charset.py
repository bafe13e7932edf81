"""From the bytes of a file to the bytes that goref is given, and back to places in the file.

The charset is that of the byte-order mark; else the one that the record's `CA` names; else UTF-8, where the bytes are
that; else a guess. ASCII and UTF-8 are passed on as they are.
"""

import argparse
import codecs
import re
from dataclasses import dataclass, field
from typing import Any, Iterator, List, Optional, Tuple

import goref
from goref._tools import spelling
from goref._tools.faults import shown

_MARKS = (
    (codecs.BOM_UTF8, "utf-8"),
    (codecs.BOM_UTF32_LE, "utf-32-le"),
    (codecs.BOM_UTF32_BE, "utf-32-be"),
    (codecs.BOM_UTF16_LE, "utf-16-le"),
    (codecs.BOM_UTF16_BE, "utf-16-be"),
)

# A name in `CA` often means the larger charset that grew out of it.
_GROWN = {
    "big5": ("big5", "cp950", "big5hkscs"),
    "gb2312": ("gb18030",),
    "gbk": ("gb18030",),
    "shift_jis": ("cp932", "shift_jis_2004"),
    "euc_jp": ("euc_jp", "euc_jis_2004"),
    "euc_kr": ("cp949",),
    "iso8859-1": ("cp1252", "iso8859-1"),
}

# Codecs of Python that are no charsets of files.
_NO_CHARSETS = {"idna", "punycode", "unicode-escape", "raw-unicode-escape", "undefined", "utf-7", "mbcs", "oem"}
_UTF8 = ("utf-8", "utf-8-sig")

_STATED = re.compile(rb"(?<![A-Za-z])[a-z]*C[a-z]*A[a-z]*\s*\[\s*([A-Za-z0-9_.:+-]{2,40})\s*\]")
_PIECE = re.compile(rb"[^\[\];()\r\n\x80-\xff]{0,40}[\x80-\xff][^\[\];()\r\n]*")
_ENOUGH = 4096

# What single letters of a Latin charset in words don't come to: signs, three of them, two without a letter beside them,
# one before what may be its second byte.
_NOT_LATIN = re.compile(
    rb"[\x80-\xbf]|[\xc0-\xff]{3}|(?<![A-Za-z\xc0-\xff])[\xc0-\xff]{2}(?![A-Za-z\xc0-\xff])"
    rb"|(?<![A-Za-z\xc0-\xff])[\xc0-\xff][@\x5b-\x60\x7b-\x7e]|[\xc0-\xff][\x5b\x5c]"
)

# In these a `\\`, a `[` or a `]` may be the second byte of a character.
_TWO_BYTES = ("big5hkscs", "cp932", "gb18030")
_GUESSES = ["big5", "cp932", "gb18030", "euc_jp", "cp949", "cp1251", "koi8_r"]
_LATIN_GUESSES = ["cp1252", "cp1250", "cp1254", "cp1257"]


class WrongCharset(Exception):
    """Bytes that aren't of the charset that was asked for. Its text says so."""


@dataclass
class Converted:
    """The bytes of a file as goref is given them."""

    utf8: bytes
    """The file's bytes as they are, or in UTF-8."""
    charset: Optional[str] = None
    """The charset that they were converted from; none where they are as they were."""
    how: str = ""
    """How that was known: `byte-order mark`, `CA`, `guessed`, `--charset`; and `unknown` where it wasn't."""
    data: bytes = b""
    """The bytes of the file."""
    others: Tuple[str, ...] = ()
    """Charsets that the file may be in as well: other games name them, or its bytes are UTF-8 against what it names."""
    errors: str = "strict"
    """What became of bytes that aren't of the charset, as `bytes.decode` names it."""
    verdicts: Any = field(default=None, compare=False, repr=False)
    """What the games come to in other readings, once somebody asked for that."""
    _last: Tuple[int, int, Any] = field(default=(0, 0, None), compare=False, repr=False)

    def place(self, place: int) -> int:
        """A place in what goref was given as a place in the file's own bytes."""
        if self.charset is None:
            return place
        if place >= len(self.utf8):
            return len(self.data)
        # Places are mostly asked for one after another, so a walk goes on from the last one.
        before, at, state = self._last if self._last[0] <= place else (0, 0, None)
        walk = _Walk(self.data, self.charset, self.errors, at, state)
        at = walk.after(len(self.utf8[before:place].decode("utf-8", "ignore")))
        self._last = (place, at, walk.state)
        return at

    def told(self) -> str:
        """The conversion in words, for people; nothing where there was none."""
        if self.charset is None:
            return "charset unknown" if self.how == "unknown" else ""
        return f"converted from {self.charset}, {self.how}"


def add_charset(parser: argparse.ArgumentParser) -> None:
    """Adds the option that says the charset."""
    parser.add_argument(
        "--charset", metavar="NAME", type=_asked,
        help="the charset of the files, as big5; else a byte-order mark, CA or a guess tells it",
    )


def _asked(name: str) -> str:
    if codec_of(name) is None:
        raise argparse.ArgumentTypeError(f"no charset that Python knows: {shown(name)}")
    return name


def codec_of(name: str) -> Optional[str]:
    """Python's name of a charset, if it knows that."""
    try:
        found = codecs.lookup(name)
    except (LookupError, ValueError):
        return None
    if not getattr(found, "_is_text_encoding", True) or found.name in _NO_CHARSETS:
        return None
    return found.name


def converted(data: bytes, charset: Optional[str] = None) -> Converted:
    """What goref is given of a file. Raises WrongCharset where the bytes aren't of the charset that was asked for."""
    if charset is not None:
        return _as_asked(data, charset)
    for mark, codec in _MARKS:
        if data.startswith(mark):
            marked = _decoded(data, (codec,), "byte-order mark")
            if marked is not None:
                return marked
    if data.isascii() and b"\x1b" not in data and b"~{" not in data:
        return Converted(data, data=data)
    return _stated(data) or _utf8(data) or _guessed(data)


def readings(data: bytes, text: Converted) -> Iterator[Tuple[str, Converted]]:
    """What else a text may be whose charset was guessed, each with its name: a verdict that differs depends on it."""
    for codec in text.others:
        # Not all of the file need be in it.
        grown = _grown(codec)
        yield f"in {codec}", Converted(_encoded(data.decode(grown, "replace")), grown, "CA", data, errors="replace")
    if text.how not in ("guessed", "unknown"):
        return
    if text.charset is not None:
        yield "byte for byte", Converted(data, data=data)
    if not _is_latin(data):
        for codec in _TWO_BYTES:
            other = _decoded(data, (codec,), "guessed") if codec != text.charset else None
            if other is not None:
                yield f"in {codec}", other


def _as_asked(data: bytes, charset: str) -> Converted:
    """The bytes by a charset that was asked for; those of UTF-8 stay as they are."""
    codec = codec_of(charset) or charset
    text = _decoded(data, _GROWN.get(codec, (codec,)), "--charset")
    if text is not None:
        return text
    try:
        data.decode(codec)
    except UnicodeDecodeError as why:
        raise WrongCharset(f"not in {codec} at byte {why.start}") from None
    except UnicodeError:
        pass
    raise WrongCharset(f"not in {codec}")


def _decoded(data: bytes, codecs_: Tuple[str, ...], how: str) -> Optional[Converted]:
    """The bytes in UTF-8, by the first of some charsets that has all of them."""
    for codec in codecs_:
        try:
            text = data.decode(codec)
        except UnicodeError:
            continue
        if codec in _UTF8:
            is_known = how == "--charset" or data.startswith(codecs.BOM_UTF8)
            return Converted(data, None, how if is_known else "", data)
        return Converted(_encoded(text), codec, how, data)
    return None


def _encoded(text: str) -> bytes:
    """A text in UTF-8, without a byte-order mark."""
    return text[text.startswith("\ufeff") :].encode("utf-8", "replace")


def _stated(data: bytes) -> Optional[Converted]:
    """The bytes by the first `CA`, where that names a charset and still stands in the record that they are then."""
    named = list(dict.fromkeys((name, codec_of(name.decode("ascii"))) for name in _STATED.findall(data)))
    for name, codec in named[:4]:
        if codec is None:
            continue
        text = _utf8(data) if codec in _UTF8 else _decoded(data, _GROWN.get(codec, (codec,)), "CA")
        if text is not None and (codec in _UTF8 or _names(text.utf8, name)):
            text.others = _others(data, codec, [other for _, other in named if other is not None])
            return text
    return None


def _others(data: bytes, codec: str, named: List[str]) -> Tuple[str, ...]:
    """The charsets that a file names beside its own and that aren't read as that is. ASCII is a part of each."""
    if codec == "ascii":
        return ()
    # Bytes of ASCII alone, as of ISO-2022-JP and HZ, would be UTF-8 whatever they are.
    is_utf8_too = codec not in _UTF8 and not data.isascii() and _utf8(data) is not None
    seen = {_grown(codec), "ascii"}
    others = []
    for other in [*named, *(["utf-8"] if is_utf8_too else [])]:
        if _grown(other) not in seen:
            seen.add(_grown(other))
            others.append(other)
    return tuple(others)


def _grown(codec: str) -> str:
    """The codec by which a charset is read first."""
    return _GROWN.get(codec, (codec,))[0]


def _names(utf8: bytes, name: bytes) -> bool:
    """Whether the first node of a game of a text has this `CA`. A game that is broken isn't asked."""
    for game in goref.games(utf8):
        if not game.is_whole:
            return True
        try:
            node = next(spelling.nodes_on(goref.tidy(game.text), 0), None)
        except goref.GorefError:
            return True
        stated = node.first("CA") if node else None
        if stated is not None:
            return stated.strip() == name
    return False


def _utf8(data: bytes) -> Optional[Converted]:
    return _decoded(data, ("utf-8",), "")


def _guessed(data: bytes) -> Converted:
    """The bytes by the charset that they look most like."""
    unknown = Converted(data, how="unknown", data=data)
    try:
        from charset_normalizer import from_bytes
    except ImportError:
        return unknown
    pieces = _pieces(data)
    wanted = _LATIN_GUESSES if _is_latin(data) else _GUESSES
    codec = None
    # A long piece may be cut within a character.
    for end in (len(pieces), len(pieces) - 1):
        best = _likely(from_bytes(pieces[:end], cp_isolation=list(wanted), threshold=0.5))
        if best is not None:
            codec = codec_of(best)
            break
    if codec is None or codec in ("ascii", "utf-8"):
        return unknown
    return _decoded(data, _GROWN.get(codec, (codec,)), "guessed") or unknown


def _pieces(data: bytes) -> bytes:
    """What of a file its charset shows in: values with other bytes than ASCII, and not much more than is enough."""
    pieces: List[bytes] = []
    left = _ENOUGH
    for piece in _PIECE.finditer(data):
        pieces.append(piece[0][:_ENOUGH])
        left -= len(pieces[-1])
        if left <= 0:
            break
    return b"\n".join(pieces)


def _likely(found: Any) -> Optional[str]:
    """The likeliest of some guesses; of Latin ones as good as each other the most common."""
    best = found.best()
    if best is None:
        return None
    as_good = [one.encoding for one in found if (one.chaos, one.coherence) == (best.chaos, best.coherence)]
    return str(next((name for name in _LATIN_GUESSES if name in as_good), best.encoding))


def _is_latin(data: bytes) -> bool:
    """Whether all bytes from 128 on look like single letters in words of Latin letters."""
    return _NOT_LATIN.search(data) is None


class _Walk:
    """A walk along the characters of a file."""

    def __init__(self, data: bytes, charset: str, errors: str, at: int, state: Any) -> None:
        self._data = data
        self._decoder = codecs.getincrementaldecoder(charset)(errors)
        self._at = at
        self._left = 0
        if state is not None:
            self._decoder.setstate(state)
        elif self._decoder.decode(data[:8]).startswith("\ufeff"):
            # A mark is no part of the text.
            self._left = 1
        if state is None:
            self._decoder.reset()

    @property
    def state(self) -> Any:
        return self._decoder.getstate()

    def after(self, count: int) -> int:
        """The place after `count` characters more."""
        self._left += count
        # Blocks first, and then byte for byte within the block in which the text ends.
        for step in (4096, 1):
            self._go(step)
        return min(self._at, len(self._data))

    def _go(self, step: int) -> None:
        while self._at < len(self._data) and (self._left > 0 or self.state[0]):
            state = self.state
            said = len(self._decoder.decode(self._data[self._at : self._at + step]))
            if step > 1 and said >= self._left:
                self._decoder.setstate(state)
                return
            self._left -= said
            self._at += step
