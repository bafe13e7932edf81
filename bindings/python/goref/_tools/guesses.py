"""What a file may be that is no record of Go."""

import re
from typing import Optional

_PACKED = (
    (b"\x1f\x8b", "a file that gzip packed; `gunzip -c` unpacks it"),
    (b"PK\x03\x04", "a zip archive; `unzip` unpacks it"),
    (b"BZh", "a file that bzip2 packed; `bunzip2 -c` unpacks it"),
    (b"\xfd7zXZ\x00", "a file that xz packed; `xz -dc` unpacks it"),
    (b"\x28\xb5\x2f\xfd", "a file that zstd packed; `zstd -dc` unpacks it"),
    (b"7z\xbc\xaf\x27\x1c", "an archive of 7-Zip"),
    (b"Rar!", "an archive of RAR"),
    (b"%PDF-", "a document in PDF"),
    (b"\x89PNG", "a picture in PNG"),
    (b"\xff\xd8\xff", "a picture in JPEG"),
    (b"GIF8", "a picture in GIF"),
)

_WRITTEN = (
    (rb"\s*<(!doctype\s+html|html|head|body)\b", "a page in HTML, as a server sends one instead of a file"),
    (rb"\s*<\?xml\b", "a document in XML"),
    (rb'\s*\[event\s+"', "a game of chess in PGN"),
    (rb"\s*\\HS\b", "a game in GIB, the format of Tygem"),
    (rb"\s*\[header\]", "a game in UGF, the format of PandaNet"),
    (rb"\s*\(?[^;(]{0,200};\s*[BW]\s*\[", "a record in SGF without the `(;` at its beginning"),
    (rb"\s*\(", "a record in SGF without the `;` of its first node"),
)

_WIDE = ("utf-16-le", "utf-16-be", "utf-32-le", "utf-32-be")

_GAMES = (
    "Go, Othello, chess, Gomoku or Renju, Nine Men's Morris, Backgammon, Chinese chess, Shogi, Lines of Action, Ataxx,"
    " Hex, Jungle, Neutron, Philosopher's Football, Quadrature, Trax, Tantrix, Amazons, Octi, Gess, Twixt, Zertz,"
    " Plateau, Yinsh, Punct, Gobblet, Hive, Exxit, Hnefatafl, Kuba, Tripples, Chase, Tumbling Down, Sahara, Byte,"
    " Focus, Dvonn, Tamsk, Gipf, Kropki"
).split(", ")
"""The games of FF[4] by their numbers, from 1."""


def guess(data: bytes) -> Optional[str]:
    """What a file may be that has no game tree."""
    packed = next((what for begin, what in _PACKED if data.startswith(begin)), None)
    if packed is not None:
        return packed
    wide = _wide(data)
    if wide is not None:
        return f"a text in {wide} without a byte-order mark; `--charset {wide}` reads it"
    written = next((what for shape, what in _WRITTEN if re.match(shape, data, re.I)), None)
    if written is not None:
        return written
    if b"\x00" in data:
        return "no text, since it has bytes of value 0"
    return None


def game_by(number: bytes) -> Optional[str]:
    """The game that a value of GM stands for."""
    told = re.fullmatch(rb"\s*\+?0*(\d{1,3})\s*", number)
    return _GAMES[int(told[1]) - 1] if told and 1 <= int(told[1]) <= len(_GAMES) else None


def _wide(data: bytes) -> Optional[str]:
    """The charset of wide characters in which a text has a game tree."""
    for charset in _WIDE:
        if re.search(r"\(\s*;", data[:65536].decode(charset, "ignore")):
            return charset
    return None
