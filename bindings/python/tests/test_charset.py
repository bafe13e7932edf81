"""From the bytes of a file to those that goref judges, and back."""

import time

import pytest

pytest.importorskip("charset_normalizer")

from goref._tools.charset import Converted, WrongCharset, codec_of, converted, readings  # noqa: E402

NAMES = {
    "big5": "許功蓋",
    "cp932": "表十能",
    "gb18030": "堅乗聂卫平",
    "euc_kr": "이창호",
    "euc_jp": "坂田栄男",
    "cp1252": "Müller",
    "koi8_r": "Иванов",
    "cp1251": "Иванов",
}
STATED = {"cp932": "Shift_JIS", "gb18030": "GB2312", "euc_kr": "EUC-KR", "cp1252": "ISO-8859-1", "cp1251": "windows-1251"}


def record(name, stated=None):
    return f"(;GM[1]SZ[9]KM[6.5]{f'CA[{stated}]' if stated else ''}PB[{name}];B[ee];W[cc])"


@pytest.mark.no_library
@pytest.mark.parametrize("data", [b"", b"(;B[aa])", b"(;CA[big5]B[aa])", bytes(range(128)), "(;PB[許功蓋])".encode()])
def test_ascii_and_utf8_are_passed_on(data):
    assert converted(data) == Converted(data, None, "", data)


@pytest.mark.parametrize("codec", NAMES)
def test_the_charset_that_the_record_names(codec):
    text = record(NAMES[codec], STATED.get(codec, codec))
    found = converted(text.encode(codec))
    assert found.utf8 == text.encode("utf-8")
    assert found.how == "CA"


@pytest.mark.no_library
@pytest.mark.parametrize("codec", NAMES)
def test_the_charset_that_is_asked_for(codec):
    text = record(NAMES[codec])
    found = converted(text.encode(codec), codec)
    assert (found.utf8, found.how) == (text.encode("utf-8"), "--charset")


@pytest.mark.parametrize(
    "stated, codec, text",
    [
        ("ISO-2022-JP", "iso2022_jp", "坂田栄男"),
        ("HZ-GB-2312", "hz", "常昊"),
        ("ISO-8859-1", "ascii", "~{ smile"),
        ("ISO-8859-1", "ascii", "\x1b[1m"),
    ],
)
def test_bytes_of_ascii_are_in_the_charset_that_the_record_names(stated, codec, text):
    """They are UTF-8 too, as all ASCII is, and that says nothing."""
    text = record(text.replace("[", "\\["), stated)
    data = text.encode(codec)
    found = converted(data)
    assert data.isascii() and (found.utf8, found.how, found.others) == (text.encode("utf-8"), "CA", ())
    assert list(readings(data, found)) == []


@pytest.mark.parametrize(
    "stated, codec, text",
    [("Big5", "cp950", "€"), ("Big5", "big5hkscs", "啲"), ("Shift_JIS", "cp932", "①"), ("GB2312", "gb18030", "喆"),
     ("EUC-KR", "cp949", "똠"), ("ISO-8859-1", "cp1252", "’")],
)
def test_a_name_may_mean_the_larger_charset_that_grew_out_of_it(stated, codec, text):
    assert text.encode(codec).decode(stated, "replace") != text
    text = record(text, stated)
    found = converted(text.encode(codec))
    assert (found.utf8, found.how) == (text.encode("utf-8"), "CA")


def test_the_name_may_stand_after_what_hides_it():
    text = "(;PB[許功蓋]CA[Big5];B[ee])"
    assert converted(text.encode("big5")).utf8 == text.encode("utf-8")


@pytest.mark.parametrize("stated", ["nonsense", "utf-16", "unicode_escape", "rot13", "base64", "x" * 60, ""])
def test_a_name_that_is_none_is_passed_over(stated):
    data = record("Иванов", stated).encode("utf-8")
    assert converted(data) == Converted(data, None, "", data)


@pytest.mark.no_library
def test_a_name_in_a_comment_is_none():
    text = "(;C[he wrote CA[big5\\]]PB[Иванов];B[aa])"
    assert converted(text.encode()).charset is None


@pytest.mark.no_library
def test_a_name_that_the_bytes_are_not_of():
    data = record("\U0001f600", "big5").encode("utf-8")
    assert converted(data) == Converted(data, None, "", data)


@pytest.mark.no_library
@pytest.mark.parametrize("codec", ["utf-8-sig", "utf-16", "utf-16-be", "utf-32"])
def test_a_byte_order_mark(codec):
    text = "(;PB[許功蓋];B[aa])"
    data = ("\ufeff" if codec == "utf-16-be" else "").join(["", text]).encode(codec)
    found = converted(data)
    if codec == "utf-8-sig":
        assert found == Converted(data, None, "byte-order mark", data)
    else:
        assert (found.utf8, found.how) == (text.encode("utf-8"), "byte-order mark")


@pytest.mark.no_library
def test_a_guess_is_told():
    found = converted(record("坂田栄男の碁の棋譜です").encode("cp932"))
    assert found.how == "guessed" and found.charset == "cp932"
    assert found.told() == "converted from cp932, guessed"
    assert converted(record("Müller").encode("cp1252")).how == "guessed"


def test_what_a_guess_leaves_open_has_other_readings():
    data = record("許功蓋").encode("big5")
    assert b"byte for byte" in [name.encode() for name, _ in readings(data, converted(data))]
    latin = record("André").encode("cp1252")
    assert [name for name, _ in readings(latin, converted(latin))] == ["byte for byte"]
    stated = record("許功蓋", "big5").encode("big5")
    assert list(readings(stated, converted(stated))) == []


@pytest.mark.no_library
@pytest.mark.parametrize(
    "codec, data, place", [("utf-8", b"(;C[\xff])", 4), ("big5", b"(;C[ab\xff\xff])", 6), ("ascii", b"\x80", 0)]
)
def test_bytes_of_another_charset_are_told(codec, data, place):
    with pytest.raises(WrongCharset, match=f"^not in {codec} at byte {place}$"):
        converted(data, codec)


@pytest.mark.no_library
@pytest.mark.parametrize("name", ["", "no", "rot13", "hex", "idna", "utf-7", "unicode_escape", "\0", "x" * 1000])
def test_what_is_no_charset(name):
    assert codec_of(name) is None


@pytest.mark.no_library
@pytest.mark.parametrize("codec", ["big5", "cp932", "gb18030", "euc_jp", "utf-16", "utf-16-le", "utf-32", "iso2022_jp", "cp1252"])
@pytest.mark.parametrize("length", [0, 1, 4094, 4095, 4096, 9000])
def test_places_are_those_of_the_file(codec, length):
    name = {"cp1252": "é", "big5": "功", "gb18030": "聂"}.get(codec, "表")
    before = name * length
    text = before + "(;B[aa]7    " + name
    data = text.encode(codec)
    found = converted(data, codec)
    place = found.place(len((before + "(;B[aa]").encode("utf-8")))
    # The place is right where the bytes before it are the text before, and the next one is the 7.
    assert data[:place].decode(codec) == before + "(;B[aa]"
    rest = data[place : place + 4].decode(codec if codec[:4] != "utf-" else f"{codec[:6]}-le", "ignore")
    assert rest.startswith("7")


@pytest.mark.parametrize(
    "first, second",
    [("ISO-8859-1", "Big5"), ("Big5", "GB2312"), ("KOI8-R", "UTF-8")],
)
def test_games_that_name_several_charsets_have_several_readings(first, second):
    names = {"ISO-8859-1": "Fernández", "Big5": "許功蓋", "GB2312": "常昊李昌镐", "KOI8-R": "Иванов", "UTF-8": "Иванов"}
    data = b"".join(record(names[one], one).encode(one) for one in (first, second))
    found = converted(data)
    assert found.how == "CA" and codec_of(second) in found.others
    assert f"in {codec_of(second)}" in [name for name, _ in readings(data, found)]


def test_utf8_that_names_another_charset_has_two_readings():
    data = record("Fernández", "ISO-8859-1").encode("utf-8")
    found = converted(data)
    assert found.charset == "cp1252" and found.others == ("utf-8",)
    assert [other.utf8 for _, other in readings(data, found)] == [data]


@pytest.mark.no_library
def test_a_common_guess_is_preferred():
    assert converted("(;PB[Müller]C[Très bien joué, déjà vu];B[aa])".encode("cp1252")).charset == "cp1252"


@pytest.mark.no_library
def test_a_second_byte_that_hides_an_end_is_no_latin_letter():
    data = b"(;PB[Li\xc1\x5c];B[aa];W[bb])"
    assert "in big5hkscs" in [name for name, _ in readings(data, converted(data))] or converted(data).charset == "big5"


@pytest.mark.no_library
def test_a_long_value_is_guessed_at_once():
    begun = time.process_time()
    assert converted(b"(;GM[1]C[" + b"a " * 1_000_000 + b"];B[aa]C[caf\xe9])").how == "guessed"
    assert time.process_time() - begun < 5


@pytest.mark.no_library
@pytest.mark.parametrize("before", ["", "x"])
def test_a_guess_may_end_within_a_character(before):
    text = "這是一個很好的棋局,黑棋下得很好" * 400
    assert converted(f"(;C[{before}{text}])".encode("big5")).charset == "big5"


@pytest.mark.no_library
@pytest.mark.parametrize(
    "codec, text, place",
    [
        ("gb18030", "\ufeff(;PB[黑棋];B[aa]x)", 4 + len("(;PB[];B[aa]") + 4),
        ("utf-16", "(;PB[黑棋];B[aa]x)", 2 + 2 * len("(;PB[黑棋];B[aa]")),
    ],
)
def test_a_mark_counts_among_the_bytes(codec, text, place):
    data = text.encode(codec)
    found = converted(data, codec)
    assert found.place(found.utf8.index(b"x")) == place


@pytest.mark.no_library
def test_the_end_is_that_of_the_file():
    data = "(;C[表".encode("iso2022_jp")
    found = converted(data, "iso2022_jp")
    assert found.place(len(found.utf8)) == len(data)


@pytest.mark.no_library
def test_places_are_found_in_any_order_and_soon():
    text = "(;PB[許功蓋];B[aa]!)" * 20_000
    found = converted(text.encode("big5"), "big5")
    one = len("(;PB[];B[aa]!)")
    begun = time.monotonic()
    places = [found.place(number * (one + 9) + len("(;PB[];B[aa]") + 9) for number in range(20_000)]
    assert places == [number * (one + 6) + len("(;PB[];B[aa]") + 6 for number in range(20_000)]
    assert time.monotonic() - begun < 10
    assert found.place(1) == 1
